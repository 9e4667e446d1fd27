#!/usr/bin/env python3
"""Films that are made to cost as much as they can, of one size each.

    tools/hostile_films.py FOLDER [BYTES]    writes them into a folder that is there, and prints a line for each: its name,
                                             and the status with which `info` must end on it
"""
import struct
import sys

import films

PREFIX = b"OggS\0"


def table_of(bits):
    register = bits << 24
    for _ in range(8):
        register = ((register << 1) ^ (0x04C11DB7 if register >> 31 else 0)) & 0xFFFFFFFF
    return register


TABLE = [table_of(bits) for bits in range(256)]


def checksum(page):
    register = 0
    for byte in page:
        register = (register << 8 & 0xFFFFFFFF) ^ TABLE[register >> 24 ^ byte]
    return register


def page(flags, sequence, laces=b"", body=b"", granule=films.NONE, serial=1):
    """A right page of these lacing values."""
    head = PREFIX + bytes([flags]) + struct.pack("<Q", granule) + struct.pack("<II", serial, sequence)
    behind = bytes([len(laces)]) + laces + body
    return head + struct.pack("<I", checksum(head + bytes(4) + behind)) + behind


def again(pattern, size):
    """So many bytes of a pattern, again and again."""
    return (pattern * (size // len(pattern) + 1))[:size]


def behind_headers(rest, size):
    """The headers of a film of one link, and bytes behind them."""
    return (films.heads() + rest)[:size]


# A header of 27 bytes that claims 255 segments. Those behind it are its lacing values, 22 of 27 of them 255.
FALSE_HEADER = PREFIX + 22 * b"\xff"
# The least page there is.
LEAST_PAGE = page(0, 2)
# A page of all the bytes that a page can have, all 0 but for its front.
LARGEST_PAGE = page(0, 2, 255 * b"\xff", bytes(255 * 255))


def numbered(size):
    """Pages without segments, in the order of their numbers."""
    return b"".join(page(0, number) for number in range(2, 2 + size // 27))


def most_packets(pattern, size):
    """Pages of 255 packets without bytes, each behind a loss: 2^22 entries but for a few. A pattern follows."""
    return behind_headers(again(page(0, 2, 255 * b"\0"), 16_383 * 282) + again(pattern, size), size)


def films_of(size):
    """Each film's name, its bytes, and the status of `info`."""
    yield "false headers", again(FALSE_HEADER, size), 5
    yield "false headers, the least page behind each", again(FALSE_HEADER + LEAST_PAGE, size), 5
    yield "the same in a link", behind_headers(again(FALSE_HEADER + LEAST_PAGE, size), size), 0
    yield "nine false headers, the least page behind them", again(9 * FALSE_HEADER + LEAST_PAGE, size), 5
    yield "a false header behind each page of 4 kB", again(page(0, 2, 16 * b"\xff", bytes(16 * 255)) + FALSE_HEADER, size), 5
    yield "capture bytes and a 0", again(PREFIX, size), 5
    yield "capture bytes, a 0 and two bytes 255", again(PREFIX + b"\xff\xff", size), 5
    yield "capture bytes, a 0 and four bytes 255", again(PREFIX + 4 * b"\xff", size), 5
    yield "headers with their lacing values", again(films.MANY["FALSE_HEADER"], size), 5
    yield "capture bytes alone", again(b"OggS", size), 5
    yield "zeros", bytes(size), 5
    yield "pages without segments", behind_headers(numbered(size), size), 0
    yield "pages without segments, all of one number", behind_headers(again(LEAST_PAGE, size), size), 0
    yield "pages of one empty packet, all of one number", behind_headers(again(page(0, 2, b"\0"), size), size), 0
    yield "the largest pages", again(LARGEST_PAGE, size), 5
    yield "the largest pages, one bit of each wrong", again(LARGEST_PAGE[:-1] + b"\1", size), 5
    yield "packets without bytes, as many as a film may have, and zeros", most_packets(b"\0", size), 0
    yield "as many packets, and capture bytes and a 0", most_packets(PREFIX, size), 0


if __name__ == "__main__":
    if len(sys.argv) not in (2, 3):
        sys.exit(__doc__)
    folder, size = sys.argv[1], int(sys.argv[2]) if len(sys.argv) == 3 else 2**24
    for name, film, status in films_of(size):
        with open(f"{folder}/{name}", "wb") as out:
            out.write(film)
        print(f"{status} {name}")
