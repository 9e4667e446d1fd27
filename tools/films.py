#!/usr/bin/env python3
"""The films of the tests, built page by page (RFC 3533, section 6).

    tools/films.py rust NAME..      these films, whole: film_blocks' src/tests/films.rt has those that its first line names
    tools/films.py common           the films that several test crates use: test_common's src/films.rt
    tools/films.py runs             the others of test_player, and those: its file src/runs/films.rt
    tools/films.py plays            the others of test_play, and those: its file src/films.rt
    tools/films.py antt NAME..      the bytes of films as a list for an example
    tools/films.py file NAME PATH   one film as a file
"""
import struct
import sys


def checksum(page):
    r = 0
    for b in page:
        r ^= b << 24
        for _ in range(8):
            r = ((r << 1) ^ (0x04C11DB7 if r >> 31 else 0)) & 0xFFFFFFFF
    return r


def laced(packets, open_end=False):
    """Lacing values and body of whole packets; with open_end the last one goes on after this page."""
    laces, body = [], b""
    for i, p in enumerate(packets):
        full, rest = divmod(len(p), 255)
        laces += [255] * full
        if not (open_end and i == len(packets) - 1):
            laces.append(rest)
        body += p
    return laces, body


def page(flags, sequence, packets, granule=0, serial=1, open_end=False, version=0, wrong_sum=False):
    laces, body = laced(packets, open_end)
    assert len(laces) < 256 and sum(laces) == len(body)
    head = b"OggS" + bytes([version, flags]) + struct.pack("<Q", granule) + struct.pack("<II", serial, sequence)
    raw = bytearray(head + bytes(4) + bytes([len(laces)]) + bytes(laces) + body)
    raw[22:26] = struct.pack("<I", checksum(raw) ^ (1 if wrong_sum else 0))
    return bytes(raw)


NONE = 2**64 - 1
CONTINUED, FIRST, LAST = 1, 2, 4

S = bytes.fromhex("020000")
Q = b"\0"


def ident(channels=1, rate=8000, sizes=b"\x66"):
    """Sizes is the byte of the exponents of both block sizes."""
    return b"\x01vorbis" + bytes(4) + bytes([channels]) + struct.pack("<I", rate) + bytes(12) + sizes + b"\x01"


COMMENT = b"\x03vorbis" + bytes(8) + b"\x01"
SETUP = bytes.fromhex(
    "05766f72626973004243560100010000"
    "80080000120300000000000000200000"
    "504000000000400000000000000010"
) + bytes(13) + b"\x02"
assert len(ident()) == 30 and len(COMMENT) == 16 and len(SETUP) == 61


def bits_of(packet):
    """The bits of a packet in their order, written as 0 and 1."""
    return "".join(f"{b:08b}"[::-1] for b in packet)


def packet_of(bits):
    """The packet of these bits, with zeros behind them up to a whole byte."""
    whole = bits + "0" * (-len(bits) % 8)
    return bytes(int(whole[i : i + 8][::-1], 2) for i in range(0, len(whole), 8))


# The setup ends with its modes, from bit 434 on: their count less one, of 6 bits, 41 bits for each, and the framing bit.
MODES_PLACE = 434
THREE_MODES = packet_of(bits_of(SETUP)[:MODES_PLACE] + "010000" + 3 * 41 * "0" + "1")
# Its first floor's type stands in 16 bits from bit 237 on, behind a count of 6 bits.
FLOOR_TYPE_PLACE = 237
FLOOR_ZERO = packet_of(bits_of(SETUP)[:FLOOR_TYPE_PLACE] + 16 * "0" + bits_of(SETUP)[FLOOR_TYPE_PLACE + 16 :])
# A book of 2^24 - 1 entries, and nothing behind its count.
BOOK_LIMIT = b"\x05vorbis\0" + b"BCV" + b"\1\0" + b"\xff\xff\xff"
# A book of one dimension and two entries, ordered, and its lengths: three entries of length 3; one of length 1, and then
# others of a length that passes 32.
BOOK_OF_TWO = b"\x05vorbis\0" + b"BCV" + b"\1\0" + b"\2\0\0"
TREE_RUN = BOOK_OF_TWO + b"\xc1"
TREE_LENGTH = BOOK_OF_TWO + b"\x3f\0"


def heads(serial=1, rate=8000):
    return page(FIRST, 0, [ident(rate=rate)], serial=serial) + page(0, 1, [COMMENT, SETUP], serial=serial)


def base(*packets, granule=32, serial=1, rate=8000):
    return heads(serial, rate) + page(LAST, 2, packets, granule=granule, serial=serial)


F = base(S, S)
WRONG_COMMENT = COMMENT[:-1] + b"\0"
LONG = bytes(255)
MODES_S = bytes.fromhex("080000")


def changed(page):
    """The page with one bit of its last byte changed."""
    return page[:-1] + bytes([page[-1] ^ 1])


# The parts of the films: pages, and what stands between them.
PARTS = {
    "IDENT": page(FIRST, 0, [ident()]),
    "SETUP": page(0, 1, [COMMENT, SETUP]),
    "TWO_LAST": page(LAST, 2, [S, S], granule=32),
    "WITH_EMPTY": page(LAST, 2, [S, b"", S], granule=32),
    "TWO_SECOND": page(0, 2, [S, S], granule=32),
    "TWO_FOURTH": page(LAST, 4, [S, S], granule=96),
    "TWO_CHANGED": changed(page(LAST, 2, [S, S], granule=32)),
    "THREE_LAST": page(LAST, 2, [Q, Q, Q], granule=64),
    "SECOND_IDENT": page(FIRST, 0, [ident(rate=16000)], serial=2),
    "SECOND_SETUP": page(0, 1, [COMMENT, SETUP], serial=2),
    "SECOND_LAST": page(LAST, 2, [Q, Q, Q], granule=64, serial=2),
    "OPUS": page(FIRST, 0, [b"OpusHead"]),
    "FALSE_BEGINNING": b"xOggS",
    "FALSE_VERSION": b"OggS\0",
    "CUT_BEGINNING": b"Ogg",
    "ZEROS": LONG,
    "LONG_BEGINS": page(0, 2, [LONG], granule=NONE, open_end=True)[:-255],
    "LONG_GOES_ON": page(CONTINUED, 3, [LONG], granule=NONE, open_end=True)[:-255],
    "LONG_ENDS": page(CONTINUED | LAST, 4, [bytes(3)], granule=32),
    "NOTHING_GOES_ON": page(CONTINUED, 3, [], granule=NONE),
    "ORPHAN": page(CONTINUED, 2, [S, S, S], granule=32),
    "ONE_LAST": page(LAST, 3, [S], granule=64),
    "NINE_IDENT": page(FIRST, 0, [ident(channels=9)]),
    "WRONG_SETUP": page(0, 1, [WRONG_COMMENT, SETUP]),
    "VERSION_IDENT": page(FIRST, 0, [b"\x01vorbis\1" + ident()[8:]]),
    "OPUS_FIFTH": page(FIRST, 0, [b"OpusHead"], serial=5),
    "STEREO_IDENT": page(FIRST, 0, [ident(channels=2)]),
    "OPUS_TAGS": page(0, 1, [b"OpusTags"], serial=5),
    "WRAP_IDENT": page(FIRST, 2**32 - 2, [ident()]),
    "WRAP_SETUP": page(0, 2**32 - 1, [COMMENT, SETUP]),
    "WRAP_LAST": page(LAST, 0, [S, S], granule=32),
    "CUT_LAST": page(LAST, 2, [S, S, S], granule=40),
    "LATE_THIRD": page(0, 2, [S, S, S], granule=20),
    "LATE_LAST": page(LAST, 3, [S], granule=52),
    "MODES_SETUP": page(0, 1, [COMMENT, THREE_MODES]),
    "MODES_LAST": page(LAST, 2, [MODES_S, MODES_S, b"\6", MODES_S, MODES_S], granule=64),
    "FLOOR_SETUP": page(0, 1, [COMMENT, FLOOR_ZERO]),
    "BOOK_SETUP": page(0, 1, [COMMENT, BOOK_LIMIT]),
    "WRONG_BOTH": page(0, 1, [WRONG_COMMENT, FLOOR_ZERO]),
    "IDENT_HEADER": page(FIRST, 0, [ident()])[:27],
    "TWO_CUT": page(LAST, 2, [S, S], granule=32)[:-1],
    "FAR_LAST": page(LAST, 2, [S, S], granule=1000),
    "UNMARKED_LAST": page(LAST, 2, [S, S], granule=NONE),
    "NOTHING_LAST": page(LAST, 2, [S, S], granule=0),
    "EMPTY_LAST": page(LAST, 2, 255 * [b""]),
    "RUN_SETUP": page(0, 1, [COMMENT, TREE_RUN]),
    "LENGTH_SETUP": page(0, 1, [COMMENT, TREE_LENGTH]),
}

# Parts of the film of blocks. Under a setup of three modes the sound of a packet begins two bits later; one such packet
# goes on over two pages, with zeros that nothing reads.
LONG_SOUND = MODES_S + bytes(300)
BLOCK_PARTS = {
    "SOUND_AND_SKIP": page(LAST, 2, [S, b"\1", Q, S], granule=64),
    "SECOND_MODES": page(0, 1, [COMMENT, THREE_MODES], serial=2),
    "SOUND_BEGINS": page(0, 2, [b"\6", LONG_SOUND[:255]], granule=NONE, serial=2, open_end=True),
    "SOUND_ENDS": page(CONTINUED | LAST, 3, [LONG_SOUND[255:], Q], granule=32, serial=2),
}

# Parts of films that scripts are played over: a sound whose packet ends in its floor, one behind which it is silent, and
# four blocks. Then those of second links: silence; a packet that sounds in both channels of two; and a link whose short
# blocks have 128 values, and its long ones 256.
T = bytes.fromhex("0200040000")
PLAY_PARTS = {
    "FLOOR_ENDS": page(LAST, 2, [S, S[:2]], granule=32),
    "SOUND_ENDS_FIRST": page(LAST, 2, [S, Q], granule=32),
    "FOUR_LAST": page(LAST, 2, [S, S, S, S], granule=96),
    "SECOND_SILENT": page(LAST, 2, [Q, Q], granule=32, serial=2),
    "BOTH_LAST": page(LAST, 2, [T, T], granule=32),
    "SECOND_STEREO": page(FIRST, 0, [ident(channels=2)], serial=2),
    "SECOND_BOTH": page(LAST, 2, [T, T], granule=32, serial=2),
    "LARGE_IDENT": page(FIRST, 0, [ident(sizes=b"\x87")], serial=2),
    "LARGE_LAST": page(LAST, 2, [S, S, Q], granule=128, serial=2),
}

# For films with many of them: pages of packets without bytes, 255 on a page, 252 and 253; and a header, with its lacing
# values, of a page that would have all the bytes that a page can have.
MANY = {
    "FULL_PAGE": page(0, 5, 255 * [b""], granule=NONE),
    "FULL_TO_THE_MOST": page(0, 7, 252 * [b""], granule=NONE),
    "FULL_AND_ONE_MORE": page(0, 7, 253 * [b""], granule=NONE),
    "FALSE_HEADER": b"OggS" + bytes(22) + b"\xff" + 255 * b"\xff",
}

# The films of the tests: what each is, and its parts.
FILMS = {
    "BASE": ("Three pages: the identification; the comment and the setup; two audio packets.",
             "IDENT SETUP TWO_LAST"),
    "EMPTY_PACKET": ("The same with an empty packet between the two.", "IDENT SETUP WITH_EMPTY"),
    "PAGE_MISSING": ("Two audio pages, with a page missing between them.",
                     "IDENT SETUP TWO_SECOND TWO_FOURTH"),
    "BODY_CHANGED": ("The base film with one bit of its third page's body changed.",
                     "IDENT SETUP TWO_CHANGED"),
    "CHAIN": ("Two films, one after the other, of the rates 8000 and 16000.",
              "IDENT SETUP THREE_LAST SECOND_IDENT SECOND_SETUP SECOND_LAST"),
    "NO_VORBIS": ("One first page of another codec.", "OPUS"),
    "GARBAGE_BETWEEN": ("The base film between and behind other bytes, some of which begin like pages.",
                        "FALSE_BEGINNING IDENT SETUP FALSE_VERSION TWO_LAST CUT_BEGINNING"),
    "THIRD_PAGE_AGAIN": ("The base film followed by its third page again.",
                         "IDENT SETUP TWO_LAST TWO_LAST"),
    "SECOND_PAGE_TWICE": ("The base film with its second page twice.", "IDENT SETUP SETUP TWO_LAST"),
    "THREE_PAGE_PACKET": ("A packet over three pages, in full segments but the last.",
                          "IDENT SETUP LONG_BEGINS ZEROS LONG_GOES_ON ZEROS LONG_ENDS"),
    "CONTINUES_NOTHING": ("A page that goes on with a packet where none is open.",
                          "IDENT SETUP ORPHAN ONE_LAST"),
    "EMPTY_PAGE": ("A packet over two pages, with a page without segments between them.",
                   "IDENT SETUP LONG_BEGINS ZEROS NOTHING_GOES_ON LONG_ENDS"),
    "NO_SECOND_PAGE": ("The base film without its second page.", "IDENT TWO_LAST"),
    "FIRST_PAGE_ALONE": ("Its first page alone.", "IDENT"),
    "PAGES_EXCHANGED": ("Its first two pages exchanged.", "SETUP IDENT TWO_LAST"),
    "NINE_CHANNELS": ("Nine channels.", "NINE_IDENT SETUP TWO_LAST"),
    "NINE_CHANNELS_AND_COMMENT": ("Nine channels, and a comment without its framing bit.",
                                  "NINE_IDENT WRONG_SETUP TWO_LAST"),
    "WRONG_COMMENT": ("A comment without its framing bit.", "IDENT WRONG_SETUP TWO_LAST"),
    "WRONG_VERSION": ("An identification of version 1.", "VERSION_IDENT SETUP TWO_LAST"),
    "TWO_STREAMS": ("Another codec's stream, multiplexed with a Vorbis stream of two channels.",
                    "OPUS_FIFTH STEREO_IDENT OPUS_TAGS SETUP TWO_LAST"),
    "NUMBERS_WRAP": ("Pages numbered 2^32 - 2, 2^32 - 1 and 0.", "WRAP_IDENT WRAP_SETUP WRAP_LAST"),
    "CUT_AT_THE_END": ("Three audio packets on a last page that says fewer frames than they give.",
                       "IDENT SETUP CUT_LAST"),
    "BEGINS_LATE": ("A first audio page that says fewer frames than its packets give.",
                    "IDENT SETUP LATE_THIRD LATE_LAST"),
    "NO_SUCH_MODE": ("A setup of three modes, and a packet that names a fourth between four others.",
                     "IDENT MODES_SETUP MODES_LAST"),
    "FLOOR_OF_TYPE_0": ("A setup whose floor is of type 0.", "IDENT FLOOR_SETUP TWO_LAST"),
    "BOOK_TOO_LARGE": ("A setup with a book of 2^24 - 1 entries.", "IDENT BOOK_SETUP TWO_LAST"),
    "WRONG_COMMENT_AND_SETUP": ("A comment without its framing bit, and a setup whose floor is of type 0.",
                                "IDENT WRONG_BOTH TWO_LAST"),
    "HEADER_BEHIND": ("The base film followed by the header of its first page.",
                      "IDENT SETUP TWO_LAST IDENT_HEADER"),
    "LAST_BYTE_MISSING": ("The base film without its last byte.", "IDENT SETUP TWO_CUT"),
    "FAR_GRANULE": ("Its last page says more frames than its packets give.", "IDENT SETUP FAR_LAST"),
    "NO_GRANULE": ("Its last page says no number of frames.", "IDENT SETUP UNMARKED_LAST"),
    "GRANULE_0": ("Its last page says that it has no frames.", "IDENT SETUP NOTHING_LAST"),
    "EMPTY_PACKETS": ("A last page of 255 packets without bytes.", "IDENT SETUP EMPTY_LAST"),
    "RUN_PAST_THE_END": ("A setup with a book of two entries whose first run has three.", "IDENT RUN_SETUP TWO_LAST"),
    "LENGTH_OF_33": ("A setup with a book of two entries, the second of which would have length 33.",
                     "IDENT LENGTH_SETUP TWO_LAST"),
}

# Films of film_blocks alone.
BLOCK_FILMS = {
    "TWO_SETUPS": ("Two links: a block, a packet that is skipped, two blocks; a bad packet, two blocks.",
                   "IDENT SETUP SOUND_AND_SKIP SECOND_IDENT SECOND_MODES SOUND_BEGINS SOUND_ENDS"),
}

# Films of test_play alone.
PLAY_FILMS = {
    "SILENT": ("Three audio packets, all silent.", "IDENT SETUP THREE_LAST"),
    "FLOOR_CUT_SHORT": ("Two audio packets, of which the second ends in its floor.", "IDENT SETUP FLOOR_ENDS"),
    "SILENT_AT_THE_END": ("Two audio packets, of which the second is silent.", "IDENT SETUP SOUND_ENDS_FIRST"),
    "FOUR_BLOCKS": ("Four audio packets.", "IDENT SETUP FOUR_LAST"),
    "SOUND_AND_SILENCE": ("Two links: two blocks that sound, and two that are silent.",
                          "IDENT SETUP TWO_LAST SECOND_IDENT SECOND_SETUP SECOND_SILENT"),
    "ONTO_STEREO": ("Two links that sound: of one channel, and of two.",
                    "IDENT SETUP TWO_LAST SECOND_STEREO SECOND_SETUP SECOND_BOTH"),
    "FROM_STEREO": ("Two links: one of two channels that sounds, and a silent one of one channel.",
                    "STEREO_IDENT SETUP BOTH_LAST SECOND_IDENT SECOND_SETUP SECOND_SILENT"),
    "LARGER_BLOCKS": ("Two links: two blocks of 64 values that sound, and three of 128, of which the last is silent.",
                      "IDENT SETUP TWO_LAST LARGE_IDENT SECOND_SETUP LARGE_LAST"),
}

# Small films for examples by computation.
SMALL = {
    "SHORT": page(FIRST, 7, [b"a"]),
    "SHORT_WRONG_SUM": page(FIRST, 7, [b"a"], wrong_sum=True),
    "SHORT_BETWEEN": b"Og" + page(FIRST, 7, [b"a"]) + b"gS" + page(LAST, 8, [b"b", b""], granule=5) + b"O",
}


ALL_PARTS = PARTS | BLOCK_PARTS | PLAY_PARTS
ALL_FILMS = FILMS | BLOCK_FILMS | PLAY_FILMS


def film(name):
    if name in SMALL:
        return SMALL[name]
    return b"".join(ALL_PARTS[part] for part in ALL_FILMS[name][1].split())


def rows(head, items, columns, end):
    """A list of items, on one line where that fits, else some of them on each."""
    whole = head + "[" + ", ".join(items) + "]" + end
    if len(whole) <= 100:
        return [whole]
    lines = [head + "["]
    for i in range(0, len(items), columns):
        lines.append("    " + " ".join(item + "," for item in items[i : i + columns]))
    return lines + ["]" + end]


# The films that several test crates use, by test_common.
COMMON = ["BASE", "EMPTY_PACKET", "PAGE_MISSING", "BODY_CHANGED", "CHAIN", "CUT_AT_THE_END", "BEGINS_LATE", "NO_SUCH_MODE",
          "NO_VORBIS", "FLOOR_OF_TYPE_0", "BOOK_TOO_LARGE"]
# Parts that other films use as well.
HEADS = {
    "IDENT": "The page of an identification: one channel, 8000 frames a second, blocks of 64.",
    "SETUP": "The page of a comment and of a setup.",
    "TWO_LAST": "The last page of two audio packets.",
    "THREE_LAST": "The last page of three audio packets, all silent.",
    "SECOND_IDENT": "The page of an identification of a second link: 16000 frames a second.",
    "SECOND_SETUP": "The page of its comment and of its setup.",
}


def parts_of(names):
    """The parts of films, each once, in the order of the table."""
    used = {part for name in names for part in ALL_FILMS[name][1].split()}
    return [name for name in ALL_PARTS if name in used]


def imports(head, names):
    """A line that brings names in, or several."""
    whole = f"{head}::{{{', '.join(names)}}};"
    if len(whole) <= 100:
        return [whole]
    lines, line = [head + "::{"], "   "
    for name in names:
        if len(line) + len(name) + 2 > 100:
            lines.append(line)
            line = "   "
        line += f" {name},"
    return lines + [line, "};"]


def rust(names, command, parts, public=(), given=()):
    """A test file of films, as it stands: their parts, of which some are public, the films, and what other files give."""
    lines = ["//! The films of the tests, as lists of their parts. This file is written by", f"//! `{command}`."]
    if given:
        heads = sorted(set(parts_of(names)) & set(HEADS))
        lines += ["", *imports("pub use test_common::films", sorted(given)), *imports("use test_common::films", heads)]
    for name in parts:
        part = (ALL_PARTS | MANY)[name]
        lines += ["", f"/// {HEADS[name]}"] if name in public and name in HEADS else [""]
        kind = "pub const" if name in public else "const"
        if part == LONG:
            lines.append(f"{kind} {name}: [u8; {len(part)}] = [0; {len(part)}];")
        else:
            lines += rows(f"{kind} {name}: [u8; {len(part)}] = ", [f"0x{b:02x}" for b in part], 16, ";")
    for name in names:
        text, parts = ALL_FILMS[name]
        items = ["&" + part for part in parts.split()]
        lines += ["", f"/// {text}"]
        lines += rows(f"pub const {name}: [&[u8]; {len(items)}] = ", items, 1, ";")
    print("\n".join(lines))


def antt(names):
    for name in names:
        print(f"-- {name}\n" + " ∷ ".join(str(b) for b in film(name)) + " ∷ []")


def test_file(command):
    """The file of a test crate, or of what they share."""
    if command == "common":
        rust(COMMON, "tools/films.py common", parts_of(COMMON), public=list(HEADS))
    elif command == "runs":
        own = [name for name in FILMS if name not in COMMON]
        parts = [name for name in parts_of(own) if name not in parts_of(COMMON)]
        rust(own, "tools/films.py runs", [*parts, *MANY], public=list(MANY), given=COMMON)
    else:
        parts = [name for name in parts_of(PLAY_FILMS) if name not in parts_of(COMMON)]
        rust(PLAY_FILMS, "tools/films.py plays", parts, given=COMMON)


if __name__ == "__main__":
    if sys.argv[1:2] == ["rust"] and sys.argv[2:]:
        rust(sys.argv[2:], " ".join(["tools/films.py rust", *sys.argv[2:]]), parts_of(sys.argv[2:]))
    elif sys.argv[1:] in (["common"], ["runs"], ["plays"]):
        test_file(sys.argv[1])
    elif sys.argv[1:2] == ["antt"]:
        antt(sys.argv[2:])
    elif sys.argv[1:2] == ["file"] and len(sys.argv) == 4:
        with open(sys.argv[3], "wb") as out:
            out.write(film(sys.argv[2]))
    else:
        sys.exit(__doc__)
