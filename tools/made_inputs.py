#!/usr/bin/env python3
"""The made inputs of a number, worked out again: what `player trial` plays, as files for `info`, `dump` and `play`.

    tools/made_inputs.py NUMBER FOLDER      writes `constants`, `film.ogg` and `script` to the folder
    tools/made_inputs.py sum FILE           says how many bytes a report has, and their sum, as `trial` tells them

It shares nothing with the crates: the generator, the setup packet and the constants are its own, and pages come from
tools/films.py.
"""
import os
import struct
import sys

from films import COMMENT, FIRST, LAST, page
from reference import Writer, ilog

WORD, STATE = (1 << 32) - 1, (1 << 64) - 1
MULTIPLIER = 6364136223846793005


def turned(word, turns):
    """A word of 32 bits, turned to the right."""
    return (word >> turns | word << (-turns & 31)) & WORD


def output(state):
    """The word of a state of PCG32: its high bits, shifted by themselves and turned by the topmost five (XSH RR)."""
    return turned((state >> 18 ^ state) >> 27 & WORD, state >> 59)


class Draws:
    """PCG32 by words, whose seed is made of a number as `seed_from_u64` of rand_core makes it: by the words of another
    PCG32, which begins at the number and has a fixed increment, each taken behind the step."""

    def __init__(self, number):
        seed = []
        for _ in range(4):
            number = (number * MULTIPLIER + 11634580027462260723) & STATE
            seed.append(output(number))
        state, self.increment = seed[0] | seed[1] << 32, seed[2] | seed[3] << 32 | 1
        self.state = state + self.increment & STATE
        self.step()

    def step(self):
        self.state = (self.state * MULTIPLIER + self.increment) & STATE

    def draw(self, bound):
        """The next number below a bound; the word is taken before the step."""
        word = output(self.state)
        self.step()
        return word % bound


# ---- constants

def constants():
    numbers = [1 << height // 12 + 9 for height in range(256)]
    for size in (32 << k for k in range(8)):
        numbers += [(1 << 23) * (2 * i + 1) // (2 * size) for i in range(size)]
    numbers += [(1 << 23) - step * step // 8 for step in range(8192)]
    return b'VFCONST1' + struct.pack(f'<{len(numbers)}I', *numbers)


# ---- the setup (Vorbis I, sections 3.2.1, 4.2.4, 7.2.2 and 8.6.1), as (number, width) fields

def book(dimensions, lengths, lookup=()):
    fields = [(0x564342, 24), (dimensions, 16), (len(lengths), 24), (0, 1), (0, 1)]
    fields += [(length - 1, 5) for length in lengths]
    if not lookup:
        return fields + [(0, 4)]
    kind, minimum, delta, multiplicands = lookup
    return fields + [(kind, 4), (minimum, 32), (delta, 32), (15, 4), (0, 1), *((m, 16) for m in multiplicands)]


BOOKS = [
    book(1, [3] * 8),
    book(2, [4] * 16),
    book(2, [4] * 16, (1, 0xE2600003, 0x62800001, [0, 1, 2, 3])),
    book(1, [1, 2, 3, 3], (2, 0xE2400001, 0x62400001, [0, 1, 2, 2])),
]

# two partitions of a class of three points with book 0, of which 0 is none
FLOOR = [(1, 16), (2, 5), (0, 4), (0, 4), (3 - 1, 3), (0, 2), (0 + 1, 8), (2 - 1, 2), (7, 4),
         *((x, 7) for x in (8, 16, 32, 48, 64, 96))]

# the books of the classes' passes
CASCADES = [[], [2], [2, 3], [2, 3, 3]]


def residue(channels):
    fields = [(2, 16), (0, 24), (128 * channels, 24), (8 - 1, 24), (len(CASCADES) - 1, 6), (1, 8)]
    for books in CASCADES:
        fields += [((1 << len(books)) - 1, 3), (0, 1)]
    return fields + [(number, 8) for books in CASCADES for number in books]


def mapping(channels):
    fields = [(0, 16), (0, 1)]
    if channels == 2:
        fields += [(1, 1), (1 - 1, 8), (0, ilog(1)), (1, ilog(1))]
    else:
        fields += [(0, 1)]
    return fields + [(0, 2), (0, 8), (0, 8), (0, 8)]


def mode(long):
    return [(long, 1), (0, 16), (0, 16), (0, 8)]


def setup(channels):
    out = Writer()
    parts = [(8, BOOKS), (6, [[(0, 16)]]), (6, [FLOOR]), (6, [residue(channels)]), (6, [mapping(channels)]),
             (6, [mode(0), mode(1)])]
    for byte in b'\x05vorbis':
        out.put(byte, 8)
    for width, items in parts:
        out.put(len(items) - 1, width)
        for item in items:
            for number, bits in item:
                out.put(number, bits)
    out.put(1, 1)
    return bytes(out.bytes())


# ---- the film

SIZES = 64, 256
PACKETS, ON_PAGE = 1300, 10
# channels, rate, serial, the audio page before which one is missing, and the frames that are cut from the end
LINKS = [(2, 44100, 100, None, 0), (1, 22050, 101, 19, 0), (2, 48000, 102, None, 7)]


def ident(channels, rate):
    return b'\x01vorbis' + bytes(4) + bytes([channels]) + struct.pack('<I', rate) + bytes(12) + b'\x86\x01'


def headed(before, mode, after, body):
    """A packet whose first byte says its mode, and for a long block which of its neighbours are long (section 4.3.1)."""
    first = body[0] & ~3 | mode << 1
    if mode:
        first = first & ~12 | before << 2 | after << 3
    return bytes([first]) + body[1:]


def link_pages(link, draws):
    channels, rate, serial, lost_before, cut = link
    modes = [draws.draw(2) for _ in range(PACKETS)]
    bodies = []
    for _ in range(PACKETS):
        size = 4 + draws.draw(60)
        bodies.append(bytes(draws.draw(256) for _ in range(size)))
    around = [1, *modes, 1]
    packets = [headed(around[i], modes[i], around[i + 2], body) for i, body in enumerate(bodies)]
    yield page(FIRST, 0, [ident(channels, rate)], 0, serial)
    yield page(0, 1, [COMMENT, setup(channels)], 0, serial)
    frames = 0
    for number in range(PACKETS // ON_PAGE):
        here = range(ON_PAGE * number, ON_PAGE * (number + 1))
        frames += sum((SIZES[modes[i - 1]] + SIZES[modes[i]]) // 4 for i in here if i)
        last = here.stop == PACKETS
        sequence = 2 + number + (lost_before is not None and number >= lost_before)
        yield page(LAST if last else 0, sequence, [packets[i] for i in here], frames - (cut if last else 0), serial)


def made_film(number):
    draws = Draws(number)
    return b''.join(one for link in LINKS for one in link_pages(link, draws))


# ---- the script

LANES, COMMANDS = 4, 40


def command(draws):
    kind = draws.draw(8)
    if kind == 6:
        return 'cross 0 1'
    cursor = draws.draw(2)
    if kind < 4:
        return f'read {cursor} {1 + draws.draw(2000)}'
    if kind < 6:
        return f'{"seek" if kind == 4 else "lap"} {cursor} {draws.draw(400000)}'
    return f'tell {cursor}'


def made_script(number):
    draws = Draws(number + 1 & STATE)
    lines = []
    for _ in range(LANES):
        lines += ['lane', 'open 0', 'open 1', *(command(draws) for _ in range(COMMANDS))]
    return ''.join(f'{line}\n' for line in lines).encode()


# ---- what is told of a report

def report_sum(report):
    s = 0
    for byte in report:
        s = 257 * s + byte + 1 & STATE
    return s


def main(words):
    if len(words) != 2:
        sys.exit(__doc__)
    if words[0] == 'sum':
        with open(words[1], 'rb') as file:
            report = file.read()
        print(f'report {len(report)} sum {report_sum(report)}')
        return
    number = int(words[0])
    assert 0 <= number <= STATE
    os.makedirs(words[1], exist_ok=True)
    for name, data in (('constants', constants()), ('film.ogg', made_film(number)), ('script', made_script(number))):
        with open(os.path.join(words[1], name), 'wb') as file:
            file.write(data)


if __name__ == '__main__':
    main(sys.argv[1:])
