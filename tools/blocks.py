#!/usr/bin/env python3
"""Blocks of single packets in whole numbers, for the table of the tests of block_decoding.

    tools/blocks.py     prints crates/block_decoding/src/tests/rows.rt

The parts of a packet are read by tools/decode.py and tools/reference.py; what is made of them follows Vorbis I from
section 4.3.3 on, each sum in plain form, and shares nothing with the crates.
"""
import random
import textwrap

from decode import Setup, uncoupled
from films import SETUP
from reference import Bits, Writer, ilog
from setups import book, floor, mapping, mode, packet, residue, rust_packet, written

SHORT, LONG = 64, 256
ONE_DECIBEL, ONE = 1 << 30, 1 << 23
SLOPE_SIZES = [32 << k for k in range(8)]


class Constants:
    """Tables whose numbers begin at 1, or for slopes at another number, and fall by a step from each to the next;
    decibel values fall by a thousand times as much."""

    def __init__(self, slope, step):
        self.slope_start, self.step = slope, step

    def decibel(self, level):
        return ONE_DECIBEL - 1000 * self.step * level

    def slope(self, size, place):
        return self.slope_start - self.step * (sum(n for n in SLOPE_SIZES if n < size) + place)

    def cosine(self, size, step):
        """The cosine of so many steps of a turn of 4 * size."""
        step %= 4 * size
        sign, step = (-1, abs(2 * size - step)) if size < step < 3 * size else (1, min(step, 4 * size - step))
        return sign * (ONE - self.step * (step * 8192 // size))


def spectra(setup, bits, mapping_number, bins, channels, constants):
    """The lines of each channel in units of 2^-20 (sections 4.3.2 to 4.3.6)."""
    coupling, mux, submaps = setup.mappings[mapping_number]
    floors = [setup.floors[submaps[number][0]] for number in mux]
    heights = [f.values(bits, setup.books) for f in floors]
    used = [y is not None for y in heights]
    audible = [step for step in coupling if used[step[0]] or used[step[1]]]
    wanted = [used[c] or any(c in step for step in audible) for c in range(channels)]
    vectors = [None] * channels
    for number, (_, kind) in enumerate(submaps):
        own = [c for c in range(channels) if mux[c] == number]
        for c, vector in zip(own, setup.residues[kind].decode(bits, setup.books, [wanted[c] for c in own], bins)):
            vectors[c] = vector
    for magnitude, angle in reversed(coupling):
        pairs = [uncoupled(m, a) for m, a in zip(vectors[magnitude], vectors[angle])]
        vectors[magnitude], vectors[angle] = [p[0] for p in pairs], [p[1] for p in pairs]
    for vector, f, ys in zip(vectors, floors, heights):
        if ys is None:
            yield [0] * bins
        else:
            curve = f.curve(f.finals(ys), bins)
            yield [(value * constants.decibel(level)) >> 26 for value, level in zip(vector, curve)]


def weight(constants, size, left, right, i):
    """The window of a block between slopes of blocks of these sizes (section 4.3.1)."""
    if i < size // 2:
        place, width = i - (size // 4 - left // 4), left // 2
    else:
        place, width = size - 1 - i - (size // 4 - right // 4), right // 2
    return 0 if place < 0 else ONE if place >= width else constants.slope(width, place)


def block(data, channels, audio, constants, sizes=(SHORT, LONG)):
    """The values of each channel of the block of a packet, in units of 2^-20, in a link of blocks of these sizes."""
    setup, bits = Setup(data, channels), Bits(audio)
    assert bits.take(1) == 0
    long, mapping_number = setup.modes[bits.take(ilog(len(setup.modes) - 1))]
    size = sizes[long]
    left, right = (size if not long or bits.take(1) else sizes[0] for _ in range(2))
    for lines in spectra(setup, bits, mapping_number, size // 2, channels, constants):
        sums = [sum(x * constants.cosine(size, (2 * i + 1 + size // 2) * (2 * k + 1)) for k, x in enumerate(lines))
                for i in range(size)]
        yield [((y >> 23) * weight(constants, size, left, right, i)) >> 23 for i, y in enumerate(sums)]


def packed(number):
    """A whole number as a packed number (section 9.2.2)."""
    return (number < 0) << 31 | 788 << 21 | abs(number)


def value_book(lowest, numbers):
    """A book of one dimension whose words have two bits each."""
    lookup = [(packed(lowest), 32), (packed(1), 32), (3, 4), (0, 1), *((n, 4) for n in numbers)]
    return book(entries=4, lengths=((0, 1), (0, 1), *[(1, 5)] * 4), lookup=lookup)


def two_ways(kind, first, second):
    """A residue of 24 values in parts of 4, each of one of two classes with a book each."""
    return [(kind, 16), (0, 24), (24, 24), (3, 24), (1, 6), (0, 8), *[(1, 3), (0, 1)] * 2, (first, 8), (second, 8)]


def setup(**parts):
    """A setup of three books, of classes and two of values; two floors, of five and of two points; two residues."""
    return written(packet(
        books=[book(entries=2, lengths=((0, 1), (0, 1), (0, 5), (0, 5)), kind=0), value_book(-3, [0, 1, 4, 7]),
               value_book(-9, [0, 5, 12, 15])],
        floors=[floor(partitions=[0], classes=[(2, 3), (0, 2), (2, 8)], range_bits=6, xs=[9, 30, 20]),
                floor(range_bits=7)],
        residues=[two_ways(1, 1, 2), two_ways(0, 2, 1)], **parts))


SETUPS = {
    'SMALLEST': ('The setup of the smallest film: a floor of two points, a residue of one bin.', SETUP),
    'PARTS': ('A setup of three mappings: one submap, a coupling step, and two submaps. Short and long blocks of the '
              'first, and short ones of the others.',
              setup(mappings=[mapping(), mapping(coupling=[(0, 1)], width=1),
                              mapping(submaps=((0, 0), (1, 1)), mux=(1, 0))],
                    modes=[mode(), mode(1), mode(number=1), mode(number=2)])),
    'TWO_STEPS': ('A setup whose first channel stands in two coupling steps.',
                  setup(mappings=[mapping(coupling=[(0, 1), (0, 2)], width=2)])),
}


def head(number, *flags):
    """The fields of the head of a packet of one of four modes."""
    return [(0, 1), (number, 2), *((flag, 1) for flag in flags)]


def sounding(rng, points=3):
    """A floor that is used, with so many points from a book."""
    return [(1, 1), (rng.randrange(256), 8), (rng.randrange(256), 8), *((rng.randrange(4), 2) for _ in range(points))]


def drawn(rng, count):
    return [(rng.randrange(2), 1) for _ in range(count)]


SILENT = [(0, 1)]


def rows():
    """A name, a setup, channels, a packet, the slopes' number and the step of the constants."""
    rng = random.Random(5)
    sound = bytes.fromhex('020000')
    yield 'a sound', 'SMALLEST', 1, sound, ONE, 0
    yield 'a sound under half a slope', 'SMALLEST', 1, sound, ONE // 2, 0
    yield 'a floor that is not used', 'SMALLEST', 1, b'\0', ONE, 0
    yield 'a packet that ends in its floor', 'SMALLEST', 1, sound[:2], ONE, 0
    every_other = [field for c in range(8) for field in ([(1, 1), (0, 16)] if c % 2 else SILENT)]
    yield 'eight channels, every other silent', 'SMALLEST', 8, written([(0, 1), *every_other, (0, 16)]), ONE, 0
    stereo = [*sounding(rng), *sounding(rng), *drawn(rng, 120)]
    for name, flags in [('between short blocks', (0, 0)), ('behind a short one', (0, 1)),
                        ('before a short one', (1, 0)), ('between long blocks', (1, 1))]:
        yield f'a long block {name}', 'PARTS', 2, written([*head(1, *flags), *stereo]), ONE, 1000
    for name, fields in [
            ('a packet that ends in its residue', [*head(0), *sounding(rng), *sounding(rng), *drawn(rng, 30)]),
            ('a coupled pair, the first floor not used', [*head(2), *SILENT, *sounding(rng), *drawn(rng, 120)]),
            ('a coupled pair', [*head(2), *sounding(rng), *sounding(rng), *drawn(rng, 120)]),
            ('two submaps, the second of the first channel',
             [*head(3), *sounding(rng, 0), *sounding(rng), *drawn(rng, 120)])]:
        yield name, 'PARTS', 2, written(fields), ONE, 1000
    one_floor = [(0, 1), *SILENT, *sounding(rng), *SILENT, *drawn(rng, 120)]
    yield 'three channels of two steps, the floor of the second used', 'TWO_STEPS', 3, written(one_floor), ONE, 1000


def probes(values):
    """The values at places of the slopes of a block, at their ends, and in its middle, of its channels in turn."""
    size = len(values[0])
    around = size // 4 - SHORT // 4
    places = [0, 15, 16, 31, 33, 63] if size == SHORT else [around - 1, around + 7, size // 4, size // 2, 207, 208]
    for k, place in enumerate(places):
        channel = len(values) - 1 - k % len(values)
        yield channel, place, values[channel][place]


def print_rows():
    print('''//! Printed by `tools/blocks.py`, and laid out by `rt fmt`: packets, and values of their blocks.

use super::Row;
''')
    for constant, (words, data) in SETUPS.items():
        for line in textwrap.wrap(words, 96):
            print(f'/// {line}')
        print(f'const {constant}: &[u8] = {rust_packet(data)};\n')
    table = list(rows())
    print(f'pub const ROWS: [Row; {len(table)}] = [')
    for name, constant, channels, audio, slope, step in table:
        values = list(block(SETUPS[constant][1], channels, audio, Constants(slope, step)))
        shown = ', '.join(str(probe) for probe in probes(values))
        print(f'Row {{ name: "{name}", setup: {constant}, channels: {channels}, packet: {rust_packet(audio)}, '
              f'slope: {slope}, step: {step}, values: [{shown}] }},')
    print('];')


if __name__ == '__main__':
    print_rows()
