#!/usr/bin/env python3
"""Decodes the first packets of a film by the floors and residues of tools/reference.py, in floating point.

    tools/decode.py FILM PACKETS     writes 16-bit little endian samples, not yet rounded, as text: a frame a line

The film has one link of one stream. tools/check_reference.sh compares what it writes with what oggdec writes.
"""
import math
import sys

from reference import Bits, Book, Floor, Residue, ilog


def packets_of(data):
    """The packets of the pages of one stream."""
    place, packets, packet = 0, [], b''
    while place < len(data):
        count = data[place + 26]
        laces, place = data[place + 27:place + 27 + count], place + 27 + count
        for lace in laces:
            packet, place = packet + data[place:place + lace], place + lace
            if lace < 255:
                packets.append(packet)
                packet = b''
    return packets


class Setup:
    """A setup packet (section 4.2.4)."""

    def __init__(self, packet, channels):
        bits = Bits(packet)
        assert bytes(bits.take(8) for _ in range(7)) == b'\x05vorbis'
        self.books = [Book.read(bits) for _ in range(bits.take(8) + 1)]
        for _ in range(bits.take(6) + 1):
            assert bits.take(16) == 0
        self.floors = []
        for _ in range(bits.take(6) + 1):
            assert bits.take(16) == 1
            self.floors.append(Floor.read(bits))
        self.residues = [Residue.read(bits.take(16), bits) for _ in range(bits.take(6) + 1)]
        self.mappings = [self.mapping(bits, channels) for _ in range(bits.take(6) + 1)]
        self.modes = []
        for _ in range(bits.take(6) + 1):
            long = bits.take(1)
            assert bits.take(32) == 0
            self.modes.append((long, bits.take(8)))
        assert bits.take(1) == 1

    @staticmethod
    def mapping(bits, channels):
        assert bits.take(16) == 0
        submaps = bits.take(4) + 1 if bits.take(1) else 1
        steps, width = bits.take(8) + 1 if bits.take(1) else 0, ilog(channels - 1)
        coupling = [(bits.take(width), bits.take(width)) for _ in range(steps)]
        assert bits.take(2) == 0
        mux = [bits.take(4) for _ in range(channels)] if submaps > 1 else [0] * channels
        return coupling, mux, [(bits.take(16) >> 8, bits.take(8)) for _ in range(submaps)]


# the inverse decibel table of section 10.1 is a geometric row between these two
DECIBELS = [1.0649863e-07 ** ((255 - i) / 255) for i in range(256)]


def uncoupled(magnitude, angle):
    """Section 4.3.5."""
    if magnitude > 0:
        return (magnitude, magnitude - angle) if angle > 0 else (magnitude + angle, magnitude)
    return (magnitude, magnitude + angle) if angle > 0 else (magnitude - angle, magnitude)


def spectra(setup, bits, mapping, size, channels):
    """The lines of each channel (sections 4.3.2 to 4.3.6)."""
    coupling, mux, submaps = setup.mappings[mapping]
    floors = [setup.floors[submaps[mux[c]][0]] for c in range(channels)]
    values = [floors[c].values(bits, setup.books) for c in range(channels)]
    wanted = [y is not None for y in values]
    for magnitude, angle in coupling:
        if values[magnitude] is not None or values[angle] is not None:
            wanted[magnitude] = wanted[angle] = True
    vectors = [None] * channels
    for number, (_, residue) in enumerate(submaps):
        own = [c for c in range(channels) if mux[c] == number]
        decoded = setup.residues[residue].decode(bits, setup.books, [wanted[c] for c in own], size // 2)
        for c, vector in zip(own, decoded):
            vectors[c] = vector
    for magnitude, angle in reversed(coupling):
        pairs = [uncoupled(m, a) for m, a in zip(vectors[magnitude], vectors[angle])]
        vectors[magnitude], vectors[angle] = [p[0] for p in pairs], [p[1] for p in pairs]
    lines = []
    for c in range(channels):
        if values[c] is None:
            lines.append([0.0] * (size // 2))
        else:
            curve = floors[c].curve(floors[c].finals(values[c]), size // 2)
            lines.append([value / 65536 * DECIBELS[level] for value, level in zip(vectors[c], curve)])
    return lines


def transformed(lines, size):
    """Section 4.3.7, as the plain sum."""
    used = [(k, value) for k, value in enumerate(lines) if value]
    step = math.pi / (2 * size)
    return [sum(x * math.cos(step * (2 * i + 1 + size // 2) * (2 * k + 1)) for k, x in used) for i in range(size)]


def slope(size, place):
    return math.sin(math.pi / 2 * math.sin((place + 0.5) / size * math.pi / 2) ** 2)


def weight(size, left, right, i):
    """The window of a block between neighbours of these sizes (section 4.3.1)."""
    if i < size // 2:
        place, width = i - (size // 4 - left // 4), left // 2
    else:
        place, width = size - 1 - i - (size // 4 - right // 4), right // 2
    return 0.0 if place < 0 else 1.0 if place >= width else slope(width, place)


def decoded(film, count):
    """The frames of the first audio packets, in units of a 16-bit sample (section 4.3.8)."""
    packets = packets_of(film)
    channels, sizes = packets[0][11], [1 << (packets[0][28] & 15), 1 << (packets[0][28] >> 4)]
    setup = Setup(packets[2], channels)
    previous = None
    for packet in packets[3:3 + count]:
        bits = Bits(packet)
        assert bits.take(1) == 0
        long, mapping = setup.modes[bits.take(ilog(len(setup.modes) - 1))]
        size = sizes[long]
        left, right = (size if not long or bits.take(1) else sizes[0] for _ in range(2))
        block = [transformed(lines, size) for lines in spectra(setup, bits, mapping, size, channels)]
        block = [[x * weight(size, left, right, i) for i, x in enumerate(values)] for values in block]
        if previous:
            before = len(previous[0])
            for j in range(before // 4 + size // 4):
                old, new = before // 2 + j, j + size // 4 - before // 4
                yield [
                    32768 * ((previous[c][old] if old < before else 0) + (block[c][new] if new >= 0 else 0))
                    for c in range(channels)
                ]
        previous = block


if __name__ == '__main__':
    if len(sys.argv) != 3:
        sys.exit(__doc__)
    with open(sys.argv[1], 'rb') as film:
        for frame in decoded(film.read(), int(sys.argv[2])):
            print(*(f'{sample:.3f}' for sample in frame))
