#!/usr/bin/env python3
"""Setup packets and heads of audio packets, for the tables of the tests.

    tools/setups.py rows       prints crates/test_setup/src/setups/rows.rt
    tools/setups.py films      prints crates/test_setup/src/setups/films.rt, by oggenc
    tools/setups.py smallest   prints the smallest setup as it is written, as a constant
    tools/setups.py bench      prints the setup packet of a stereo film of quality 5 as a constant, by oggenc

Each packet of the rows is the smallest setup with a few of its parts changed; one that is refused ends in the
byte of the field that is wrong. What the accepted packets hold is read by tools/decode.py, which shares nothing
with the crates.
"""
import math
import os
import struct
import subprocess
import sys
import tempfile
import wave

from decode import Setup, packets_of
from films import SETUP
from reference import Writer, ilog, text

# ends a packet behind the byte of the field before it
STOP = 'stop'


def book(sync=0x564342, dimensions=1, entries=1, lengths=((0, 1), (0, 1), (0, 5)), kind=1, lookup=None):
    """A codebook: one entry of one bit, with a lookup of one multiplicand, which is 0."""
    if lookup is None:
        lookup = [(0x62400001, 32), (0, 32), (0, 4), (0, 1), (0, 1)] if kind else []
    return [(sync, 24), (dimensions, 16), (entries, 24), *lengths, (kind, 4), *lookup]


def floor(kind=1, partitions=(), classes=(), range_bits=5, xs=()):
    """A floor: two points and no partition."""
    return [(kind, 16), (len(partitions), 5), *((p, 4) for p in partitions), *classes, (0, 2), (range_bits, 4),
            *((x, range_bits) for x in xs)]


def residue(kind=1, class_book=0, value_book=0):
    """A residue: one value, in one class with one book."""
    return [(kind, 16), (0, 24), (1, 24), (0, 24), (0, 6), (class_book, 8), (1, 3), (0, 1), (value_book, 8)]


def mapping(kind=0, submaps=((0, 0),), coupling=(), width=0, reserved=0, mux=(), placeholder=0):
    """A mapping: one submap and no coupling step."""
    fields = [(kind, 16), (int(len(submaps) > 1), 1)]
    if len(submaps) > 1:
        fields.append((len(submaps) - 1, 4))
    fields.append((int(len(coupling) > 0), 1))
    if coupling:
        fields.append((len(coupling) - 1, 8))
    fields += [(channel, width) for step in coupling for channel in step]
    fields += [(reserved, 2), *((submap, 4) for submap in mux)]
    return fields + [(number, 8) for pair in submaps for number in (placeholder, *pair)]


def mode(long=0, window=0, transform=0, number=0):
    """A mode: short blocks."""
    return [(long, 1), (window, 16), (transform, 16), (number, 8)]


def listed(items, width):
    return [(len(items) - 1, width)] + [field for item in items for field in item]


def packet(start=b'\x05vorbis', books=None, times=((0, 16),), floors=None, residues=None, mappings=None, modes=None,
           framing=1, behind_times=()):
    """A setup packet of these parts."""
    fields = [(byte, 8) for byte in start]
    fields += listed(books or [book()], 8)
    fields += listed([[time] for time in times], 6) + list(behind_times)
    fields += listed(floors or [floor()], 6)
    fields += listed(residues or [residue()], 6)
    fields += listed(mappings or [mapping()], 6)
    fields += listed(modes or [mode()], 6) + [(framing, 1)]
    return fields


def written(fields, stop=None):
    """The bytes of the fields; with a number, up to the byte in which the field of that number ends."""
    out = Writer()
    for number, (value, width) in enumerate(fields):
        out.put(value, width)
        if number == stop:
            break
    return bytes(out.bytes())


SUBMAPS = ((0, 0), (1, 0))


def accepted():
    """A name, channels and a packet."""
    smallest = written(packet())
    yield 'the smallest setup', 1, smallest
    yield 'more bytes behind it', 1, smallest + b'\xff\0'
    yield 'a coupling step of two channels', 2, written(packet(mappings=[mapping(coupling=[(0, 1)], width=1)]))
    yield 'two submaps', 2, written(packet(floors=[floor(), floor()], mappings=[mapping(submaps=SUBMAPS, mux=(1, 0))]))
    yield 'six channels and three coupling steps', 6, written(
        packet(mappings=[mapping(coupling=[(0, 2), (3, 4), (5, 1)], width=3)]))
    yield 'a placeholder that is not 0', 1, written(packet(mappings=[mapping(placeholder=255)]))
    yield 'two mappings, of two of three modes', 1, written(
        packet(mappings=[mapping(), mapping()], modes=[mode(1), mode(0, number=1), mode(1, number=1)]))
    yield 'three time domain transforms', 1, written(packet(times=((0, 16),) * 3))
    yield 'three residues of three types', 1, written(packet(residues=[residue(0), residue(1), residue(2)]))


def refused():
    """A name, channels, a packet, and the cause and the item for which it is refused."""
    start = [(byte, 8) for byte in b'\x05vorbis']

    def up_to(**parts):
        """The packet of these parts up to the byte of the field that STOP stands behind."""
        fields = packet(**parts)
        stop = fields.index(STOP)
        return written([f for f in fields if f != STOP], stop - 1)

    def stopped(item, place):
        """The fields of an item with the stop behind that of a place."""
        return item[:place + 1] + [STOP] + item[place + 1:]

    smallest = written(packet())
    yield 'the type of a comment packet', 1, b'\x03', 'Kind', 0
    yield 'another word for vorbis', 1, b'\x05vorbiS', 'Kind', 0
    yield 'no byte', 1, b'', 'End', 0
    yield 'an end within the word', 1, b'\x05vorbi', 'End', 0
    yield 'an end before the framing bit', 1, smallest[:-1], 'End', 0
    yield 'an end within the second book', 1, written(packet(books=[book(), book()]), 7 + 1 + 11 + 5), 'End', 0
    yield 'a wrong sync pattern', 1, up_to(books=[stopped(book(sync=0x564343), 0)]), 'BookSync', 0
    yield 'a wrong sync pattern of the second book', 1, up_to(books=[book(), stopped(book(sync=0), 0)]), 'BookSync', 1
    yield 'lengths that leave a gap', 1, up_to(
        books=[stopped(book(entries=2, lengths=((0, 1), (0, 1), (0, 5), (1, 5))), 6)]), 'BookTree', 0
    yield 'lookup type 3', 1, up_to(books=[book(), book(), stopped(book(kind=3, lookup=[]), 6)]), 'BookLookup', 2
    yield 'a lookup without dimensions', 1, up_to(books=[stopped(book(dimensions=0), 6)]), 'BookLookup', 0
    yield 'a book of 2^24 - 1 entries', 1, up_to(books=[stopped(book(entries=2**24 - 1), 2)]), 'BookLimit', 0
    ordered = book(entries=2**20, lengths=((1, 1), (19, 5), (2**20, 21)), kind=0)
    yield 'one entry more than all books may have', 1, up_to(
        books=[ordered, stopped(book(entries=1), 2)]), 'BookLimit', 1
    own = [(0, 32), (0, 32), (0, 4), (0, 1)]
    yield 'more multiplicands than all books may have', 1, up_to(books=[
        stopped(book(dimensions=2**15 + 1, entries=32, lengths=((1, 1), (4, 5), (32, 6)), kind=2, lookup=own), 10),
    ]), 'BookLimit', 0
    yield 'a second time domain transform that is not 0', 1, up_to(times=((0, 16), (1, 16)), behind_times=[STOP]), 'Time', 1
    yield 'a floor of type 0', 1, up_to(floors=[stopped(floor(0), 0)]), 'FloorZero', 0
    yield 'a second floor of type 2', 1, up_to(floors=[floor(), stopped(floor(2), 0)]), 'FloorKind', 1
    one_class = [(0, 3), (0, 2)]
    yield 'a floor with a book that is not there', 1, up_to(
        floors=[floor(), floor(partitions=(0,), classes=one_class + [(2, 8), STOP], xs=(1,))]), 'FloorBook', 1
    yield 'a floor with two points at bin 0', 1, up_to(
        floors=[floor(partitions=(0,), classes=one_class + [(1, 8)], xs=(0,)) + [STOP]]), 'FloorList', 0
    yield 'a second floor with 66 points', 1, up_to(
        floors=[floor(), floor(partitions=(0,) * 8, classes=[(7, 3), (0, 2), (0, 8)]) + [STOP]]), 'FloorList', 1
    yield 'a residue of type 3', 1, up_to(residues=[stopped(residue(3), 0)]), 'ResidueKind', 0
    yield 'a class book that is not there', 1, up_to(
        residues=[residue(), stopped(residue(class_book=1), 5)]), 'ResidueBook', 1
    yield 'a value book that is not there', 1, up_to(residues=[stopped(residue(value_book=1), 8)]), 'ResidueBook', 0
    yield 'a value book without a lookup', 1, up_to(
        books=[book(kind=0)], residues=[stopped(residue(), 8)]), 'ResidueBook', 0
    yield 'a second mapping of type 1', 1, up_to(mappings=[mapping(), stopped(mapping(1), 0)]), 'MappingKind', 1
    coupled = mapping(coupling=[(0, 0)])
    yield 'coupling in one channel', 1, up_to(mappings=[stopped(coupled, 5)]), 'MappingCoupling', 0
    yield 'a channel coupled with itself', 2, up_to(
        mappings=[stopped(mapping(coupling=[(0, 1), (1, 1)], width=1), 7)]), 'MappingCoupling', 0
    yield 'a magnitude channel that is not there', 3, up_to(
        mappings=[stopped(mapping(coupling=[(3, 0)], width=2), 4)]), 'MappingCoupling', 0
    yield 'an angle channel that is not there', 3, up_to(
        mappings=[mapping(), stopped(mapping(coupling=[(2, 3)], width=2), 5)]), 'MappingCoupling', 1
    yield 'reserved bits that are not 0', 1, up_to(mappings=[stopped(mapping(reserved=2), 3)]), 'MappingReserved', 0
    two = mapping(submaps=SUBMAPS, mux=(0, 2))
    yield 'a submap that is not there', 2, up_to(mappings=[stopped(two, 6)]), 'MappingMux', 0
    yield 'a floor that is not there', 1, up_to(mappings=[stopped(mapping(submaps=((1, 1),)), 5)]), 'MappingFloor', 0
    yield 'a residue that is not there', 1, up_to(
        mappings=[mapping(), stopped(mapping(submaps=((0, 1),)), 6)]), 'MappingResidue', 1
    yield 'reserved bits before a wrong floor', 1, up_to(
        mappings=[mapping(reserved=1, submaps=((1, 0),)) + [STOP]]), 'MappingReserved', 0
    yield 'window type 1', 1, up_to(modes=[stopped(mode(window=1), 1)]), 'ModeWindow', 0
    yield 'a second mode of transform type 1', 1, up_to(
        modes=[mode(), stopped(mode(transform=1), 2)]), 'ModeTransform', 1
    yield 'window type 1 before transform type 1', 1, up_to(
        modes=[mode(window=1, transform=1) + [STOP]]), 'ModeWindow', 0
    yield 'a mapping that is not there', 1, up_to(modes=[stopped(mode(number=1), 3)]), 'ModeMapping', 0
    yield 'a framing bit of 0', 1, written(packet(framing=0)), 'Framing', 0


def block(modes, mode_number, *flags):
    """The bytes of a head."""
    out = Writer()
    out.put(0, 1)
    out.put(mode_number, ilog(modes - 1))
    for flag in flags:
        out.put(flag, 1)
    return out.bytes()


def heads():
    """A name, the block flags of the modes, a packet, and its head."""
    yield 'no byte', [0], [], 'Skip'
    yield 'a packet that is not an audio packet', [0], [0x05], 'Skip'
    yield 'one mode, which no bit names', [0], block(1, 0) + [0xFF], 'Block 0 false false'
    yield 'a long block between short ones', [0, 1], block(2, 1, 0, 0), 'Block 1 false false'
    yield 'a long block behind a long one', [0, 1], block(2, 1, 1, 0), 'Block 1 true false'
    yield 'a long block before a long one', [0, 1], block(2, 1, 0, 1), 'Block 1 false true'
    yield 'a short block, which has no window flags', [0, 1], block(2, 0, 1, 1), 'Block 0 false false'
    yield 'the third of three modes', [1, 1, 0], block(3, 2), 'Block 2 false false'
    yield 'the fourth of three modes', [1, 1, 0], block(3, 3), 'Bad'
    yield 'the last of 64 modes', [0] * 64, block(64, 63), 'Block 63 false false'
    yield 'an end within the window flags', [1] * 64, block(64, 63, 1)[:1], 'Bad'


def rust_packet(data):
    """A byte string, on lines of at most 100 columns."""
    lines, line = [], ' ' * 20 + 'b"'
    for byte in bytes(data):
        char = chr(byte) if 32 <= byte < 127 and byte not in b'\\"' else f'\\x{byte:02x}'
        if len(line + char) > 99:
            lines.append(line + '\\')
            line = ' ' * 20
            # blanks at the beginning of a line are no part of the text
            char = '\\x20' if char == ' ' else char
        line += char
    return '\n'.join(lines + [line + '"']).strip()


def rust_head(head):
    words = head.split()
    if words[0] != 'Block':
        return f'PacketHead::{words[0]}'
    return f'PacketHead::Block {{ mode: {words[1]}, prev: {words[2]}, next: {words[3]} }}'


def contents(channels, data):
    """What a packet holds, by tools/decode.py."""
    setup = Setup(data, channels)
    flags = text('true' if long else 'false' for long, _ in setup.modes)
    coupling, _, submaps = setup.mappings[setup.modes[0][1]]
    return (f'Contents {{ books: {len(setup.books)}, floors: {len(setup.floors)}, residues: {len(setup.residues)}, '
            f'long_flags: {flags}, couplings: {len(coupling)}, submaps: {len(submaps)} }}')


def print_rows():
    assert written(packet()) == SETUP
    print('''//! Printed by `tools/setups.py rows`, and laid out by `rt fmt`: setup packets and heads of audio
//! packets, and what they say.

use super::{Accepted, Contents, Headed, Refused};
use setup_header::{PacketHead, SetupCause};
''')
    rows = list(accepted())
    print(f'pub const ACCEPTED: [Accepted; {len(rows)}] = [')
    for name, channels, data in rows:
        print(f'Accepted {{ name: "{name}", channels: {channels}, packet: {rust_packet(data)}, '
              f'contents: {contents(channels, data)} }},')
    print('];\n')
    rows = list(refused())
    print(f'pub const REFUSED: [Refused; {len(rows)}] = [')
    for name, channels, data, cause, item in rows:
        print(f'Refused {{ name: "{name}", channels: {channels}, packet: {rust_packet(data)}, '
              f'cause: SetupCause::{cause}, item: {item} }},')
    print('];\n')
    rows = list(heads())
    print(f'pub const HEADED: [Headed; {len(rows)}] = [')
    for name, flags, data, head in rows:
        print(f'Headed {{ name: "{name}", long_flags: {text("true" if f else "false" for f in flags)}, '
              f'packet: {rust_packet(data)}, head: {rust_head(head)} }},')
    print('];')


def encoded(channels, rate, quality):
    """The setup packet of a film that oggenc makes of half a second of sound."""
    with tempfile.TemporaryDirectory() as folder:
        sound, film = os.path.join(folder, 'sound.wav'), os.path.join(folder, 'film.ogg')
        with wave.open(sound, 'wb') as out:
            out.setnchannels(channels)
            out.setsampwidth(2)
            out.setframerate(rate)
            frames = [int(9000 * math.sin(t * t / 40000 + c)) for t in range(rate // 2) for c in range(channels)]
            out.writeframes(struct.pack(f'<{len(frames)}h', *frames))
        subprocess.run(['oggenc', '-Q', '-q', str(quality), '-s', '1', '-o', film, sound], check=True)
        with open(film, 'rb') as made:
            return packets_of(made.read())[2]


FILMS = [
    ('ONE_CHANNEL', 'one channel', 1, 8000, -1),
    ('TWO_CHANNELS', 'two channels', 2, 44100, 1),
    ('SIX_CHANNELS', 'six channels', 6, 44100, 0),
]


def print_films():
    print('''//! Printed by `tools/setups.py films`, and laid out by `rt fmt`: the setup packets of films that
//! oggenc made.

use super::{Accepted, Contents};
''')
    for constant, name, channels, rate, quality in FILMS:
        data = encoded(channels, rate, quality)
        print(f'/// A film of {name} at {rate} Hz.')
        print(f'pub const {constant}: Accepted = Accepted {{ name: "a film of {name}", channels: {channels}, '
              f'packet: {rust_packet(data)}, contents: {contents(channels, data)} }};\n')


def print_smallest():
    # a multiplicand of 16 bits
    wide = book(lookup=[(0x62400001, 32), (0, 32), (15, 4), (0, 1), (0, 16)])
    print(f'const SMALLEST: &[u8] = {rust_packet(written(packet(books=[wide])))};')


def print_bench():
    data = encoded(2, 44100, 5)
    print(f'const SETUP: &[u8] = {rust_packet(data)};')


if __name__ == '__main__':
    tables = {'rows': print_rows, 'films': print_films, 'smallest': print_smallest, 'bench': print_bench}
    if len(sys.argv) != 2 or sys.argv[1] not in tables:
        sys.exit(__doc__)
    tables[sys.argv[1]]()
