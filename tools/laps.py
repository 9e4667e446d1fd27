#!/usr/bin/env python3
"""Laps and crosses of cursors in whole numbers, for the table of the tests of plays.

    tools/laps.py rows              prints crates/test_play/src/laps/rows.rt
    tools/laps.py play FILM SCRIPT  writes what is reported of a script over a film of tools/films.py, by slopes of 1/2

The values of blocks come from tools/blocks.py. What cursors answer is worked out from the whole line of a film, frame
by frame, and shares nothing with the crates. The films' granules say what their packets give, so no line is cut.
"""
import itertools
import re
import sys

from blocks import ONE, Constants, block
from films import FIRST, film

LOST = 'lost'


class Link:
    """A link of a film: its channels, the sizes of its blocks, its setup, and its audio packets, None for a loss."""

    def __init__(self, ident):
        self.channels, self.sizes = ident[11], (1 << (ident[28] & 15), 1 << (ident[28] >> 4))
        self.packets, self.pages = [], 1

    def take(self, sequence, packets):
        """The next page, with whole packets. Where pages are missing before it, something is lost."""
        if sequence != self.pages:
            self.packets.append(None)
        self.packets, self.pages = self.packets + packets, sequence + 1


def links_of(data):
    """The links of a film whose pages have whole packets, of one stream in each link."""
    links, place = [], 0
    while place < len(data):
        laces = data[place + 27:place + 27 + data[place + 26]]
        flags, sequence = data[place + 5], int.from_bytes(data[place + 18:place + 22], 'little')
        place, packets = place + 27 + len(laces), []
        for lace in laces:
            assert lace < 255
            packets.append(data[place:place + lace])
            place += lace
        if flags & FIRST:
            links.append(Link(packets[0]))
        else:
            links[-1].take(sequence, packets)
    return links


def frames_between(first, second):
    """The frames that two neighbouring blocks give (section 4.3.8), each a value for each channel."""
    a, b = len(first[0]), len(second[0])
    for j in range(a // 4 + b // 4):
        ours, theirs = a // 2 + j, j + b // 4 - a // 4
        yield tuple((x[ours] if ours < a else 0) + (y[theirs] if theirs >= 0 else 0) for x, y in zip(first, second))


def line_of(links, constants):
    """The items of a film's line: the number of a link, and a frame or the name of a gap."""
    for number, link in enumerate(links):
        setup, before = link.packets[1], None
        for audio in link.packets[2:]:
            if audio is None:
                before = None
                yield number, LOST
                continue
            values = list(block(setup, link.channels, audio, constants, link.sizes))
            for frame in frames_between(before, values) if before else ():
                yield number, frame
            before = values


class Cursor:
    def __init__(self, place=0, patch=()):
        self.place, self.patch = place, list(patch)


class Player:
    """A film and its constants, and what is answered to commands over it."""

    def __init__(self, name, constants):
        self.links, self.constants = links_of(film(name)), constants
        self.line = list(line_of(self.links, constants))
        self.total = sum(item != LOST for _, item in self.line)

    def told(self, place):
        return sum(item != LOST for _, item in self.line[:place])

    def run(self, place):
        """The frames from a place on, up to the end of their link or the next gap."""
        frames = []
        for link, item in self.line[place:]:
            if item == LOST or link != self.line[place][0]:
                break
            frames.append(item)
        return frames

    def next(self, cursor):
        return cursor.patch + self.run(cursor.place)[len(cursor.patch):]

    def link_at(self, place):
        return self.links[self.line[place][0] if place < len(self.line) else -1]

    def place_after(self, frames):
        return next(place for place in range(len(self.line) + 1) if self.told(place) == frames)

    def splice(self, old, place):
        count = min(self.link_at(old.place).sizes[0], self.link_at(place).sizes[0]) // 2
        before = self.next(old)[:count]
        for i, frame in enumerate(self.run(place)[:count]):
            slope = self.constants.slope(count, i)
            new = slope * slope >> 23
            heard = before[i] if i < len(before) else ()
            silent = [0] * len(frame)
            yield [d * new + s * (ONE - new) >> 23 for d, s in zip(frame, [*heard, *silent])]

    def read(self, cursor, count):
        if cursor.place == len(self.line):
            return 'end'
        link, item = self.line[cursor.place]
        if item == LOST:
            cursor.place += 1
            return 'gap ' + LOST
        frames = self.next(cursor)[:count]
        cursor.place += len(frames)
        cursor.patch = cursor.patch[len(frames):]
        samples = ''.join(sample(value) for frame in frames for value in frame)
        return f'frames {link} {self.links[link].channels} {len(frames)} {samples}'

    def answer(self, cursors, words):
        """What is said behind a command's words, and the cursors then."""
        verb, *numbers = words
        numbers = list(map(int, numbers))
        c = numbers[0]
        if verb == 'open':
            already = c in cursors
            cursors.setdefault(c, Cursor())
            return 'open', numbers, 'already open' if already else 'ok'
        named = numbers if verb == 'cross' else numbers[:1]
        if any(cursor not in cursors for cursor in named):
            return verb, numbers, 'no cursor'
        cursor = cursors[c]
        if verb == 'read':
            return verb, [c], self.read(cursor, numbers[1])
        if verb == 'tell':
            return verb, [c], str(self.told(cursor.place))
        if verb == 'close':
            del cursors[c]
            return verb, [c], 'ok'
        if verb == 'cross':
            if c != numbers[1]:
                new = cursors[numbers[1]]
                new.patch = list(self.splice(cursor, new.place))
            return verb, numbers, 'ok'
        if numbers[1] > self.total:
            return verb, [c], f'invalid total {self.total}'
        place = self.place_after(numbers[1])
        cursors[c] = Cursor(place, self.splice(cursor, place) if verb == 'lap' else ())
        return verb, [c], f'at {numbers[1]}'

    def report(self, script):
        lanes = []
        for line in script.splitlines():
            if line == 'lane':
                cursors = {}
                lanes.append(f'lane {len(lanes)}\n')
            else:
                verb, numbers, said = self.answer(cursors, line.split())
                lanes[-1] += ' '.join([verb, *map(str, numbers), said]) + '\n'
        return ''.join(lanes)


def sample(value):
    """A value as a sample of 16 bits, the lower byte first."""
    return (max(-32768, min(32767, value + 16 >> 5)) & 0xffff).to_bytes(2, 'little').hex()


# Constants by the slope with which they begin, and the step by which they fall: slopes of one half, and all falling.
HALVES, FALLING = (ONE // 2, 0), (ONE, 500)

LAPS = [
    ('a lap onto silence', 'SOUND_AND_SILENCE', HALVES, 'lane;open 0;lap 0 32;read 0 32'),
    ('a lap from the last two frames of a link', 'SOUND_AND_SILENCE', HALVES,
     'lane;open 0;seek 0 30;lap 0 32;read 0 32'),
    ('a lap onto more channels', 'ONTO_STEREO', HALVES, 'lane;open 0;lap 0 32;read 0 32'),
    ('a lap onto fewer channels', 'FROM_STEREO', HALVES, 'lane;open 0;lap 0 32;read 0 32'),
    ('a seek behind a lap', 'SOUND_AND_SILENCE', HALVES, 'lane;open 0;lap 0 32;seek 0 32;read 0 32'),
    ('a lap behind a lap', 'SOUND_AND_SILENCE', HALVES, 'lane;open 0;lap 0 32;lap 0 32;read 0 32'),
    ('a lap past the last frame', 'SOUND_AND_SILENCE', HALVES, 'lane;open 0;lap 0 65;tell 0'),
    ('a lap past the last frame keeps a patch', 'SOUND_AND_SILENCE', HALVES,
     'lane;open 0;lap 0 32;lap 0 65;tell 0;read 0 32'),
    ('a patch over three reads', 'SOUND_AND_SILENCE', HALVES,
     'lane;open 0;lap 0 32;read 0 10;read 0 10;tell 0;read 0 65536'),
    ('a lap in the middle of a patch', 'SOUND_AND_SILENCE', HALVES,
     'lane;open 0;lap 0 32;read 0 20;lap 0 40;read 0 32'),
    ('a patch of two frames, and a link behind it', 'SOUND_AND_SILENCE', HALVES,
     'lane;open 0;seek 0 16;lap 0 30;read 0 32;read 0 32'),
    ('a lap before a gap', 'PAGE_MISSING', HALVES, 'lane;open 0;lap 0 32;tell 0;read 0 32;read 0 32'),
    ('a lap from a gap, whose old side is silent', 'PAGE_MISSING', HALVES,
     'lane;open 0;seek 0 32;lap 0 0;read 0 32'),
    ('a lap over a gap', 'PAGE_MISSING', HALVES, 'lane;open 0;seek 0 20;lap 0 33;read 0 32;read 0 1'),
    ('a lap to the end', 'SOUND_AND_SILENCE', HALVES, 'lane;open 0;lap 0 64;tell 0;read 0 1'),
    ('a lap from the end', 'SOUND_AND_SILENCE', HALVES, 'lane;open 0;seek 0 64;lap 0 0;read 0 32'),
    ('a lap onto larger blocks', 'LARGER_BLOCKS', FALLING, 'lane;open 0;seek 0 8;lap 0 40;read 0 64'),
    ('a lap onto smaller blocks', 'LARGER_BLOCKS', FALLING, 'lane;open 0;seek 0 60;lap 0 4;read 0 64'),
    ('a lap within a link of larger blocks', 'LARGER_BLOCKS', FALLING, 'lane;open 0;seek 0 60;lap 0 90;read 0 68'),
    ('a lap from the end, which is of larger blocks', 'LARGER_BLOCKS', FALLING,
     'lane;open 0;seek 0 160;lap 0 32;read 0 68'),
    ('two lanes, each with its own cursor', 'SOUND_AND_SILENCE', HALVES,
     'lane;open 0;lap 0 32;read 0 32;lane;open 0;seek 0 32;read 0 32'),
]

CROSSES = [
    ('a cross, and one of a cursor with itself', 'SOUND_AND_SILENCE', HALVES,
     'lane;open 0;open 1;seek 1 32;cross 0 1;read 1 32;tell 0;read 0 32;cross 0 0'),
    ('a cross of a cursor with itself keeps its patch', 'SOUND_AND_SILENCE', HALVES,
     'lane;open 0;lap 0 32;cross 0 0;read 0 32'),
    ('a cross takes the patch of the old cursor, and its own is gone', 'SOUND_AND_SILENCE', HALVES,
     'lane;open 0;open 1;lap 0 32;seek 1 20;lap 1 32;cross 0 1;read 1 32;read 0 32'),
    ('a cross onto more channels', 'ONTO_STEREO', FALLING,
     'lane;open 3;open 4;seek 3 4;seek 4 40;cross 3 4;read 4 32;read 3 32'),
    ('a cross to the end', 'SOUND_AND_SILENCE', HALVES,
     'lane;open 0;open 1;seek 1 64;cross 0 1;tell 1;read 1 1;read 0 32'),
    ('a cross of cursors that are closed', 'SOUND_AND_SILENCE', HALVES,
     'lane;open 0;cross 0 1;cross 1 0;cross 1 1;close 0;cross 0 0;lap 0 32'),
]


def pieces(text):
    """A text as pieces and how often each stands: frames that are the same, three or more of them, stand once."""
    found = [('', 1)]
    for part in re.split(r'(?<= )((?:[0-9a-f]{4})+)(?=\n)', text):
        channels = int(found[-1][0].split(' ')[-3]) if re.search(r' frames \d+ \d+ \d+ $', found[-1][0]) else 0
        frames = [part[i:i + 4 * channels] for i in range(0, len(part), 4 * channels)] if channels else [part]
        for frame, same in itertools.groupby(frames):
            count = len(list(same))
            if count > 2:
                found += [(frame, count)]
            elif found[-1][1] > 1:
                found += [(frame * count, 1)]
            else:
                found[-1] = (found[-1][0] + frame * count, 1)
    assert ''.join(piece * count for piece, count in found) == text
    return found


def rust_text(text):
    """A text as a constant, on lines of at most 64 signs: samples have lines of their own where there are many."""
    lines = ['']
    for part in re.findall(r'(?:[0-9a-f]{4}){8,}|[^\n]*?(?:\n|$|(?= (?:[0-9a-f]{4}){8,}) )', text):
        digits = len(part) > 31 and ' ' not in part
        for piece in [part[i:i + 64] for i in range(0, len(part), 64)] if digits else [part.replace('\n', '\\n')]:
            if lines[-1] and (digits or len(lines[-1] + piece) > 64) and piece != '\\n':
                lines.append('')
            lines[-1] += piece
    shown = ('\\\n' + ' ' * 16).join(lines)
    assert re.sub(r'\\\n *', '', shown).replace('\\n', '\n') == text
    return f'"{shown}"'


def print_table(table, rows):
    print(f'pub const {table}: [Row; {len(rows)}] = [')
    for case, name, (slope, step), script in rows:
        script = script.replace(';', '\n') + '\n'
        report = pieces(Player(name, Constants(slope, step)).report(script))
        shown = ', '.join(f'({rust_text(text)}, {count})' for text, count in report)
        print(f'Row {{ case: {rust_text(case)}, film: &films::{name}, slope: {slope}, step: {step}, '
              f'script: {rust_text(script)}, report: &[{shown}] }},')
    print('];')


def print_rows():
    print('''//! Printed by `tools/laps.py rows`, and laid out by `rt fmt`: scripts with laps and crosses, and
//! what is reported of them.

use super::Row;
use crate::films;
''')
    print_table('LAPS', LAPS)
    print()
    print_table('CROSSES', CROSSES)


if __name__ == '__main__':
    if sys.argv[1:] == ['rows']:
        print_rows()
    elif sys.argv[1:2] == ['play'] and len(sys.argv) == 4:
        with open(sys.argv[3]) as file:
            print(Player(sys.argv[2], Constants(*HALVES)).report(file.read()), end='')
    else:
        sys.exit(__doc__)
