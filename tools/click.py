#!/usr/bin/env python3
"""Measures clicks: plays music from one place on to another by a seek and by a lap, and prints how far neighbouring
samples lie apart around the splice of each.

    tools/click.py [FILM]    FILM has one link and no gap (default: films/tune.ogg)

Pairs of places are drawn by a fixed seed. Of each pair these are heard: the frame at the first place, and then as many
frames as a lap mixes, and one more, from the second place on, once behind a seek and once behind a lap. A jump is the
difference of two neighbouring samples of one channel, in steps of 16 bits. The greatest jump of a pair is compared with
that of the music itself, which is what is heard where it just goes on from each of the two places. All samples come
from the program's `play`, under constants/true.bin.

PLAYER is the program (default: the one that `player` at the repository's root runs)."""
import os
import random
import statistics
import struct
import subprocess
import sys
import tempfile

ROOT = os.path.dirname(os.path.dirname(os.path.abspath(__file__)))
PAIRS, SEED = 500, 1


def said(words):
    """What the program writes; where its status is not 0, the tool ends with it."""
    ended = subprocess.run(words, check=False, stdout=subprocess.PIPE)
    if ended.returncode:
        sys.exit(f'{" ".join(words)}: status {ended.returncode}')
    return ended.stdout.decode()


def program():
    return os.environ.get('PLAYER') or said([os.path.join(ROOT, 'tools', 'program.sh')]).strip()


def film_of(player, film):
    """The frames of a film of one link, its channels, and how many frames a lap within it mixes."""
    rows = {row.split()[0]: row.split() for row in said([player, 'info', film]).splitlines()}
    assert rows['link'][1] == '0' and rows['line'][5] == '0', 'the film has several links, or a gap'
    return int(rows['line'][3]), int(rows['head'][3]), int(rows['head'][7]) // 2


def commands(first, second, mixed):
    """What is heard of a pair: behind a seek, behind a lap, and the music itself at both places."""
    for verb in ['seek', 'lap']:
        yield from [f'seek 0 {first}', 'read 0 1', f'{verb} 0 {second}', f'read 0 {mixed + 1}']
    for place in [first, second]:
        yield from [f'seek 0 {place}', f'read 0 {mixed + 2}']


def heard(report, channels):
    """The frames of each read of a report."""
    for line in report.splitlines():
        words = line.split()
        if words[0] == 'read':
            samples = struct.unpack(f'<{len(words[6]) // 4}h', bytes.fromhex(words[6]))
            yield [samples[i:i + channels] for i in range(0, len(samples), channels)]


def greatest_jump(frames):
    return max(abs(b - a) for one, next_one in zip(frames, frames[1:]) for a, b in zip(one, next_one))


def jumps(player, film):
    """Of each pair the greatest jumps of a seek, of a lap, and of the music itself."""
    frames, channels, mixed = film_of(player, film)
    rng = random.Random(SEED)
    pairs = [(rng.randrange(frames - mixed - 2), rng.randrange(frames - mixed - 2)) for _ in range(PAIRS)]
    lines = ['lane', 'open 0', *(line for pair in pairs for line in commands(*pair, mixed))]
    with tempfile.NamedTemporaryFile('w') as script:
        script.write('\n'.join(lines) + '\n')
        script.flush()
        report = said([player, 'play', os.path.join(ROOT, 'constants', 'true.bin'), film, script.name, '0', '8', '1'])
    reads = list(heard(report, channels))
    print(f'{PAIRS} pairs of places in {frames} frames of {channels} channels; a lap mixes {mixed} frames')
    for i in range(0, len(reads), 6):
        old, sought, same_old, lapped, first, second = reads[i:i + 6]
        yield (greatest_jump(old + sought), greatest_jump(same_old + lapped),
               max(greatest_jump(first), greatest_jump(second)))


def main():
    if len(sys.argv) > 2:
        sys.exit(__doc__)
    film = sys.argv[1] if len(sys.argv) == 2 else os.path.join(ROOT, 'films', 'tune.ogg')
    found = list(jumps(program(), film))
    print(f'{"jumps":<18}{"greatest":>10}{"mean":>10}')
    for name, column in zip(['a seek', 'a lap', 'the music itself'], zip(*found)):
        print(f'{name:<18}{max(column):>10}{statistics.mean(column):>10.0f}')
    above = sum(lapped > alone for _, lapped, alone in found)
    print(f'a seek jumps further than the music itself in {sum(s > m for s, _, m in found)} pairs, a lap in {above}')


if __name__ == '__main__':
    main()
