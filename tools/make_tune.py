#!/usr/bin/env python3
"""Makes films/tune.ogg anew: seven seconds of music in stereo, for plucked strings and bells, which `oggenc` encodes.

    tools/make_tune.py          writes films/tune.ogg
    tools/make_tune.py FILE     writes the sound alone, before it is encoded, as a WAV file

The music is our own. A string is a loop of noise as long as its period, in which each round leaves less of the high tones
(the way of Karplus and Strong); a bell is a few tones that die away, the high ones first. The strings walk from right to
left and back, the bells answer from the other side, and an echo goes from side to side.

Every machine makes the same samples: what comes from the mathematical library is rounded to nine digits, and all else is
sums and products. The same `oggenc` then makes the same film, since the serial number is given."""
import math
import os
import struct
import subprocess
import sys
import wave

ROOT = os.path.join(os.path.dirname(os.path.abspath(__file__)), '..')
FILM = os.path.join(ROOT, 'films', 'tune.ogg')
ENCODER = ['oggenc', '-Q', '-q', '3', '-s', '2026', '-t', 'Seven seconds', '-a', 'Reblutom']

RATE = 44100
SECONDS = 7.0
FADE = 2.2
STEP = 0.19
# The greatest sample, of 32767: what decoding adds to it does not reach the limit.
LOUDEST = 24000
ECHO, ECHO_PART = 2 * STEP, 0.28

# Broken chords, a note a step, `-` for none. Bells: the step at which each begins, and its note.
STRINGS = '''D3 A3 D4 F#4 A4 F#4  B2 F#3 B3 D4 F#4 D4  G2 D3 G3 B3 D4 G4  A2 E3 A3 C#4 E4 G4
             D3 A3 D4 F#4 A4 D5  -'''.split()
BELLS = [(0, 'A5'), (3, 'F#5'), (5, 'E5'), (6, 'D5'), (9, 'F#5'), (11, 'A5'), (12, 'B5'), (15, 'G5'), (17, 'D6'),
         (18, 'C#6'), (21, 'A5'), (23, 'E5'), (24, 'F#5'), (24, 'D6'), (30, 'D5')]
# Of each tone of a bell: its frequency, beside that of the first; its part; after how many seconds a tenth is left.
PARTIALS = [(1, 1.0, 1.6), (2.01, 0.45, 1.0), (2.76, 0.28, 0.7), (5.4, 0.12, 0.3)]
HALF_TONES = {'C': -9, 'D': -7, 'E': -5, 'F': -4, 'G': -2, 'A': 0, 'B': 2}


def settled(number):
    """A number of the mathematical library, the same on every machine."""
    return round(number, 9)


def frequency(note):
    steps = HALF_TONES[note[0]] + ('#' in note) + 12 * (int(note[-1]) - 4)
    return settled(440 * 2 ** (steps / 12))


def noise(count, seed):
    """Numbers without order between -1 and 1, whose sum is 0."""
    numbers, state = [], seed
    for _ in range(count):
        state = (state * 1103515245 + 12345) % 2 ** 31
        numbers.append(state / 2 ** 30 - 1)
    middle = math.fsum(numbers) / count
    return [number - middle for number in numbers]


def softened(numbers, rounds):
    """The numbers of a ring, each the mean of itself and of the one before it, some times."""
    for _ in range(rounds):
        numbers = [(number + numbers[i - 1]) / 2 for i, number in enumerate(numbers)]
    return numbers


def string(note, seconds):
    """A plucked string: the loop's mean of two takes half a sample, and an all-pass what is left of the period."""
    period = RATE / frequency(note)
    length = int(period - 0.6)
    rest = period - 0.5 - length
    turn = settled((1 - rest) / (1 + rest))
    kept = settled(10 ** (-1 / (1.4 * frequency(note))))
    loop = softened(noise(length, length), 3)
    sound, last, before, tuned = [], 0.0, 0.0, 0.0
    for n in range(int(seconds * RATE)):
        now = loop[n % length]
        mean = kept * (now + last) / 2
        tuned = turn * (mean - tuned) + before
        last, before, loop[n % length] = now, mean, tuned
        sound.append(now)
    return sound


def bell(note, seconds):
    sound = [0.0] * int(seconds * RATE)
    for ratio, part, tenth in PARTIALS:
        angle = 2 * math.pi * frequency(note) * ratio / RATE
        left = settled(10 ** (-1 / (tenth * RATE)))
        once, twice = settled(2 * left * math.cos(angle)), left * left
        before, now = 0.0, part * settled(math.sin(angle))
        for n in range(len(sound)):
            sound[n] += now
            before, now = now, once * now - twice * before
    rise = RATE // 250
    return [value * min(1.0, n / rise) for n, value in enumerate(sound)]


def place(mix, sound, begin, side, part):
    """Adds a sound from a step on, on a side from 0, the left, to 1."""
    first = int(begin * STEP * RATE)
    parts = [part * settled(math.cos(side * math.pi / 2)), part * settled(math.sin(side * math.pi / 2))]
    for channel, share in zip(mix, parts):
        for n in range(min(len(sound), len(channel) - first)):
            channel[first + n] += share * sound[n]


def echo(mix):
    """What is heard on one side comes back on the other, later and softer."""
    delay = int(ECHO * RATE)
    left, right = mix
    for n in range(delay, len(left)):
        left[n] += ECHO_PART * right[n - delay]
        right[n] += ECHO_PART * left[n - delay]


def faded(channel):
    """The end, softer and softer down to nothing."""
    begin = len(channel) - int(FADE * RATE)
    for n in range(begin, len(channel)):
        rest = (len(channel) - n) / (FADE * RATE)
        channel[n] *= rest * rest * (3 - 2 * rest)
    return channel


def tune():
    """The samples of both channels."""
    mix = [[0.0] * int(SECONDS * RATE) for _ in range(2)]
    for step, note in enumerate(STRINGS):
        if note != '-':
            side = 0.2 + 0.6 * abs((step % 12) - 6) / 6
            low = note[-1] in '23'
            place(mix, string(note, 3.2), step, 0.5 if low and step % 6 == 0 else side, 0.9 if low else 0.7)
    for number, (step, note) in enumerate(BELLS):
        place(mix, bell(note, 2.8), step, 0.75 if number % 2 else 0.25, 0.11)
    echo(mix)
    mix = [faded(channel) for channel in mix]
    scale = LOUDEST / max(abs(value) for channel in mix for value in channel)
    return [[math.floor(value * scale + 0.5) for value in channel] for channel in mix]


def write_wave(path, channels):
    frames = [sample for frame in zip(*channels) for sample in frame]
    with wave.open(path, 'wb') as out:
        out.setnchannels(len(channels))
        out.setsampwidth(2)
        out.setframerate(RATE)
        out.writeframes(struct.pack(f'<{len(frames)}h', *frames))


def main(words):
    if len(words) > 1:
        print('usage: make_tune.py [FILE]', file=sys.stderr)
        return 2
    if words:
        write_wave(words[0], tune())
        return 0
    path = FILM + '.wav'
    write_wave(path, tune())
    try:
        return subprocess.run([*ENCODER, '-o', FILM, path], check=False).returncode
    finally:
        os.remove(path)


if __name__ == '__main__':
    sys.exit(main(sys.argv[1:]))
