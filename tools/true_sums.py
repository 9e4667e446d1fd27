#!/usr/bin/env python3
"""Works out the half sums that the program `check_constants` prints, as the plain sums that they are, under the cosines of
constants/true.bin: for each size of block a number made of all of them, once for each way in which they are made.

    tools/true_sums.py    prints the lines, which stand at the end of crates/check_constants/stdout"""
import os
import struct

ROOT = os.path.join(os.path.dirname(os.path.abspath(__file__)), '..')
QUARTER = 8192
WAYS = ['AsForAFilm', 'ByTheProduct', 'InLanes']


def quarter_turn():
    """The cosines of a quarter turn, and that of its end, which is 0."""
    with open(os.path.join(ROOT, 'constants', 'true.bin'), 'rb') as file:
        data = file.read()
    return list(struct.unpack(f'<{QUARTER}I', data[-4 * QUARTER:])) + [0]


def turn(cosines, size):
    """The cosines of a whole turn of 4 * size steps."""
    for step in range(4 * size):
        sign = -1 if size < step < 3 * size else 1
        step = abs(2 * size - step) if sign < 0 else min(step, 4 * size - step)
        yield sign * cosines[step * QUARTER // size]


def half_sums(cosines, size, bins):
    """The sums of the first and of the third quarter of a block."""
    whole = list(turn(cosines, size))
    for index in [*range(size // 4), *range(size // 2, 3 * size // 4)]:
        step = 2 * index + 1 + size // 2
        yield sum(x * whole[(2 * k + 1) * step % (4 * size)] for k, x in enumerate(bins))


def main():
    cosines = quarter_turn()
    for levels in range(5, 13):
        count = 1 << levels
        bins = [k * 104_729 % 268_435_457 - (1 << 27) for k in range(count)]
        number = 0
        for value in half_sums(cosines, 2 * count, bins):
            number = (number * 31 + value) % (1 << 64)
        for way in WAYS:
            print(f'sums {levels} {way} {number}')


if __name__ == '__main__':
    main()
