#!/usr/bin/env python3
"""Makes the true constants, constants/true.bin, anew: `VFCONST1`, and then numbers of four bytes, the lowest first.

- 256 decibel values: the inverse-dB table that Vorbis I prints in section 10.1, times 2^30. tools/inverse_db.txt has its
  numbers, as the standard prints them.
- the slopes of the sizes 32, 64, .. 4096: the value at place i of size n is sin(pi/2 * sin^2((i + 1/2) / n * pi/2)) times
  2^23 (Vorbis I, section 4.3.1).
- 8192 cosines of a quarter turn: cos(pi * j / 16384) times 2^23.

Each is rounded to the nearest whole number. All is computed in decimal numbers of 50 digits, and no value may be so near
to the middle between two whole numbers that their errors could turn it, so that every machine makes the same bytes.

The same bytes stand once more in crates/check_constants/data, where the program that reads them finds them in the gate. With
--check nothing is written: the status is 1 where either file isn't what is made."""
import os
import struct
import sys
from decimal import Decimal, getcontext

ROOT = os.path.join(os.path.dirname(os.path.abspath(__file__)), '..')
FILES = ['constants/true.bin', 'crates/check_constants/data/true.bin']
DECIBELS = os.path.join(ROOT, 'tools', 'inverse_db.txt')
SLOPE_SIZES = [32 << k for k in range(8)]
QUARTER = 8192
ONE_DECIBEL, ONE = 1 << 30, 1 << 23
# More than the error of any value here, which comes from some forty operations on 50 digits.
ERROR = Decimal(10) ** -30

getcontext().prec = 50


def arctan_of_inverse(n):
    """The arc tangent of 1/n, by its series."""
    term = Decimal(1) / n
    total, sign, k = term, -1, 3
    while term > Decimal(10) ** -60:
        term /= n * n
        total += sign * term / k
        sign, k = -sign, k + 2
    return total


# Machin's formula
PI = 4 * (4 * arctan_of_inverse(5) - arctan_of_inverse(239))


def series(x, term, k):
    """The sum of the series that goes on from a term of the power k by two powers at a time, with signs in turn."""
    total, square = term, x * x
    while abs(term) > Decimal(10) ** -60:
        term *= -square / ((k + 1) * (k + 2))
        total += term
        k += 2
    return total


def sine(x):
    return series(x, x, 1)


def cosine(x):
    return series(x, Decimal(1), 0)


def nearest(x):
    """The nearest whole number of a number that isn't below 0."""
    below = int(x)
    rest = x - below
    assert abs(rest - Decimal('0.5')) > ERROR, f'{x} may be nearer to either side'
    return below + (rest > Decimal('0.5'))


def decibels():
    with open(DECIBELS, encoding='ascii') as file:
        return [nearest(Decimal(line) * ONE_DECIBEL) for line in file]


def slope(size):
    for place in range(size):
        rise = sine((2 * place + 1) * PI / (4 * size))
        yield nearest(sine(PI / 2 * rise * rise) * ONE)


def cosines():
    for step in range(QUARTER):
        yield nearest(cosine(PI * step / (2 * QUARTER)) * ONE)


def constants():
    numbers = decibels()
    for size in SLOPE_SIZES:
        numbers.extend(slope(size))
    numbers.extend(cosines())
    return b'VFCONST1' + struct.pack(f'<{len(numbers)}I', *numbers)


def main(words):
    made = constants()
    if words not in ([], ['--check']):
        print('usage: make_constants.py [--check]', file=sys.stderr)
        return 2
    wrong = 0
    for name in FILES:
        path = os.path.join(ROOT, name)
        if words:
            with open(path, 'rb') as file:
                same = file.read() == made
            wrong += not same
            print(f'{name} is what is made' if same else f'{name} is NOT what is made')
        else:
            with open(path, 'wb') as file:
                file.write(made)
            print(f'{name}: {len(made)} bytes')
    return 1 if wrong else 0


if __name__ == '__main__':
    sys.exit(main(sys.argv[1:]))
