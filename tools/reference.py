#!/usr/bin/env python3
"""Codebooks, floors and residues in the plain way of the Vorbis I specification, for the tables of the tests.

    tools/reference.py codebooks   prints rows of the table ENTRIES of crates/test_decoding/src/books.rt
    tools/reference.py floors      prints crates/test_decoding/src/floors/rows.rt
    tools/reference.py residues    prints the table of crates/test_decoding/src/residue_vectors.rt

It follows the specification's own procedures (a tree of codewords in section 3, sorted lists of points and
line rendering in section 7, nested loops in section 8) and shares nothing with the crates. Setups and packets
are drawn at random, by fixed seeds; values are whole numbers in units of 2^-16, rounded down and limited to 2^32.
"""
import random
import sys
from fractions import Fraction


class End(Exception):
    pass


class Bits:
    """The bits of a packet, of each byte the lowest first (section 2)."""

    def __init__(self, data):
        self.bits = [byte >> k & 1 for byte in data for k in range(8)]
        self.at = 0

    def take(self, count):
        if self.at + count > len(self.bits):
            self.at = len(self.bits)
            raise End
        number = sum(bit << k for k, bit in enumerate(self.bits[self.at:self.at + count]))
        self.at += count
        return number


class Writer:
    def __init__(self):
        self.bits = []

    def put(self, number, count):
        self.bits += [number >> k & 1 for k in range(count)]

    def bytes(self):
        bits = self.bits + [0] * (-len(self.bits) % 8)
        return [sum(bits[i + k] << k for k in range(8)) for i in range(0, len(bits), 8)]


def unpack(packed):
    """A packed number (section 9.2.2), exactly."""
    mantissa = packed & 0x1FFFFF
    if packed >> 31:
        mantissa = -mantissa
    return Fraction(mantissa) * Fraction(2) ** ((packed >> 21 & 0x3FF) - 788)


def limit(value):
    return max(-(1 << 32), min(1 << 32, value))


def fixed(value):
    return limit((value * 65536).__floor__())


class Book:
    """A codebook of these lengths (section 3), with or without a lookup."""

    def __init__(self, dimensions, lengths, kind=0, minimum=0, delta=0, width=1, sequence=0, multiplicands=()):
        self.dimensions, self.lengths, self.kind = dimensions, lengths, kind
        self.minimum, self.delta, self.width = minimum, delta, width
        self.sequence, self.multiplicands = sequence, list(multiplicands)
        # entry by entry the leftmost free leaf of a tree, codewords as texts of digits
        self.words, tree = {}, {}
        for entry, length in enumerate(lengths):
            if length:
                self.words[self.leaf(tree, length)] = entry

    @classmethod
    def leaf(cls, tree, length):
        """Takes the leftmost free leaf at a depth, or nothing where there is none."""
        for digit in '01':
            if length == 1 and digit not in tree:
                tree[digit] = None
                return digit
            if length > 1 and tree.get(digit, {}) is not None:
                rest = cls.leaf(tree.setdefault(digit, {}), length - 1)
                if rest:
                    return digit + rest
        return ''

    @classmethod
    def read(cls, bits):
        assert bits.take(24) == 0x564342
        dimensions, lengths = bits.take(16), [0] * bits.take(24)
        if bits.take(1):
            entry, length = 0, bits.take(5) + 1
            while entry < len(lengths):
                run = bits.take(ilog(len(lengths) - entry))
                lengths[entry:entry + run] = [length] * run
                entry, length = entry + run, length + 1
        else:
            sparse = bits.take(1)
            for entry in range(len(lengths)):
                if not sparse or bits.take(1):
                    lengths[entry] = bits.take(5) + 1
        kind = bits.take(4)
        if not kind:
            return cls(dimensions, lengths)
        minimum, delta, width, sequence = bits.take(32), bits.take(32), bits.take(4) + 1, bits.take(1)
        count = len(lengths) * dimensions
        if kind == 1:
            count = max(root for root in range(len(lengths) + 1) if root ** dimensions <= len(lengths))
        multiplicands = [bits.take(width) for _ in range(count)]
        return cls(dimensions, lengths, kind, minimum, delta, width, sequence, multiplicands)

    def write(self, ordered=False):
        out = Writer()
        out.put(0x564342, 24)
        out.put(self.dimensions, 16)
        out.put(len(self.lengths), 24)
        out.put(int(ordered), 1)
        if ordered:
            self.write_runs(out)
        else:
            self.write_lengths(out)
        out.put(self.kind, 4)
        if self.kind:
            out.put(self.minimum, 32)
            out.put(self.delta, 32)
            out.put(self.width - 1, 4)
            out.put(self.sequence, 1)
            for multiplicand in self.multiplicands:
                out.put(multiplicand, self.width)
        return out.bytes()

    def write_runs(self, out):
        """The lengths in rising order, as how many entries have each."""
        length, remain = self.lengths[0], len(self.lengths)
        out.put(length - 1, 5)
        while remain:
            run = self.lengths.count(length)
            out.put(run, ilog(remain))
            length, remain = length + 1, remain - run

    def write_lengths(self, out):
        sparse = 0 in self.lengths
        out.put(int(sparse), 1)
        for length in self.lengths:
            if sparse:
                out.put(int(length > 0), 1)
            if length:
                out.put(length - 1, 5)

    def entry(self, bits):
        word = ''
        while word not in self.words:
            word += str(bits.take(1))
        return self.words[word]

    def vector(self, bits):
        entry = self.entry(bits)
        last, values, divisor = 0, [], 1
        for i in range(self.dimensions):
            if self.kind == 1:
                offset = entry // divisor % len(self.multiplicands)
                divisor *= len(self.multiplicands)
            else:
                offset = entry * self.dimensions + i
            value = limit(fixed(self.multiplicands[offset] * unpack(self.delta)) + fixed(unpack(self.minimum)) + last)
            if self.sequence:
                last = value
            values.append(value)
        return values


def ilog(number):
    return number.bit_length()


def render_point(x0, y0, x1, y1, x):
    dy, adx = y1 - y0, x1 - x0
    off = abs(dy) * (x - x0) // adx
    return y0 - off if dy < 0 else y0 + off


def render_line(x0, y0, x1, y1, lines):
    dy, adx = y1 - y0, x1 - x0
    base = abs(dy) // adx * (1 if dy >= 0 else -1)
    sy = base - 1 if dy < 0 else base + 1
    ady, y, err = abs(dy) - abs(base) * adx, y0, 0
    lines[x0] = y
    for x in range(x0 + 1, x1):
        err += ady
        if err >= adx:
            err -= adx
            y += sy
        else:
            y += base
        lines[x] = y


class Floor:
    """A floor of type 1 (section 7)."""

    def __init__(self, partitions, classes, multiplier, range_bits, xs):
        self.partitions, self.classes, self.multiplier, self.range_bits = partitions, classes, multiplier, range_bits
        self.xs = [0, 1 << range_bits] + xs

    def write(self):
        out = Writer()
        out.put(len(self.partitions), 5)
        for number in self.partitions:
            out.put(number, 4)
        for dimensions, subclass_bits, master, books in self.classes:
            out.put(dimensions - 1, 3)
            out.put(subclass_bits, 2)
            if subclass_bits:
                out.put(master, 8)
            for book in books:
                out.put(0 if book is None else book + 1, 8)
        out.put(self.multiplier - 1, 2)
        out.put(self.range_bits, 4)
        for x in self.xs[2:]:
            out.put(x, self.range_bits)
        return out.bytes()

    @classmethod
    def read(cls, bits):
        partitions = [bits.take(4) for _ in range(bits.take(5))]
        classes = []
        for _ in range(max(partitions, default=-1) + 1):
            dimensions, subclass_bits = bits.take(3) + 1, bits.take(2)
            master = bits.take(8) if subclass_bits else None
            numbers = [bits.take(8) for _ in range(1 << subclass_bits)]
            classes.append((dimensions, subclass_bits, master, [n - 1 if n else None for n in numbers]))
        multiplier, range_bits = bits.take(2) + 1, bits.take(4)
        xs = [bits.take(range_bits) for number in partitions for _ in range(classes[number][0])]
        return cls(partitions, classes, multiplier, range_bits, xs)

    def values(self, bits, books):
        try:
            if not bits.take(1):
                return None
            width = ilog([256, 128, 86, 64][self.multiplier - 1] - 1)
            ys = [bits.take(width), bits.take(width)]
            for number in self.partitions:
                dimensions, subclass_bits, master, named = self.classes[number]
                cval = books[master].entry(bits) if subclass_bits else 0
                for _ in range(dimensions):
                    book = named[cval & (1 << subclass_bits) - 1]
                    cval >>= subclass_bits
                    ys.append(0 if book is None else books[book].entry(bits))
            return ys
        except End:
            return None

    def finals(self, ys):
        limit_y = [256, 128, 86, 64][self.multiplier - 1]
        final, step2 = ys[:2], [True, True]
        for i in range(2, len(self.xs)):
            low = max((n for n in range(i) if self.xs[n] < self.xs[i]), key=lambda n: self.xs[n])
            high = min((n for n in range(i) if self.xs[n] > self.xs[i]), key=lambda n: self.xs[n])
            predicted = render_point(self.xs[low], final[low], self.xs[high], final[high], self.xs[i])
            val, highroom, lowroom = ys[i], limit_y - predicted, predicted
            room = 2 * min(highroom, lowroom)
            step2.append(val != 0)
            if val == 0:
                final.append(predicted)
                continue
            step2[low] = step2[high] = True
            if val >= room:
                final.append(val - lowroom + predicted if highroom > lowroom else predicted - val + highroom - 1)
            elif val % 2:
                final.append(predicted - (val + 1) // 2)
            else:
                final.append(predicted + val // 2)
        return list(zip(final, step2))

    def curve(self, finals, count):
        order = sorted(range(len(self.xs)), key=lambda n: self.xs[n])
        lines = [0] * (max(self.xs[1], count) + 1)
        hx, hy, lx, ly = 0, 0, 0, finals[0][0] * self.multiplier
        for n in order[1:]:
            if finals[n][1]:
                hy, hx = finals[n][0] * self.multiplier, self.xs[n]
                render_line(lx, ly, hx, hy, lines)
                lx, ly = hx, hy
        for x in range(hx, count):
            lines[x] = hy
        return [max(0, min(255, y)) for y in lines[:count]]


class Residue:
    """A residue of type 0, 1 or 2 (section 8)."""

    def __init__(self, kind, begin, end, size, class_book, cascades):
        self.kind, self.begin, self.end, self.size = kind, begin, end, size
        self.class_book, self.cascades = class_book, cascades

    def write(self):
        out = Writer()
        out.put(self.begin, 24)
        out.put(self.end, 24)
        out.put(self.size - 1, 24)
        out.put(len(self.cascades) - 1, 6)
        out.put(self.class_book, 8)
        for cascade in self.cascades:
            bits = sum(1 << k for k, book in enumerate(cascade) if book is not None)
            out.put(bits & 7, 3)
            out.put(int(bits > 7), 1)
            if bits > 7:
                out.put(bits >> 3, 5)
        for cascade in self.cascades:
            for book in cascade:
                if book is not None:
                    out.put(book, 8)
        return out.bytes()

    @classmethod
    def read(cls, kind, bits):
        begin, end, size, count = bits.take(24), bits.take(24), bits.take(24) + 1, bits.take(6) + 1
        class_book, passes = bits.take(8), []
        for _ in range(count):
            low = bits.take(3)
            passes.append(low + 8 * (bits.take(5) if bits.take(1) else 0))
        cascades = [[bits.take(8) if used >> k & 1 else None for k in range(8)] for used in passes]
        return cls(kind, begin, end, size, class_book, cascades)

    def decode(self, bits, books, wanted, count):
        if self.kind == 2:
            together = [0] * (count * len(wanted))
            if any(wanted):
                self.decode_vectors(bits, books, [True], [together])
            return [together[j::len(wanted)] for j in range(len(wanted))]
        vectors = [[0] * count for _ in wanted]
        self.decode_vectors(bits, books, wanted, vectors)
        return vectors

    def decode_vectors(self, bits, books, wanted, vectors):
        length = len(vectors[0])
        begin, end = min(self.begin, length), min(self.end, length)
        per_word = books[self.class_book].dimensions
        partitions = max(0, end - begin) // self.size
        classes = [[0] * (partitions + per_word) for _ in vectors]
        try:
            for pass_number in range(8):
                partition = 0
                while partition < partitions:
                    if pass_number == 0:
                        for j in range(len(vectors)):
                            if wanted[j]:
                                temp = books[self.class_book].entry(bits)
                                for i in reversed(range(per_word)):
                                    classes[j][i + partition] = temp % len(self.cascades)
                                    temp //= len(self.cascades)
                    for _ in range(per_word):
                        if partition == partitions:
                            break
                        for j in range(len(vectors)):
                            if wanted[j]:
                                book = self.cascades[classes[j][partition]][pass_number]
                                if book is not None:
                                    self.decode_partition(bits, books[book], vectors[j], begin + partition * self.size)
                        partition += 1
        except End:
            pass

    def decode_partition(self, bits, book, vector, offset):
        if self.kind == 0:
            step = self.size // book.dimensions
            for i in range(step):
                for j, value in enumerate(book.vector(bits)):
                    vector[offset + i + j * step] = limit(vector[offset + i + j * step] + value)
        else:
            i = 0
            while i < self.size:
                for value in book.vector(bits):
                    if i < self.size:
                        vector[offset + i] = limit(vector[offset + i] + value)
                    i += 1


def text(items):
    return '&[' + ', '.join(str(item) for item in items) + ']'


FLOOR_BOOKS = [
    Book(1, [8] * 256),
    Book(1, [1, 2, 3, 3]),
    Book(2, [3] * 8),
]


def floor_cases():
    """Named floors by their multiplier, numbers of values of their classes, subclass bits and range, with a packet each."""
    rng = random.Random(7)
    shapes = [
        ('two classes, one with two subclasses', 1, [3, 2], [0, 1], 6, [0, 1, 0]),
        ('four subclasses in turn with none', 2, [4, 1], [2, 0], 7, [1, 0, 1, 0]),
        ('eight subclasses', 3, [2, 3], [1, 3], 5, [0, 1, 1]),
        ('a class of eight values and no subclass', 4, [1, 8], [0, 0], 6, [1, 0]),
        ('65 points', 4, [8, 7], [0, 0], 10, [0] * 7 + [1]),
        ('no partitions', 1, [1], [0], 4, []),
        ('three partitions of one class', 2, [3], [1], 6, [0, 0, 0]),
    ]
    for name, multiplier, dimensions, subclass_bits, range_bits, partitions in shapes:
        classes = []
        for values, width in zip(dimensions, subclass_bits):
            books = [rng.choice([None, 0, 1, 1, 2]) for _ in range(1 << width)]
            if width == 0:
                books = [rng.choice([0, 1])]
            classes.append((values, width, 2, books))
        used = max(partitions) + 1 if partitions else 0
        count = sum(dimensions[number] for number in partitions)
        xs = rng.sample(range(1, 1 << range_bits), count)
        floor = Floor(partitions, classes[:used], multiplier, range_bits, xs)
        packet = [rng.randrange(256) | 1] + [rng.randrange(256) for _ in range(8 + count * 9 // 8)]
        yield name, floor, packet
        yield f'{name}, of a packet of five bytes', floor, packet[:5]


def print_books(books):
    for number, book in enumerate(books):
        data = book.write()
        print(f'/// Book {number}.')
        print(f'pub const BOOK_{number}: [u8; {len(data)}] = {text(data)[1:]};\n')


def codebook_cases():
    """Books with what they show, and entries that a packet of their codewords names."""
    rng = random.Random(15)
    deep = list(range(1, 25)) + [24]
    for _ in range(20):
        place = rng.randrange(1, len(deep))
        if deep[place] < 24:
            deep[place:place + 1] = [deep[place] + 1] * 2
    mixed = rng.sample(deep, len(deep))
    holes = list(mixed)
    for _ in range(15):
        holes.insert(rng.randrange(len(holes) + 1), 0)
    for name, lengths, ordered in [
        ('mixed lengths of 1 to 24', mixed, False),
        ('mixed lengths of 1 to 24, sparse', holes, False),
        ('lengths of 1 to 24 in order', sorted(deep), True),
    ]:
        book = Book(1, lengths)
        used = [entry for entry, length in enumerate(lengths) if length]
        entries = [rng.choice(used) for _ in range(24)]
        words = {entry: word for word, entry in book.words.items()}
        out = Writer()
        out.bits = [int(digit) for entry in entries for digit in words[entry]]
        yield name, book.write(ordered), out.bytes(), entries


def print_codebooks():
    for name, book, packet, entries in codebook_cases():
        bits, read = Bits(packet), Book.read(Bits(book))
        assert [read.entry(bits) for _ in entries] == entries
        print(f'("{name}", {text(book)}, {text(packet)}, {text(entries)}),')


def print_floors():
    print("""//! Printed by `tools/reference.py floors`, and laid out by `rt fmt`: floors and packets, and what
//! the standard's own procedures read from them.

/// A floor and a packet, and what is read.
pub struct Row {
    pub name: &'static str,
    pub floor: &'static [u8],
    pub packet: &'static [u8],
    /// The curve up to behind its last point, none where the floor is unused.
    pub curve: &'static [u8],
    /// How many bits are left.
    pub left: u32,
}
""")
    print_books(FLOOR_BOOKS)
    cases = list(floor_cases())
    print(f'pub const ROWS: [Row; {len(cases)}] = [')
    for name, floor, packet in cases:
        bits = Bits(packet)
        ys = floor.values(bits, FLOOR_BOOKS)
        curve = [] if ys is None else floor.curve(floor.finals(ys), min(floor.xs[1] + 8, 72))
        left = 0 if ys is None else len(bits.bits) - bits.at
        print(f'Row {{ name: "{name}", floor: {text(floor.write())}, packet: {text(packet)}, curve: {text(curve)}, left: {left} }},')
    print('];')


RESIDUE_BOOKS = [
    Book(2, [4] * 16),
    Book(2, [1, 2, 3, 3], 2, 0xE2400003, 0x62400001, 3, 0, [0, 1, 5, 2, 7, 3, 4, 6]),
    Book(3, [3] * 8, 1, 0xE2600001, 0x62600001, 2, 1, [0, 3]),
    Book(1, [2, 2, 1], 1, 0x62400000, 0x63E00001, 4, 0, [0, 9, 15]),
]


def residue_cases():
    """Residues with what they show, a packet each, the wanted vectors and their size."""
    rng = random.Random(11)
    one, two = [2, None, None, None, None, None, None, None], [None, 1, None, 3, None, None, None, None]
    shapes = [
        ('in a row, the last group short, one vector not wanted',
         1, 1, 11, 2, [one, two, [3] * 8], [True, False, True], 12, 14),
        ('spread, begins past the vector',
         0, 14, 30, 3, [one], [True], 12, 4),
        ('interleaved, books in all eight passes, one of two wanted',
         2, 0, 12, 3, [[1, 2, 3, 1, 2, 3, 1, 2]], [False, True], 6, 30),
        ('spread, sums at the limit',
         0, 0, 12, 6, [[3] * 8, [2] * 8], [True, True], 12, 40),
        ('in a row, the packet ends within a partition',
         1, 0, 12, 12, [[3] * 8], [True], 12, 2),
        ('interleaved over three vectors, the packet ends within a partition',
         2, 0, 24, 12, [[2] * 8], [True, True, False], 8, 3),
    ]
    for name, kind, begin, end, size, cascades, wanted, count, length in shapes:
        residue = Residue(kind, begin, end, size, 0, cascades)
        yield name, residue, [rng.randrange(256) for _ in range(length)], wanted, count
    kinds = ['spread', 'in a row', 'interleaved']
    for number in range(6):
        kind = number % 3
        cascades = [[rng.choice([None, None, 1, 2, 3]) for _ in range(8)] for _ in range(rng.randrange(1, 5))]
        wanted = [rng.random() < 0.7 for _ in range(rng.randrange(1, 4))]
        size = rng.randrange(1, 5)
        count = rng.randrange(8, 14)
        begin = rng.randrange(0, 6)
        residue = Residue(kind, begin, begin + rng.randrange(8, 40), size, 0, cascades)
        name = f'{kinds[kind]}, {sum(wanted)} of {len(wanted)} wanted, partitions of {size} from {begin} on'
        yield name, residue, [rng.randrange(256) for _ in range(rng.choice([5, 10, 20]))], wanted, count


def print_residues():
    print_books(RESIDUE_BOOKS)
    for name, residue, packet, wanted, count in residue_cases():
        bits = Bits(packet)
        vectors = residue.decode(bits, RESIDUE_BOOKS, wanted, count)
        values = text(value for vector in vectors for value in vector)
        flags = text(str(w).lower() for w in wanted)
        print(f'Decoded {{ name: "{name}", kind: {residue.kind}, setup: {text(residue.write())}, '
              f'packet: {text(packet)}, wanted: {flags}, values: {values}, left: {len(bits.bits) - bits.at} }},')


if __name__ == '__main__':
    tables = {'codebooks': print_codebooks, 'floors': print_floors, 'residues': print_residues}
    if len(sys.argv) != 2 or sys.argv[1] not in tables:
        sys.exit(__doc__)
    tables[sys.argv[1]]()
