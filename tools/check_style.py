#!/usr/bin/env python3
"""Checks what a program can of the style that docs/ARCHITECTURE.md sets:

- lines of sources and specs have at most 100 columns, save imports;
- a function has at most six arguments and forty lines;
- each item outside tests has a comment `///`, save methods that a trait asks for;
- error texts begin in lower case and have no full stop, and want of memory is `out of memory`.

Give crates' names, or none for all. It ends with status 1 where something is past a measure."""
import os
import re
import sys

ROOT = os.path.join(os.path.dirname(os.path.abspath(__file__)), '..', 'crates')
COLUMNS, ARGUMENTS, LINES = 100, 6, 40
# Lines that the kit's formatter keeps whole.
UNBROKEN = ('ghost use', 'use ', 'pub use', '#[tactic(')
# What a method is called on is no argument.
RECEIVERS = {'&self', '&mut self', 'self', 'mut self'}
FUNCTION = re.compile(r'^( *)(?:pub(?:\(\w+\))? )?(?:const )?fn (\w+)', re.M)
ITEM = re.compile(r'^( *)(?:pub(?:\(\w+\))? )?(?:fn|struct|enum|trait|const|static|type) (\w+)')
ERROR = re.compile(r'#\[error\("([^"]*)"\)\]\n\s*(\w+)')


def sources(crate):
    for folder in ('src', 'specs'):
        for place, _, names in os.walk(os.path.join(ROOT, crate, folder)):
            for name in sorted(names):
                if name.endswith(('.rt', '.antt')):
                    yield os.path.join(place, name)


def split_arguments(text):
    """The arguments of a function, which commas at depth 0 part."""
    parts, depth, part = [], 0, ''
    for c in text:
        depth += (c in '([<') - (c in ')]>')
        if c == ',' and depth == 0:
            parts.append(part)
            part = ''
        else:
            part += c
    return [p.strip() for p in parts + [part] if p.strip()]


def closing(text, start):
    """The place of the parenthesis that closes the one at a place."""
    depth = 0
    for i in range(start, len(text)):
        depth += (text[i] == '(') - (text[i] == ')')
        if depth == 0:
            return i
    return len(text) - 1


def body_lines(text, start, indent):
    """How many lines the body has of a function whose arguments close at a place; 0 where it has none."""
    rest = text[start:]
    following = FUNCTION.search(rest)
    rest = rest[:following.start()] if following else rest
    signature = rest[:rest.find('\n') + 1]
    opening = len(signature) if signature.endswith('{\n') else None
    if opening is None:
        found = re.search(rf'^{indent}\{{\n', rest, re.M)
        opening = found.end() if found else None
    end = re.search(rf'^{indent}\}}', rest[opening:], re.M) if opening is not None else None
    return rest.count('\n', opening, opening + end.start()) if end else 0


def widths(lines):
    for number, line in enumerate(lines, 1):
        if len(line) > COLUMNS and not line.lstrip().startswith(UNBROKEN):
            yield number, f'{len(line)} columns'


def functions(text):
    for found in FUNCTION.finditer(text):
        number = text.count('\n', 0, found.start()) + 1
        opening = text.index('(', found.end())
        end = closing(text, opening)
        arguments = [a for a in split_arguments(text[opening + 1:end]) if a not in RECEIVERS]
        if len(arguments) > ARGUMENTS:
            yield number, f'{found.group(2)} has {len(arguments)} arguments'
        count = body_lines(text, end, found.group(1))
        if count > LINES:
            yield number, f'{found.group(2)} has {count} lines'


def comments(lines):
    """Items without a comment. The methods of an `impl TRAIT for TYPE` need none, and what is behind `#[cfg(test)]`."""
    of_trait = False
    for number, line in enumerate(lines, 1):
        if line == '#[cfg(test)]' and not lines[number].endswith(';'):
            return
        if re.match(r'impl\b', line):
            of_trait = bool(re.match(r'impl(?:<.*?>)? .*\bfor\b', line)) or bool(re.match(r'impl.*\bModel\b', line))
        elif line and not line[0].isspace() and line[0] not in '}#/':
            of_trait = False
        item = ITEM.match(line)
        if not item or (of_trait and item.group(1)) or item.group(2) == 'main':
            continue
        above = number - 2
        while above >= 0 and lines[above].lstrip().startswith('#['):
            above -= 1
        if above < 0 or not lines[above].lstrip().startswith('///'):
            yield number, f'{item.group(2)} has no comment'


def errors(text):
    for found in ERROR.finditer(text):
        said, variant = found.groups()
        number = text.count('\n', 0, found.start()) + 1
        if said[:1].isupper() or said.endswith('.'):
            yield number, f'the error text "{said}" begins in upper case, or has a full stop'
        if variant == 'Memory' and said != 'out of memory':
            yield number, f'want of memory is "{said}" in place of "out of memory"'


def check(path):
    with open(path, encoding='utf-8') as file:
        text = file.read()
    lines = text.split('\n')
    yield from widths(lines)
    if path.endswith('.rt'):
        yield from functions(text)
        name = os.path.relpath(path, ROOT)
        if 'tests' not in name and not name.startswith('test_'):
            yield from comments(lines)
            yield from errors(text)


def main(crates):
    passed = True
    for crate in crates or sorted(os.listdir(ROOT)):
        for path in sources(crate):
            for number, what in sorted(check(path)):
                print(f'{os.path.relpath(path, os.path.join(ROOT, ".."))}:{number}: {what}')
                passed = False
    return 0 if passed else 1


if __name__ == '__main__':
    sys.exit(main(sys.argv[1:]))
