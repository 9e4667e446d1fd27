#!/usr/bin/env python3
"""Holds the documents to what they cite. It ends with status 1 where one of these is not so:

- a block of code below a line `<!-- from PATH -->` stands word for word, in whole lines, in that file;
- a path in backticks below crates/, docs/, tools/ or films/ is there (a `*` stands for any name), and so is the
  file of a link;
- a constant in backticks, as `MOST_LINKS`, stands in a source or a tool;
- specs named as `crate` (`Name`, ..) are specs of that crate;
- in a table whose second column is a crate, the calls of the first are that crate's; docs/ARCHITECTURE.md names every crate;
- in docs/PROVED.md a row's calls and clauses stand in a source of the crates that its section names."""
import glob
import os
import re
import sys

ROOT = os.path.join(os.path.dirname(os.path.abspath(__file__)), '..')
DOCUMENTS = ['README.md', 'CONTRIBUTING.md', 'CHANGELOG.md', 'docs/*.md']
CRATE_SPECS = re.compile(r'`(\w+)` (?:\(|\| )((?:`[A-Z]\w*`[,;]? ?)+)')


def read(path):
    with open(os.path.join(ROOT, path), encoding='utf-8') as file:
        return file.read()


def is_there(path):
    return bool(glob.glob(os.path.join(ROOT, path)))


def line_of(text, place):
    return text.count('\n', 0, place) + 1


def blocks(text):
    """Code that must stand in a file."""
    for found in re.finditer(r'<!-- from (\S+) -->\n+```\w*\n(.*?)```', text, re.S):
        path, code = found.groups()
        if not is_there(path):
            yield found.start(), f'{path} is not there'
        elif '\n' + code not in '\n' + read(path):
            yield found.start(), f'this block does not stand in {path}'


def paths(text, folder):
    """Paths and links."""
    for found in re.finditer(r'`((?:crates|docs|tools|films)/[^`\s]*)`', text):
        if not is_there(found.group(1)):
            yield found.start(), f'{found.group(1)} is not there'
    for found in re.finditer(r'\]\(([^)#:\s]+)\)', text):
        if not is_there(os.path.join(folder, found.group(1))):
            yield found.start(), f'the link leads to {found.group(1)}, which is not there'


def names(text, sources):
    """Constants, and specs of a crate."""
    for found in re.finditer(r'`([A-Z]+_[A-Z_]+)`', text):
        if not re.search(rf'\b{found.group(1)}\b', sources):
            yield found.start(), f'no source or tool has {found.group(1)}'
    for found in CRATE_SPECS.finditer(text):
        crate = found.group(1)
        if is_there(f'crates/{crate}/specs'):
            for name in re.findall(r'`(\w+)`', found.group(2)):
                if not is_there(f'crates/{crate}/specs/{name}.antt'):
                    yield found.start(), f'{crate} has no specs {name}'


def source_of(crates):
    """The sources of crates, without their tests."""
    found = [it for crate in crates for it in glob.glob(os.path.join(ROOT, f'crates/{crate}/src/**/*.rt'), recursive=True)]
    return '\n'.join(read(os.path.relpath(it, ROOT)) for it in sorted(found) if 'tests' not in it)


def has_call(source, call):
    return re.search(rf'\b(fn|struct|trait) {call.split("::")[-1]}\b', source)


def tables(text):
    """Calls beside their crate."""
    for row in re.finditer(r'^\|([^|]*)\| `(\w+)` \|', text, re.M):
        calls, crate = row.groups()
        if is_there(f'crates/{crate}/src'):
            for call in re.findall(r'`([\w:]+)`', calls):
                if not has_call(source_of([crate]), call):
                    yield row.start(), f'{crate} has no {call}'


def crates(text):
    for folder in sorted(os.listdir(os.path.join(ROOT, 'crates'))):
        if f'`{folder}`' not in text:
            yield 0, f'the crate {folder} is not named'


def proved(text):
    """The calls and clauses of docs/PROVED.md."""
    for section in re.finditer(r'^## (.*)\n((?:(?!^## ).*\n)*)', text, re.M):
        named = re.findall(r'`(\w+)`', section.group(1))
        if not named:
            continue
        source = source_of(named)
        for row in re.finditer(r'^\|(.*)\|(.*)\|(.*)\|$', section.group(2), re.M):
            place = section.start(2) + row.start()
            for call in re.findall(r'`([\w:]+)`', row.group(1)):
                if not has_call(source, call):
                    yield place, f'{" and ".join(named)}: there is no {call}'
            for clause in re.findall(r'`(\w+)`', row.group(3)):
                if not re.search(rf'\bensures\*? {clause}\b', source):
                    yield place, f'{" and ".join(named)}: there is no clause {clause}'


def main():
    passed = True
    sources = source_of(['*']) + '\n'.join(
        read(os.path.relpath(it, ROOT)) for it in glob.glob(os.path.join(ROOT, 'tools/*.sh')))
    for path in sorted(os.path.relpath(it, ROOT) for form in DOCUMENTS for it in glob.glob(os.path.join(ROOT, form))):
        text = read(path)
        wrong = [*blocks(text), *paths(text, os.path.dirname(path)), *names(text, sources), *tables(text)]
        if path == 'docs/ARCHITECTURE.md':
            wrong += crates(text)
        if path == 'docs/PROVED.md':
            wrong += proved(text)
        for place, what in sorted(wrong):
            print(f'{path}:{line_of(text, place)}: {what}')
            passed = False
    return 0 if passed else 1


if __name__ == '__main__':
    sys.exit(main())
