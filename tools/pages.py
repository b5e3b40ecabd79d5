#!/usr/bin/env python3
"""Lists what the pages say that isn't so by the sources, in seconds:

    tools/pages.py
    tools/pages.py --depths    prints ARCHITECTURE's picture of how deep each crate stands, as crates.txt has it

links that lead nowhere, names in what-is-proved, ARCHITECTURE and glossary that no source has, laws and clauses of `run` that
the reference doesn't have, crates that ARCHITECTURE doesn't have under their heading of crates.txt, a picture of depths that crates.txt doesn't give, a README that is longer
or wider than it may be, and paths of a machine. It prints a line each, and ends with status 1 where there is one. It knows names,
and not what is said of them.
"""
import argparse
import functools
import os
import re
import sys
import textwrap

TOP = os.path.dirname(os.path.dirname(os.path.abspath(__file__)))
LINK = re.compile(r'(?<!!)\[[^\]]+\]\(([^)\s]+)\)', re.S)
LAW = re.compile(r'^pub fn (\w+)', re.M)
NAME = re.compile(r"[A-Za-z_]\w*")
MACHINE = re.compile(r'(?<![\w.~])/(?:work|root|home|opt|tmp|Users)/')
WIDE, LONG = 100, 140
# The pages of which each name between backquotes is one of the sources.
NAMING = ['docs/what-is-proved.md', 'docs/glossary.md', 'docs/ARCHITECTURE.md']


def text(path):
    with open(os.path.join(TOP, path), encoding='utf-8') as file:
        return file.read()


def files(where, *endings):
    for folder, folders, names in os.walk(os.path.join(TOP, where)):
        folders[:] = sorted(it for it in folders if it not in ('out', 'data', '.git'))
        for name in sorted(names):
            if name.endswith(endings):
                yield os.path.relpath(os.path.join(folder, name), TOP)


def anchor(heading):
    """The anchor of a heading, as viewers of Markdown make it."""
    return re.sub(r'[^\w\- ]', '', heading.strip().lower()).replace(' ', '-')


@functools.cache
def anchors(page):
    return {anchor(it) for it in re.findall(r'^#+ (.*)$', text(page), re.M)}


def links(page):
    said = re.sub(r'^ *```.*?^ *```|(?<!\[)`[^`\n]*`(?!\])', '', text(page), flags=re.S | re.M)
    for link in LINK.findall(said):
        if '://' in link:
            continue
        file, _, part = link.partition('#')
        there = os.path.normpath(os.path.join(os.path.dirname(page), file)) if file else page
        if not os.path.exists(os.path.join(TOP, there)):
            yield f'{page}: {link} leads nowhere'
        elif part and part not in anchors(there):
            yield f'{page}: {link} has no such heading'


@functools.cache
def sources(crate):
    """All words of a crate's sources, and the names of its files."""
    found = {crate}
    for path in files(f'crates/{crate}', '.rt', '.antt'):
        found.update(NAME.findall(text(path)))
        found.update(os.path.splitext(path)[0].split(os.sep)[2:])
    return found


def spoken(part):
    """The names between backquotes, but for the files that are named there, and outside of pictures."""
    for quoted in re.findall(r'`([^`]+)`', re.sub(r'```.*?```', '', part, flags=re.S)):
        if not re.search(r'[\w.]+\.(?:rt|md|py|antt|toml|txt|pcap)\b', quoted):
            yield from (it for it in NAME.findall(quoted) if len(it) > 2)


def promises(crates):
    """Each law, and each clause of `run`, stands in the reference page of its crate; and what is-proved names is there."""
    for crate in crates:
        page = text(f'docs/reference/{crate}.md') if os.path.exists(os.path.join(TOP, f'docs/reference/{crate}.md')) else ''
        headings = set(re.findall(r'^### `(?:\w+::)?(\w+)`$', page, re.M))
        for path in (it for it in files(f'crates/{crate}/src', '.rt') if re.search(r'laws(?:\.rt|/)', it)):
            yield from (f'docs/reference/{crate}.md: law {law} is missing' for law in LAW.findall(text(path)) if law not in headings)
    run = text('crates/exb_run/src/top.rt').split('\npub fn run<')[1]
    page = text('docs/reference/exb_run.md').partition('\n### `run`\n')[2].partition('\n### ')[0]
    clauses = re.findall(r'^    ensures (\w+) \{', run, re.M)
    yield from (f'docs/reference/exb_run.md: clause {it} of run is missing' for it in clauses if f'ensures {it} {{' not in page)
    if not clauses:
        yield 'crates/exb_run/src/top.rt: run has no clause'


def definitions(crates):
    everything = set().union(*map(sources, crates)) | {'specs', 'src', 'proofs', 'antt', 'must', 'fail', 'MODULE', 'FUNCTION'}
    for page in NAMING:
        yield from (f'{page}: no {it} anywhere' for it in spoken(text(page)) if it not in everything)


def groups():
    """The groups of crates.txt, each with its crates."""
    found = {}
    for line in text('crates.txt').splitlines()[1:]:
        if line.startswith('# '):
            group = found.setdefault(line[2:].strip().lower(), [])
        elif ':' in line:
            group.append(line.split(':')[0].split()[0])
    return found


def architecture():
    page = text('docs/ARCHITECTURE.md')
    parts = {it.split('\n')[0].strip().lower(): it for it in page.split('\n### ')[1:]}
    for group, crates in groups().items():
        for crate in crates:
            if f'`{crate}`' not in parts.get(group, ''):
                yield f'docs/ARCHITECTURE.md: {crate} does not stand under {group}'


def depths():
    """How deep each crate stands, but for those of tests: crates of definitions and laws alone, and those with code, deepest last."""
    needs, meaning = {}, {}
    for line in text('crates.txt').splitlines()[1:]:
        if line.startswith('# '):
            group = line[2:].strip().lower()
        elif ':' in line and group != 'tests':
            name, _, below = line.partition(':')
            needs[name], meaning[name] = below.split(), group.endswith(': meaning')

    @functools.cache
    def depth(name):
        return 1 + max((depth(it) for it in needs[name] if it in needs), default=0)

    rows = [f' depth   {"definitions and laws alone":45}code']
    for at in range(max(map(depth, needs)), 0, -1):
        both = [textwrap.wrap('  '.join(it for it in needs if depth(it) == at and meaning[it] == alone), width, break_long_words=False) for alone, width in ((True, 44), (False, 72))]
        for line in range(max(map(len, both))):
            left, right = (it[line].replace(' exb', '  exb').replace('   ', '  ') if line < len(it) else '' for it in both)
            rows.append(f'{at if not line else "":>4}     {left:45}{right}'.rstrip())
    return '\n'.join(rows)


def picture():
    if depths() not in text('docs/ARCHITECTURE.md'):
        yield 'docs/ARCHITECTURE.md: its picture of depths is not that of crates.txt (tools/pages.py --depths prints it)'


def readme():
    lines = text('README.md').splitlines()
    if len(lines) > LONG:
        yield f'README.md: {len(lines)} lines'
    # Tables and what is printed may be wider.
    wide = (at for at, it in enumerate(lines, 1) if len(it) > WIDE and not it.startswith(('|', '    ')))
    yield from (f'README.md: line {at} has {len(lines[at - 1])} columns' for at in wide)


def main():
    parser = argparse.ArgumentParser(description=__doc__, formatter_class=argparse.RawDescriptionHelpFormatter)
    parser.add_argument('--depths', action='store_true', help='the picture of depths alone')
    if parser.parse_args().depths:
        print(depths())
        return
    crates = [it for crates in groups().values() for it in crates]
    pages = [it for it in files('.', '.md')]
    found = [it for page in pages for it in links(page)]
    found += [f'{page}: a path of a machine' for page in [*pages, 'docs/exbr.1'] if MACHINE.search(text(page))]
    found += [*promises(crates), *definitions(crates), *architecture(), *picture(), *readme()]
    print(*found, sep='\n', end='\n' if found else '')
    sys.exit(1 if found else 0)


if __name__ == '__main__':
    main()
