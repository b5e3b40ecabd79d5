#!/usr/bin/env python3
"""Lists what a merge or a move left apart, in seconds and before any proof:

    tools/seams.py

names that a definition or proof imports and no file declares, names that code imports and its crate doesn't have, crates
that are used and not listed in crates.txt or are listed twice, proofs of functions that aren't there, and edits whose text isn't there once.
It prints a line each, and ends with status 1 where there is one. It knows names and no types, so it proves nothing.
"""
import argparse
import os
import re
import sys

TOP = os.path.dirname(os.path.dirname(os.path.abspath(__file__)))
CRATES = os.path.join(TOP, 'crates')
USED_LEMMAS = re.compile(r'^\s*(?:ghost )?use Rattle\.(exb_\w+)\.(specs|proofs)\.([\w.]+?)(?:\.\{([^}]*)\}| as |;|$)', re.M)
USED_CODE = re.compile(r'^\s*(?:pub )?use (exb_\w+)((?:::\w+)*)(?:::\{([^}]*)\})?;', re.M)


def files(crate, *endings):
    for folder, folders, names in os.walk(os.path.join(CRATES, crate)):
        folders[:] = [f for f in folders if f != 'out']
        for name in names:
            if f'/{name}'.endswith(endings):
                yield os.path.join(folder, name)


def text(path):
    with open(path, encoding='utf-8') as file:
        return file.read()


def listed():
    """What each crate stands on, and the crates that crates.txt has on two lines."""
    needs, twice = {}, []
    for line in text(os.path.join(TOP, 'crates.txt')).splitlines():
        if line.strip() and not line.startswith('#'):
            name, libraries = line.split(':')
            twice += [name.strip()] if name.strip() in needs else []
            needs[name.strip()] = libraries.split()
    return needs, twice


def lemma_file(crate, kind, module):
    parts = module.split('.')
    for count in range(len(parts), 0, -1):
        path = os.path.join(CRATES, crate, kind, *parts[:count]) + '.antt'
        if os.path.exists(path):
            return '\n'.join(line for line in text(path).splitlines() if not line.startswith('use '))
    return None


def names_in(group):
    for name in (group or '').split(','):
        name = name.strip().split(' as ')[0]
        if name and '◌' not in name:
            yield name


def declares(source, name):
    word = re.escape(name)
    return re.search(r'^\s*(?:pub\s+|abbrev\s+|unfoldable\s+|record\s+|data\s+)*' + word + r'\s*(:|\(|\{|where\b)', source, re.M) \
        or re.search(r'^\s*(?:pub\s+)?ruleset\s+' + word + r'\b', source, re.M)


def lemma_seams(crate):
    for path in files(crate, '.antt', '.rt'):
        for of, kind, module, names in USED_LEMMAS.findall(text(path)):
            if module.startswith(('declared', 'contracts')) or module.endswith(('.Goals', '.Given')):
                continue
            source = lemma_file(of, kind, module)
            if source is None:
                yield f'{path}: no file {of} {kind} {module}'
                continue
            for name in names_in(names):
                if not declares(source, name):
                    yield f'{path}: {of} {kind} {module} has no {name}'


def code_seams(crate, needs, sources):
    for path in files(crate, '.rt', '.antt'):
        source = text(path)
        for other in sorted(set(re.findall(r'\bexb_\w+\b', re.sub(r'//.*|--.*', '', source)))):
            if other in sources and other != crate and other not in needs[crate]:
                yield f'{path}: {other} is not in the line of {crate} in crates.txt'
        for of, way, names in USED_CODE.findall(source):
            last = [part for part in way.split('::') if part][-1:]
            for name in list(names_in(names)) or last:
                name = name.split('::')[-1]
                found = rf'\bpub (?:fn|struct|enum|const|trait|type|mod) {name}\b|pub use [^;]*\b{name}\b'
                if name != 'self' and not re.search(found, sources.get(of, ''), re.S):
                    yield f'{path}: {of} has no {name}'


def proof_seams(crate, source):
    for path in files(os.path.join(crate, 'proofs'), '/Answers.antt', '/Invariants.antt', '/Proof.antt'):
        function = os.path.basename(os.path.dirname(path)).split('+')[0]
        if not re.search(rf'\bfn {re.escape(function)}\b', source):
            yield f'{path}: no function {function}'


def edit_seams(crate):
    for path in files(crate, '.edit'):
        sources, current = {}, None
        for line in text(path).splitlines():
            key, _, rest = line.partition(': ')
            if key == 'file':
                current = os.path.join(CRATES, crate, rest.strip())
                sources.setdefault(current, text(current) if os.path.exists(current) else '')
            elif key == 'old':
                old = rest
                if sources[current].count(old) != 1:
                    yield f'{path}: its text stands {sources[current].count(old)} times'
            elif key == 'new':
                sources[current] = sources[current].replace(old, rest)


def main():
    argparse.ArgumentParser(description=__doc__, formatter_class=argparse.RawDescriptionHelpFormatter).parse_args()
    needs, twice = listed()
    sources = {crate: '\n'.join(text(path) for path in files(crate, '.rt')) for crate in sorted(os.listdir(CRATES))}
    seams = [f'crates.txt has {crate} on two lines' for crate in twice]
    for crate, source in sources.items():
        if crate not in needs:
            seams.append(f'crates.txt has no line for {crate}')
            continue
        seams += lemma_seams(crate)
        seams += code_seams(crate, needs, sources)
        seams += proof_seams(crate, source)
        seams += edit_seams(crate)
    for seam in seams:
        print(seam.replace(TOP + os.sep, ''))
    return 1 if seams else 0


if __name__ == '__main__':
    sys.exit(main())
