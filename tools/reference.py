#!/usr/bin/env python3
"""Makes the reference of promises and definitions from the sources, a page for each crate:

    tools/reference.py             writes docs/reference/
    tools/reference.py --check     changes nothing; names each page that is not as the sources have it
    tools/reference.py --print exb_link

A page has the head of the crate, its public items with their comments and clauses, its laws, and the definitions of specs/ with
their comments. It ends with status 1 if --check finds a page that is stale, missing or left over.
"""
import argparse
import os
import re
import signal
import sys

TOP = os.path.dirname(os.path.dirname(os.path.abspath(__file__)))
VERSION = "1"
ITEM = re.compile(r"( *)(pub )?(?:unsafe |const )*(fn|struct|enum|trait|type)\s+(\w+)")
IMPL = re.compile(r"impl(?:<.*?>)? (?:(\w[\w:<>]*) for )?(\w+)")
DEFINED = re.compile(r"(abbrev pub|unfoldable pub|pub abbrev|pub unfoldable|pub record|record pub|pub data|data pub|pub ruleset)\s+(.*)")
FENCE = "```"


def text(path):
    with open(path, encoding="utf-8") as file:
        return file.read()


def groups(top):
    """The groups of crates.txt in order, each with its crates and what each stands on."""
    found = {}
    for line in text(f"{top}/crates.txt").splitlines()[1:]:
        if line.startswith("# "):
            group = found.setdefault(line[2:].strip(), {})
        elif ":" in line:
            name, _, below = line.partition(":")
            group[name.strip()] = below.split()
    return found


def head(source):
    """The comment at the top of a file of code."""
    return "\n".join(it[3:].strip() for it in source.splitlines() if it.startswith("//!")).strip()


def first_sentence(words):
    """The first sentence of a text, on one line."""
    line = " ".join(words.split("\n\n")[0].split())
    found = re.match(r".*?\.(?= [A-Z`]|$)", line)
    return found[0] if found else line


class Item:
    """One public item: its place, what it is, its comment and its clauses."""

    def __init__(self, owner, kind, name, doc, lines):
        self.owner, self.kind, self.name, self.doc, self.lines = owner, kind, name, doc, lines

    def title(self):
        return f"{self.owner}::{self.name}" if self.owner else self.name


def body_starts(lines, at, indent):
    """The place of the line that ends a declaration: its `{` alone, a `{` or `;` at its end, as the formatter leaves them."""
    for place in range(at, len(lines)):
        line = lines[place]
        if line == indent + "{" or line.startswith(indent + "{}"):
            return place, False
        is_clause = re.match(r"\s*(requires|ensures|//|decreases)", line)
        if place == at or not is_clause:
            if line.endswith(" {") and line.startswith(indent) and not is_clause and is_closed(lines[at:place + 1]):
                return place, True
        if line.endswith(";") and "//" not in line and is_closed(lines[at:place + 1]):
            return place, True
    return len(lines) - 1, True


def is_closed(lines):
    """Whether all brackets of a declaration are closed but for the one with which its body begins."""
    whole = re.sub(r"//.*", "", "\n".join(lines))
    whole = whole[:-1] if whole.endswith("{") else whole
    return all(whole.count(a) == whole.count(b) for a, b in ("()", "[]", "{}"))


def declaration(lines, at, indent):
    """A declaration from its first line to its body, without the indent of its block."""
    end, is_inside = body_starts(lines, at, indent)
    found = lines[at:end + 1] if is_inside else lines[at:end]
    found = [it[len(indent):] if it.startswith(indent) else it for it in found]
    found[-1] = re.sub(r" *[{;]$", "", found[-1])
    return [it for it in found if it.strip()], end


def block_end(lines, at, indent):
    """The place of the `}` that closes a block which begins at a line."""
    for place in range(at, len(lines)):
        if lines[place].startswith(indent + "}"):
            return place
    return len(lines)


def comment_above(lines, at):
    """The doc comment above a line, over its attributes."""
    found, place = [], at - 1
    while place >= 0 and re.match(r"\s*(///|#\[|//(?!/))", lines[place]):
        if lines[place].strip().startswith("///"):
            found.insert(0, lines[place].strip()[3:].strip())
        place -= 1
    return "\n".join(found).strip()


def shown_of_model(lines, at):
    """What a type is seen as, by the block of its Model."""
    end = block_end(lines, at, "")
    whole = "\n".join(lines[at:end])
    return [" ".join(it.split()) for it in re.findall(r"ghost (?:Value|view|invariant) = \{.*?\};", whole, re.S)]


def shape(lines, at, kind):
    """A struct's or an enum's declaration with its public fields or its variants, and their comments."""
    if lines[at].rstrip().endswith(";"):
        return [lines[at].strip()]
    inner = lines[at + 1:block_end(lines, at, "")]
    if kind == "struct":
        inner = public_fields(inner)
    return [lines[at].strip(), *inner, "}"] if inner else [lines[at].strip().rstrip("{").strip()]


def public_fields(inner):
    found, above = [], []
    for line in inner:
        if line.strip().startswith("///"):
            above.append(line)
        elif line.strip().startswith("pub "):
            found += [*above, line]
            above = []
        elif not line.strip().startswith("#"):
            above = []
    return found


def items(source):
    """All items of a file of code that may be public: free ones, and those in blocks of a type or trait, by that name."""
    lines = source.splitlines()
    found, owner, opened, models = [], None, "", {}
    for at, line in enumerate(lines):
        if line.startswith("}"):
            owner, opened = None, ""
        block = IMPL.match(line)
        if block:
            owner, opened = block[2], "for" if block[1] else "impl"
            if block[1] == "Model":
                models[block[2]] = shown_of_model(lines, at)
        item = ITEM.match(line)
        if not item or len(item[1]) not in (0, 4) or opened == "for":
            continue
        indent, is_public, kind, name = item.groups()
        if not (is_public or (opened == "trait" and kind == "fn" and indent)):
            continue
        doc = comment_above(lines, at)
        if kind in ("struct", "enum"):
            found.append(Item(None, kind, name, doc, shape(lines, at, kind)))
        elif kind == "trait":
            owner, opened = name, "trait"
            found.append(Item(None, kind, name, doc, ghosts_of_trait(lines, at)))
        else:
            found.append(Item(owner if indent else None, kind, name, doc, declaration(lines, at, indent)[0]))
    for it in found:
        if it.kind in ("struct", "enum") and models.get(it.name):
            it.lines += ["", *models[it.name]]
    return found


def ghosts_of_trait(lines, at):
    """A trait's declaration and its ghost members, with their comments."""
    found = []
    for place in range(at + 1, block_end(lines, at, "")):
        if re.match(r"    (pub )?ghost \w+:", lines[place]):
            found += [f"    /// {it}" for it in comment_above(lines, place).split("\n") if it] + [lines[place]]
    return [lines[at].strip(), *found, "}"] if found else [lines[at].strip().rstrip("{").strip()]


class Module:
    """A module of a crate: its path, its text, which of its items are seen from outside (all, or some names), and its file."""

    def __init__(self, path, source, names, file):
        self.path, self.source, self.names, self.file = path, source, names, file

    def shown(self):
        for it in items(self.source):
            if self.names is None or (it.owner or it.name) in self.names:
                yield it


def below(folder, source):
    """The modules that a file declares, each with its text and whether it is public."""
    for is_public, name in re.findall(r"^(pub )?mod (\w+);", source, re.M):
        for path in f"{folder}/{name}.rt", f"{folder}/{name}/mod.rt":
            if os.path.isfile(path):
                yield name, text(path), bool(is_public), path


def offered(source, module):
    """The names that a file offers of one of its modules by `pub use`."""
    found = set()
    for group, single in re.findall(rf"^pub use (?:self::)?{module}::(?:\{{([^}}]*)\}}|(\w+));", source, re.M):
        found.update(it.strip().split(" as ")[0] for it in (group or single).split(",") if it.strip())
    return found


def modules(folder, source, prefix="", is_seen=True):
    """All modules below a file, in the order in which they are declared."""
    for name, inner, is_public, file in below(folder, source):
        path = f"{prefix}{name}"
        is_whole = is_seen and is_public
        yield Module(path, inner, None if is_whole else offered(source, name), file)
        yield from modules(f"{folder}/{name}", inner, f"{path}::", is_whole)


def definitions(source):
    """The head of a file of definitions, and its public ones: (name, how it is declared, comment, the lines of a record's fields)."""
    lines = source.splitlines()
    at = next((i for i, it in enumerate(lines) if not it.startswith("--")), len(lines))
    top = " ".join(it.lstrip("- ").strip() for it in lines[:at])
    found, above, inside = [], [], None
    for line in lines[at:]:
        defined = DEFINED.match(line)
        inside = inside if line.startswith("  ") else None
        if line.startswith("--"):
            above.append(line.lstrip("- ").strip())
        elif defined:
            declared = re.sub(r"\s*(where|:\s*Type \d+ where)?$", "", defined[2])
            found.append((re.match(r"\S+", declared)[0], f"{kind_of(defined[1])}{declared}", " ".join(above).strip(), []))
            above = []
            inside = found[-1][3] if kind_of(defined[1]) in ("record ", "data ") else None
        elif inside is not None and line.startswith("  "):
            inside.append(line[2:])
        else:
            above = []
    return top, found


def kind_of(words):
    kind = words.replace("pub", "").strip()
    return "" if kind in ("abbrev", "unfoldable") else kind + " "


def item_part(it):
    yield f"### `{it.title()}`"
    yield ""
    if it.doc:
        yield from (it.doc, "")
    yield from (FENCE, *it.lines, FENCE, "")


def code_part(title, found):
    """The items of some modules, under one heading."""
    shown = [(it, list(it.shown())) for it in found]
    if any(inside for _, inside in shown):
        yield from (f"## {title}", "")
    for module, inside in shown:
        if inside:
            file = f"../../crates/{module.file.split('/crates/', 1)[1]}"
            yield from (f"*Module [`{module.path}`]({file})*" + (f": {head(module.source)}" if head(module.source) else ""), "")
        for it in inside:
            yield from item_part(it)


def definition(_, declared, comment, fields):
    """One definition as a point of a list, with the fields of a record below it."""
    if comment or fields:
        yield f"- `{declared}`" + (f": {comment}" if comment else "")
    if fields:
        yield from ("", *(f"  {it}" for it in (FENCE, *fields, FENCE)), "")


def definitions_part(crate, folder):
    """The definitions of a crate's specs/, a heading for each file."""
    specs = os.path.join(folder, "specs")
    paths = sorted(os.path.relpath(os.path.join(at, it), specs) for at, _, names in os.walk(specs) for it in names if it.endswith(".antt"))
    if paths:
        yield from ("## Definitions", "")
    for path in paths:
        top, found = definitions(text(os.path.join(specs, path)))
        yield from (f"### [{path[:-5]}](../../crates/{crate}/specs/{path})", "")
        if top:
            yield from (top, "")
        yield from (line for it in found for line in definition(*it))
        bare = [f"`{name}`" for name, _, comment, fields in found if not comment and not fields]
        yield from ("", f"Without a comment: {', '.join(bare)}." if bare else "", "")


def page(top, crate, needs, crates):
    """The page of one crate."""
    folder = f"{top}/crates/{crate}"
    root = next(it for it in (f"{folder}/src/lib.rt", f"{folder}/src/main.rt") if os.path.isfile(it))
    source = text(root)
    parts = [Module(crate, re.sub(r"^//!.*\n", "", source, flags=re.M), None, root), *modules(f"{folder}/src", source)]
    is_law = re.compile(r"(^|::)(?:\w+_)?laws(::|$)").search
    yield from (f"# {crate}", "", "*Made by `tools/reference.py` from the sources. Don't edit it.*", "")
    yield from (head(source), "")
    stands = [f"[{it}]({it}.md)" if it in crates else f"`{it}`" for it in needs]
    yield from ("Stands on: " + (", ".join(stands) if stands else "no other crate") + ".", "")
    yield from code_part("Public items", [it for it in parts if not is_law(it.path)])
    yield from code_part("Laws", [it for it in parts if is_law(it.path)])
    yield from definitions_part(crate, folder)


def index(top, found):
    yield from ("# Reference", "", "*Made by `tools/reference.py` from the sources. Don't edit it.*", "")
    yield "A page for each crate: what it is, its public items with their clauses, its laws, and its definitions."
    yield from ("[What is proved](../what-is-proved.md) says what all of them come to.", "")
    for group, crates in found.items():
        yield from (f"## {group[0].upper()}{group[1:]}", "", "| Crate | What it is |", "|---|---|")
        for crate in crates:
            root = next(it for it in ("lib.rt", "main.rt") if os.path.isfile(f"{top}/crates/{crate}/src/{it}"))
            yield f"| [{crate}]({crate}.md) | {first_sentence(head(text(f'{top}/crates/{crate}/src/{root}')))} |".replace("\n", " ")
        yield ""


def reference(top):
    """All pages, by name."""
    found = groups(top)
    crates = {it for group in found.values() for it in group}
    made = {"README.md": index(top, found)}
    made |= {f"{it}.md": page(top, it, needs, crates) for group in found.values() for it, needs in group.items()}
    return {name: re.sub(r"\n{3,}", "\n\n", "\n".join(lines)).strip() + "\n" for name, lines in made.items()}


def differences(made, folder):
    """What keeps a folder from being the reference, a line each."""
    there = {it for it in os.listdir(folder) if it.endswith(".md")} if os.path.isdir(folder) else set()
    for name in sorted(made):
        if name not in there:
            yield f"docs/reference/{name} is missing: tools/reference.py makes it"
        elif text(f"{folder}/{name}") != made[name]:
            yield f"docs/reference/{name} is not as the sources have it: tools/reference.py makes it anew"
    yield from (f"docs/reference/{it} is of no crate" for it in sorted(there - set(made)))


def write(made, folder):
    os.makedirs(folder, exist_ok=True)
    for name in set(os.listdir(folder)) - set(made):
        if name.endswith(".md"):
            os.remove(f"{folder}/{name}")
    for name, words in made.items():
        with open(f"{folder}/{name}", "w", encoding="utf-8") as file:
            file.write(words)


def main():
    # A reader that ends early, as head does, ends this too.
    signal.signal(signal.SIGPIPE, signal.SIG_DFL)
    parser = argparse.ArgumentParser(description=__doc__, formatter_class=argparse.RawDescriptionHelpFormatter)
    parser.add_argument("--check", action="store_true", help="change nothing, and name each page that is stale")
    parser.add_argument("--print", metavar="CRATE", help="print the page of one crate")
    parser.add_argument("--top", default=TOP, help="the folder of the project (%(default)s)")
    parser.add_argument("--version", action="version", version=f"reference {VERSION}")
    asked = parser.parse_args()
    if not os.path.isfile(f"{asked.top}/crates.txt"):
        sys.exit(f"reference: {asked.top} has no crates.txt")
    folder = f"{asked.top}/docs/reference"
    made = reference(asked.top)
    if asked.print:
        if f"{asked.print}.md" not in made:
            sys.exit(f"reference: crates.txt has no crate {asked.print}")
        print(made[f"{asked.print}.md"], end="")
    elif asked.check:
        found = list(differences(made, folder))
        print(*found, sep="\n", end="\n" if found else "")
        sys.exit(1 if found else 0)
    else:
        write(made, folder)


if __name__ == "__main__":
    main()
