#!/usr/bin/env python3
"""Checks functions of a crate over the contracts of the crates below it, before any of these is proved:

    tools/over_contracts.py exb_play feed::Feed::gather game::Game::play_all

In a folder of its own (named by OVER=FOLDER, else under the system's folder for such) each crate below is written with its
types, contracts, definitions and lemmas, and with bodies that are never reached. The functions that are named are checked there as they stand,
past open goals, each of which is printed; what they call in their own crate is checked with them. It proves nothing: the end of a function is `no
holes`, or that it calls what isn't proved. A second run over the same crates takes a minute or two; `--anew` writes the
folder once more after something below has changed.
"""
import argparse
import os
import re
import shutil
import subprocess
import sys
import tempfile

TOP = os.path.dirname(os.path.dirname(os.path.abspath(__file__)))
FOLDER = os.environ.get("OVER", os.path.join(tempfile.gettempdir(), "exbr-over-contracts"))
FUNCTION = re.compile(r"\bfn\s+[A-Za-z_0-9]+")
CLAUSE = re.compile(r"(requires|ensures|ghost)\*?(\s+\w+)?(\s*:)?$")
CHARACTER = re.compile(r"'(\\.[^']*|[^'\\])'")
PROOFS = ("Answers.antt", "Invariants.antt", "Proof.antt")


def crates():
    """What each crate stands on."""
    needs = {}
    with open(f"{TOP}/crates.txt", encoding="utf-8") as file:
        for line in file:
            name, colon, rest = line.split("#")[0].partition(":")
            if colon:
                needs[name.strip()] = rest.split()
    return needs


def below(crate, needs):
    """The crates of this repository below one, lowest first, and it last."""
    order = []

    def visit(name):
        if name in needs and name not in order:
            for need in needs[name]:
                visit(need)
            order.append(name)

    visit(crate)
    return order


def behind(text, at):
    """The place behind a comment, string or character that stands here, else here."""
    if text.startswith("//", at):
        end = text.find("\n", at)
        return len(text) if end < 0 else end
    if text[at] == '"':
        end = at + 1
        while text[end] != '"':
            end += 2 if text[end] == "\\" else 1
        return end + 1
    found = CHARACTER.match(text, at)
    return found.end() if found else at


def closed(text, at):
    """The place behind the bracket that closes the one that stands here."""
    depth = 0
    while True:
        if (end := behind(text, at)) != at:
            at = end
            continue
        depth += (text[at] in "([{") - (text[at] in ")]}")
        at += 1
        if depth == 0:
            return at


def contract(text, at):
    """Behind the parameters that open here: the place where the contract ends, and that where the function does."""
    at = clause = closed(text, at)
    while True:
        if (end := behind(text, at)) != at:
            at = end
        elif text[at] == ";":
            return at + 1, at + 1
        elif text[at] == "{":
            said = re.sub(r"//[^\n]*", "", text[clause:at]).strip()
            end = closed(text, at)
            if not CLAUSE.search(said):
                return at, end
            at = clause = end
        else:
            at += 1


def without_bodies(text):
    """The text of a file, with no body of a function."""
    parts, at = [], 0
    while at < len(text):
        end = behind(text, at)
        found = FUNCTION.match(text, at) if end == at and not text[at - 1 : at].isidentifier() else None
        if found:
            says, end = contract(text, text.index("(", found.end()))
            parts.append(text[at:says] + ("" if says == end else "{\n    unreachable!()\n}"))
        else:
            end = max(end, at + 1)
            parts.append(text[at:end])
        at = end
    return "".join(parts)


def write(crate):
    """A crate below, in the folder."""
    for part in ("src", "specs", "proofs"):
        for folder, _, names in os.walk(f"{TOP}/crates/{crate}/{part}"):
            to = f"{FOLDER}/{crate}/{os.path.relpath(folder, f'{TOP}/crates/{crate}')}"
            for name in names:
                if part != "proofs" or name not in PROOFS:
                    os.makedirs(to, exist_ok=True)
                    with open(f"{folder}/{name}", encoding="utf-8") as file:
                        text = file.read()
                    with open(f"{to}/{name}", "w", encoding="utf-8") as file:
                        file.write(without_bodies(text) if name.endswith(".rt") else text)


def main():
    parser = argparse.ArgumentParser(description=__doc__, formatter_class=argparse.RawDescriptionHelpFormatter)
    parser.add_argument("--anew", action="store_true", help="write what lies below once more")
    parser.add_argument("crate", metavar="CRATE")
    parser.add_argument("functions", metavar="FUNCTION", nargs="+", help="by its path in the crate, as feed::Feed::gather")
    asked = parser.parse_args()
    crate, functions, needs = asked.crate, asked.functions, crates()
    if crate not in needs:
        parser.error(f"crates.txt has no crate {crate}")
    order = below(crate, needs)[:-1]
    kit = os.path.dirname(subprocess.run(["rt", "doc"], capture_output=True, text=True, check=True).stdout.split()[0])
    for name in order:
        if asked.anew or not os.path.isdir(f"{FOLDER}/{name}"):
            shutil.rmtree(f"{FOLDER}/{name}", ignore_errors=True)
            write(name)
    command = [f"{kit}/bin/rattle", "check", "--crate-name", crate, "src/lib.rt", "--allow-holes", "--incremental", f"{FOLDER}/kept"]
    for name in order:
        command += ["--lib", f"{name}:{','.join(['std', *needs[name]])}={FOLDER}/{name}/src/lib.rt"]
    for name in ["std", *sorted({need for name in [*order, crate] for need in needs[name]} - set(needs))]:
        command += ["--extern", f"{name}={kit}/rlibs/{name}.rlib"]
    command += ["-L", f"dependency={kit}/rlibs", "--antt-project", f"{kit}/rattle/logic/antt-project.json", "--logic-built", f"{kit}/logic_built"]
    for name in functions:
        command += ["--only", name]
    sys.exit(subprocess.run(command, cwd=f"{TOP}/crates/{crate}", check=False).returncode)


if __name__ == "__main__":
    main()
