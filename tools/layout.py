#!/usr/bin/env python3
"""Holds lines to their width: code, clauses and comments of .rt files 100 columns, definitions (specs/*.antt) 120.

    tools/layout.py [--write] [PATH ..]    lists lines that are longer; --write breaks those that it can, and `rt fmt` comes after it

A clause is broken where `rt fmt` keeps a break: before an operator, the outermost that leaves the line within its width. A comment is
filled anew, paragraph by paragraph. Imports are left as `rt fmt` lays them out, and proofs as they are; so are strings and attributes.
Status 1 if a line is too long.
"""
import argparse
import os
import re
import subprocess
import sys
import textwrap

TOP = os.path.dirname(os.path.dirname(os.path.abspath(__file__)))
CODE, DEFINITIONS = 100, 120
# From the operator at which a term is best broken to the one at which it is worst.
OPERATORS = ("→", "↔", "×", "⊎", "≡", "≢", "<", "≤", "&&", "||", "++", "∷", "+", "-")
COMMENT = re.compile(r"^( *)(//[/!]?|--) ?(.*)$")
HEAD = re.compile(r"^ *(requires|ensures|invariant|ghost (?!use))\b")


def width_of(path):
    if path.endswith(".rt"):
        return CODE
    return DEFINITIONS if path.endswith(".antt") and "/specs/" in path else None


def is_import(line):
    return re.match(r" *(pub )?(ghost )?use ", line) is not None


def is_excepted(line):
    """Imports, attributes, and lines that are long by a string."""
    return is_import(line) or line.lstrip().startswith("#[") or '"' in line or line.endswith("\\")


def breaks(line, start):
    """Where a term may be broken, from `start` on: the place, how deep in brackets, and how well by what stands there."""
    depth, found = 0, []
    for at, sign in enumerate(line):
        if sign in "([{":
            depth += 1
        elif sign in ")]}":
            depth -= 1
        elif sign == " " and at >= start:
            rest = line[at + 1:]
            kind = next((k for k, it in enumerate(OPERATORS) if rest.startswith(it + " ")), None)
            if line[at - 1] in ";,":
                found.append((at, depth, 0.0 if line[at - 1] == ";" else 0.2))
            elif kind is not None:
                found.append((at, depth, 0.1 * kind))
            elif line[at - 1] == "." and line[at - 2] != " " and re.search(r"λ [^.]*\.$", line[:at]):
                found.append((at, depth, 0.3))
            elif rest[:1] not in "}=:|↦" and not re.search(r"([→↔×⊎≡≢<≤∷=:λ{,+-]|&&|\|\||\+\+|λ [\w ]*|\b(if|let|in|then|else))$", line[:at]):
                found.append((at, depth, 1.2 if rest[:1] in "([" else 1.4))
    return found


def broken(line, width, indent):
    """A term's line as several, each within the width where that can be."""
    out = []
    while len(line) > width:
        own = len(line) - len(line.lstrip())
        brace = line.find("{") if not out else -1
        start = max(own + 16, brace + 2 if 0 <= brace < 40 else 0)
        fitting = [it for it in breaks(line, start) if it[0] <= width]
        if not fitting:
            break
        at, _, _ = min(fitting, key=lambda it: it[1] + it[2] + 4 * (1 - (it[0] - own) / (width - own)) ** 2)
        out.append(line[:at].rstrip())
        line = " " * indent + line[at + 1:].lstrip()
    return out + [line]


def filled(block, mark, indent, width):
    """A block of comment lines, of which the paragraphs with a line that is too long are filled anew."""
    lead, out, part = f"{' ' * indent}{mark} ", [], []

    def flush():
        if any(len(lead) + len(it) > width for it in part):
            text = " ".join(it.strip() for it in part)
            out.extend(lead + it for it in textwrap.wrap(text, width - len(lead), break_long_words=False, break_on_hyphens=False))
        else:
            out.extend((lead + it).rstrip() for it in part)
        part.clear()

    for text in block:
        if not text.strip() or re.match(r"( |[-*|] |\d+\. |---- |```|#)", text):
            flush()
            if len(lead) + len(text) > width and re.match(r"([-*] |\d+\. )", text):
                part.append(text)
            else:
                out.append((lead + text).rstrip())
        else:
            part.append(text)
    flush()
    return out


def mended(path, lines):
    width, out, at, open_braces = width_of(path), [], 0, 0
    while at < len(lines):
        line = lines[at]
        comment = COMMENT.match(line)
        is_term = open_braces > 0 or path.endswith(".antt") or HEAD.match(line)
        if comment:
            block = [comment[3]]
            while at + 1 < len(lines):
                following = COMMENT.match(lines[at + 1])
                if not following or following[1] != comment[1] or following[2] != comment[2]:
                    break
                block.append(following[3])
                at += 1
            out += filled(block, comment[2], len(comment[1]), width)
        else:
            if is_term:
                is_inner = open_braces > 0 or path.endswith(".antt") and re.match(r" *[→×⊎≡]", line)
                open_braces = max(0, open_braces + line.count("{") - line.count("}")) if path.endswith(".rt") else 0
            if is_term and len(line) > width and not is_excepted(line):
                own = len(line) - len(line.lstrip())
                out += broken(line, width, own if is_inner else own + 4)
            else:
                out.append(line)
        at += 1
    return out


def files(given):
    listed = subprocess.run(["git", "-C", TOP, "ls-files", *given], capture_output=True, text=True, check=True).stdout.splitlines()
    return [it for it in listed if width_of(it) and os.path.isfile(os.path.join(TOP, it))]


def main():
    form = argparse.ArgumentParser(description=__doc__, formatter_class=argparse.RawDescriptionHelpFormatter)
    form.add_argument("paths", nargs="*", metavar="PATH", default=["crates"])
    form.add_argument("--write", action="store_true", help="breaks the lines that it can")
    given, long = form.parse_args(), 0
    for path in files(given.paths):
        with open(os.path.join(TOP, path), encoding="utf-8") as file:
            lines = file.read().split("\n")
        if given.write:
            better = mended(path, lines)
            if better != lines:
                with open(os.path.join(TOP, path), "w", encoding="utf-8") as file:
                    file.write("\n".join(better))
                lines = better
        for number, line in enumerate(lines, 1):
            if len(line) > width_of(path) and not is_excepted(line):
                long += 1
                print(f"{path}:{number}: {len(line)} columns")
    print(f"{long} lines are too long")
    return 1 if long else 0


if __name__ == "__main__":
    sys.exit(main())
