#!/usr/bin/env python3
"""Measures the English of pages, in seconds, by the rules that a script can hold:

    tools/english.py                   all pages but those of tools/not-yet-plain.txt, which are still to be written anew
    tools/english.py PAGE ..           these pages
    tools/english.py --table           numbers a page: lines, sentences, those over 30 and 40 words, phrases, wide lines

It finds sentences over 30 words, phrases that the project doesn't use, and lines over 100 columns. Tables, code and made pages
(docs/reference) may be wider. A page of the list that has no fault any more is a fault too: it is to be taken off. It prints a line
for each fault, and ends with status 1 if there is one.
"""
import argparse
import os
import re
import signal
import sys

TOP = os.path.dirname(os.path.dirname(os.path.abspath(__file__)))
VERSION = "1"
LATER = "tools/not-yet-plain.txt"
WORDS, COLUMNS = 30, 100
LEFT_OUT = ("out", "data", ".git", "reference", "node_modules")

# A phrase, as it is found, and what to write.
PHRASES = [
    (r"\bso many\b", "the number itself, or its name"),
    (r"\bas (?:they|it) must\b", "what they have to be"),
    (r"\b(?:is|are) none\b", "isn't a .., or there is no .."),
    (r"\b(?:that|those) of\b", "the noun again"),
    (r"(?<!each )\bof (?:which|those)\b", "two sentences"),
    (r"\bwhatever \w+ (?:it|they) (?:is|are)\b", "any .."),
    (r"\bNone says nothing\b", "what None means"),
    (r"(?:^|(?<=[.!?] ))So\b", "the reason"),
    (r"\b(?:a|an|the|each|this|such a) front\b|\bfronts\b", "prefix"),
    (r"\bbehind\b", "after"),
    (r"\b(?:an|the|each) asks?\b(?! )|\b(?:an|each) ask\b", "request"),
    (r"\bexactly where\b", "exactly when"),
    (r"\bso far as\b|\bin the place of\b", "as far as, or instead of"),
]
FOUND = [(re.compile(pattern, re.M), instead) for pattern, instead in PHRASES]


def text(path):
    with open(path, encoding="utf-8") as file:
        return file.read()


def pages(top):
    """All pages that people write, by their paths below the top."""
    for folder, folders, names in os.walk(top):
        folders[:] = sorted(it for it in folders if it not in LEFT_OUT)
        yield from (os.path.relpath(os.path.join(folder, it), top) for it in sorted(names) if it.endswith(".md"))


def later(top):
    path = os.path.join(top, LATER)
    lines = text(path).splitlines() if os.path.exists(path) else []
    return [it.strip() for it in lines if it.strip() and not it.startswith("#")]


def marked(page):
    """Each line of a page with its number and what it is: prose, point (the first line of one), table, heading, blank or code."""
    fenced = False
    after = "blank"
    for number, line in enumerate(page.splitlines(), 1):
        kind = "prose"
        if line.lstrip().startswith("```"):
            fenced, kind = not fenced, "code"
        elif fenced or (line.startswith("    ") and after in ("blank", "code", "heading")):
            kind = "code"
        elif not line.strip():
            kind = "code" if after == "code" and not fenced else "blank"
        elif line.lstrip().startswith("|"):
            kind = "table"
        elif line.startswith("#"):
            kind = "heading"
        elif re.match(r"\s*(?:[-*+]|\d+\.)\s", line):
            kind = "point"
        after = kind if line.strip() else "code" if kind == "code" else "blank"
        yield number, line, kind


def spoken(words):
    """A text as it is read aloud: links by their text, names between backquotes as one word, no marks."""
    words = re.sub(r"!?\[([^\]]*)\]\([^)]*\)", r"\1", words)
    words = re.sub(r"`[^`]*`", "NAME", words)
    return re.sub(r"\*\*|__|(?<!\w)\*|\*(?!\w)", "", words)


def paragraphs(page):
    """Each paragraph, point and cell of a page: the number of its first line, and its text."""
    begun, lines = 0, []
    for number, line, kind in [*marked(page), (0, "", "blank")]:
        if kind != "prose" and lines:
            yield begun, " ".join(lines)
            lines = []
        if kind == "table" and not re.fullmatch(r"[\s|:-]+", line):
            yield from ((number, it.strip()) for it in re.split(r"(?<!\\)\|", line.strip().strip("|")) if it.strip())
        elif kind == "point":
            begun, lines = number, [re.sub(r"^\s*(?:[-*+]|\d+\.)\s+", "", line)]
        elif kind == "prose":
            begun = begun if lines else number
            lines.append(line.strip())


def sentences(words):
    """The sentences of a paragraph. A point within a name or a number ends none."""
    found = re.split(r"(?<=[.!?])[)\"']*\s+(?=[A-Z0-9`(\"'*\[]|NAME|exb)", words)
    return [it for it in found if it.strip()]


def count(sentence):
    return len(re.findall(r"[\w'’-]*\w[\w'’./:-]*", sentence))


def faults(page):
    """What a page has against the rules: (line, kind, words)."""
    for number, words in paragraphs(page):
        said = spoken(words)
        for sentence in sentences(said):
            if count(sentence) > WORDS:
                yield number, "long", f"{count(sentence)} words: {sentence[:70]}.."
        for pattern, instead in FOUND:
            for it in pattern.finditer(said):
                yield number, "phrase", f"\"{it[0]}\": say {instead}"
    for number, line, kind in marked(page):
        if len(line) > COLUMNS and kind not in ("table", "code"):
            yield number, "wide", f"{len(line)} columns"


def measures(page):
    counts = [count(it) for _, words in paragraphs(page) for it in sentences(spoken(words))]
    kinds = [kind for _, kind, _ in faults(page)]
    return len(page.splitlines()), len(counts), sum(it > 30 for it in counts), sum(it > 40 for it in counts), kinds.count("phrase"), kinds.count("wide")


def table(top, names):
    print(f"{'page':44}{'lines':>7}{'sentences':>11}{'over 30':>9}{'over 40':>9}{'phrases':>9}{'wide':>6}")
    rows = [(name, measures(text(os.path.join(top, name)))) for name in names]
    for name, row in [*rows, ("all", [sum(it) for it in zip(*(row for _, row in rows))])]:
        print(f"{name:44}" + "".join(f"{it:>{width}}" for it, width in zip(row, (7, 11, 9, 9, 9, 6))))


def report(top, names):
    """Prints the faults of all pages that are done, and pages that are wrongly listed; how many there were."""
    listed = [] if names else later(top)
    found = []
    for name in names or pages(top):
        own = list(faults(text(os.path.join(top, name))))
        if name not in listed:
            found += [f"{name}:{line}: {words}" for line, _, words in own]
        elif not own:
            found.append(f"{LATER}: {name} has no fault any more: take it off the list")
    found += [f"{LATER}: there is no page {it}" for it in listed if not os.path.exists(os.path.join(top, it))]
    print(*found, sep="\n", end="\n" if found else "")
    return len(found)


def main():
    # A reader that ends early, as head does, ends this too.
    signal.signal(signal.SIGPIPE, signal.SIG_DFL)
    parser = argparse.ArgumentParser(description=__doc__, formatter_class=argparse.RawDescriptionHelpFormatter)
    parser.add_argument("page", nargs="*", help="pages, by their paths below the top")
    parser.add_argument("--table", action="store_true", help="numbers a page, and no faults")
    parser.add_argument("--top", default=TOP, help="the folder of the project (%(default)s)")
    parser.add_argument("--version", action="version", version=f"english {VERSION}")
    asked = parser.parse_args()
    for name in asked.page:
        if not os.path.isfile(os.path.join(asked.top, name)):
            sys.exit(f"english: there is no page {name}")
    if asked.table:
        table(asked.top, asked.page or pages(asked.top))
    elif report(asked.top, asked.page):
        sys.exit(1)


if __name__ == "__main__":
    main()
