"""Words of the command line and what they ask for: cut before each byte, with each bit turned, and at their limits and beyond.

What is asked for is told as `run <NAME>` with its options, `check <NAME>`, `audit <NAME>`, `net <NAME>`, `make NUMBER`, or `none`. A blank stands between
two words; one at the end stands before an empty word, which is a name.
"""

# Words that are accepted, and what they ask for; what is asked for where they are cut before a place, `PLACE VERDICT |`, up to the next
# entry's place; and the same with a bit turned, `FIRST-LAST.BITS VERDICT |`, of which the first entry counts that has the place and the bit.
# `{FIRST-LAST}` is what stands there then. What is no text, or has a byte of zeros, comes to no program and isn't tried.
CASES = [
    ("run t --trace --seed 77",
     "run <t> trace seed 77",
     "0 none | 4 run <> | 5 run <t> | 6 none | 8 run <t> | 9 none | 13 run <t> trace | 14 none | 16 run <t> trace | "
     "17 none | 22 run <t> trace seed 7",
     "0-3 none | 4 run <{4-4}> trace seed 77 | 5 run <{4-12}> seed 77 | 6-20 none | 21-22.07 run <t> trace seed {21-22} | "
     "21-22 none"),
    ("run --seed=9 -- -t",
     "run <-t> seed 9",
     "0 none | 4 run <> | 5 run <-> | 6 none | 13 run <> seed 9 | 14 run <-> seed 9 | 15 none | 16 run <> seed 9 | "
     "17 run <-> seed 9",
     "0-10 none | 11.09 run <-t> seed {11-11} | 11-15 none | 16-17 run <{16-17}> seed 9"),
    ("check -",
     "check <->",
     "0 none | 6 check <>",
     "0-5 none | 6 check <{6-6}>"),
    ("net n --counters",
     "net <n> counters",
     "0 none | 4 net <> | 5 net <n> | 6 none | 8 net <n> | 9 none",
     "0-3 none | 4 net <{4-4}> counters | 5 net <{4-15}> | 6-15 none"),
    # The largest number: most others of as many digits are larger than the largest that there is.
    ("make 18446744073709551615",
     "make 18446744073709551615",
     "0 none | 6 make 1 | 7 make 18 | 8 make 184 | 9 make 1844 | 10 make 18446 | 11 make 184467 | 12 make 1844674 | "
     "13 make 18446744 | 14 make 184467440 | 15 make 1844674407 | 16 make 18446744073 | 17 make 184467440737 | "
     "18 make 1844674407370 | 19 make 18446744073709 | 20 make 184467440737095 | 21 make 1844674407370955 | "
     "22 make 18446744073709551 | 23 make 184467440737095516 | 24 make 1844674407370955161",
     "0-4 none | 5.01 make 8446744073709551615 | 6.08 make 10446744073709551615 | 7.04 make 18046744073709551615 | "
     "8.04 make 18406744073709551615 | 9.02 make 18444744073709551615 | 9.04 make 18442744073709551615 | "
     "10.01 make 18446644073709551615 | 10.02 make 18446544073709551615 | 10.04 make 18446344073709551615 | "
     "11.04 make 18446704073709551615 | 12.04 make 18446740073709551615 | 14.01 make 18446744063709551615 | "
     "14.02 make 18446744053709551615 | 14.04 make 18446744033709551615 | 15.01 make 18446744072709551615 | "
     "15.02 make 18446744071709551615 | 16.01 make 18446744073609551615 | 16.02 make 18446744073509551615 | "
     "16.04 make 18446744073309551615 | 18.01 make 18446744073708551615 | 18.08 make 18446744073701551615 | "
     "19.01 make 18446744073709451615 | 19.04 make 18446744073709151615 | 20.01 make 18446744073709541615 | "
     "20.04 make 18446744073709511615 | 21.01 make 18446744073709550615 | 22.02 make 18446744073709551415 | "
     "22.04 make 18446744073709551215 | 23.01 make 18446744073709551605 | 24.01 make 18446744073709551614 | "
     "24.04 make 18446744073709551611 | 5-24 none"),
]

# Numbers and names at their limits, and beyond.
LIMITS = [
    ("make 0", "make 0"),
    ("make 00000000000000000000", "make 0"),
    ("make 000000000000000000000", "none"),
    ("make 00000000000000000001", "make 1"),
    ("make 18446744073709551616", "none"),
    ("make 18446744073709551620", "none"),
    ("make 99999999999999999999", "none"),
    ("make 36893488147419103232", "none"),
    ("make +1", "none"),
    ("make 1_0", "none"),
    ("make 1.0", "none"),
    ("make \u0661", "none"),
    ("make \uff11", "none"),
    ("make 7\n", "none"),
    ("run t --seed \u0661", "none"),
    ("run t --seed=7 --trace", "run <t> trace seed 7"),
    ("run --seed=7 --seed=7 t", "none"),
    ("run --counters t", "run <t> counters"),
    ("run --seed 7 --counters t --trace", "run <t> trace counters seed 7"),
    ("run --counters t --counters", "none"),
    ("run t --counters=1", "none"),
    ("check --counters t", "none"),
    ("audit t", "audit <t>"),
    ("audit -- -t", "audit <-t>"),
    ("audit", "none"),
    ("audit t t", "none"),
    ("audit --trace t", "none"),
    ("net n", "net <n>"),
    ("net --counters n", "net <n> counters"),
    ("net -- -n", "net <-n>"),
    ("net --counters -- --counters", "net <--counters> counters"),
    ("net -", "net <->"),
    ("net", "none"),
    ("net n n", "none"),
    ("net --counters n --counters", "none"),
    ("net n --counters=1", "none"),
    ("net n --trace", "none"),
    ("net --seed 7 n", "none"),
    ("net --seed=7 n", "none"),
    ("net -c n", "none"),
    ("-- net n", "none"),
    ("run t --seed=--trace", "none"),
    ("run \u002d\u0301", "none"),
    ("run \u2212t", "run <\u2212t>"),
    ("run t\n", "run <t\n>"),
    ("run " + "t" * 255, "run <" + "t" * 255 + ">"),
    ("run " + "t" * 100_000, "run <" + "t" * 100_000 + ">"),
    ("run " + "t" * 100_000 + " t" * 10_000, "none"),
]


def entries(table):
    """What stands before the verdict of each entry, and the verdict."""
    return [entry.strip().split(" ", 1) for entry in table.split("|")]


def at(table, place):
    """The verdict of the last entry whose place isn't above this one."""
    return [verdict for first, verdict in entries(table) if int(first) <= place][-1]


def of_bit(table, place, bit):
    """The verdict of the first entry that has the place and the bit, or None."""
    for span, verdict in entries(table):
        places, _, bits = span.partition(".")
        first, _, last = places.partition("-")
        if int(first) <= place <= int(last or first) and int(bits or "FF", 16) & bit:
            return verdict
    return None


def filled(verdict, data):
    """A verdict with what stands at its places."""
    before, brace, rest = verdict.partition("{")
    if not brace:
        return verdict
    places, _, after = rest.partition("}")
    first, last = places.split("-")
    return before + data[int(first) : int(last) + 1].decode() + after


def tried(words, told, cut, turned):
    """The words of a case and all that come of them, each as bytes with what it asks for."""
    data = words.encode()
    yield data, told
    for place in range(len(data)):
        yield data[:place], at(cut, place)
        for bit in (1 << it for it in range(8)):
            other, verdict = data[:place] + bytes([data[place] ^ bit]) + data[place + 1 :], of_bit(turned, place, bit)
            assert verdict, f"no entry for bit {bit} at {place}"
            yield other, verdict


def rows(words, told, cut, turned):
    """The same as texts, for those that can be words of a program."""
    for data, verdict in tried(words, told, cut, turned):
        try:
            text = data.decode()
        except UnicodeDecodeError:
            continue
        if "\0" not in text:
            yield text, filled(verdict, data)
