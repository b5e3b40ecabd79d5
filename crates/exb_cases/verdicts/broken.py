"""Topology files that are cut, have a bit turned, go on, or are of any bytes: the first fault of each."""
import re

# Whole files.
TEXTS = [
    # Nothing but blanks and comments. A carriage return stands before a newline alone.
    ("\n\n", "Missing at bridge"),
    (" \t", "Missing at bridge"),
    ("# nothing", "Missing at bridge"),
    ("\r\n", "Missing at bridge"),
    ("# nothing\r\n", "Missing at bridge"),
    ("\r", "NotToml"),
    ("# \r", "NotToml"),
    ("\x0c", "NotToml"),
    ("\x00", "NotToml"),
    ("# \x00", "NotToml"),
    ("# \x7f", "NotToml"),
    ("# \t", "Missing at bridge"),
    ("bridge.ports = 1\r\n", "ok"),
    ("[bridge]\r\nports = 1\r\n\r\n", "ok"),
    ("bridge.ports = 1\r", "NotToml"),
    ("bridge.ports = 1\r\r\n", "NotToml"),
    ("bridge.ports\r\n= 1\n", "NotToml"),
    # Parts of a line.
    ("[", "NotToml"),
    ("[[", "NotToml"),
    ("[]", "NotToml"),
    ("[[]]", "NotToml"),
    ("[bridge", "NotToml"),
    ("[[extender]", "NotToml"),
    ("[ bridge ]\nports = 1\n", "ok"),
    ("[ [extender]]\n", "NotToml"),
    ("[bridge] ports = 1\n", "NotToml"),
    ("=", "NotToml"),
    ("= 1", "NotToml"),
    ("bridge =", "NotToml"),
    ("bridge = \n", "NotToml"),
    ("bridge = {", "NotToml"),
    ("bridge = {ports", "NotToml"),
    ("bridge = {ports = 1", "NotToml"),
    ("bridge = {ports = 1}}", "NotToml"),
    ("bridge = {ports = 1} # {", "ok"),
    ("bridge.ports = 1 links = 1\n", "NotToml"),
    ("bridge.ports 1\n", "NotToml"),
    ("bridge.ports = [1\n", "NotToml"),
    ("bridge.ports = 1]\n", "NotToml"),
    # Dotted keys, and tables within tables.
    ("bridge . ports = 1\n", "ok"),
    ("bridge.\"ports\" = 1\n", "ok"),
    ("\"bridge\".\"ports\" = 1\n", "ok"),
    ("bridge.'por'.ts = 1\n", "Unknown at bridge.por"),
    ("bridge.ports.x = 1\n", "Kind at bridge.ports"),
    ("[bridge.ports]\n", "Kind at bridge.ports"),
    ("[[bridge.ports]]\n", "Kind at bridge.ports"),
    ("[bridge]\nports.x = 1\n", "Kind at bridge.ports"),
    ("a.b.c = 1\n", "Unknown at a"),
    ("[a.b.c]\n", "Unknown at a"),
    ("bridge..ports = 1\n", "NotToml"),
    (".ports = 1\n", "NotToml"),
    ("bridge. = 1\n", "NotToml"),
    ("bridge.ports = 1\nlinks.fate.x = 1\n", "Kind at links.fate"),
    ("bridge.ports = 1\n[links.fate]\n", "Kind at links.fate"),
    ("bridge.ports = 1\n[[links.fate]]\n", "Kind at links.fate"),
    ("bridge.ports = 1\ncaptures.b1.c = 1\n", "Kind at captures.b1"),
    ("bridge.ports = 1\ncaptures.\"b1\" = \"a\"\n", "ok"),
    ("bridge.ports = 1\n[captures.\"b1\"]\n", "Kind at captures.b1"),
    ("bridge.ports = 1\n[[extender]]\n[extender.number]\n", "Kind at extender[0].number"),
    ("bridge.ports = 1\n[[extender]]\n[[extender.on]]\n", "Missing at extender[0].number"),
    ("bridge.ports = 1\nextender.number = 1\n", "Kind at extender"),
    ("bridge.ports = 1\n[[extender.number]]\n", "Kind at extender"),
    # Keys that are given twice, by whatever spelling.
    ("bridge.ports = 1\nbridge.ports = 1\n", "NotToml"),
    ("bridge.ports = 1\nbridge.\"ports\" = 2\n", "NotToml"),
    ("bridge.ports = 1\n[bridge]\n", "NotToml"),
    ("[bridge]\nports = 1\n\"ports\" = 1\n", "NotToml"),
    ("[bridge]\nports = 1\n[links]\n[bridge]\n", "NotToml"),
    ("bridge = {ports = 1}\n[bridge]\n", "NotToml"),
    ("bridge = {ports = 1}\nbridge.out = \"\"\n", "NotToml"),
    ("bridge = {ports = 1}\n[bridge.a]\n", "NotToml"),
    ("bridge = {ports = 1, ports = 1}\n", "NotToml"),
    ("bridge.ports = 1\n[[extender]]\n[extender]\n", "NotToml"),
    ("bridge.ports = 1\nextender = []\n[[extender]]\n", "NotToml"),
    ("bridge.ports = 1\n[extender]\n[[extender]]\n", "NotToml"),
    ("bridge.ports = 1\n[captures]\nb1 = \"a\"\n\"b1\" = \"b\"\n", "NotToml"),
    ("bridge.ports = 1\n[captures]\nb1 = \"a\"\n\"b\\u0031\" = \"b\"\n", "NotToml"),
    # Keys of other letters. A fault names them as they are.
    ("bridge.ports = 1\n\xe9 = 1\n", "NotToml"),
    ("bridge.ports = 1\n\"\xe9\" = 1\n", "Unknown at \xe9"),
    ("bridge.ports = 1\n\"\\u00e9\" = 1\n", "Unknown at \xe9"),
    ("bridge.ports = 1\n\"a b\" = 1\n", "Unknown at a b"),
    ("bridge.ports = 1\n\"a\\nb\" = 1\n", "Unknown at a\nb"),
    ("bridge.ports = 1\n\"\\u0000\" = 1\n", "Unknown at \x00"),
    ("bridge.ports = 1\n'a\"b' = 1\n", "Unknown at a\"b"),
    ("bridge.ports = 1\n\"\" = 1\n", "Unknown at "),
    ("bridge.ports = 1\n1 = 1\n", "Unknown at 1"),
    ("bridge.ports = 1\n-_- = 1\n", "Unknown at -_-"),
    ("bridge.ports = 1\na+b = 1\n", "NotToml"),
    ("bridge.ports = 1\nlinks.\"\" = 1\n", "Unknown at links."),
    ("bridge.ports = 1\ncaptures.\"x1.1 \" = \"\"\n", "Name at captures.x1.1 "),
    ("bridge.ports = 1\ncaptures.\"\u0661\" = \"\"\n", "Name at captures.\u0661"),
    ("bridge.ports = 1\ncaptures.\"b\u0661\" = \"\"\n", "Name at captures.b\u0661"),
]

# Values of `bridge.ports`.
NUMBERS = [
    # Whole numbers in each spelling.
    ("+1", "ok"),
    ("0x1", "ok"),
    ("0x40", "ok"),
    ("0x41", "Range at bridge.ports"),
    ("0o1", "ok"),
    ("0b1", "ok"),
    ("0o100", "ok"),
    ("0o101", "Range at bridge.ports"),
    ("0xff", "Range at bridge.ports"),
    ("0b1000000", "ok"),
    ("0b1000001", "Range at bridge.ports"),
    ("1_0", "ok"),
    ("6_4", "ok"),
    ("6_5", "Range at bridge.ports"),
    ("-0", "Range at bridge.ports"),
    ("+0", "Range at bridge.ports"),
    ("0x0", "Range at bridge.ports"),
    ("-1", "Range at bridge.ports"),
    # What is no number.
    ("01", "NotToml"),
    ("+01", "NotToml"),
    ("_1", "NotToml"),
    ("1_", "NotToml"),
    ("1__0", "NotToml"),
    ("0x", "NotToml"),
    ("0xg", "NotToml"),
    ("0X1", "NotToml"),
    ("+0x1", "NotToml"),
    ("-0x1", "NotToml"),
    ("0o8", "NotToml"),
    ("0b2", "NotToml"),
    ("1 0", "NotToml"),
    ("--1", "NotToml"),
    ("+", "NotToml"),
    ("-", "NotToml"),
    ("0_1", "NotToml"),
    # The last of 64 bits.
    ("9223372036854775807", "Range at bridge.ports"),
    ("-9223372036854775808", "Range at bridge.ports"),
    ("0x7FFFFFFFFFFFFFFF", "Range at bridge.ports"),
    ("9223372036854775808", "NotToml"),
    ("-9223372036854775809", "NotToml"),
    ("0x8000000000000000", "NotToml"),
    ("0xFFFFFFFFFFFFFFFF", "NotToml"),
    ("99999999999999999999", "NotToml"),
    ("18446744073709551617", "NotToml"),
    # Numbers that are no whole ones, and no numbers.
    ("1e0", "Kind at bridge.ports"),
    ("1.5", "Kind at bridge.ports"),
    ("-0.0", "Kind at bridge.ports"),
    ("inf", "Kind at bridge.ports"),
    ("-inf", "Kind at bridge.ports"),
    ("nan", "Kind at bridge.ports"),
    ("+nan", "Kind at bridge.ports"),
    ("1_0.0", "Kind at bridge.ports"),
    ("1.", "NotToml"),
    (".5", "NotToml"),
    ("1.e0", "NotToml"),
    ("1e", "NotToml"),
    ("1e+", "NotToml"),
    ("Inf", "NotToml"),
    ("true", "Kind at bridge.ports"),
    ("True", "NotToml"),
    ("\"1\"", "Kind at bridge.ports"),
    ("[]", "Kind at bridge.ports"),
    ("[[1]]", "Kind at bridge.ports"),
    ("{}", "Kind at bridge.ports"),
    ("1979-05-27", "Kind at bridge.ports"),
    ("07:32:00", "Kind at bridge.ports"),
    ("1979-05-27T07:32:00Z", "Kind at bridge.ports"),
    ("1979-05-27 07:32:00.5-07:00", "Kind at bridge.ports"),
    ("1979-13-01", "NotToml"),
    ("1979-02-29", "NotToml"),
    ("24:00:00", "NotToml"),
    ("null", "NotToml"),
    ("", "NotToml"),
]

# Values of `on` of an extender.
STRINGS = [
    # Strings of each kind, and escapes.
    ("\"b1\"", "ok"),
    ("'b1'", "ok"),
    ("\"\"\"b1\"\"\"", "ok"),
    ("'''b1'''", "ok"),
    ("\"\"\"\nb1\"\"\"", "ok"),
    ("\"\"\"b1\n\"\"\"", "Name at extender[0].on"),
    ("\"\"\"b\\\n  1\"\"\"", "ok"),
    ("\"\\u0062\\u0031\"", "ok"),
    ("\"\\U00000062\\U00000031\"", "ok"),
    ("\"b\\u0031\\u0000\"", "Name at extender[0].on"),
    ("\"b1\\t\"", "Name at extender[0].on"),
    ("\"b1\t\"", "Name at extender[0].on"),
    ("'b1\\t'", "Name at extender[0].on"),
    ("\"b1 \"", "Name at extender[0].on"),
    ("\" b1\"", "Name at extender[0].on"),
    ("\"B1\"", "Name at extender[0].on"),
    ("\"b\u0661\"", "Name at extender[0].on"),
    ("\"b\uff11\"", "Name at extender[0].on"),
    ("\"b1\\u0301\"", "Name at extender[0].on"),
    ("\"\ufeffb1\"", "Name at extender[0].on"),
    # What is no string.
    ("\"b1", "NotToml"),
    ("'b1", "NotToml"),
    ("\"\"\"b1", "NotToml"),
    ("\"\"\"b1\"\"", "NotToml"),
    ("'''b1''", "NotToml"),
    ("\"b1'", "NotToml"),
    ("\"b\n1\"", "NotToml"),
    ("'b\n1'", "NotToml"),
    ("\"b\\q1\"", "NotToml"),
    ("\"b\\u00\"", "NotToml"),
    ("\"\\uD800\"", "NotToml"),
    ("\"\\uDFFF\"", "NotToml"),
    ("\"\\U00110000\"", "NotToml"),
    ("\"\\U0010FFFF\"", "Name at extender[0].on"),
    ("\"b1\x00\"", "NotToml"),
    ("'b1\x7f'", "NotToml"),
    ("\"b1\x1b\"", "NotToml"),
    ("b1", "NotToml"),
    ("\"b1\"\"", "NotToml"),
    ("\"\"\"b1\"\"\"\"\"\"", "NotToml"),
]

# Files with bytes of other encodings: a text, the bytes behind it, a text, and the verdict.
BYTES = [
    # A byte order mark stands at the front alone, and once.
    ("", "EFBBBF", "", "Missing at bridge"),
    ("", "EFBBBF", "bridge.ports = 1\n", "ok"),
    ("", "EFBBBF EFBBBF", "bridge.ports = 1\n", "NotToml"),
    ("\n", "EFBBBF", "bridge.ports = 1\n", "NotToml"),
    ("bridge.ports = 1\n", "EFBBBF", "", "NotToml"),
    ("", "EFBB", "bridge.ports = 1\n", "NotToml"),
    ("", "FEFF", "bridge.ports = 1\n", "NotToml"),
    ("", "FFFE", "", "NotToml"),
    ("", "6200720069006400", "", "NotToml"),
    # Bytes that are no UTF-8, wherever they stand.
    ("", "FF", "bridge.ports = 1\n", "NotToml"),
    ("# ", "FF", "\nbridge.ports = 1\n", "NotToml"),
    ("bridge.ports = 1\n# ", "80", "", "NotToml"),
    ("bridge.ports = 1\n# ", "C3", "", "NotToml"),
    ("bridge.ports = 1\n# ", "C328", "", "NotToml"),
    ("bridge.ports = 1\n# ", "C080", "", "NotToml"),
    ("bridge.ports = 1\n# ", "C1BF", "", "NotToml"),
    ("bridge.ports = 1\n# ", "E08080", "", "NotToml"),
    ("bridge.ports = 1\n# ", "EDA080", "", "NotToml"),
    ("bridge.ports = 1\n# ", "F0808080", "", "NotToml"),
    ("bridge.ports = 1\n# ", "F4908080", "", "NotToml"),
    ("bridge.ports = 1\n# ", "F8", "", "NotToml"),
    ("bridge = {ports = 1, out = \"", "E9", "\"}\n", "NotToml"),
    ("bridge.ports = 1\n\"", "E9", "\" = 1\n", "NotToml"),
    ("bridge.ports = 1\n", "", "\"\\xE9\" = 1\n", "Unknown at \xe9"),
    # The least and the greatest of each length.
    ("bridge.ports = 1\n# ", "C280", "", "ok"),
    ("bridge.ports = 1\n# ", "DFBF", "", "ok"),
    ("bridge.ports = 1\n# ", "E0A080", "", "ok"),
    ("bridge.ports = 1\n# ", "ED9FBF", "", "ok"),
    ("bridge.ports = 1\n# ", "EE8080", "", "ok"),
    ("bridge.ports = 1\n# ", "EFBFBF", "", "ok"),
    ("bridge.ports = 1\n# ", "F0908080", "", "ok"),
    ("bridge.ports = 1\n# ", "F48FBFBF", "", "ok"),
]

# What stands many times in a file: its front, that text, how many times, what comes then, what closes each, and the verdict. Arrays and
# inline tables go 80 deep, and a key has 80 parts.
MANY = [
    ("bridge.ports = ", "[", 80, "", "]", "Kind at bridge.ports"),
    ("bridge.ports = ", "[", 81, "", "]", "NotToml"),
    ("bridge.ports = ", "[", 20_000, "", "]", "NotToml"),
    ("bridge.ports = ", "[", 20_000, "", "", "NotToml"),
    ("bridge = ", "{a = ", 80, "1", "}", "Unknown at bridge.a"),
    ("bridge = ", "{a = ", 81, "1", "}", "NotToml"),
    ("bridge.ports = ", "[{a = ", 40, "1", "}]", "Kind at bridge.ports"),
    ("bridge.ports = ", "[{a = ", 41, "1", "}]", "NotToml"),
    ("", "[", 20_000, "", "", "NotToml"),
    ("a", ".a", 79, " = 1", "", "Unknown at a"),
    ("a", ".a", 80, " = 1", "", "NotToml"),
    ("[a", ".a", 79, "]", "", "Unknown at a"),
    ("[a", ".a", 80, "]", "", "NotToml"),
    ("bridge.ports = ", "1", 20_000, "", "", "NotToml"),
    ("bridge.ports = 1 # ", "[", 20_000, "", "", "ok"),
    ("bridge = {ports = 1, out = '", "a", 20_000, "'}", "", "ok"),
    ("bridge.ports = 1", "\r\n", 20_000, "", "", "ok"),
    ("bridge.ports = 1\n", "[[port]]\n", 999, "", "", "Missing at port[0].name"),
]

# A file with each table.
WHOLE = """\
[bridge]
ports = 4
out = "r/"
[links]
fate = "PLTD"
[[extender]]
number = 1
on = "b2"
ports = 3
[[extender]]
number = 2
on = "x1.3"
ports = 1
[[port]]
name = "b1"
pvid = 10
accept = "tagged"
filter = true
[[vlan]]
vid = 10
last = 12
tagged = ["b1", "x1.1-2"]
untagged = ["x2.*"]
[[static]]
vid = 10
mac = "01-00-5E-00-00-01"
ports = ["b3"]
[[command]]
at = 15
op = "pvid"
port = "b3"
vid = 10
fate = "PL"
[captures]
"x1.1" = "a.pcap"
"""

# Its verdict where it is cut before a place: `PLACE VERDICT|`, up to the next entry's place.
WHOLE_CUT = (
    "0 Missing at bridge | 1 NotToml | 8 Missing at bridge.ports | 10 NotToml | 18 ok | 20 NotToml | 29 ok | 31 NotToml | 37 ok |"
    " 39 NotToml | 51 ok | 53 NotToml | 64 Missing at extender[0].number | 66 NotToml | 75 Missing at extender[0].on | 77 NotToml |"
    " 85 Missing at extender[0].ports | 87 NotToml | 95 ok | 97 NotToml | 108 Missing at extender[1].number | 110 NotToml |"
    " 119 Missing at extender[1].on | 121 NotToml | 131 Missing at extender[1].ports | 133 NotToml | 141 ok | 143 NotToml |"
    " 150 Missing at port[0].name | 152 NotToml | 162 ok | 164 NotToml | 171 ok | 174 NotToml | 190 ok | 192 NotToml | 204 ok |"
    " 206 NotToml | 213 Missing at vlan[0].vid | 215 NotToml | 221 ok | 224 NotToml | 231 Range at vlan[0].last | 232 ok | 234 NotToml |"
    " 258 ok | 260 NotToml | 278 ok | 280 NotToml | 289 Missing at static[0].vid | 291 NotToml | 297 Missing at static[0].mac |"
    " 300 NotToml | 324 Missing at static[0].ports | 326 NotToml | 339 ok | 341 NotToml | 351 Missing at command[0].op | 353 NotToml |"
    " 358 Missing at command[0].op | 361 NotToml | 371 Missing at command[0].vid | 373 NotToml | 383 Missing at command[0].vid |"
    " 385 NotToml | 391 ok | 394 NotToml | 404 ok | 406 NotToml | 415 ok | 417 NotToml | 433 ok"
)

# A short file.
SHORT = """\
[bridge]
ports = 4 # few
[[extender]]
number = 1
on = "b2"
ports = 3
"""

# Its verdict with a bit turned: `FIRST-LAST.BITS VERDICT|`; the first entry that has the place and the bit counts, and all bits are
# meant where none are named. `{9-13}` is the text at these places, as it then is.
SHORT_TURNED = (
    "1.3D Unknown at {1-6} | 0-1 NotToml | 2.80 NotToml | 3.C0 NotToml | 4.C4 NotToml | 5-6.C0 NotToml | 2-6 Unknown at {1-6} |"
    " 7-8 NotToml | 9.90 NotToml | 10.D0 NotToml | 11.80 NotToml | 12-13.88 NotToml | 9-13 Unknown at bridge.{9-13} |"
    " 14.10 Unknown at bridge.ports0 | 17.03 ok | 17.04 Range at bridge.ports | 18.10 ok | 14-19 NotToml | 20.A0 NotToml |"
    " 21-22.80 NotToml | 23.88 NotToml | 20-23 ok | 24-26 NotToml | 27.C0 NotToml | 28.84 NotToml | 29.88 NotToml | 30.C0 NotToml |"
    " 31.90 NotToml | 31.40 Unknown at exte | 32.C4 NotToml | 33.C0 NotToml | 34.80 NotToml | 27-34 Unknown at {27-34} |"
    " 38.2F Unknown at extender[0].{38-43} | 35-38 NotToml | 39.88 NotToml | 40.90 NotToml | 41.C2 NotToml | 42.C0 NotToml | 43.80 NotToml |"
    " 39-43 Unknown at extender[0].{38-43} | 44.10 Unknown at extender[0].number0 | 47.01 Range at extender[0].number | 47.0E ok |"
    " 49-50.2F Unknown at extender[0].{49-50} | 51.10 Unknown at extender[0].on0 | 44-54 NotToml | 55.C0 NotToml | 56.01 ok |"
    " 56.04 UnknownPort at extender[0].on | 56.B0 NotToml | 55-56 Name at extender[0].on | 57-58 NotToml | 59.90 NotToml | 60.D0 NotToml |"
    " 61.80 NotToml | 62-63.88 NotToml | 59-63 Unknown at extender[0].{59-63} | 64.10 Unknown at extender[0].ports0 | 67.07 ok |"
    " 64-68 NotToml"
)


def cut():
    """Each front of the whole file, and all of it."""
    entries = [it.split(" ", 1) for it in WHOLE_CUT.split(" | ")]
    for place in range(len(WHOLE)):
        yield WHOLE[:place], [verdict for first, verdict in entries if int(first) <= place][-1]
    yield WHOLE, "ok"


def entry(place, bit):
    """What is said of the short file with a bit of a byte turned."""
    for words in SHORT_TURNED.split(" | "):
        where, verdict = words.split(" ", 1)
        places, _, bits = where.partition(".")
        first, _, last = places.partition("-")
        if int(first) <= place <= int(last or first) and int(bits or "FF", 16) & bit:
            return verdict
    raise AssertionError(f"no verdict for bit {bit} at {place}")


def turned():
    """The short file with each bit turned, and as it is."""
    for place in range(len(SHORT)):
        for bit in range(8):
            file = bytearray(SHORT.encode())
            file[place] ^= 1 << bit
            verdict = entry(place, 1 << bit)
            there = re.search(r"\{(\d+)-(\d+)\}", verdict)
            if there:
                verdict = verdict.replace(there[0], file[int(there[1]):int(there[2]) + 1].decode())
            yield bytes(file), verdict
    yield SHORT, "ok"


TABLES = {
    "texts": ("", TEXTS),
    "numbers": ("bridge.ports = ", NUMBERS),
    "strings": ("bridge.ports = 1\n[[extender]]\nnumber = 1\nports = 1\non = ", STRINGS),
    "bytes": ("", [(front.encode() + bytes.fromhex(middle) + tail.encode(), verdict) for front, middle, tail, verdict in BYTES]),
    "many": ("", [(front + more * times + middle + end * times, verdict) for front, more, times, middle, end, verdict in MANY]),
    "cut": ("", list(cut())),
    "turned": ("", list(turned())),
}
