"""Files, commands and fates at their limits, and one beyond; and files that could take more memory once they are read than there is to be."""

BYTES = [
    (b"\xff" * 16_777_216, "NotToml"),
    (b"\xff" * 16_777_217, "Large"),
]

COMMANDS = [
    ("[bridge]\nports = 1\n" + "[[command]]\n" * 65_536, "Missing at command[0].op"),
    ("[bridge]\nports = 1\n" + "[[command]]\n" * 65_537, "Range at command"),
]

# How many letters P the fate of the links has, the letters behind them, those of a command's fate, and the verdict.
FATES = [
    (60_000, "", "", "ok"),
    (59_998, "", "LD", "ok"),
    (60_000, "P", "P", "Range at links.fate"),
    (60_000, "X", "P", "Name at links.fate"),
    (60_000, "", "P", "Range at command[0].fate"),
    (59_999, "", "PP", "Range at command[0].fate"),
    (59_999, "", "PX", "Name at command[0].fate"),
]


def with_fates(letters, more, later):
    links = "P" * letters + more
    return f"bridge = {{ports = 1}}\nlinks = {{fate = '{links}'}}\ncommand = [{{at = 1, op = 'up', port = 'b1', fate = '{later}'}}]\n"


# What stands many times in a file: its front, that text, how many times, and what comes then. By the parts of a key, by tables, and behind
# strings that end otherwise than they seem to.
HEAVY = [
    ("bridge.ports = 1\na", ".a", 700_000, " = 1\n"),
    ("bridge.ports = 1\na = [", "{b=1},", 750_000, "]\n"),
    ('bridge = {ports = 1, out = """"x"""", a', ".a", 700_000, " = 1}\n"),
    ("bridge = {ports = 1, out = ''''x'''', a", ".a", 700_000, " = 1}\n"),
    ('bridge = {ports = 1, out = "\\"", a', ".a", 700_000, " = 1}\n"),
    ("bridge = {ports = 1, out = '\\', a", ".a", 700_000, " = 1}\n"),
]

# Files that are as long, and light.
LIGHT = [
    ("bridge.ports = 1 # a", ".a", 700_000, " = 1\n"),
    ("bridge = {ports = 1, out = '", ".a", 700_000, "'}\n"),
    ('bridge = {ports = 1, out = "\\"', ".a", 700_000, '"}\n'),
    ('bridge = {ports = 1, out = """""{', ".a", 700_000, '"""}\n'),
    ("bridge = {ports = 1, out = '''''{", ".a", 700_000, "'''}\n"),
    ("bridge.ports = 1\n[[vlan]]\nvid = 2\ntagged = [", "'b1', ", 700_000, "'b1']\n"),
]


def many(front, text, times, back):
    return front + text * times + back


TABLES = {
    "bytes": ("", BYTES),
    "commands": ("", COMMANDS),
    "fates": ("", [(with_fates(*fates), verdict) for *fates, verdict in FATES]),
    "heavy": ("", [(many(*it), "out of memory") for it in HEAVY]),
    "light": ("", [(many(*it), "ok") for it in LIGHT]),
}
