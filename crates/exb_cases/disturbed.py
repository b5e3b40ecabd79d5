"""Runs over links that disturb as much as a topology may ask for, and runs that are disturbed once, by the last control frame that is asked for.

The first come to what the plain bridge says, which knows of no fate. Of the others nothing is said but by the program's own trace: a fate
that delivers as many control frames as the trace has lines of one that comes in, and then loses one, loses none; and one that
delivers one less loses the last of them. So the fate is asked as often.
"""
from frames import capture, frame, tagged
from seeded import RETAGGED, letters

# What becomes of control frames, in the letters of a topology, of which it may have 60,000.
MOST = 60_000
KINDS = ("D", "T", "L", "drawn")
# How many extenders, and how many letters of each kind, or how many that are drawn disturb.
CHAINS = [*((levels, dict.fromkeys(KINDS, MOST)) for levels in (1, 8, 64)), (1, {"D": 500, "T": 500, "L": 3, "drawn": 200})]


def chain(levels, fate):
    """Extenders of which each hangs on the last port of the one before. The last port of all is retagged, goes down and comes up again."""
    extenders = ", ".join(f"{{number = {it}, on = '{f'x{it - 1}.2' if it > 1 else 'b1'}', ports = 2}}" for it in range(1, levels + 1))
    last = f"x{levels}.2"
    return (f"bridge = {{ports = 2}}\nlinks = {{fate = '{fate}'}}\nextender = [{extenders}]\n"
            f"vlan = [{{vid = 10, tagged = ['x1.1', '{last}'], untagged = ['b2']}}]\n"
            f"command = [{{at = 1, op = 'member', vid = 10, port = '{last}', kind = 'untagged'}}, {{at = 3, op = 'down', port = '{last}'}}, "
            f"{{at = 5, op = 'up', port = '{last}'}}]\ncaptures = {{'x1.1' = 'a.pcap'}}\n")


def fate(kind, count):
    """So many letters; those that are drawn are cut where there are more."""
    return letters(1, count)[:MOST] if kind == "drawn" else kind * count


def at_even_seconds(text):
    """The files of a run of a topology with three frames."""
    return {"t.toml": text.encode(), "a.pcap": capture(*((second, tagged(10)) for second in (100, 102, 104)))}


def chains():
    """The runs over chains: a name, and what makes the files, since letters of fates take long to draw."""
    for levels, counts in CHAINS:
        for kind, count in counts.items():
            yield f"{levels} levels, {kind} {count}", lambda it=(levels, kind, count): at_even_seconds(chain(it[0], fate(*it[1:])))


def lost_answers():
    """The first answer of a change is lost, beside sixteen drawn fates: as `chains` does."""
    text = RETAGGED.replace("at = 0", "at = 1").replace("'untagged' }", "'untagged', fate = 'PPLLL' }")
    for number in range(1, 17):
        yield f"a lost answer, fate {number}", lambda it=number: at_even_seconds(f"{text}links = {{ fate = '{letters(it, 200)}' }}\n")


# Runs whose control frames are counted: one extender, two, and a member that is retagged as the frame comes.
COUNTED = [
    "bridge = { ports = 1 }\nextender = [{ number = 1, on = 'b1', ports = 2 }]\ncaptures = { 'x1.1' = 'a.pcap' }\n",
    "bridge = { ports = 2 }\nextender = [{ number = 1, on = 'b1', ports = 2 }, { number = 2, on = 'x1.2', ports = 2 }]\n"
    "captures = { 'x1.1' = 'a.pcap' }\n",
    RETAGGED,
]


def counted(text, fate):
    """The files of such a run."""
    return {"t.toml": f"{text}links = {{ fate = '{fate}' }}\n".encode(), "a.pcap": capture((100, frame()))}


def control_in(trace):
    """How many lines of a trace are those of a control frame that a device takes in."""
    lines = (line.split(" ") for line in trace.decode().splitlines())
    return sum(words[0] == "in" and words[-1].startswith("0180c200000e") for words in lines)
