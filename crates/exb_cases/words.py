"""Cases of words: which are accepted, and what `check` and `make` print."""
import bridge
from fates import is_among
from frames import *
from world.made import made
from world.schedule import play, summary as summary_of

A = {"x1.1": "a.pcap"}
TWO_PORTS = one_extender(2, A)
USAGE = "exbr: usage: exbr run TOPOLOGY [--trace] [--counters] [--seed N] | exbr check TOPOLOGY | exbr make N | exbr audit TOPOLOGY | exbr net FILE [--counters]"

REFUSED = {
    "no-words": "",
    "help": "--help",
    "short-help": "-h",
    "empty-word": '""',
    "run-alone": "run",
    "check-alone": "check",
    "make-alone": "make",
    "audit-alone": "audit",
    "a-word-too-many": "run FOLDER/topology.toml FOLDER/topology.toml",
    "another-word": "walk FOLDER/topology.toml",
    "option-alone": "run --trace",
    "seed-that-takes-the-name": "run --seed FOLDER/topology.toml",
    "number-of-ports": "run 04 2",
    "trace-twice": "run FOLDER/topology.toml --trace --trace",
    "trace-with-a-value": "run FOLDER/topology.toml --trace=1",
    "counters-twice": "run FOLDER/topology.toml --counters --trace --counters",
    "counters-with-a-value": "run FOLDER/topology.toml --counters=1",
    "counters-in-other-letters": "run FOLDER/topology.toml --Counters",
    "check-with-counters": "check FOLDER/topology.toml --counters",
    "make-with-counters": "make 7 --counters",
    "seed-without-number": "run FOLDER/topology.toml --seed",
    "seed-that-takes-an-option": "run FOLDER/topology.toml --seed --trace",
    "seed-twice": "run FOLDER/topology.toml --seed 1 --seed 2",
    "seed-twice-in-two-forms": "run FOLDER/topology.toml --seed 1 --seed=1",
    "seed-of-nothing": "run FOLDER/topology.toml --seed=",
    "seed-of-an-empty-word": 'run FOLDER/topology.toml --seed ""',
    "seed-below-zero": "run FOLDER/topology.toml --seed -1",
    "seed-with-a-sign": "run FOLDER/topology.toml --seed=+1",
    "seed-in-hexadecimal": "run FOLDER/topology.toml --seed=0x1",
    "seed-too-large": "run FOLDER/topology.toml --seed=18446744073709551616",
    "seed-of-21-digits": "run FOLDER/topology.toml --seed=000000000000000000007",
    "unknown-option": "run FOLDER/topology.toml --verbose",
    "short-option": "run FOLDER/topology.toml -t",
    "dashes-before-run": "-- run FOLDER/topology.toml",
    "option-before-run": "--trace run FOLDER/topology.toml",
    "option-behind-dashes": "run FOLDER/topology.toml -- --trace",
    "dashes-twice": "run -- -- FOLDER/topology.toml",
    "check-with-trace": "check FOLDER/topology.toml --trace",
    "check-with-seed": "check FOLDER/topology.toml --seed 1",
    "check-of-two": "check FOLDER/topology.toml FOLDER/topology.toml",
    "make-of-a-name": "make FOLDER/topology.toml",
    "make-of-21-digits": "make 000000000000000000007",
    "make-too-large": "make 18446744073709551616",
    "make-below-zero": "make -1",
    "make-below-zero-behind-dashes": "make -- -1",
    "make-of-two": "make 7 7",
    "make-with-trace": "make 7 --trace",
    "make-of-an-empty-word": 'make ""',
    "audit-of-two": "audit FOLDER/topology.toml FOLDER/topology.toml",
    "audit-with-trace": "audit FOLDER/topology.toml --trace",
    "audit-with-seed": "audit FOLDER/topology.toml --seed 1",
}


def refused(cases):
    """Words that aren't the program's: the usage, and no file."""
    for name, words in REFUSED.items():
        cases.stops(name, 2, TWO_PORTS, {"a.pcap": HEADER}, USAGE, words)


def accepted(cases):
    """Options on both sides of the name, dashes in front of a name, and names that are there for no file."""
    one = {**out(x1_2=[(100, F)]), "out-journal.txt": journal(*UP, *relays("x1.1 1"))}
    for name, words in [("option-before-the-name", "run --trace FOLDER/topology.toml"),
                        ("options-on-both-sides", "run --seed 7 FOLDER/topology.toml --trace"), ("dashes-before-the-name", "run -- FOLDER/topology.toml"),
                        ("option-and-dashes", "run --trace -- FOLDER/topology.toml"),
                        ("counters-before-the-name", "run --counters FOLDER/topology.toml"),
                        ("options-in-another-order", "run --seed=7 --counters FOLDER/topology.toml --trace"),
                        ("largest-seed", "run --seed=18446744073709551615 FOLDER/topology.toml"),
                        ("seed-of-20-digits", "run FOLDER/topology.toml --seed 00000000000000000007")]:
        seed = {"options-on-both-sides": 7, "options-in-another-order": 7, "largest-seed": 2**64 - 1, "seed-of-20-digits": 7}.get(name)
        written, _ = cases.plays(name, TWO_PORTS, {"a.pcap": [(100, F)]}, seed=seed, options=words)
        assert is_among(one, written)
    for name, words, missing in [("a-dash", "run -", "-"), ("name-behind-dashes", "run -- --trace", "--trace"),
                                 ("empty-name", 'run ""', ""), ("check-of-a-dash", "check -", "-"), ("check-behind-dashes", "check -- -x", "-x"),
                                 ("check-of-no-topology", "check FOLDER/other.toml", "FOLDER/other.toml")]:
        cases.stops(name, 5, TWO_PORTS, {"a.pcap": HEADER}, f"exbr: missing {missing}", words)


def needs(topology):
    """What `check` prints: the most channels below a port of the bridge, and the most sets there once all ports are up."""
    plain = bridge.Bridge(topology)
    hung = plain.tree
    trunks = {hung.trunk(port) for port in hung.on.values()}
    channels = [hung.cascades(trunk) + len(hung.extended.get(trunk, ())) for trunk in trunks]
    plain.now.present |= set(hung.external)
    parts = plain.now.parts()
    sets = [len(plain.now.sets(trunk, parts)) for trunk in hung.extended]
    return [f"channels {max(channels, default=0)} of {plain.bridge.get('channels', 4094)}",
            f"sets {max(sets, default=0)} of {plain.bridge.get('groups', 12288)}"]


def checks(cases):
    """What topologies need, with captures that aren't there."""
    chain = [(1, "b1", 1)] + [(number, f"x{number - 1}.1", 1) for number in range(2, 65)]
    apart = "port = [{ name = 'x1.1', isolated = true }, { name = 'x1.2', isolated = true }]\n"
    hundred = "vlan = [{ vid = 100, last = 199, tagged = ['*'] }]\n"
    two = "vlan = [{ vid = 5, tagged = ['x1.1', 'b3'], untagged = ['x2.*'] }, { vid = 6, untagged = ['x2.1', 'x3.*'] }]\n"
    entry = "static = [{ vid = 5, mac = '01-00-00-00-00-09', ports = ['x1.1', 'x2.1', 'x3.1'] }]\n"
    eight = [(at, f"b{at}", 8) for at in range(1, 9)]
    three = [(1, "b1", 3), (2, "x1.3", 2), (3, "b2", 2)]
    changed = commands("0 down port = 'x1.1'", "0 vlan vid = 9, tagged = ['x1.2']")
    for name, topology, channels, sets in [
            ("check", TWO_PORTS, "2 of 4094", "1 of 12288"),
            ("check-of-a-chain-of-64", tree(chain, {"b2": "a.pcap"}, "ports = 2"), "64 of 4094", "1 of 12288"),
            ("check-of-a-hundred-vlans", tree(eight, {}, "ports = 8", hundred), "8 of 4094", "1 of 12288"),
            ("check-of-isolated-ports", one_extender(3, A, more=apart), "3 of 4094", "2 of 12288"),
            ("check-without-extender", tree([], {}, "ports = 3"), "0 of 4094", "0 of 12288"),
            ("check-past-its-limits", one_extender(3, A, "ports = 1, channels = 2, groups = 1", apart), "3 of 2", "2 of 1"),
            ("check-of-two-trunks", tree(three, A, "ports = 3", two + entry), "5 of 4094", "3 of 12288"),
            ("check-of-ports-that-go-down", one_extender(2, A, more=changed), "2 of 4094", "1 of 12288")]:
        lines = [f"channels {channels}", f"sets {sets}"]
        assert needs(topology) == lines, name
        cases.prints(name, "check -- FOLDER/topology.toml" if "chain" in name else "check FOLDER/topology.toml", lines, topology)
    cases.stops("check-of-a-fault", 3, one_extender(2, {"x1.3": "a.pcap"}), {"a.pcap": HEADER[:3]},
                "exbr: topology: UnknownPort at captures.x1.3", "check FOLDER/topology.toml")


def makes(cases):
    """Input that is made of a number: the summary alone. The plain bridge and the tree over links have to come to the same."""
    for name, words in [("make-7", "7"), ("make-7-again", "7"), ("make-of-20-digits", "00000000000000000007"), ("make-0", "-- 0"),
                        ("make-the-largest", "18446744073709551615")]:
        topology, records = made(int(words.split()[-1]))
        plain = bridge.Bridge(topology)
        plain.play(records)
        world = play(topology, records)
        assert plain.left == world.left and plain.journal == world.journal and summary_of(world) == plain.summary()
        assert plain.summary().startswith("arrivals 1000 ")
        cases.prints(name, f"make {words}", [plain.summary()])


PARTS = [refused, accepted, checks, makes]
