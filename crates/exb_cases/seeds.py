"""Cases of seeds: frames, commands, and what is on links, in an order that is drawn."""
from fates import with_fate
from frames import *
from generated import EVERY, at_random


def around_a_change(cases):
    """A member is retagged while frames fly: each frame leaves wholly by the old rules or by the new ones."""
    name, sent = "retagged-in-flight", tagged(10)
    member = "vlan = [{ vid = 10, tagged = ['x1.1-2'] }]\n" + commands("0 member vid = 10, port = 'x1.2', kind = 'untagged'")
    topology, between, orders = one_extender(2, {"x1.1": "a.pcap"}, more=member), 0, set()
    for seed in range(1, 65):
        text = topology.replace("FOLDER/out-", f"FOLDER/{seed}-")
        written, _ = cases.plays(name, text, {"a.pcap": [(100, sent), (100, sent)]}, seed=seed, file=f"{seed}.toml",
                                 options=f"--seed {seed} --trace" if seed % 8 == 7 else f"--seed={seed}")
        lines = written[f"{seed}-journal.txt"].decode().splitlines()
        orders.add(tuple(line for line in lines if line.startswith(("relay", "commit"))))
        between += is_between(written.get(f"{seed}-trace.txt", b"").decode().splitlines())
    assert len(orders) == 3 and between > 1


def is_between(lines):
    """Whether a frame is relayed after the request with both fresh sets and before the commit."""
    change = lines[lines.index("= settled") + 1:lines.index("= commit 1")] if lines else []
    asked = [at for at, line in enumerate(change) if line.startswith("out b 1") and line.split()[3][36:38] == "06"]
    return bool(asked) and any(line.startswith("= relay x1.1 ") for line in change[asked[0]:])


def over_trees(cases):
    """Seeds over trees: the last frames of a port that goes down, commands of each kind, and control frames that are lost."""
    fates = [letter * 6 for letter in "LDT"]
    them = commands("0 down port = 'x2.1', fate = 'LD'", "1 up port = 'x2.1', fate = 'T'", "1 isolate port = 'x1.1', isolated = true")
    deep = tree([(1, "b1", 2), (2, "x1.2", 2)], {"x2.1": "a.pcap", "b2": "b.pcap"}, "ports = 2", them)
    frames = {"a.pcap": [(100 + at // 2, frame(size=20, rest=bytes([at]))) for at in range(4)],
              "b.pcap": [(100 + at // 2, frame(source=TWO, size=20)) for at in range(4)]}
    for number, fate in enumerate(fates, 1):
        cases.plays(f"port-down-in-flight-{number}", with_fate(fate, deep), frames, seed=number, options=f"--seed {number} --trace")
    some = [it.split(" ", 1)[1] for it in EVERY]
    at_once = commands(*[f"{at // 9} {it}" for at, it in enumerate(some)])
    wide = tree([(1, "b1", 3), (2, "x1.3", 2), (3, "b3", 2)], {"x3.1": "a.pcap", "b2": "b.pcap"}, "ports = 3", at_once)
    group = bytes.fromhex("010000000009")
    frames = {"a.pcap": [(100 + at / 8, frame(to, size=20)) for at in range(8) for to in (ALL, group)],
              "b.pcap": [(100 + at / 8, frame(TWO, THREE, size=20)) for at in range(8)]}
    for number in (0, 18446744073709551615):
        cases.plays(f"every-command-at-once-seed-{number}", wide, frames, seed=number, options=f"--seed {number}")


def trees_at_random(cases):
    """Any trees with any rules and commands, played by a seed."""
    for seed, (count, groups) in enumerate([(2, 12), (6, 8), (12, 12)], 31):
        at_random(cases, seed, count, groups, options=f"--seed={seed}", order=seed)


PARTS = [around_a_change, over_trees, trees_at_random]
