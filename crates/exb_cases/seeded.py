"""Runs in a drawn order, with a trace and without: the tree over links (world/) says what is written, and the plain bridge, which follows its journal, that
the captures are right.
"""
import bridge
from frames import capture, tagged
from world.schedule import Lcg64Xsh32, run

# A member is retagged in the second in which both frames come.
RETAGGED = (
    "bridge = { ports = 1 }\nextender = [{ number = 1, on = 'b1', ports = 2 }]\nvlan = [{ vid = 10, tagged = ['x1.1-2'] }]\n"
    "command = [{ at = 0, op = 'member', vid = 10, port = 'x1.2', kind = 'untagged' }]\ncaptures = { 'x1.1' = 'a.pcap' }\n"
)
FRAMES = capture((100, tagged(10)), (100, tagged(10)))

# Seeds over links that disturb nothing, and seeds over verdicts that are drawn from the same number, of which at most 200 disturb.
SEEDS = [*((seed, 0) for seed in range(1, 65)), *((seed, 200) for seed in range(1, 17))]


def letters(number, budget):
    """Verdicts that are drawn, up to the last that disturbs."""
    source, drawn = Lcg64Xsh32.seed_from_u64(number), ""
    while budget:
        drawn += "PLTD"[source.next_u32() % 4]
        budget -= drawn[-1] != "P"
    return drawn


def files_of(seed, budget):
    """The files of a run."""
    return {"topology.toml": f"{RETAGGED}links = {{ fate = '{letters(seed, budget)}' }}\n".encode(), "a.pcap": FRAMES}


def written(seed, files):
    """What a run writes with a trace, and prints."""
    text = files["topology.toml"].decode()
    told, summary, world = run(text, files, seed)
    plainly, _ = bridge.run(text, files, world.journal)
    captures = [name for name in told if name.endswith(".pcap")]
    assert captures and all(told[name] == plainly[name] for name in captures), "the tree over links and the plain bridge come to different captures"
    return told, summary
