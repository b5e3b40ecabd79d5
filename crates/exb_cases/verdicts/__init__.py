"""Files and the verdict on each, row by row: `ok`, or the first fault and the key at which it stands.

A row is a text (or bytes where it is none) and its verdict, which is what is printed of it behind `exbr: topology: ` by `check`, and
behind `exbr: net: ` by `net`, or that memory doesn't suffice. What `check` prints of a topology without a fault is told by the plain bridge
(`words.needs`). A table has a head that stands in front of the text of each of its rows. No row is written by asking the program.
"""
from . import broken, commands, limits, nets, ports, shape, trees


def data(text):
    return text if isinstance(text, bytes) else text.encode()


def rows(tables):
    """Each table by its name, with its rows as whole files."""
    for name, (head, table) in tables.items():
        yield name, [(data(head) + data(text), verdict) for text, verdict in table]


def topologies():
    """The tables of topologies."""
    for module in (shape, commands, trees, ports, limits, broken):
        for name, table in rows(module.TABLES):
            yield f"{module.__name__.rpartition('.')[2]}, {name}", table


def files_of_nets():
    """The tables of files of nets by themselves, whose topologies aren't there."""
    for name, table in rows(nets.FILES):
        yield f"nets, {name}", table


def nets_with_topologies():
    """The tables of files of nets over topologies: the file, the topologies, whose names are 1, 2 and so on, and the verdict."""
    for name, table in nets.NETS.items():
        yield f"nets, {name}", [(data(file), [data(it) for it in texts], verdict) for file, texts, verdict in table]
