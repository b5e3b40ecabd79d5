"""The second pass: where extenders hang."""

TREE = [
    ("[{number=1,on='b1',ports=1},{number=1,on='b2',ports=1}]\n", "TwoUpstreams at extender[1].number"),
    ("[{number=1,on='b1',ports=1},{number=1,on='b1',ports=1}]\n", "TwoUpstreams at extender[1].number"),
    ("[{number=1,on='b1',ports=1},{number=1,on='b9',ports=1}]\n", "TwoUpstreams at extender[1].number"),
    ("[{number=1,on='b1',ports=1},{number=2,on='b1',ports=1}]\n", "SharedPort at extender[1].on"),
    ("[{number=1,on='b1',ports=1},{number=2,on='x1.1',ports=1},{number=3,on='x1.1',ports=1}]\n", "SharedPort at extender[2].on"),
    ("[{number=1,on='x9.1',ports=1},{number=1,on='x9.1',ports=1}]\n", "UnknownPort at extender[0].on"),
    ("[{number=1,on='b3',ports=2}]\n", "UnknownPort at extender[0].on"),
    ("[{number=1,on='x2.1',ports=2}]\n", "UnknownPort at extender[0].on"),
    ("[{number=1,on='b1',ports=2},{number=2,on='x1.3',ports=1}]\n", "UnknownPort at extender[1].on"),
    ("[{number=1,on='b1',ports=1},{number=2,on='x1.2',ports=1},{number=1,on='b2',ports=2}]\n", "UnknownPort at extender[1].on"),
    ("[{number=1,on='x1.1',ports=2}]\n", "Loop at extender[0].on"),
    ("[{number=1,on='x2.1',ports=2},{number=2,on='x1.1',ports=2}]\n", "Loop at extender[0].on"),
    ("[{number=1,on='b1',ports=1},{number=2,on='x3.1',ports=1},{number=3,on='x2.1',ports=1}]\n", "Loop at extender[1].on"),
    ("[{number=1,on='x2.2',ports=1},{number=2,on='x3.1',ports=2},{number=3,on='x2.1',ports=1}]\n", "Loop at extender[0].on"),
    ("[{number=1,on='x1.1',ports=1},{number=2,on='b1',ports=1},{number=2,on='b2',ports=1}]\n", "TwoUpstreams at extender[2].number"),
    ("[{number=1,on='x1.1',ports=1},{number=2,on='b1',ports=1},{number=3,on='b1',ports=1}]\n", "SharedPort at extender[2].on"),
    ("[{number=1,on='x1.1',ports=1},{number=2,on='b3',ports=1}]\n", "UnknownPort at extender[1].on"),
    ("[{number=4,on='x4.1',ports=1},{number=1,on='b1',ports=2},{number=2,on='x1.1',ports=1},{number=3,on='x1.2',ports=1}]\n",
     "Loop at extender[0].on"),
    ("[{number=1,on='b1',ports=2},{number=2,on='x1.1',ports=1},{number=3,on='x1.2',ports=1}]\n", "FewChannels at bridge.channels"),
    ("[{number=1,on='b2',ports=2},{number=2,on='x1.1',ports=1},{number=3,on='x2.1',ports=1}]\n", "FewChannels at bridge.channels"),
    ("[{number=1,on='b1',ports=2},{number=2,on='x1.1',ports=1},{number=3,on='b2',ports=1}]\n", "ok"),
    ("[{number=1,on='b1',ports=2},{number=2,on='x1.1',ports=1},{number=3,on='b2',ports=1},{number=4,on='x3.1',ports=1}]\n", "ok"),
    ("[{number=2,on='x1.1',ports=1},{number=1,on='b1',ports=2}]\n", "ok"),
    ("[{number=64,on='b2',ports=64},{number=1,on='x64.64',ports=1}]\n", "ok"),
    ("[]\n", "ok"),
]

# Each file has a fault of a pass, and one of the pass after it at an earlier table.
PASSES = [
    ("extender=[{number=1,on='b9',ports=1}]\nport=[{name='b9'}]\ncaptures={q='a'}\n", "Name at captures.q"),
    ("extender=[{number=1,on='b9',ports=1}]\nport=[{name='b9'}]\n", "UnknownPort at extender[0].on"),
    ("extender=[{number=1,on='b1',ports=2},{number=2,on='x1.1',ports=1},{number=3,on='x1.2',ports=1}]\nport=[{name='b9'}]\n",
     "FewChannels at bridge.channels"),
    ("port=[{name='b9'}]\n", "UnknownPort at port[0].name"),
]

def chain(channels):
    """A chain of 64 extenders, each on port 1 of the one before it, where the bridge has that many channels."""
    file = f"bridge = {{ports = 1, channels = {channels}}}\n[[extender]]\nnumber = 1\non = 'b1'\nports = 1\n"
    return file + "".join(f"[[extender]]\nnumber = {at}\non = 'x{at - 1}.1'\nports = 1\n" for at in range(2, 65))


# A chain of 64 extenders needs 63 channels.
CHAINS = [
    (chain(63), "ok"),
    (chain(62), "FewChannels at bridge.channels"),
]

def setup(bridge, *extenders):
    """Ports, channels, groups and ageing time of a bridge; and of each extender the number, its ports, the extender (0 for the bridge) and the port on
    which it hangs."""
    places = ", ".join(f"{{number = {number}, ports = {ports}, on = '{f'x{above}.' if above else 'b'}{port}'}}" for number, ports, above, port in extenders)
    return "bridge = {{ports = {}, channels = {}, groups = {}, ageing = {}}}\n".format(*bridge) + f"extender = [{places}]\n"


# A bridge in the middle of its ranges, with four ports.
COMMON = (4, 9, 9, 300)
TWO_CHAINS = ((1, 4, 0, 1), (2, 4, 1, 1), (3, 4, 2, 1), (4, 4, 0, 2), (5, 4, 4, 1))

SETUPS = [
    (setup((1, 4094, 12288, 300)), "ok"),
    (setup((64, 4094, 12288, 0)), "ok"),
    (setup((4, 1, 1, 10)), "ok"),
    (setup((4, 1, 1, 1000000)), "ok"),
    (setup(COMMON, (1, 4, 0, 1)), "ok"),
    (setup(COMMON, (1, 4, 0, 1), (2, 4, 1, 3)), "ok"),
    (setup(COMMON, (2, 4, 1, 3), (1, 4, 0, 1)), "ok"),
    (setup(COMMON, (64, 64, 0, 4), (5, 4, 64, 64), (6, 4, 64, 1)), "ok"),
    (setup((4, 2, 9, 300), *TWO_CHAINS), "ok"),
    (setup((4, 1, 9, 300), (1, 1, 0, 1), (2, 1, 0, 2)), "ok"),
    (setup((0, 9, 9, 300)), "Range at bridge.ports"),
    (setup((65, 9, 9, 300)), "Range at bridge.ports"),
    (setup((4, 0, 9, 300)), "Range at bridge.channels"),
    (setup((4, 4095, 9, 300)), "Range at bridge.channels"),
    (setup((4, 9, 0, 300)), "Range at bridge.groups"),
    (setup((4, 9, 12289, 300)), "Range at bridge.groups"),
    (setup((4, 9, 9, 1)), "Range at bridge.ageing"),
    (setup((4, 9, 9, 9)), "Range at bridge.ageing"),
    (setup((4, 9, 9, 1000001)), "Range at bridge.ageing"),
    # Numbers of extenders and of ports.
    (setup(COMMON, (0, 4, 0, 1)), "Range at extender[0].number"),
    (setup(COMMON, (65, 4, 0, 1)), "Range at extender[0].number"),
    (setup(COMMON, (1, 0, 0, 1)), "Range at extender[0].ports"),
    (setup(COMMON, (1, 65, 0, 1)), "Range at extender[0].ports"),
    (setup(COMMON, (1, 4, 0, 0)), "Name at extender[0].on"),
    (setup(COMMON, (1, 4, 0, 5)), "UnknownPort at extender[0].on"),
    (setup(COMMON, (1, 4, 2, 1)), "UnknownPort at extender[0].on"),
    (setup(COMMON, (1, 4, 0, 1), (2, 4, 1, 5)), "UnknownPort at extender[1].on"),
    # Each has a number and a port of its own.
    (setup(COMMON, (1, 4, 0, 1), (1, 4, 0, 2)), "TwoUpstreams at extender[1].number"),
    (setup(COMMON, (1, 4, 0, 1), (2, 4, 0, 1)), "SharedPort at extender[1].on"),
    (setup(COMMON, (1, 4, 0, 1), (2, 4, 1, 1), (3, 4, 1, 1)), "SharedPort at extender[2].on"),
    # Each reaches the bridge.
    (setup(COMMON, (1, 4, 1, 1)), "Loop at extender[0].on"),
    (setup(COMMON, (1, 4, 2, 1), (2, 4, 1, 1)), "Loop at extender[0].on"),
    (setup(COMMON, (1, 4, 2, 1), (2, 4, 3, 1), (3, 4, 1, 1), (4, 4, 0, 1)), "Loop at extender[0].on"),
    # Each cascade port takes a channel below its port of the bridge.
    (setup((4, 1, 9, 300), *TWO_CHAINS), "FewChannels at bridge.channels"),
]

TABLES = {
    "tree": ("bridge = {ports = 2, channels = 1}\nextender = ", TREE),
    "passes": ("bridge = {ports = 2, channels = 1}\n", PASSES),
    "chains": ("", CHAINS),
    "setups": ("", SETUPS),
}
