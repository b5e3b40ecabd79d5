"""Why frames went nowhere, in few words, and commands in words. What is said of each frame is said by the desk's own sentences."""
from exbr_desk.explain import TEMPLATES, Sentence, explain
from exbr_desk.reading import NAMES, Arrival, Reading

MOST = 10
OPEN = {"destination": "{destination}", "vid": "{vid}", "at": "{at}", "index": "{of}", "ago": "{age}", "port": "{port}"}
CAUSES = {
    "bad tag": "its tag is broken", "only tagged": "only tagged frames are accepted", "only untagged": "only untagged frames are accepted",
    "vlan": "its VLAN has no members", "filter": "ingress filtering",
}
NOBODY_CAUSES = {
    "alone": "nobody else in its VLAN may get it", "back": "its target is where it came from", "no member": "its target's port is no member",
    "apart": "both ports are isolated", "no ports": "its static entry has no port for it",
}

IGNORED = {
    "absent": "their port was down", "short": "they are shorter than 14 bytes", "long": "they are longer than 9,216 bytes",
    "reserved": "they are for addresses that no bridge relays (01-80-C2-00-00-00 to -0F)",
}
EVERY = IGNORED | CAUSES | NOBODY_CAUSES
WENT = {
    "absent": "{were} ignored, since {port} was down", "short": "{were} ignored: shorter than 14 bytes",
    "long": "{were} ignored: longer than 9,216 bytes", "reserved": "{were} ignored: for an address that no bridge relays (01-80-C2-00-00-00 to -0F)",
    "bad tag": "{were} refused: with a VLAN tag that is cut off or names VLAN 4095", "only tagged": "{were} refused: {port} accepts tagged frames alone",
    "only untagged": "{were} refused: {port} accepts frames without a VLAN tag alone",
    "vlan": "{were} refused: of VLAN {vid}, which has no member", "filter": "{were} refused: {port} filters, and isn't in VLAN {vid}",
    "alone": "had nobody to go to in VLAN {vid}", "back": "{were} for a station behind {port} itself, and stayed there",
    "no member": "{were} for a station heard in VLAN {vid} at {at}, which isn't in it any more",
    "apart": "{were} for a station behind {at}, which is isolated as {port} is",
    "no ports": "had a static entry in VLAN {vid} with no port for them",
}


def went(cause: str, count: int) -> str:
    """What became of so many frames, with places for port and VLAN."""
    return WENT[cause].replace("{were}", "was" if count == 1 else "were")



def refusal_of(it: Arrival, reading: Reading) -> str:
    """Why the rules of its port refused a frame."""
    if it.rule == "accept":
        return "only tagged" if reading.now.rules[it.port].accept == "tagged" else "only untagged"
    return it.rule or ""



def nowhere(it: Arrival, reading: Reading) -> str:
    """Why a frame that was let in left nowhere."""
    if it.how == "static":
        return "no ports"
    if it.how == "flooded" or it.entry is None:
        return "alone"
    if it.entry.port == it.port:
        return "back"
    members = reading.now.vlans.get(it.vid, nobody())
    is_member = any(it.entry.port in them for them in members.values()) and it.entry.port in reading.now.present
    return "apart" if is_member else "no member"


def nobody() -> dict[str, frozenset]:
    """The members of a VLAN that isn't there."""
    return {"tagged": frozenset(), "untagged": frozenset()}





def command_in_words(table: dict) -> str:
    """What a command asks for, in words."""
    op, vid, port = table["op"], table.get("vid"), table.get("port")
    said = lambda key: " ".join(table.get(key, [])) or "none"
    return {
        "vlan": lambda: f"VLAN {vid}: tagged {said('tagged')}, untagged {said('untagged')}",
        "member": lambda: f"put {port} into VLAN {vid}, {table['kind']}",
        "unmember": lambda: f"take {port} out of VLAN {vid}",
        "pvid": lambda: f"PVID {vid} at {port}",
        "accept": lambda: f"{port} accepts {table['accept']} frames" + (" alone" if table["accept"] != "all" else ""),
        "filter": lambda: f"ingress filtering {'on' if table['filter'] else 'off'} at {port}",
        "isolate": lambda: f"{'isolate' if table['isolated'] else 'end the isolation of'} {port}",
        "static": lambda: f"static entry {table['mac']} in VLAN {vid}: {said('ports')}",
        "unstatic": lambda: f"remove the static entry {table['mac']} in VLAN {vid}",
        "up": lambda: f"{port} goes up",
        "down": lambda: f"{port} goes down",
    }[op]()


def cause_in_words(cause: str) -> str:
    """Why a command was refused, or a port stayed absent."""
    what, needed, limit = cause.split()
    names = {"channels": "channels (a number for each port)", "groups": "groups (a number for each set of ports)"}
    return f"below one port of the bridge it needs {needed} {names.get(what, what)}, and the topology allows {limit}"


def sentences(it: Arrival, reading: Reading) -> list[str]:
    """What is said of a frame. What differs from frame to frame is left open in it, so that many frames have the same sentences: the page
    fills it in. The ports where it left aren't said, since the page shows them anyway."""
    them = [one for one in explain(reading, it) if one.code != "leaves"]
    told = [opened(one, it) for one in them[:MOST]]
    return told + ([f"and {len(them) - MOST:,} more ports where it didn't leave"] if len(them) > MOST else [])


def opened(sentence: Sentence, it: Arrival) -> str:
    """A sentence with its places left open."""
    values = dict(sentence.values)
    for key, place in OPEN.items():
        if key in values and not (key == "port" and values[key] != NAMES[it.port]):
            values[key] = place
    return TEMPLATES[sentence.code].format(**values)
