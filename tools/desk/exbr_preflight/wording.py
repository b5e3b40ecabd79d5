"""A fault in words: what is wrong, what would be right, and which word comes near."""
from __future__ import annotations

import datetime
import difflib
import re
from typing import NamedTuple

from exbr_desk import plain
from exbr_desk.places import Path, Place, Placed

from .faults import ALONE, FATE, KEYS, MAC, MOST_COMMANDS, MOST_LETTERS, PORT, PORTS, SWITCH, TABLES, TEXT, Fault
from .trees import Ports

FORMS = {TEXT: "a text in quotes", SWITCH: "true or false", PORT: "a port, as b1 or x1.2", PORTS: 'a list of ports, as ["b1", "x1.1-8"]',
         MAC: "an address, as 02:00:00:00:00:01", FATE: "letters P, L, T and D"}
UNITS = {"vid": "a VLAN", "pvid": "a VLAN", "last": "a VLAN", "number": "the number of an extender", "ports": "a number of ports",
         "channels": "a number of channels", "groups": "a number of groups", "ageing": "seconds", "at": "seconds after the start"}
EXAMPLES = {"ports": "ports = 48", "number": "number = 1", "on": 'on = "b1"', "name": 'name = "x1.1"', "vid": "vid = 10", "mac": 'mac = "02:00:00:00:00:01"',
            "at": "at = 60", "op": 'op = "down"', "port": 'port = "x1.1"', "kind": 'kind = "untagged"', "accept": 'accept = "tagged"',
            "filter": "filter = true", "isolated": "isolated = true"}


class Message(NamedTuple):
    """What is wrong, in a line; what would be right; where; and another place of which the first line speaks."""

    text: str
    help: str | None
    place: Place | None
    other: tuple[str, Place] | None = None


def message_of(fault: Fault, placed: Placed) -> Message:
    text, advice = WORDED[fault.kind](fault, placed)
    return Message(text, advice, _place(fault, placed), _other(fault, placed))


def _place(fault: Fault, placed: Placed) -> Place | None:
    """Where a fault stands: at the key where that is wrong, else at the value, or at the word of the list."""
    if fault.kind == "Unknown" or fault.path[0] == "captures" and fault.kind in ("Name", "UnknownPort") and len(fault.path) > 1:
        return placed.key(fault.path) or placed.value(fault.path)
    return placed.value(fault.path if fault.word is None else (*fault.path, fault.word))


def _other(fault: Fault, placed: Placed) -> tuple[str, Place] | None:
    """The place of what was given first."""
    if fault.kind == "Range" and "before" in fault.about:
        number = fault.about["before"][0]
        place = placed.value(("command", number - 1, "at"))
        return (f"command {number} is here", place) if place else None
    first = fault.about.get("first")
    if fault.kind not in ("Repeat", "TwoUpstreams", "SharedPort") or first is None:
        return None
    place = placed.value((fault.path[0], first, fault.path[-1]))
    return ("it is given first here", place) if place else None


def element_of(path: Path, tables: dict) -> str:
    """A table in the words of an operator. Commands are counted from 1, as the journal counts them."""
    name = str(path[0])
    if len(path) < 2 or not isinstance(path[1], int):
        return f"[{name}]"
    element = tables[name][path[1]]
    if name == "command":
        return f"command {path[1] + 1}" + (f" ({element['op']})" if isinstance(element.get("op"), str) else "")
    key = {"extender": "number", "port": "name", "vlan": "vid", "static": "vid"}[name]
    title = {"extender": "extender", "port": "port", "vlan": "VLAN", "static": "the static entry of VLAN"}[name]
    return f"{title} {element[key]}" if isinstance(element.get(key), (int, str)) else f"[[{name}]] number {path[1] + 1}"


def shown(value) -> str:
    """A value as it stands in a file."""
    if isinstance(value, bool):
        return str(value).lower()
    return f'"{value}"' if isinstance(value, str) else str(value)


def near(word: str, known) -> str | None:
    """The known word that comes nearest."""
    same = [it for it in known if it.lower() == word.lower()]
    return (same or difflib.get_close_matches(word, known, 1, 0.6) or [None])[0]


def _unknown(fault: Fault, placed: Placed) -> tuple[str, str | None]:
    key, path = str(fault.path[-1]), fault.path
    known = TABLES if len(path) == 1 else fault.about["known"]
    close, op = near(key, known), fault.about.get("op")
    if path == ("wire",):
        return 'a topology has no table "wire"', "this is a file of a net: exbr net reads it, and this tool each of its topologies"
    where = "a topology has no table" if len(path) == 1 else f"{element_of(path, placed.tables)} has no key"
    if len(path) == 1 and any(key in it for it in KEYS.values()):
        return f'{where} "{key}"', f'"{key}" is a key of a table: it stands below the head of its table, as [bridge]'
    rest = f"there are {', '.join(known)}" if len(path) == 1 else f"{'the keys of ' + shown(op) if op else 'its keys'} are {', '.join(known)}"
    return f'{where} "{key}"', f'did you mean "{close}"?' if close else rest


def _missing(fault: Fault, placed: Placed) -> tuple[str, str | None]:
    if len(fault.path) == 1:
        return "there is no table [bridge]", "it begins with [bridge] and ports = 8, say"
    key = str(fault.path[-1])
    element = element_of(fault.path, placed.tables)
    example = 'ports = ["x1.1"]' if fault.about.get("form") == PORTS else EXAMPLES.get(key)
    return f'{element} has no "{key}"', f"it needs one, as {example}"


def type_of(value) -> str:
    for types, text in ((bool, "true or false"), (int, "a number"), (float, "a number with a point"), (str, "a text"), (list, "a list"), (dict, "a table"),
                        ((datetime.date, datetime.time), "a date or time")):
        if isinstance(value, types):
            return text
    return "something else"


def _kind(fault: Fault, placed: Placed) -> tuple[str, str | None]:
    name, value = str(fault.path[0]), fault.about["value"]
    if len(fault.path) == 1:
        if name in (*ALONE, "captures"):
            return f"{name} is {type_of(value)}, and has to be one table", f"write [{name}]"
        if isinstance(value, dict):
            return f"[{name}] is one table, and there may be many of them", f"write [[{name}]], with two brackets, above each"
        return f"{name} is {type_of(value)}, and has to be tables", f"write [[{name}]] above each"
    key, form = str(fault.path[-1]), fault.about["form"]
    wanted = _wanted(key, form)
    what = f"{shown(value) if not isinstance(value, (list, dict)) else 'this'} is {type_of(value)}"
    return f"{what}, and {key} is {wanted}" if fault.word is None else f"{what}, and {key} has texts alone", _right_type(key, value, form)


def _wanted(key: str, form) -> str:
    if isinstance(form, tuple):
        return f"a number, {form[0]:,} to {form[1]:,}" if isinstance(form[0], int) else "one of " + ", ".join(map(shown, form))
    return FORMS[form]


def _right_type(key: str, value, form) -> str | None:
    """What was meant, where that can be told."""
    if isinstance(form, tuple) and isinstance(form[0], int) and isinstance(value, str) and re.fullmatch("[0-9]+", value):
        return f"write {key} = {value}, without quotes"
    if form == SWITCH and isinstance(value, str) and value.lower() in ("true", "false"):
        return f"write {key} = {value.lower()}, without quotes"
    if form == PORTS and isinstance(value, str):
        return f'write {key} = ["{value}"]'
    if form in (TEXT, PORT, MAC) and isinstance(value, list) and len(value) == 1 and isinstance(value[0], str):
        return f'write {key} = "{value[0]}": this key takes one'
    return None


def _range(fault: Fault, _placed: Placed) -> tuple[str, str | None]:
    about, key = fault.about, str(fault.path[-1])
    if "count" in about:
        return f"there are {about['count']:,} commands", f"there may be {MOST_COMMANDS:,}"
    if "letters" in about:
        return f"with this fate there are {about['letters']:,} letters", f"all fates together may have {MOST_LETTERS:,}"
    value = about["value"]
    if "before" in about:
        number, moment = about["before"]
        return f"at = {value} comes after {moment} of command {number}", "commands stand in the order of their moments"
    if "first" in about:
        return f"last = {value} is below vid = {about['first']}", "a table stands for the VLANs from vid to last"
    if "ageing" in about:
        return f"ageing = {value} is too short", "it is 0 (nothing is learned), or 10 to 1,000,000 seconds"
    return f"{key} = {value} is out of range", f"{UNITS.get(key, 'it')} is {about['form'][0]:,} to {about['form'][1]:,}"


def _name(fault: Fault, _placed: Placed) -> tuple[str, str | None]:
    value, form, key = str(fault.about["value"]), fault.about["form"], str(fault.path[-1])
    if fault.about.get("nested"):
        return f'"{value}" is no port', f'a port of an extender has a dot, so its key needs quotes: "{value}.1" = ".."'
    if isinstance(form, tuple):
        close = near(value, form)
        return f'{key} is no "{value}"', f'did you mean "{close}"?' if close else f"it is one of {', '.join(form)}"
    if form in (PORT, PORTS):
        return f'"{value}" is no {"port" if form == PORT else "word of a list of ports"}', _right_port(value, form == PORTS)
    if form == MAC:
        return f'"{value}" is no address', "an address is six pairs of hexadecimal digits, all joined by : or all by -"
    wrong = next(it for it in value if it not in "PLTD")
    return f'"{wrong}" is no letter of a fate', "the letters are P (delivered), L (lost), T (delivered twice), D (delivered later)"


def _right_port(value: str, in_list: bool) -> str:
    """What a word that is no port was meant to be."""
    guess = re.sub("(?<=[0-9.xb])[oO]", "0", value.strip().lower().replace("l", "1"))
    guess = re.sub(r"(?<![0-9])0+(?=[0-9])", "", guess)
    guess = re.sub(r"^x?([0-9]+)[./:]([0-9]+)$", r"x\1.\2", guess)
    if guess != value and plain.is_port(guess):
        return f'did you mean "{guess}"?'
    found = re.fullmatch(r"(b|x[0-9]+\.)([0-9]+)-(?:\1)?([0-9]+)", value)
    if found and not in_list:
        return "this key takes one port; ranges stand in lists alone"
    if found and int(found[2]) > int(found[3]):
        return f"a range goes up: {found[1]}{found[3]}-{found[2]}"
    if found and all(1 <= int(it) <= 64 for it in found.groups()[1:]):
        return f"a range names its first port whole and of its last the number: {found[1]}{found[2]}-{found[3]}"
    if re.fullmatch(r"b[0-9]+|x[0-9]+\.[0-9]+|.*-[0-9]+", value):
        return "ports and extenders are numbered 1 to 64"
    return "b1 is port 1 of the bridge, x1.2 is port 2 of extender 1" + (", x1.1-8, x1.* and * are several" if in_list else "")


def _unknown_port(fault: Fault, _placed: Placed) -> tuple[str, str | None]:
    value, there = fault.about["value"], fault.about.get("there")
    if there is None:
        # An extender hangs there, in the second pass.
        number = plain.number_of(value)
        ports = fault.about["ports"]
        return f'"{value}" is no port of this tree', _ports_of(number // 64, ports.get(number // 64), ports)
    return f'"{value}" is no external port', _why_not(value, there)


def _ports_of(device: int, count: int | None, known) -> str:
    if count is None:
        return f"there is no extender {device}; there are {', '.join(f'x{it}' for it in sorted(known) if it) or 'none'}"
    return f"{f'x{device}' if device else 'the bridge'} has {'port 1 alone' if count == 1 else f'ports 1 to {count}'}"


def _why_not(word: str, there: Ports) -> str:
    """Why a word names a port that isn't external."""
    if word.endswith(".*"):
        return _ports_of(int(word[1:-2]), None, there.extenders)
    ports = [it for it in sorted(there.tree.ports(word)) if it not in there.external]
    port = next((it for it in ports if it not in there.below), ports[0])
    device, count = port // 64, there.local if port < 64 else there.extenders.get(port // 64)
    if count is None or port % 64 >= count:
        return _ports_of(device, count, there.extenders)
    return f"x{there.below[port]} hangs on {plain.name_of(port)}, so no station is there"


def _two_upstreams(fault: Fault, _placed: Placed) -> tuple[str, str | None]:
    return f"extender {fault.about['number']} is there already", "each extender has a number of its own, 1 to 64"


def _shared(fault: Fault, _placed: Placed) -> tuple[str, str | None]:
    return f"on {fault.about['port']} another extender hangs already", "one extender hangs on a port"


def _loop(fault: Fault, _placed: Placed) -> tuple[str, str | None]:
    way = fault.about["way"]
    end = next(at for at in range(1, len(way)) if way[at] in way[:at])
    hangs = ", which hangs on ".join(f"x{it}" for it in way[1:end + 1])
    return f"x{way[0]} hangs on {hangs}, and so never reaches the bridge", "some extender has to hang on a port of the bridge, as b1"


def _few_channels(fault: Fault, _placed: Placed) -> tuple[str, str | None]:
    about = fault.about
    return (f"channels = {about['value']} is too few below {about['port']}",
            f"{about['needed']} ports of extenders there have an extender, and each takes a channel; each external port takes one more")


def _repeat(fault: Fault, _placed: Placed) -> tuple[str, str | None]:
    table, value = fault.path[0], fault.about["value"]
    if table == "captures":
        return f'"{value}" is the name of a file that a run writes', "give the capture another name, or the outputs another beginning (bridge.out)"
    what = {"port": f"port {value}", "vlan": f"VLAN {value}", "static": f"the static entry of {value} in VLAN {fault.about.get('vid')}"}[table]
    return f"{what} is given before", "each is given once"


WORDED = {"Unknown": _unknown, "Missing": _missing, "Kind": _kind, "Range": _range, "Name": _name, "UnknownPort": _unknown_port,
          "TwoUpstreams": _two_upstreams, "SharedPort": _shared, "Loop": _loop, "FewChannels": _few_channels, "Repeat": _repeat}
# Words of the reader of TOML, and what is mostly the cause.
HINTS = (("Illegal character '\\n'", "a quote is missing at the end of this line, or a text goes on in the next one"),
         ("Expected '=' after a key", "a key and its value have = between them"),
         ("Cannot overwrite a value", "this key is given twice"), ("Cannot declare", "a table is given once; [[..]] with two brackets may be given often"),
         ("Cannot mutate immutable", "a list in brackets and [[..]] can't be mixed"), ("Duplicate inline table key", "this key is given twice"),
         ("Unclosed array", "a comma or ] is missing"), ("Expected ']", "a bracket is missing"),
         ("Expected newline", "each key has a line of its own"), ("Unescaped '\\'", "a \\ in a text is written \\\\, or the text stands in '..'"))


def hint_of(words: str, place: Place | None) -> str | None:
    """What is mostly the cause of what the reader of TOML says."""
    line = place.text if place else ""
    if any(it in line for it in "“”„‘’"):
        return 'these are quotes of a text processor: write " on both sides'
    if re.search(r"=\s*(True|False)\b", line):
        return "true and false are written small"
    if re.search(r"=\s*[+-]?0[0-9]", line):
        return "a number has no leading zero"
    if words.startswith("Cannot overwrite a value") and line.lstrip().startswith("["):
        return "this is a table above and a list of tables here, or the other way round. Write [[..]], with two brackets, above each of several"
    if words.startswith("Invalid value") and re.search(r"=\s*[A-Za-z]", line):
        return "a text stands in quotes"
    return next((hint for begin, hint in HINTS if words.startswith(begin)), None)
