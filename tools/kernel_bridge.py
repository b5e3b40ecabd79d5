#!/usr/bin/env python3
"""Plays a topology over the bridge of the Linux kernel, and compares what leaves its ports with what exbr says leaves.

    tools/kernel_bridge.py TOPOLOGY [--program FILE] [--second MILLISECONDS] [--each-vlan]

The captures are those that the topology names, seen from its folder. exbr plays it first, in a folder of its own, with --counters. Then
each frame of its journal is sent into a bridge of the kernel, in the journal's order, with the journal's changes and seconds between; a
second takes ten milliseconds or more. The bridge has all external ports of the topology, as pairs of virtual Ethernet devices, and no
extender. Compared are, for each port: the bytes and order of the frames that left with the output file; their number and octets with
the counters of exbr; and these with the kernel's own, at both ends of the pair and (where it has them) of the port's VLANs.

The kernel's bridge filters VLANs by itself. Where it wasn't built to, or with --each-vlan, there is a bridge of the kernel for each
VLAN; in which VLAN a frame comes, at which ports one may leave, and its tags are done by the tool then. A bridge that filters does three
things otherwise. It always filters by members where frames come in, it has no port for untagged frames alone, and it relays frames to
01-80-C2-00-00-00 where it plays no spanning tree: frames of which this matters are left out before exbr plays, and named. And it forgets
what it learned at a port in a VLAN when the port leaves the VLAN, so that it floods what exbr sends nowhere; what more leaves by that is
named. Static entries of a group, of several ports or of none no bridge of the kernel has.

All is done in a network namespace of the tool's own, which ends with it. It needs root, `ip` and `bridge`. The last line is
`kernel bridge: N ports, F frames, O octets: as exbr says` with status 0, or `.. differs at PORT` with status 1; status 2 for words that
are not as above, and 77 with a line `skipped: WHY` where it can't be played here. Python 3.11 or later.
"""
import argparse
import ctypes
import fcntl
import json
import os
import select
import shutil
import socket
import struct
import subprocess
import sys
import tempfile
import time

sys.dont_write_bytecode = True
TOP = os.path.dirname(os.path.dirname(os.path.abspath(__file__)))
sys.path.insert(0, os.path.join(TOP, "crates", "exb_cases"))
from bridge import SECOND, Bridge, capture_of, egress, kind_of, name_of, number_of, passes, records_of

NEW_NETWORK, ALL_FRAMES, PACKET_LEVEL, AUXILIARY, IGNORE_OUTGOING = 0x40000000, 3, 263, 8, 23
VLAN_IS_TOLD, ETHTOOL, SET_FLAGS = 16, 0x8946, 0x26
SPANNING_TREE = bytes.fromhex("0180C2000000")


class Skip(Exception):
    """Why it can't be played here."""


# ---- what exbr says


class Played:
    """A topology, the captures that are played, and what exbr made of them."""

    def __init__(self, program, folder, name):
        self.program, self.name = program, name
        self.text = read(os.path.join(folder, name)).decode()
        model = Bridge(self.text)
        self.prefix = model.bridge.get("out", "out-")
        self.records = {port: records_of(read(os.path.join(folder, file))) for port, file in model.captures.items()}
        self.left_out = []

    def play(self, filters):
        """Plays it; without what a bridge of the kernel does otherwise that filters."""
        self.run()
        lacking = self.done_otherwise() if filters else None
        if lacking:
            self.records = {port: [it for index, it in enumerate(its, 1) if (port, index) not in lacking] for port, its in self.records.items()}
            self.run()

    def run(self):
        model = Bridge(self.text)
        with tempfile.TemporaryDirectory(prefix="exbr-kernel-") as room:
            captures = {model.captures[port]: capture_of(its) for port, its in self.records.items()}
            for file, data in [(self.name, self.text.encode()), *captures.items()]:
                path = os.path.join(room, file)
                os.makedirs(os.path.dirname(path), exist_ok=True)
                with open(path, "wb") as out:
                    out.write(data)
            ran = subprocess.run([self.program, "run", self.name, "--counters"], cwd=room, capture_output=True, text=True, check=False)
            if ran.returncode:
                sys.exit(f"exbr: status {ran.returncode}, {ran.stdout}{ran.stderr}")
            there = {name: read(os.path.join(room, f"{self.prefix}{name}")) for name in ["journal.txt", "counters.txt", *map(file_of, model.tree.external)]}
        self.summary = ran.stdout.strip()
        self.journal = there["journal.txt"].decode().splitlines()
        self.counters = {number_of(words[0]): (int(words[8]), int(words[10])) for words in map(str.split, there["counters.txt"].decode().splitlines())}
        self.left = {port: [frame for _, frame in records_of(there[file_of(port)])] for port in model.tree.external}

    def done_otherwise(self):
        """The records that such a bridge treats otherwise, by port and index."""
        model, lacking = Bridge(self.text), set()
        for line in self.journal:
            kind, *words = line.split()
            if kind in ("relay", "ignore"):
                port, index = number_of(words[0]), int(words[1])
                why = otherwise(model.now, port, self.records[port][index - 1][1])
                if why:
                    lacking.add((port, index))
                    self.left_out.append(f"{words[0]} {index}: {why}")
            else:
                follow(model, kind, words)
        return lacking


def file_of(port):
    return f"{name_of(port)}.pcap"


def follow(model, kind, words):
    """Does to a configuration what a line of the journal says."""
    if kind == "up":
        model.now.command({"op": "up", "port": words[0]})
    elif kind == "commit":
        model.now.command(model.commands[int(words[0]) - 1])


def members_of(now, vid):
    return set().union(*now.vlans.get(vid, {}).values())


class Forgetting(Bridge):
    """The plain bridge, which forgets as the kernel's does what it learned at a port in a VLAN that the port leaves."""

    def obey(self, number, command):
        super().obey(number, command)
        self.learned = {key: place for key, place in self.learned.items() if place[0] in members_of(self.now, key[0])}


def otherwise(now, port, frame):
    """What a bridge of the kernel that filters would do otherwise with a frame; nothing where it does the same."""
    if frame[:6] == SPANNING_TREE:
        return "to 01-80-C2-00-00-00"
    if port not in now.present or kind_of(frame)[0] in ("short", "long", "reserved"):
        return None
    vid, refused = passes(now, port, frame)
    if refused is None and port not in members_of(now, vid):
        return f"its port is no member of VLAN {vid}, and doesn't filter"
    if refused == "accept" and now.rules[port].accept == "untagged" and port in members_of(now, vid):
        return "tagged, at a member that takes untagged frames alone"
    return None


def read(path):
    with open(path, "rb") as file:
        return file.read()


# ---- devices


def told(words, lines):
    """Has `ip` or `bridge` do lines."""
    if lines:
        ran = subprocess.run([*words, "-batch", "-"], input="\n".join(lines) + "\n", capture_output=True, text=True, check=False)
        if ran.returncode:
            raise OSError(f"{' '.join(words)}: {ran.stderr.strip()}: {lines[:3]}")


def asked(*words):
    return json.loads(subprocess.run(words, capture_output=True, text=True, check=True).stdout)


def added(one, other):
    return tuple(a + b for a, b in zip(one, other))


def enter_a_network():
    """A network namespace of this process alone, without IPv6 in it."""
    if os.geteuid() != 0:
        raise Skip("it needs root")
    for tool in ("ip", "bridge"):
        if not shutil.which(tool):
            raise Skip(f"there is no `{tool}`")
    if ctypes.CDLL(None, use_errno=True).unshare(NEW_NETWORK):
        raise Skip(f"no network namespace: {os.strerror(ctypes.get_errno())}")
    for which in ("all", "default"):
        path = f"/proc/sys/net/ipv6/conf/{which}/disable_ipv6"
        if os.path.exists(path):
            with open(path, "w", encoding="ascii") as file:
                file.write("1")


def has(*words):
    """Whether the kernel makes such a device."""
    made = subprocess.run(["ip", "link", "add", "name", "trial", "type", *words], capture_output=True, check=False).returncode == 0
    if made:
        told(["ip"], ["link del trial"])
    return made


class Device:
    """A pair of virtual Ethernet devices: one in a bridge, and one that a station would have."""

    def __init__(self, name, bridge):
        self.inner, self.outer = f"p{name}", f"e{name}"
        told(["ip"], [f"link add name {self.inner} mtu 9216 type veth peer name {self.outer} mtu 9216", f"link set {self.inner} master {bridge}",
                      f"link set {self.outer} up", f"link set {self.inner} up"])
        self.socket = socket.socket(socket.AF_PACKET, socket.SOCK_RAW, socket.htons(ALL_FRAMES))
        self.socket.setsockopt(PACKET_LEVEL, AUXILIARY, 1)
        self.socket.setsockopt(PACKET_LEVEL, IGNORE_OUTGOING, 1)
        self.socket.bind((self.outer, ALL_FRAMES))
        self.socket.setblocking(False)
        for device in (self.inner, self.outer):
            self.keep_tags_in_frames(device)
        self.is_up, self.isolated = True, False

    def keep_tags_in_frames(self, device):
        """So that what the kernel counts has the bytes of tags."""
        value = ctypes.create_string_buffer(struct.pack("II", SET_FLAGS, 0))
        fcntl.ioctl(self.socket, ETHTOOL, struct.pack("16sP", device.encode(), ctypes.addressof(value)))

    def send(self, frame):
        try:
            self.socket.send(frame)
        except OSError as fault:
            if self.is_up:
                raise OSError(f"{self.outer}: a frame of {len(frame)} bytes: {fault}") from None

    def came(self):
        """The frames that came out since."""
        found = []
        while True:
            try:
                frame, told_beside, _, _ = self.socket.recvmsg(10_000, 256)
            except BlockingIOError:
                return found
            for level, kind, data in told_beside:
                status, _, _, _, _, tag, _ = struct.unpack_from("IIIHHHH", data)
                if (level, kind) == (PACKET_LEVEL, AUXILIARY) and status & VLAN_IS_TOLD:
                    frame = frame[:12] + b"\x81\x00" + struct.pack(">H", tag) + frame[12:]
            found.append(frame)

    def set(self, is_up, isolated):
        if is_up != self.is_up:
            told(["ip"], [f"link set {self.inner} {'up' if is_up else 'down'}"])
        if isolated != self.isolated:
            told(["bridge"], [f"link set dev {self.inner} isolated {'on' if isolated else 'off'}"])
        self.is_up, self.isolated = is_up, isolated


class Kernel:
    """What both ways to play have: devices, what came out of them, and time."""

    def __init__(self, model, second):
        self.model, self.second, self.now = model, second, time.monotonic()
        self.external, self.devices, self.entries = model.tree.external, {}, {}
        self.raw, self.waiting = {}, select.epoll()
        self.left = {port: [] for port in self.external}

    def make_bridge(self, name, more=""):
        ageing = round(self.model.ageing * self.second * 100)
        told(["ip"], [f"link add name {name} mtu 9216 type bridge stp_state 0 forward_delay 0 mcast_snooping 0 ageing_time {ageing} {more}", f"link set {name} up"])

    def make_device(self, key, name, bridge):
        device = self.devices[key] = Device(name, bridge)
        self.raw[key] = []
        self.waiting.register(device.socket, select.EPOLLIN)
        return device

    def pass_seconds(self, seconds):
        self.now += seconds * self.second
        time.sleep(max(0.0, self.now - time.monotonic()))

    def gather(self):
        """Takes what came out, until nothing more comes."""
        patience = 0.002
        while self.waiting.poll(patience):
            patience = 0.0005
            for key, device in self.devices.items():
                for frame in device.came():
                    self.raw[key].append(frame)
                    self.leave(key, frame)

    def static(self, now):
        """The static entries, of one port each."""
        found = {}
        for (vid, address), ports in now.statics.items():
            if len(ports) != 1 or address[0] & 1 or not ports <= members_of(now, vid):
                raise Skip(f"the static entry of {address.hex('-').upper()} in VLAN {vid}: a bridge of the kernel has one port an address, of its VLAN")
            found[vid, address] = next(iter(ports))
        return found

    def set_entries(self, wanted, where):
        """Static entries as they have to be: each where `where` says."""
        lines = [f"fdb del {address.hex(':')} {where(vid, port)}" for (vid, address), port in self.entries.items() if wanted.get((vid, address)) != port]
        lines += [f"fdb replace {address.hex(':')} {where(vid, port)} static sticky" for (vid, address), port in wanted.items()
                  if self.entries.get((vid, address)) != port]
        told(["bridge"], lines)
        self.entries = wanted

    def counted(self):
        """What the kernel counted on the way out of each device: frames and bytes, and the same at the station's end."""
        found = {it["ifname"]: it["stats64"] for it in asked("ip", "-s", "-j", "link", "show")}
        return {key: ((found[it.inner]["tx"]["packets"], found[it.inner]["tx"]["bytes"]), (found[it.outer]["rx"]["packets"], found[it.outer]["rx"]["bytes"]))
                for key, it in self.devices.items()}


class Filtering(Kernel):
    """One bridge of the kernel, which filters VLANs."""

    def __init__(self, model, second):
        super().__init__(model, second)
        self.tables, self.gone = {port: {} for port in self.external}, {port: (0, 0) for port in self.external}
        self.make_bridge("bridge", "vlan_filtering 1 vlan_default_pvid 0 vlan_stats_enabled 1 vlan_stats_per_port 1")
        for port in self.external:
            self.make_device(port, str(port), "bridge")

    def configure(self, now):
        for port, device in self.devices.items():
            rules = now.rules[port]
            table = {vid: (kind == "untagged", vid == rules.pvid and rules.accept != "tagged")
                     for vid, kinds in now.vlans.items() for kind, ports in kinds.items() if port in ports}
            gone = self.tables[port].keys() - table.keys()
            if gone:
                self.gone[port] = added(self.gone[port], self.counted_by_vlans(device, gone))
            lines = [f"vlan del dev {device.inner} vid {vid}" for vid in gone]
            lines += [f"vlan add dev {device.inner} vid {vid}{' pvid' * is_pvid}{' untagged' * untagged}" for vid, (untagged, is_pvid) in table.items()
                      if self.tables[port].get(vid) != (untagged, is_pvid)]
            told(["bridge"], lines)
            self.tables[port] = table
            device.set(port in now.present, rules.isolated)
        self.set_entries(self.static(now), lambda vid, port: f"dev {self.devices[port].inner} master vlan {vid}")

    def send(self, now, port, frame):
        self.devices[port].send(frame)
        self.gather()

    def leave(self, key, frame):
        self.left[key].append(frame)

    def wanted(self, it):
        """What has to leave each port."""
        model = Forgetting(it.text)
        model.follow(it.journal, it.records)
        return {port: [frame for _, frame in its] for port, its in model.left.items()}

    def counted_by_vlans(self, device, vids):
        """What the kernel counted on the way out for VLANs of a port: frames and bytes, which lack 14 bytes of each header, and tags. Its
        counters of a VLAN go when the port leaves it."""
        them = [it for its in asked("bridge", "-s", "-j", "vlan", "show", "dev", device.inner) for it in its["vlans"] if it.get("vid", it.get("vlan")) in vids]
        return tuple(sum(it[f"tx_{what}"] for it in them) for what in ("packets", "bytes"))

    def of_vlans(self):
        return {port: added(self.gone[port], self.counted_by_vlans(device, self.tables[port])) for port, device in self.devices.items()}


class EachVlan(Kernel):
    """A bridge of the kernel for each VLAN. Frames pass with their tags, which it doesn't look at."""

    def __init__(self, model, second):
        super().__init__(model, second)
        self.bridges, self.members = set(), {}

    def device(self, vid, port):
        if vid not in self.bridges:
            self.bridges.add(vid)
            self.make_bridge(f"v{vid}")
        if (vid, port) not in self.devices:
            self.make_device((vid, port), f"{port}v{vid}", f"v{vid}")
        return self.devices[vid, port]

    def configure(self, now):
        self.members = {(vid, port): kind for vid, kinds in now.vlans.items() for kind, ports in kinds.items() for port in ports}
        for vid, port in self.members:
            self.device(vid, port)
        for (_, port), device in self.devices.items():
            device.set(port in now.present, now.rules[port].isolated)
        self.set_entries(self.static(now), lambda vid, port: f"dev {self.device(vid, port).inner} master")

    def send(self, now, port, frame):
        if port in now.present and kind_of(frame)[0] not in ("short", "long", "reserved"):
            vid, refused = passes(now, port, frame)
            if refused is None:
                device = self.device(vid, port)
                device.set(True, now.rules[port].isolated)
                device.send(egress(frame, "tagged", vid))
        self.gather()

    def leave(self, key, frame):
        kind = self.members.get(key)
        if kind:
            self.left[key[1]].append(frame if kind == "tagged" else frame[:12] + frame[16:])

    def wanted(self, it):
        return it.left

    def of_vlans(self):
        return None


def played_over(kernel, it):
    """Sends each record of a journal, and does what it says between them."""
    model, is_changed = kernel.model, True
    for line in it.journal:
        kind, *words = line.split()
        if kind in ("up", "commit"):
            follow(model, kind, words)
            is_changed = True
            continue
        if is_changed:
            kernel.configure(model.now)
            is_changed = False
        if kind == "tick":
            kernel.pass_seconds(int(words[0]))
        elif kind in ("relay", "ignore"):
            frame = it.records[number_of(words[0])][int(words[1]) - 1][1]
            if 14 <= len(frame) <= 9216:
                kernel.send(model.now, number_of(words[0]), frame)


# ---- the comparison


def sizes(frames):
    return len(frames), sum(map(len, frames))


def tags_of(frames):
    return sum(it[12:14] == b"\x81\x00" for it in frames)


def differences(kernel, it):
    """What is different, by ports."""
    for key, both in kernel.counted().items():
        for where, counted in zip(("the bridge's end", "the station's end"), both):
            if counted != sizes(kernel.raw[key]):
                yield f"{name_of(key if isinstance(key, int) else key[1])}: {where} counted {counted}, and {sizes(kernel.raw[key])} came"
    of_vlans, wanted = kernel.of_vlans(), kernel.wanted(it)
    for port in kernel.external:
        theirs = kernel.left[port]
        if it.counters[port] != sizes(it.left[port]):
            yield f"{name_of(port)}: exbr counted {it.counters[port]}, and wrote {sizes(it.left[port])}"
        if wanted[port] != theirs:
            at = next((at for at, (a, b) in enumerate(zip(wanted[port], theirs), 1) if a != b), min(len(wanted[port]), len(theirs)) + 1)
            yield f"{name_of(port)}: {sizes(theirs)} came from the kernel, where {sizes(wanted[port])} are wanted; frame {at} is another one"
        frames, octets = sizes(theirs)
        if of_vlans and of_vlans[port] != (frames, octets - 14 * frames - 4 * tags_of(theirs)):
            yield f"{name_of(port)}: its VLANs counted {of_vlans[port]}, and {(frames, octets)} came"


def second_of(it, given):
    """How long a second takes: at least three milliseconds for each frame."""
    if given:
        return given / 1000
    moments = [moment for its in it.records.values() for moment, _ in its]
    span = (max(moments) - min(moments)) // SECOND if moments else 0
    return max(10.0, 3 * len(moments) / span if span else 0.0) / 1000


def parsed():
    form = argparse.ArgumentParser(description=__doc__, formatter_class=argparse.RawDescriptionHelpFormatter)
    form.add_argument("topology", metavar="TOPOLOGY")
    form.add_argument("--program", metavar="FILE", default=os.path.join(TOP, "exbr"), help="the program (./exbr)")
    form.add_argument("--second", type=float, metavar="MILLISECONDS", help="how long a second takes")
    form.add_argument("--each-vlan", action="store_true", help="a bridge of the kernel for each VLAN")
    words = form.parse_args()
    if words.second is not None and words.second <= 0:
        form.error("--second is above 0")
    for path in (words.topology, words.program):
        if not os.path.isfile(path):
            form.error(f"there is no {path}")
    words.program = os.path.abspath(words.program)
    return words


def report(kernel, it, wrong):
    """What left each port, and the last line."""
    print(it.summary)
    for why in it.left_out:
        print(f"left out: {why}")
    more = 0
    for port in kernel.external:
        (ours, octets), theirs = it.counters[port], sizes(kernel.left[port])
        forgot = f"; {theirs[0] - ours} more, since it forgot what it learned in a VLAN that a port left" if theirs[0] > ours and not wrong else ""
        print(f"{name_of(port)}: exbr left {ours} octets {octets}, kernel left {theirs[0]} octets {theirs[1]}{forgot}")
        more += max(0, theirs[0] - ours)
    for why in wrong:
        print(f"DIFFERS: {why}")
    frames, octets = map(sum, zip(*map(sizes, kernel.left.values())))
    verdict = f"differs at {wrong[0].partition(':')[0]}" if wrong else f"as exbr says{f', but for {more} frames that it flooded' if more else ''}"
    print(f"kernel bridge: {len(kernel.external)} ports, {frames} frames, {octets} octets: {verdict}")


def compared(words):
    enter_a_network()
    if not has("bridge") or not has("veth"):
        raise Skip("this kernel has no bridge, or no pairs of virtual Ethernet devices")
    filters = has("bridge", "vlan_filtering", "1") and not words.each_vlan
    it = Played(words.program, os.path.dirname(words.topology) or ".", os.path.basename(words.topology))
    it.play(filters)
    print(f"Linux {os.uname().release}: {'one bridge, which filters VLANs' if filters else 'a bridge for each VLAN'}")
    kernel = (Filtering if filters else EachVlan)(Bridge(it.text), second_of(it, words.second))
    played_over(kernel, it)
    kernel.gather()
    wrong = list(differences(kernel, it))
    report(kernel, it, wrong)
    return 1 if wrong else 0


def main():
    words = parsed()
    try:
        return compared(words)
    except Skip as why:
        print(f"skipped: {why}")
        return 77


if __name__ == "__main__":
    sys.exit(main())
