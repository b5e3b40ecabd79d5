#!/usr/bin/env python3
"""Measures what commands cost where there are many extenders and VLANs: 63 extenders of 8 ports below one port of the bridge, as a
binary tree in six levels, and 4,094 VLANs of three of their ports each. The commands are of seven kinds in turn.

    bench/commands.py             the seconds of a run with 20,000 commands, and without one
    bench/commands.py --count     the instructions a command, of all kinds in turn and of each kind
    bench/commands.py --profile   the instructions a command by function, of all kinds in turn
    bench/commands.py --clock     the share of the time of each function, of a run with 20,000 commands

A count is the difference of two runs under callgrind, one with more commands than the other, divided by how many more: what opening
and ending take falls out. glibc is told to copy by its loops whatever the length: callgrind counts an instruction for each byte of a copy
by `rep movsb`, which glibc takes for long ones, and whether a table is copied where it grows is chance. What waits for memory is seen by the clock alone: --clock takes samples by perf. The program is the one that
./exbr runs, or the one that is named by EXBR=FILE. --count and --profile need valgrind, and --clock perf (Debian's linux-perf); a run by
valgrind takes minutes, so they go side by side (--jobs). It works in a folder of its own under the system's folder for such, which it
takes away at the end.
"""
import argparse
import concurrent.futures
import os
import random
import re
import shutil
import subprocess
import sys
import tempfile
import time

sys.dont_write_bytecode = True
sys.path.insert(0, os.path.dirname(os.path.abspath(__file__)))
import frames

KINDS = ("down", "up", "isolate", "member", "unmember", "vlan", "static")
FEW, MANY = 200, 600
COPIES_BY_LOOPS = {"GLIBC_TUNABLES": "glibc.cpu.x86_rep_movsb_threshold=4294967295:glibc.cpu.x86_non_temporal_threshold=4294967295"}
VLANS = 4094


def tree():
    """Extender n has the extenders 2n and 2n + 1 on its first two ports, as far as there are these."""
    above = [(number, f"x{number // 2}.{1 + number % 2}" if number > 1 else "b1", 8) for number in range(1, 64)]
    return frames.Tree(1, above)


def listed(ports):
    return ", ".join(f'"{port}"' for port in ports)


class Load:
    """Commands of these kinds in turn, each a table of the topology without its time; the same for the same kinds."""

    def __init__(self):
        self.ports = tree().ports
        self.chance = random.Random(1)
        self.vlans = {vid: self.some(3) for vid in range(1, VLANS + 1)}
        self.present, self.absent, self.isolated = list(self.ports), [], set()
        self.chance.shuffle(self.present)

    def some(self, count):
        return self.chance.sample(self.ports, count)

    def begin(self):
        """The tables of the VLANs."""
        return "".join(f"[[vlan]]\nvid = {vid}\ntagged = [{listed(ports)}]\n" for vid, ports in self.vlans.items())

    def one(self, kind):
        vid, port = self.chance.randrange(1, VLANS + 1), self.chance.choice(self.ports)
        if kind == "down":
            self.absent.append(self.present.pop() if self.present else port)
            return f'port = "{self.absent[-1]}"'
        if kind == "up":
            self.present.insert(0, self.absent.pop(0) if self.absent else port)
            return f'port = "{self.present[0]}"'
        if kind == "isolate":
            self.isolated ^= {port}
            return f'port = "{port}"\nisolated = {str(port in self.isolated).lower()}'
        if kind == "member":
            return f'vid = {vid}\nport = "{port}"\nkind = "tagged"'
        if kind == "unmember":
            return f'vid = {vid}\nport = "{self.chance.choice(self.vlans[vid])}"'
        if kind == "vlan":
            return f"vid = {vid}\ntagged = [{listed(self.some(3))}]"
        return f'vid = {vid}\nmac = "02-00-00-00-01-{self.chance.randrange(256):02x}"\nports = [{listed(self.some(2))}]'

    def commands(self, kinds):
        return "".join(f'[[command]]\nat = {at}\nop = "{kind}"\n{self.one(kind)}\n' for at, kind in enumerate(kinds, 1))


def turns(count):
    return [KINDS[at % len(KINDS)] for at in range(count)]


def written(kinds, folder):
    """The topology with commands of these kinds, in a new folder."""
    os.makedirs(folder)
    load = Load()
    port = load.ports[0]
    lines = ["[bridge]", "ports = 1"]
    for number, on, ports in tree().extenders:
        lines += ["[[extender]]", f"number = {number}", f'on = "{on}"', f"ports = {ports}"]
    tables = load.begin() + load.commands(kinds)
    with open(f"{folder}/topology.toml", "w", encoding="utf-8") as file:
        file.write("\n".join(lines) + "\n" + tables + f'[captures]\n"{port}" = "in.pcap"\n')
    with open(f"{folder}/in.pcap", "wb") as file:
        file.write(frames.HEADER)
    return folder


def seconds(top):
    for count in (0, 20_000):
        folder = written(turns(count), f"{top}/{count}")
        before = time.monotonic()
        ran = subprocess.run([frames.program(), "run", "topology.toml"], cwd=folder, capture_output=True, text=True, check=True)
        print(f"{count:6} commands {time.monotonic() - before:7.2f} s | {ran.stdout.strip()}", flush=True)


def by_clock(top):
    folder = written(turns(20_000), f"{top}/clock")
    subprocess.run(["perf", "record", "-q", "-e", "cpu-clock", "-F", "2000", "-o", "samples", frames.program(), "run", "topology.toml"],
                   cwd=folder, capture_output=True, check=True)
    text = subprocess.run(["perf", "report", "-i", "samples", "--stdio", "-s", "symbol"], cwd=folder, capture_output=True, text=True, check=True).stdout
    for share, name in re.findall(r"^\s+([\d.]+%)\s+\[[.k]\] (\S+)", text, re.M)[:30]:
        print(f"    {share:>7}  {name}")


def by_function(kinds, folder):
    """The instructions of a run by function."""
    written(kinds, folder)
    subprocess.run(["valgrind", "--tool=callgrind", "--callgrind-out-file=costs", frames.program(), "run", "topology.toml"],
                   cwd=folder, env=os.environ | COPIES_BY_LOOPS, capture_output=True, check=True)
    text = subprocess.run(["callgrind_annotate", "--threshold=100", f"{folder}/costs"], capture_output=True, text=True, check=True).stdout
    found = {}
    for line in text.splitlines():
        told = re.match(r"\s*([\d,]+) \([^)]*\)\s+\S*?:(.+?) \[", line)
        if told:
            found[told.group(2)] = found.get(told.group(2), 0) + int(told.group(1).replace(",", ""))
    return found


def differences(top, pairs, jobs):
    """For each name and pair of lists of kinds, the second longer than the first, the instructions a command more by function."""
    with concurrent.futures.ThreadPoolExecutor(jobs) as pool:
        runs = {}
        for kinds in (tuple(it) for pair in pairs.values() for it in pair):
            if kinds not in runs:
                runs[kinds] = pool.submit(by_function, kinds, f"{top}/{len(runs)}")
        for name, (few, many) in pairs.items():
            low, high = runs[tuple(few)].result(), runs[tuple(many)].result()
            yield name, {at: (high[at] - low.get(at, 0)) / (len(many) - len(few)) for at in high}


def main():
    parser = argparse.ArgumentParser(description=__doc__, formatter_class=argparse.RawDescriptionHelpFormatter)
    parser.add_argument("--count", action="store_true", help="instructions a command, by kind")
    parser.add_argument("--profile", action="store_true", help="instructions a command, by function")
    parser.add_argument("--clock", action="store_true", help="shares of the time, by function")
    parser.add_argument("--kind", choices=KINDS, action="append", help="with --count these kinds alone")
    parser.add_argument("--jobs", type=int, default=2, help="so many runs side by side (2)")
    asked = parser.parse_args()
    for wanted, tool in ((asked.count or asked.profile, "valgrind"), (asked.clock, "perf")):
        if wanted and not shutil.which(tool):
            parser.error(f"there is no {tool} here")
    frames.program()
    top = tempfile.mkdtemp(prefix="exbr-commands-")
    try:
        if asked.clock:
            by_clock(top)
            return
        pairs = {"all kinds": (turns(FEW), turns(MANY))} if not asked.kind else {}
        if asked.count:
            # What goes up went down before, in both runs.
            first = {"up": ["down"] * 400}
            pairs |= {kind: (first.get(kind, []), first.get(kind, []) + [kind] * 400) for kind in asked.kind or KINDS}
        if not asked.count and not asked.profile:
            seconds(top)
            return
        for name, them in differences(top, pairs, asked.jobs):
            print(f"{name:10} {sum(them.values()):14,.0f}", flush=True)
            if asked.profile:
                for at, count in sorted(them.items(), key=lambda it: -it[1])[:40]:
                    print(f"    {count:14,.0f}  {at}", flush=True)
    finally:
        shutil.rmtree(top)


if __name__ == "__main__":
    main()
