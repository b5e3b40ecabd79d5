"""exbr-import on input that is broken or hostile: one line, status 2, no file, and nothing that may be secret."""
import os
import unittest

import ground
from exbr_import import lines

GOOD = "hostname a\nvlan 10\nfex 101\ninterface Ethernet1/1\n  switchport mode fex-fabric\n  fex associate 101\ninterface Ethernet101/1/1\n  switchport access vlan 10\n"
SET = "set interfaces ge-0/0/1 unit 0 family ethernet-switching vlan members a\nset vlans a vlan-id 10\n"
PLAN = '[bridge]\nports = 4\n[[ports]]\nports = "b1-2"\naccess = 10\n'
SECRET = "hunter2secret"


class Faults(ground.InFolder):
    """What ends the tool."""

    def refused(self, said: str, *words: str) -> None:
        """It ends with one line that says this, and makes nothing."""
        before = sorted(os.listdir(self.folder))
        done = ground.tool("exbr-import", *words, "-o", self.path("made.toml"))
        with self.subTest(said):
            self.assert_line(done, 2, "exbr-import: ", said)
            self.assertEqual(done.stderr.count("\n"), 1, done.stderr)
            self.assertLess(len(done.stderr), 400)
            self.assertNotIn(SECRET, done.stderr + done.stdout)
            self.assertEqual(sorted(os.listdir(self.folder)), before)

    def of(self, said: str, text: str | bytes, *words: str, form: str = "--nxos") -> None:
        self.refused(said, form, self.write("given", text), *words)

    def test_files_that_are_no_configurations(self):
        self.refused("No such file", "--nxos", self.path("nope"))
        self.refused("Is a directory", "--nxos", self.folder)
        self.of("it is empty", "")
        self.of("it is empty", "\n \n")
        self.of("has the byte 0x00", GOOD.encode() + b"\0" * 9)
        self.of("has the byte 0x7f", b"\x7fELF\x02\x01")
        self.of("line 2 has the byte 0x08", "hostname a\n\x08\x08 next\n")
        self.of("there is no interface in it", "title = 1\nports = 3\n")
        self.of("there is no interface in it", "vlan 10\n")
        self.of("is a pager's", GOOD + " --More-- \n" + GOOD)
        self.of("no interface in it", "set vlans a vlan-id 10\n", form="--junos")
        self.of("in braces", "system {\n    host-name a;\n}\n", form="--junos")
        self.of("doesn't begin with set", GOOD, form="--junos")
        self.of("name it by --junos", SET)

    def test_cut_off(self):
        self.of("the last one, has no end", GOOD[:-3])
        self.of("the last one, has no end", GOOD + "interface Ethernet101/1/2\n  switchport acc")
        self.of("the last one, has no end", SET[:-5], form="--junos")
        self.of("a banner has no end", GOOD + "banner motd ^C\nGood evening\n")

    def test_large(self):
        path = self.path("large")
        with open(path, "wb") as file:
            file.truncate(100_000_000)
        for form in ("--nxos", "--junos", "--plan", "--link"):
            self.refused("more than", form, path)

    def test_ranges_of_ranges(self):
        self.of("more than 2,000,000 settings", GOOD + "interface Ethernet1/1-1000\n" + "  description a\n" * 3000)
        self.of("more than 2,000,000 settings", GOOD + "vlan 1-4094\n" * 1000)
        self.of("more than 2,000,000 settings", SET + 'set interfaces interface-range r member "ge-0/0/[0-999]"\n' + "set interfaces interface-range r disable\n" * 3000,
                form="--junos")
        self.of("1,024 at most", SET + 'set interfaces interface-range r member "ge-0/0/[0-9999]"\n', form="--junos")
        self.of("more than 1000 changes", PLAN + '[[change]]\nat = 1\nports = "b1"\naccess = 2\n' * 1001, form="--plan")

    def test_a_secret_is_never_shown(self):
        for line in (f"username admin password 5 {SECRET}", f"enable secret {SECRET}", f"snmp-server community {SECRET} ro", f"tacacs-server key 7 {SECRET}",
                     f"key-string {SECRET}", f"ntp authentication-key 1 md5 {SECRET}", f"frobnicate with a {SECRET}", f"wpa psk {SECRET}",
                     f"line vty\n  password {SECRET}", f"interface mgmt0\n  dot1x supplicant password {SECRET}", f"banner motd %\n{SECRET}\n%",
                     f"interface Ethernet1/1\n  ip ospf authentication-key 3 {SECRET}", f"interface Ethernet1/1\n  what is {SECRET} x",
                     f"key chain a\n  key 1\n    key-string 7 {SECRET}", f'vlan 10\n  vtp password "{SECRET}"', f"radius-server host 192.0.2.1 key {SECRET}"):
            self.shown("--nxos", GOOD + line + "\n", line)
        for line in (f'set system root-authentication encrypted-password "{SECRET}"', f"set system tacplus-server 192.0.2.1 secret {SECRET}",
                     f"set snmp community {SECRET} authorization read-only", f"set security ike policy a pre-shared-key ascii-text {SECRET}",
                     f"set quantum mode {SECRET}", f"set interfaces ge-0/0/1 unit 0 frobnicate {SECRET}"):
            self.shown("--junos", SET + line + "\n", line)

    def shown(self, form: str, text: str, line: str) -> None:
        """Nothing that is printed or written has the secret."""
        done = ground.tool("exbr-import", form, self.write("given", text), "--all", "--json", "-o", self.path("made.toml"), "--force")
        with self.subTest(line):
            self.assertEqual(done.returncode, 0, done.stderr)
            with open(self.path("made.toml"), encoding="utf-8") as file:
                said = done.stdout + done.stderr + file.read()
            self.assertNotIn(SECRET, said)
            self.assertIn("not carried", said)

    def test_values_that_are_wrong(self):
        for line, said in (("vlan 5000", "line 9: VLAN 5000 isn't in 1 to 4094"), ("vlan 20-10", "the wrong way round"), ("fex 99", "the numbers 100 to 199"),
                           ("interface Ethernet101/1/9-3", "the wrong way round"), 
                           ("interface Ethernet101/1/1-99999999999", "four digits"), ("interface Ethernet101/1/65", "64 at most here"),
                           ("interface Ethernet1/2\n  switchport access vlan 0", "line 10: VLAN 0"),
                           ("interface Ethernet1/2\n  switchport trunk allowed vlan all but 3", "line 10 has to name a VLAN"),
                           ("interface Ethernet1/2\n  switchport access vlan", "line 10 has to name a VLAN"),
                           ("mac address-table static 0200.0000.zzzz vlan 10 interface Ethernet101/1/1", "is named"), ("vlan ten", "has to name a list of VLANs")):
            if said != "is named":
                self.of(said, GOOD + line + "\n")
        for line, said in (("set vlans a vlan-id 5000", "line 3: VLAN 5000"), ("set chassis satellite-management fpc 9 cascade-ports xe-0/0/1", "65 to 254"),
                           ("set chassis satellite-management fpc 101 cascade-ports nowhere", "is no interface as"),
                           ("set interfaces ge-101/0/64 unit 0 family ethernet-switching", "64 ports at most"),
                           ('set interfaces interface-range a member "ge-0/0/[1-x]"', "is no interface as")):
            self.of(said, SET + line + "\n", form="--junos")

    def test_plans(self):
        for text, said in (("[bridge", "no TOML"), ("x = 1\n" + PLAN, "a plan has no table x"), (PLAN + "speed = 1\n", "line 3: there is no key speed"),
                           (PLAN + '[[ports]]\nports = "b2"\naccess = 1\n', "line 6: b2 is in an earlier block too, of line 3"),
                           (PLAN + '[[ports]]\nports = "b9"\n', "line 6: ports: b9: b9 is no external port"), (PLAN + '[[ports]]\nports = "x4.3O"\n', "x4.3O is no port"),
                           (PLAN + '[[ports]]\nports = "b4-3"\n', "the wrong way round"), (PLAN + '[[ports]]\nports = "b3"\naccess = "staff"\n', "[vlans] has no staff"),
                           (PLAN + '[[ports]]\nports = "b3"\naccess = 1\ntrunk = 2\n', "one of access, trunk"), (PLAN + '[[ports]]\nports = "b3"\nnative = 2\n', "native is of a trunk"),
                           (PLAN + '[[ports]]\nports = "b3"\nuse = "desk"\n', "no [template.desk]"), (PLAN + '[[ports]]\nports = "b3"\naccess = "1-2"\n', "one VLAN"),
                           (PLAN + '[[extender]]\nnumber = "1-2"\non = "b3"\nports = 4\n', "2 numbers of extenders, and 1 ports"), ("[[ports]]\n", "no [bridge]"),
                           (PLAN + '[[static]]\nvlan = 1\nmac = "02:xx"\nports = "b1"\n', "12 hexadecimal digits"), (PLAN + "[[change]]\nports = \"b1\"\n", "at is a second"),
                           (PLAN + '[captures]\nb9 = "a"\n', "captures.b9"), (PLAN + '[[extender]]\nnumber = 1\non = "b1"\nports = 4\n', "b1 is no external port")):
            self.of(said, text, form="--plan")

    def test_words(self):
        good = self.write("good.cfg", GOOD)
        for said, given in (("are two sources", ["--nxos", good, "--junos", good]), ("need --link", ["--nxos", good, "--host"]),
                            ("--after needs --at", ["--nxos", good, "--after", good]), ("need --after", ["--nxos", good, "--at", "3"]),
                            ("as 101=48", ["--nxos", good, "--fex", "101:48"]), ("1 to 64 ports", ["--nxos", good, "--fex", "101=65"]),
                            ("--groups takes", ["--nxos", good, "--groups", "0"]), ("is of a change", ["--nxos", good, "--page", "x"]),
                            ("lists no ports", ["--nxos", good, "--fex-detail", good]), ("are of --nxos", ["--plan", good, "--fex", "1=2"]),
                            ("--extenders is of", ["--nxos", good, "--extenders", "4"]), ("is no program", ["--nxos", good, "--after", good, "--at", "1", "--program", "/none"]),
                            ("it needs --nxos", ["--captures", self.folder, "--after", good])):
            self.refused(said, *given)
        self.assert_line(ground.tool("exbr-import", "--nxos", good, "--json"), 2, "-o has to name")

    def test_nothing_is_written_over(self):
        good = self.write("good.cfg", GOOD)
        first = ground.tool("exbr-import", "--nxos", good, "-o", self.path("topology.toml"))
        self.assertEqual(first.returncode, 0, first.stderr)
        for name in ("topology.toml", "names.toml"):
            held = self.write(name, "mine")
            self.assert_line(ground.tool("exbr-import", "--nxos", good, "-o", self.path("topology.toml")), 2, "is there already; --force")
            with open(held, encoding="utf-8") as file:
                self.assertEqual(file.read(), "mine")
            os.remove(held)
        self.assertEqual(ground.tool("exbr-import", "--nxos", good, "-o", self.path("topology.toml")).returncode, 0)
        self.assertEqual(ground.tool("exbr-import", "--nxos", good, "-o", self.path("topology.toml"), "--force").returncode, 0)
        self.assertEqual(sorted(os.listdir(self.folder)), ["good.cfg", "names.toml", "topology.toml"])

    def test_what_is_shown_of_a_statement(self):
        for text, said in (("service password-encryption", "service password-encryption"), ("username a role b", "username .."), ("mtu 9216", "mtu 9216"),
                           ('name "x y"', "name .."), ("switchport mode private-vlan host", "switchport mode private-vlan host"), ("a " * 99, None)):
            self.assertEqual(lines.shown(text.strip()), said or lines.shown(text.strip())[:122])


if __name__ == "__main__":
    unittest.main()
