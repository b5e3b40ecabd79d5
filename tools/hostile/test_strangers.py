"""What a stranger's folder can make the program write: nothing but new files and its own, below the folder of the run, up to a limit; and what a
name can make a terminal do: nothing. On the program that EXBR_PROGRAM names."""
import os
import pty
import shutil
import subprocess
import sys
import tempfile
import unittest

HERE = os.path.dirname(os.path.abspath(__file__))
sys.path.insert(0, HERE)
import strangers
from folders import BEFORE, held, play, read, write
from strangers import VICTIM

PROGRAM = os.environ.get("EXBR_PROGRAM")
OUTPUTS = ["out-b1.pcap", "out-b2.pcap", "out-journal.txt"]
WRITE_FAULT = b"exbr: write fault\n"
LIFTED = {"EXBR_ANYWHERE": "1"}


@unittest.skipUnless(PROGRAM, "no program is named")
class Ground(unittest.TestCase):
    """A folder of a stranger beside one of the operator."""

    def setUp(self):
        self.room = tempfile.TemporaryDirectory(prefix="exbr-strangers-")
        self.addCleanup(self.room.cleanup)
        self.case, self.home = (os.path.join(self.room.name, it) for it in ("case", "home"))
        strangers.put(self.case)

    def at(self, name):
        return os.path.join(self.case, name)

    def out(self, prefix):
        strangers.topology(self.case, more=f"out = '{prefix}'\n")

    def run_it(self, words=("run", "t.toml"), program=None, **env):
        """A run with no limits lifted but those that are given."""
        kept = {name: value for name, value in os.environ.items() if not name.startswith("EXBR_")}
        return play(program or PROGRAM, self.case, words, env={**kept, **env})

    def refused(self, **env):
        ran = self.run_it(**env)
        self.assertEqual((ran.status, ran.printed, ran.said), (7, WRITE_FAULT, b""))

    def taken(self, **env):
        ran = self.run_it(**env)
        self.assertEqual((ran.status, ran.said), (0, b""), ran.printed)

    def home_is_as_it_was(self):
        self.assertEqual(held(self.home), {"own": VICTIM})


class Links(Ground):
    def test_a_link_to_a_file_of_the_operator(self):
        for name in OUTPUTS:
            for env in ({}, LIFTED):
                os.symlink("../home/own", self.at(name))
                self.refused(**env)
                self.home_is_as_it_was()
                os.remove(self.at(name))

    def test_a_link_to_nothing_makes_no_file(self):
        for name in OUTPUTS:
            for env in ({}, LIFTED):
                os.symlink("../home/new", self.at(name))
                self.refused(**env)
                self.home_is_as_it_was()
                os.remove(self.at(name))

    def test_a_second_name_of_a_file_of_the_operator(self):
        for name in OUTPUTS:
            for env in ({}, LIFTED):
                os.link(os.path.join(self.home, "own"), self.at(name))
                self.refused(**env)
                self.home_is_as_it_was()
                os.remove(self.at(name))

    def test_a_link_to_a_file_in_the_same_folder(self):
        write(self.at("notes"), BEFORE)
        os.symlink("notes", self.at(OUTPUTS[1]))
        self.refused()
        self.assertEqual(read(self.at("notes")), BEFORE)

    def test_outputs_of_an_earlier_run_are_not_emptied_where_one_is_refused(self):
        self.taken()
        whole = {name: read(self.at(name)) for name in OUTPUTS}
        os.remove(self.at(OUTPUTS[-1]))
        os.symlink("../home/own", self.at(OUTPUTS[-1]))
        self.refused()
        self.assertEqual({name: read(self.at(name)) for name in OUTPUTS[:-1]}, {name: whole[name] for name in OUTPUTS[:-1]})

    def test_outputs_of_an_earlier_run_are_written_anew_in_place(self):
        self.taken()
        whole, nodes = held(self.case), [os.stat(self.at(name)).st_ino for name in OUTPUTS]
        for name in OUTPUTS:
            write(self.at(name), BEFORE * 9)
        self.taken()
        self.assertEqual((held(self.case), [os.stat(self.at(name)).st_ino for name in OUTPUTS]), (whole, nodes))


class Places(Ground):
    def test_an_absolute_name(self):
        self.out(f"{self.home}/x-")
        self.refused()
        self.home_is_as_it_was()
        self.taken(**LIFTED)
        self.assertEqual(sorted(held(self.home)), ["own", "x-b1.pcap", "x-b2.pcap", "x-journal.txt"])

    def test_dots(self):
        self.out("../home/x-")
        self.refused()
        self.home_is_as_it_was()
        self.taken(**LIFTED)

    def test_results_of_another_run_stay(self):
        write(os.path.join(self.home, "x-b2.pcap"), BEFORE)
        self.out("../home/x-")
        self.refused()
        self.assertEqual(read(os.path.join(self.home, "x-b2.pcap")), BEFORE)

    def test_other_words_lift_nothing(self):
        self.out("../home/x-")
        for word in ("", "0", "yes", "11", "1 ", "true" * 9):
            self.refused(EXBR_ANYWHERE=word)
        self.home_is_as_it_was()

    def test_a_linked_folder_that_leads_away(self):
        os.symlink("../home", self.at("results"))
        self.out("results/x-")
        self.refused()
        self.home_is_as_it_was()
        # The operator's own link, and the operator's word.
        self.taken(**LIFTED)

    def test_a_linked_folder_deeper_down(self):
        os.mkdir(self.at("a"))
        os.symlink("../../home", self.at("a/b"))
        self.out("a/b/x-")
        self.refused()
        self.home_is_as_it_was()

    def test_a_folder_below(self):
        os.makedirs(self.at("a/b"))
        for prefix in ("a/b/x-", "./a//b/../b/y-", f"{self.case}/a/z-"):
            self.out(prefix)
            self.taken()
        self.assertEqual(len(held(self.at("a"))), 9)

    def test_the_operators_own_link_that_stays_below(self):
        os.mkdir(self.at("a"))
        os.symlink("a", self.at("b"))
        self.out("b/x-")
        self.taken()

    @unittest.skipUnless(os.geteuid() == 0, "it needs root, to make a link of another user")
    def test_a_linked_folder_of_another_user(self):
        for target in ("../home", "a"):
            os.makedirs(self.at("a"), exist_ok=True)
            os.symlink(target, self.at("b"))
            os.lchown(self.at("b"), 65534, 65534)
            self.out("b/x-")
            self.refused(**LIFTED)
            self.refused()
            os.remove(self.at("b"))
        self.home_is_as_it_was()

    def test_a_run_in_a_folder_whose_name_is_no_text(self):
        place = os.path.join(self.room.name.encode(), b"bad\xff")
        os.rename(self.case, place)
        self.case = place
        self.taken()
        text = read(os.path.join(place, b"t.toml"))
        for prefix, linked, status in ((b"../x-", b"", 7), (b"r/x-", b"../home", 7), (b"r/x-", b".", 7)):
            write(os.path.join(place, b"t.toml"), text.replace(b"ports = 2\n", b"ports = 2\nout = '" + prefix + b"'\n"))
            if linked:
                os.symlink(linked, os.path.join(place, b"r"))
            self.assertEqual(self.run_it().status, status)
            if linked:
                os.remove(os.path.join(place, b"r"))
        self.home_is_as_it_was()


class Budget(Ground):
    def size(self):
        return sum(len(data) for name, data in held(self.case).items() if name in OUTPUTS)

    def test_no_more_is_written_than_the_limit(self):
        self.taken()
        whole = self.size()
        for limit in (0, 1, 23, 24, 25, whole - 1):
            self.refused(EXBR_BYTES=str(limit))
            self.assertEqual(self.size(), limit)
        self.taken(EXBR_BYTES=str(whole))
        self.assertEqual(self.size(), whole)

    def test_what_is_no_number_lifts_nothing(self):
        for word in ("", "none", "-1", "1e3", "9" * 40):
            self.taken(EXBR_BYTES=word)

    def test_a_sparse_capture_writes_no_more_than_the_limit(self):
        # Records without bytes, each a line of the journal: a tebibyte of them takes no room, writes for hours and fills a disk.
        os.truncate(self.at("in.pcap"), os.path.getsize(self.at("in.pcap")) + 16 * 1_000_000)
        self.refused(EXBR_BYTES="1000000")
        self.assertEqual(self.size(), 1_000_000)
        self.taken()


class Terminal(Ground):
    NAME = "x\\u001b]0;pwned\\u0007\\r\\nexbr: all is well\\u202e\\u0085\\u2066\\u061c\\u2028é\\u007f"

    def at_a_terminal(self, *words):
        """What the program sends to a terminal, and its status."""
        pid, terminal = pty.fork()
        if not pid:
            try:
                os.chdir(self.case)
                os.execv(PROGRAM, [PROGRAM, *words])
            finally:
                os._exit(127)
        data = b""
        try:
            while part := os.read(terminal, 65536):
                data += part
        except OSError:
            pass
        os.close(terminal)
        return data, os.waitstatus_to_exitcode(os.waitpid(pid, 0)[1])

    def put(self):
        write(self.at("t.toml"), f'[bridge]\nports = 2\n[captures]\nb1 = "{self.NAME}"\n'.encode())

    def test_a_name_drives_no_terminal_and_forges_no_line(self):
        self.put()
        shown = "exbr: missing x\\u001b]0;pwned\\u0007\\u000d\\u000aexbr: all is well\\u202e\\u0085\\u2066\\u061c\\u2028é\\u007f\r\n"
        self.assertEqual(self.at_a_terminal("run", "t.toml"), (shown.encode(), 5))

    def test_elsewhere_it_is_byte_for_byte(self):
        self.put()
        said = "exbr: missing x\x1b]0;pwned\x07\r\nexbr: all is well\u202e\x85\u2066\u061c\u2028é\x7f\n"
        ran = self.run_it()
        self.assertEqual((ran.printed, ran.status), (said.encode(), 5))

    def test_keys_and_names_of_nets(self):
        write(self.at("t.toml"), b'"\\u001b[2J" = 1\n')
        self.assertEqual(self.at_a_terminal("check", "t.toml"), (b"exbr: topology: Unknown at \\u001b[2J\r\n", 3))
        write(self.at("net.toml"), b'bridge = [{name = "a", topology = "x\\u001b[2J"}]\n')
        self.assertEqual(self.at_a_terminal("net", "net.toml"), (b"exbr: missing x\\u001b[2J\r\n", 5))

    def test_lines_of_an_answer_stay_lines(self):
        self.assertEqual(self.at_a_terminal("check", "t.toml"), (b"channels 0 of 4094\r\nsets 0 of 12288\r\n", 0))
        plain = self.run_it()
        self.assertEqual(self.at_a_terminal("run", "t.toml"), (plain.printed.replace(b"\n", b"\r\n"), 0))


class Races(Ground):
    def test_a_racer_that_is_there_in_time(self):
        """A few tries; strangers.py makes a hundred."""
        for at in range(3):
            strangers.race(PROGRAM, self.room.name, ("../home/own", "in.pcap")[at % 2])

    def swapped(self, library, at, back, other):
        """A run in which the other thing is put in the place of an output before a call, and perhaps taken away again."""
        count = os.path.join(self.room.name, "count")
        how = {"LD_PRELOAD": library, "SWAP_COUNT": count, "SWAP_A": other[0], "SWAP_B": other[1], "SWAP_AT": str(at), "SWAP_BACK": str(back)}
        ran = self.run_it(**how)
        return ran, int(read(count)) if os.path.exists(count) else 0

    def library(self):
        compiler = shutil.which("gcc") or shutil.which("clang") or shutil.which("cc")
        if not compiler:
            self.skipTest("it needs a C compiler")
        path = os.path.join(self.room.name, "swap.so")
        subprocess.run([compiler, "-O1", "-shared", "-fPIC", "-o", path, os.path.join(HERE, "swap.c")], check=True)
        return path

    def at_each_call(self, prepare, other, backs, more=""):
        """The thing is there from each call on, for so many calls. Nothing of the operator and no capture may change."""
        library, whole = self.library(), read(self.at("in.pcap"))
        calls = 1
        for back in backs:
            at = 1
            while at <= calls:
                shutil.rmtree(self.case)
                shutil.rmtree(self.home)
                strangers.put(self.case, more=more)
                prepare()
                home = held(self.home)
                ran, counted = self.swapped(library, at, back, other)
                calls = max(calls, counted)
                with self.subTest(at=at, back=back, status=ran.status):
                    there = held(self.home)
                    self.assertEqual({name: there.get(name) for name in home}, home)
                    self.assertEqual([data for name, data in there.items() if name not in home and data], [])
                    self.assertEqual(read(self.at("in.pcap")), whole)
                    self.assertIn(ran.status, (0, 6, 7))
                at += 1
        self.assertGreater(calls, 40)

    def test_a_link_to_a_file_of_the_operator_at_each_call(self):
        self.at_each_call(lambda: os.symlink("../home/own", self.at("l")), ("out-b2.pcap", "l"), (0, 1, 2))

    def test_a_second_name_of_a_file_of_the_operator_at_each_call(self):
        self.at_each_call(lambda: os.link(os.path.join(self.home, "own"), self.at("l")), ("out-b2.pcap", "l"), (0, 1))

    def test_a_link_to_the_capture_at_each_call(self):
        self.at_each_call(lambda: os.symlink("in.pcap", self.at("l")), ("out-b2.pcap", "l"), (0, 1))

    def test_a_link_to_an_empty_file_at_each_call(self):
        """Its size is what was written so far, so that nothing but its identity tells it."""
        def prepare():
            write(os.path.join(self.home, "empty"), b"")
            os.symlink("../home/empty", self.at("l"))
        self.at_each_call(prepare, ("out-b2.pcap", "l"), (0, 1))

    def test_a_linked_folder_at_each_call(self):
        def prepare():
            os.mkdir(self.at("made"))
            write(os.path.join(self.home, "out-b2.pcap"), VICTIM)
            os.symlink("../home", self.at("l"))
        self.at_each_call(prepare, ("made", "l"), (0, 1, 2), more="out = 'made/out-'\n")


if __name__ == "__main__":
    unittest.main()
