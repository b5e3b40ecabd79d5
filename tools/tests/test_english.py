"""What tools/english.py finds in small pages, and that bad words have one clear line."""
import os
import subprocess
import sys
import tempfile
import unittest

TOP = os.path.dirname(os.path.dirname(os.path.dirname(os.path.abspath(__file__))))
TOOL = f"{TOP}/tools/english.py"
sys.path.insert(0, f"{TOP}/tools")
import english
LONG = " ".join(["on"] * 31)


class Pages(unittest.TestCase):
    def setUp(self):
        room = tempfile.TemporaryDirectory(prefix="exbr-english-")
        self.addCleanup(room.cleanup)
        self.top = room.name
        os.makedirs(f"{self.top}/docs/reference")
        os.mkdir(f"{self.top}/tools")

    def put(self, name, words):
        with open(f"{self.top}/{name}", "w", encoding="utf-8") as file:
            file.write(words)

    def run_on(self, *words):
        return subprocess.run([sys.executable, TOOL, "--top", self.top, *words], stdin=subprocess.DEVNULL, capture_output=True, text=True)

    def faults(self, page):
        return [f"{line}: {words}" for line, _, words in english.faults(page)]

    def test_a_long_sentence(self):
        self.assertEqual(self.faults(f"# A\n\nShort. {LONG.capitalize()}.\n"), ["3: 31 words: " + LONG.capitalize()[:70] + ".."])
        self.assertEqual(self.faults(f"{LONG[3:].capitalize()}.\n"), [])

    def test_sentences_end_at_points_and_not_in_names_or_numbers(self):
        half = " ".join(["on"] * 16)
        self.assertEqual(self.faults(f"{half}. {half.capitalize()}.\n"), [])
        most = half[3:]
        self.assertEqual(len(self.faults(f"{most} 2.5 {most}.\n")), 1)
        self.assertEqual(len(self.faults(f"{most} `a.b` {most}.\n")), 1)

    def test_points_and_cells_are_sentences_of_their_own(self):
        half = " ".join(["on"] * 16)
        self.assertEqual(self.faults(f"- {half}\n- {half}\n"), [])
        self.assertEqual(self.faults(f"| A | B |\n|---|---|\n| {half} | {half} |\n"), [])
        self.assertEqual(len(self.faults(f"| A |\n|---|\n| {LONG} |\n")), 1)

    def test_phrases(self):
        for words in ("as they must", "so many words", "the port is none", "that of the bridge", "the ports of which it has two", "behind it",
                      "a front of it", "exactly where it is", "whatever port it is"):
            self.assertEqual(len(self.faults(f"It says: {words}.\n")), 1, words)
        self.assertEqual(len(self.faults("It is. So it goes.\n")), 1)
        self.assertEqual(self.faults("It is so that it goes, in front of you.\n"), [])

    def test_code_is_not_read(self):
        for page in (f"    {LONG} behind\n", f"```\n{LONG} behind\n```\n", "It says `behind`.\n"):
            self.assertEqual(self.faults(page), [])

    def test_wide_lines(self):
        wide = "one. " * 21
        self.assertEqual(len(self.faults(f"{wide.strip()}\n")), 1)
        self.assertEqual(self.faults(f"| {wide} |\n"), [])

    def test_pages_that_are_not_done_yet(self):
        self.put("bad.md", "It stands behind it.\n")
        self.put("good.md", "It is good.\n")
        self.put("docs/reference/made.md", "It stands behind it.\n")
        self.assertEqual(self.run_on().stdout.splitlines(), ['bad.md:1: "behind": say after'])
        self.put("tools/not-yet-plain.txt", "# still to be written anew\nbad.md\n")
        self.assertEqual((self.run_on().returncode, self.run_on().stdout), (0, ""))
        self.put("tools/not-yet-plain.txt", "bad.md\ngood.md\ngone.md\n")
        said = self.run_on().stdout.splitlines()
        self.assertEqual([it.split(": ", 1)[1] for it in said], ["good.md has no fault any more: take it off the list", "there is no page gone.md"])

    def test_the_table_counts(self):
        self.put("page.md", f"It is behind. {LONG.capitalize()}.\n")
        self.assertIn(["page.md", "1", "2", "1", "0", "1", "1"], [it.split() for it in self.run_on("--table").stdout.splitlines()])

    def test_bad_words(self):
        ran = self.run_on("nowhere.md")
        self.assertEqual((ran.returncode, ran.stdout, ran.stderr), (1, "", "english: there is no page nowhere.md\n"))


if __name__ == "__main__":
    unittest.main()
