"""The reference that is made of the sources: over a small project, and that the project's own pages are as the sources have it."""
import os
import subprocess
import sys
import tempfile
import unittest

TOP = os.path.dirname(os.path.dirname(os.path.dirname(os.path.abspath(__file__))))
TOOL = f"{TOP}/tools/reference.py"
FILES = {
    "crates.txt": "# NAME: libraries\n\n# base\nexb_a: arrayvec\nexb_b: exb_a\n",
    "crates/exb_a/src/lib.rt": "//! What a is. And more.\n\npub mod seen;\nmod hidden;\npub mod laws;\n\npub use hidden::Offered;\n",
    "crates/exb_a/src/seen.rt": """//! What is seen.
/// Counts.
#[derive(Clone)]
pub struct Counts {
    /// How many frames.
    pub frames: u64,
    inner: u64,
}

impl Model for Counts {
    ghost Value = { ℕ };
    ghost view = { λ c. c.frames };
}

impl Counts {
    /// One more.
    #[inline]
    pub fn more(
        &mut self,
        by: u64,
    ) -> u64
        requires fits { by < 2 ^ 32 }
        // The sum, of both.
        ensures sum { self.new ≡ self.old
            + by }
    {
        self.frames += by;
        self.frames
    }

    fn inside(&self) -> u64 {
        0
    }
}

impl Drop for Counts {
    fn drop(self) {}
}

/// A short one.
pub fn short(a: u8) -> u8 {
    a
}
""",
    "crates/exb_a/src/hidden.rt": """/// It is offered.
pub struct Offered;

/// It is not.
pub fn unoffered() -> u8 {
    0
}
""",
    "crates/exb_a/src/laws.rt": "/// A law.\npub fn a_law()\n    ensures { 1 ≡ 1 }\n{\n}\n",
    "crates/exb_a/specs/Parts.antt": "-- What parts are.\nuse x.{y}\n\n-- a part\nabbrev pub part : ℕ → ℕ\npart n = n\n\nabbrev pub bare : ℕ\nbare = 0\n\n"
                                     "-- Both.\npub record Both (a b : ℕ) : Type 0 where\n  pub same : a ≡ b\n\n-- inner\nabbrev inner : ℕ\ninner = 1\n",
    "crates/exb_b/src/main.rt": "//! What b is.\nfn main() {\n}\n",
}


def run(*words):
    return subprocess.run([sys.executable, TOOL, *words], stdin=subprocess.DEVNULL, capture_output=True, text=True)


class Small(unittest.TestCase):
    def setUp(self):
        room = tempfile.TemporaryDirectory(prefix="exbr-reference-")
        self.addCleanup(room.cleanup)
        self.top = room.name
        for path, words in FILES.items():
            os.makedirs(os.path.dirname(f"{self.top}/{path}"), exist_ok=True)
            with open(f"{self.top}/{path}", "w", encoding="utf-8") as file:
                file.write(words)

    def page(self, crate):
        ran = run("--top", self.top, "--print", crate)
        self.assertEqual((ran.returncode, ran.stderr), (0, ""))
        return ran.stdout

    def test_head_and_needs(self):
        self.assertIn("# exb_a\n", self.page("exb_a"))
        self.assertIn("What a is. And more.\n\nStands on: `arrayvec`.", self.page("exb_a"))
        self.assertIn("Stands on: [exb_a](exb_a.md).", self.page("exb_b"))

    def test_a_call_with_its_clauses_and_their_comments(self):
        wanted = ("### `Counts::more`\n\nOne more.\n\n```\npub fn more(\n    &mut self,\n    by: u64,\n) -> u64\n    requires fits { by < 2 ^ 32 }\n"
                  "    // The sum, of both.\n    ensures sum { self.new ≡ self.old\n        + by }\n```\n")
        self.assertIn(wanted, self.page("exb_a"))

    def test_a_type_with_its_public_fields_and_its_view(self):
        wanted = ("### `Counts`\n\nCounts.\n\n```\npub struct Counts {\n    /// How many frames.\n    pub frames: u64,\n}\n\n"
                  "ghost Value = { ℕ };\nghost view = { λ c. c.frames };\n```\n")
        self.assertIn(wanted, self.page("exb_a"))

    def test_what_is_not_public_is_left_out(self):
        page = self.page("exb_a")
        for word in ("inside", "unoffered", "inner", "drop"):
            self.assertNotIn(word, page)
        self.assertIn("### `Offered`", page)
        self.assertIn("pub fn short(a: u8) -> u8\n```", page)

    def test_laws_stand_apart(self):
        items, _, laws = self.page("exb_a").partition("## Laws")
        self.assertIn("a_law", laws)
        self.assertNotIn("a_law", items)

    def test_definitions_with_their_comments(self):
        page = self.page("exb_a").partition("## Definitions")[2]
        self.assertIn("### [Parts](../../crates/exb_a/specs/Parts.antt)\n\nWhat parts are.\n\n- `part : ℕ → ℕ`: a part\n", page)
        self.assertIn("- `record Both (a b : ℕ)`: Both.\n\n  ```\n  pub same : a ≡ b\n  ```\n", page)
        self.assertIn("Without a comment: `bare`.", page)

    def test_check_sees_what_is_stale_missing_and_left_over(self):
        self.assertEqual(run("--top", self.top).returncode, 0)
        self.assertEqual((run("--top", self.top, "--check").returncode, run("--top", self.top, "--check").stdout), (0, ""))
        folder = f"{self.top}/docs/reference"
        os.remove(f"{folder}/exb_b.md")
        with open(f"{folder}/exb_a.md", "a", encoding="utf-8") as file:
            file.write("more\n")
        with open(f"{folder}/exb_c.md", "w", encoding="utf-8") as file:
            file.write("")
        ran = run("--top", self.top, "--check")
        self.assertEqual(ran.returncode, 1)
        self.assertEqual([it.split()[0] for it in ran.stdout.splitlines()], [f"docs/reference/exb_{it}.md" for it in "abc"])
        run("--top", self.top)
        self.assertEqual(sorted(os.listdir(folder)), ["README.md", "exb_a.md", "exb_b.md"])

    def test_bad_words(self):
        for words in (["--print", "exb_z"], ["--top", f"{self.top}/nowhere"]):
            ran = run("--top", self.top, *words)
            self.assertEqual((ran.returncode, ran.stderr.count("\n")), (1, 1))
            self.assertTrue(ran.stderr.startswith("reference: "))


class Ours(unittest.TestCase):
    def test_the_pages_are_as_the_sources_have_it(self):
        ran = run("--check")
        self.assertEqual((ran.returncode, ran.stdout), (0, ""))


if __name__ == "__main__":
    unittest.main()
