"""tools/layout.py: what it breaks, where, and that nothing in the repository is too wide."""
import importlib.util
import os
import subprocess
import sys
import unittest

TOP = os.path.dirname(os.path.dirname(os.path.dirname(os.path.abspath(__file__))))
spec = importlib.util.spec_from_file_location("layout", os.path.join(TOP, "tools/layout.py"))
layout = importlib.util.module_from_spec(spec)
spec.loader.exec_module(layout)


class Layout(unittest.TestCase):
    def mended(self, *lines, path="crates/x/src/lib.rt"):
        return layout.mended(path, list(lines))

    def test_a_clause_is_broken_before_its_outermost_operator(self):
        clause = "    ensures some { " + "IsLong first second third → " * 3 + "IsLast (fourth ∷ fifth) }"
        lines = self.mended(clause)
        self.assertEqual(" ".join(it.strip() for it in lines), clause.strip())
        self.assertTrue(all(len(it) <= 100 for it in lines))
        self.assertTrue(all(it.startswith("        →") for it in lines[1:]), lines)

    def test_code_and_imports_and_strings_stay(self):
        for line in ("    let x = " + "call(a, b) + " * 10 + "1;", "ghost use Rattle.a.{" + "name, " * 20 + "x};",
                     '    ensures { text ≡ "' + "a " * 60 + '" }'):
            self.assertEqual(self.mended(line), [line])

    def test_a_comment_is_filled_paragraph_by_paragraph(self):
        words = "word " * 30
        lines = self.mended("/// " + words.strip(), "///", "/// - a list stays")
        self.assertTrue(all(len(it) <= 100 for it in lines))
        self.assertEqual(lines[-2:], ["///", "/// - a list stays"])
        self.assertEqual(" ".join(it[4:] for it in lines[:-2]), words.strip())

    def test_what_fits_stays(self):
        lines = ["    ensures { short }", "// a", "// b", "fn f() {"]
        self.assertEqual(self.mended(*lines), lines)

    def test_nothing_in_the_repository_is_too_wide(self):
        ran = subprocess.run([sys.executable, "-B", os.path.join(TOP, "tools/layout.py")], capture_output=True, text=True, timeout=60)
        self.assertEqual((ran.stdout, ran.returncode), ("0 lines are too long\n", 0))


if __name__ == "__main__":
    unittest.main()
