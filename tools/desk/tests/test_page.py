"""The page in a browser: clicked through, walked through by keyboard, wide and narrow, light and dark, printed. Skipped where there is no
Chromium; then it says so."""
import os
import unittest

import browser
import ground
from exbr_desk import runs
from exbr_report import gather, page

ROWS = "[...document.querySelectorAll('#rows > tr:not(.why)')].map((it) => it.innerText)"
WHY = "[...document.querySelectorAll('#rows .why li')].map((it) => it.textContent)"
SAID = "document.getElementById('where').textContent"
# Colours as the browser has computed them, over the next ground that isn't transparent; the contrast is that of WCAG 2.
CONTRAST = """(() => {
  const parse = (it) => it.match(/[\\d.]+/g).map(Number);
  const light = (rgb) => { const [r, g, b] = rgb.slice(0, 3).map((it) => { const at = it / 255; return at <= 0.04045 ? at / 12.92 : ((at + 0.055) / 1.055) ** 2.4; });
    return 0.2126 * r + 0.7152 * g + 0.0722 * b; };
  const ground = (it) => { for (; it; it = it.parentElement) { const rgb = parse(getComputedStyle(it).backgroundColor); if (rgb.length < 4 || rgb[3] > 0) return rgb; }
    return [255, 255, 255]; };
  const low = [];
  for (const it of document.querySelectorAll('h1, h2, p, th, td, a, button, label, li, caption, summary, span')) {
    if (!it.textContent.trim() || !it.getClientRects().length || it.closest('svg') || it.disabled) continue;
    const one = light(parse(getComputedStyle(it).color)), other = light(ground(it));
    const ratio = (Math.max(one, other) + 0.05) / (Math.min(one, other) + 0.05);
    if (ratio < 4.5) low.push(it.tagName + ' ' + it.className + ' ' + it.textContent.slice(0, 20) + ' ' + ratio.toFixed(2));
  }
  return low;
})()"""


@unittest.skipUnless(browser.found(), "no Chromium here: apt-get install chromium")
class InBrowser(ground.InFolder):
    """One browser for all tests; each opens its page anew."""

    @classmethod
    def setUpClass(cls) -> None:
        cls.chromium = browser.Browser()

    @classmethod
    def tearDownClass(cls) -> None:
        cls.chromium.__exit__()

    def open(self, example: str = "campus", width: int = 1280, dark: bool = False) -> browser.Browser:
        self.path_of_page = self.path(f"{example}.html")
        with open(self.path_of_page, "w", encoding="utf-8") as file:
            file.write(page.build(gather.report_of(runs.read(self.played(example)), 100_000, quiet=True)))
        it = self.chromium
        it.look(width, dark)
        it.open(self.path_of_page)
        it.run("localStorage.clear(); delete document.documentElement.dataset.look")
        return it

    def tearDown(self) -> None:
        self.assertEqual(self.chromium.complaints(), [])

    def test_all_examples_open(self):
        for example in ground.PLAYED:
            with self.subTest(example):
                it = self.open(example)
                arrived = it.run("+document.querySelector('.tiles b').textContent")
                self.assertEqual(len(it.run(ROWS)), arrived)
                self.assertEqual(it.complaints(), [])

    def test_clicked_through(self):
        it = self.open()
        it.click("#tree [data-port='x3.1']")
        self.assertEqual([row.split("\t")[1] for row in it.run(ROWS)], ["x3.1 #1", "x3.1 #2", "x3.1 #3"])
        self.assertEqual(it.run(SAID), "1 to 3 of 3 that fit")
        it.click("#clear")
        self.assertEqual(len(it.run(ROWS)), 10)
        it.click("#time .span[data-from='10']")
        self.assertEqual([row.split("\t")[1] for row in it.run(ROWS)], ["b4 #3"])
        it.click("#rows button")
        self.assertEqual(it.run("document.querySelector('#rows button').getAttribute('aria-expanded')"), "true")
        self.assertIn("not at x3.1: it was chosen, and isn't a member of VLAN 20 (as command 1 left it)", it.run(WHY))
        it.click("#rows button")
        self.assertEqual(it.run(WHY), [])
        it.click("#notices [data-frames]")
        self.assertEqual([row.split("\t")[1] for row in it.run(ROWS)], ["b4 #3"])

    def test_filters(self):
        it = self.open()
        for field, value, count in (("f-word", "icmp", 4), ("f-word", "02-00-00-00-00-09", 1), ("f-vlan", "10", 5), ("f-what", "nowhere", 1),
                                    ("f-what", "nowhere:no member", 1), ("f-what", "ignored", 0), ("f-from", "6", 5), ("f-to", "6", 5)):
            with self.subTest(f"{field} {value}"):
                it.run(f"document.getElementById('clear').click(); (() => {{ const it = document.getElementById('{field}'); it.value = '{value}';"
                       " it.dispatchEvent(new Event('input', {bubbles: true})); })()")
                self.assertEqual(len(it.run(ROWS)), count)
        it.run("document.getElementById('f-word').value = 'nothing like it'; document.getElementById('f-word').dispatchEvent(new Event('input'))")
        self.assertEqual(it.run(SAID), "no frame fits")

    def test_every_why(self):
        it = self.open("private-hosts")
        it.run("document.querySelectorAll('#rows > tr > td > button').forEach((it) => it.click())")
        said = it.run(WHY)
        self.assertGreater(len(said), 20)
        for one in said:
            self.assertNotRegex(one, "[{}]|undefined|NaN")
        self.assertIn("not at x1.1: it is isolated, as x2.1 is", " ".join(said))

    def test_by_keyboard(self):
        it = self.open()
        it.run("document.querySelector('#tree [tabindex=\"0\"]').focus()")
        self.assertEqual(it.run("document.activeElement.dataset.port"), "b3")
        for key, port in (("ArrowRight", "b4"), ("ArrowRight", "x1.1"), ("End", "x3.3"), ("ArrowUp", "x2.3"), ("Home", "b3")):
            it.key(key)
            if key != "ArrowRight" or port == "b4":
                self.assertEqual(it.run("document.activeElement.dataset.port"), port)
        it.key("End")
        it.key("ArrowLeft")
        self.assertEqual(it.run("document.activeElement.dataset.port"), "x3.2")
        it.key("ArrowLeft")
        it.key("Enter", 13, "\r")
        self.assertEqual(it.run("document.activeElement.id"), "frames-head")
        self.assertEqual(len(it.run(ROWS)), 3)
        it.run("document.querySelector('#rows button').focus()")
        it.key("Enter", 13, "\r")
        self.assertTrue(it.run(WHY))

    def test_each_control_has_a_name(self):
        it = self.open()
        bare = it.run("""[...document.querySelectorAll('button, a, input, select, [role=button], [role=region], [role=group], svg')].filter((it) =>
            !(it.getAttribute('aria-label') || it.textContent.trim() || it.closest('label')?.textContent.trim())).map((it) => it.outerHTML.slice(0, 80))""")
        self.assertEqual(bare, [])
        self.assertEqual(it.run("document.documentElement.lang"), "en")
        levels = it.run("[...document.querySelectorAll('h1, h2, h3')].map((it) => +it.tagName[1])")
        self.assertEqual(levels, [1] + [2] * 7)

    def test_looks(self):
        for dark in (False, True):
            with self.subTest(dark=dark):
                it = self.open(dark=dark)
                self.assertEqual(it.run("document.getElementById('look').textContent"), "Light look" if dark else "Dark look")
                self.assertEqual(it.run(CONTRAST), [])
                it.click("#look")
                self.assertEqual(it.run("document.documentElement.dataset.look"), "light" if dark else "dark")
                self.assertEqual(it.run(CONTRAST), [])
                it.open(self.path_of_page)
                self.assertEqual(it.run("document.documentElement.dataset.look"), "light" if dark else "dark")

    def test_no_window_is_too_narrow(self):
        for width in (320, 390, 768, 1280, 1920):
            with self.subTest(width=width):
                it = self.open(width=width)
                self.assertLessEqual(it.run("document.documentElement.scrollWidth"), width)

    def test_printed(self):
        it = self.open()
        it.printed(self.path("page.pdf"))
        self.assertGreater(os.path.getsize(self.path("page.pdf")), 20_000)

    def test_pages(self):
        it = self.open("campus")
        it.run("document.getElementById('size').innerHTML = '<option>4</option>'; document.getElementById('size').dispatchEvent(new Event('change'))")
        self.assertEqual(it.run(SAID), "1 to 4 of 10")
        for go, said in (("next", "5 to 8 of 10"), ("next", "9 to 10 of 10"), ("first", "1 to 4 of 10"), ("last", "9 to 10 of 10"), ("back", "5 to 8 of 10")):
            it.run(f"document.querySelector('.pager [data-go={go}]').click()")
            self.assertEqual(it.run(SAID), said)


if __name__ == "__main__":
    unittest.main()
