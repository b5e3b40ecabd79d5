"""The rules of content of a page, in a browser: a script that was planted into it doesn't run, and a form isn't sent."""
import base64
import hashlib
import os
import re
import time
import unittest

import browser
import ground
from exbr_desk import runs
from exbr_report import gather, page

PLANTED = """<script>document.title = 'planted'</script><img src=x onerror="document.title = 'planted'"><form id=f action=https://localhost:1/form><input name=a></form>"""
POLICY = re.compile('Content-Security-Policy" content="([^"]*)"')


class Policy(ground.InFolder):
    def page(self):
        return page.build(gather.report_of(runs.read(self.played("office")), 100, True))

    def test_the_sum_is_that_of_the_script(self):
        text = self.page()
        script = text[text.rindex("<script>") + len("<script>"):text.rindex("</script>")]
        said = POLICY.search(text)[1].replace("&#x27;", "'")
        self.assertIn(f"script-src 'sha256-{base64.b64encode(hashlib.sha256(script.encode()).digest()).decode()}'", said)
        for rule in ("default-src 'none'", "form-action 'none'", "base-uri 'none'"):
            self.assertIn(rule, said)
        self.assertNotIn("script-src 'unsafe", said)

    @unittest.skipUnless(browser.found(), "no Chromium here: apt-get install chromium")
    def test_a_planted_script(self):
        whole = self.page()
        without = POLICY.sub('Nothing" content="', whole)
        self.assertNotEqual(whole, without)
        with browser.Browser() as chromium:
            for text, planted in ((whole, False), (without, True)):
                path = self.write("page.html", text.replace("</main>", PLANTED + "</main>"))
                chromium.open(path)
                title = chromium.ask("Runtime.evaluate", expression="document.title", returnByValue=True)["result"]["value"]
                self.assertEqual(title == "planted", planted)
                shown = chromium.ask("Runtime.evaluate", expression="document.querySelectorAll('#rows > tr').length", returnByValue=True)["result"]["value"]
                self.assertGreater(shown, 3)
            chromium.open(self.write("page.html", whole.replace("</main>", PLANTED + "</main>")))
            chromium.ask("Runtime.evaluate", expression="document.getElementById('f').submit()")
            time.sleep(0.3)
            here = chromium.ask("Runtime.evaluate", expression="location.protocol", returnByValue=True)["result"]["value"]
            self.assertEqual(here, "file:")


if __name__ == "__main__":
    unittest.main()
