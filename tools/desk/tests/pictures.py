"""Makes the pictures of docs/night.md from a run of examples/night. It needs Chromium, and takes pngquant where it is there:

    EXBR=FILE python3 tools/desk/tests/pictures.py
"""
import os
import shutil
import subprocess
import sys
import tempfile

import browser
import ground

TO = os.path.join(ground.TOP, "docs", "pictures")
SHOW = "(name) => document.querySelector(name).scrollIntoView({block: 'start'})"
WHY = "document.querySelector('#notices li:nth-child(2) [data-frames]').click(); document.querySelector('#rows button').click();"
SHOTS = (
    ("head", 1100, 900, False, "0"),
    ("time", 1100, 420, True, f"({SHOW})('#timeline')"),
    ("frames", 1100, 620, False, f"{WHY} ({SHOW})('#frames')"),
    ("narrow", 390, 760, False, f"{WHY} ({SHOW})('#frames .pager')"),
)


def made(folder: str) -> str:
    """The report of a run."""
    for name in os.listdir(os.path.join(ground.EXAMPLES, "night")):
        if name.startswith("in-") or name.endswith(".toml"):
            shutil.copy(os.path.join(ground.EXAMPLES, "night", name), folder)
    subprocess.run([os.environ["EXBR"], "run", "topology.toml"], cwd=folder, check=True, stdout=subprocess.DEVNULL)
    page = os.path.join(folder, "report.html")
    # The page is made beside the captures, so that it names the folder as the walk does.
    subprocess.run([sys.executable, os.path.join(ground.TOOLS, "exbr-report"), ".", "-o", page], cwd=folder, check=True)
    return page


def main() -> int:
    """Makes all pictures."""
    if "EXBR" not in os.environ or not browser.found():
        print("it needs Chromium, and a built program: EXBR=FILE", file=sys.stderr)
        return 2
    os.makedirs(TO, exist_ok=True)
    with tempfile.TemporaryDirectory() as above, browser.Browser() as it:
        folder = os.path.join(above, "night")
        os.makedirs(folder)
        page = made(folder)
        for name, width, height, dark, script in SHOTS:
            it.look(width, dark, height)
            it.open(page)
            it.run(script)
            it.run("document.activeElement.blur()")
            it.picture(os.path.join(TO, f"report-{name}.png"), whole=False)
    if shutil.which("pngquant"):
        subprocess.run(["pngquant", "--force", "--ext", ".png", "--strip", "64", *(os.path.join(TO, f"report-{it[0]}.png") for it in SHOTS)], check=True)
    return 0


if __name__ == "__main__":
    sys.exit(main())
