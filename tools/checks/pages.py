"""The pages: tools/pages.py, the made reference, their English, the man page, and the commands that pages show with what they print."""
import os
import re
import shutil
import subprocess
import sys
import tempfile

from .program import TOP, knows, play
from .tests import Skip, Test

# A command that a page shows is run where it is one of these, in a copy of the examples.
OURS = re.compile(r"(?:cd examples/\S+ && )?(?:\.\./\.\./(?:exbr|tools/\S+\.py)|sed|cp|cat|head|grep|diff|cmp) ")
PAGES = ["README.md", "docs/QUICKSTART.md", "docs/TRACE.md", "docs/net.md"]


def text(path):
    with open(os.path.join(TOP, path), encoding="utf-8") as it:
        return it.read()


def agree(*words):
    """One of the tools that hold pages to their rules finds nothing."""
    ran = subprocess.run([sys.executable, *words], cwd=TOP, capture_output=True, text=True)
    assert ran.returncode == 0, (ran.stdout + ran.stderr)[-2000:]


def man_page():
    """The man page has no fault that man or mandoc knows."""
    if shutil.which("man"):
        words = ["man", "--warnings", "-l", "docs/exbr.1"]
    elif shutil.which("mandoc"):
        words = ["mandoc", "-T", "lint", "-W", "warning", "docs/exbr.1"]
    else:
        raise Skip("neither man (package man-db) nor mandoc is here, so the man page was not read")
    how = {"env": {**os.environ, "LC_ALL": "C.UTF-8", "MANWIDTH": "100", "MANPAGER": "cat"}}
    ran = subprocess.run(words, cwd=TOP, stdin=subprocess.DEVNULL, capture_output=True, text=True, errors="replace", **how)
    said = ran.stderr + (ran.stdout if words[0] == "mandoc" else "")
    assert ran.returncode == 0 and not said.strip(), said[-1500:]


def usage(program):
    """The usage line that the program prints stands in the man page."""
    status, printed, _ = play(program, [], TOP)
    assert status == 2, f"status {status}"
    page = text("docs/exbr.1").replace("\\-", "-")
    assert printed.strip() in page, f"docs/exbr.1 lacks the line {printed.strip()!r}"


def statuses():
    """The man page has the statuses of the README's table."""
    wanted = re.findall(r"^\| (\d+) \|", text("README.md"), re.M)
    page = text("docs/exbr.1").partition(".SH EXIT STATUS")[2].partition("\n.SH ")[0]
    found = re.findall(r"^\.B (\d+)$", page, re.M)
    assert wanted and wanted == found, f"README.md has {wanted}, and docs/exbr.1 {found}"


def blocks(page):
    """The commands that a page shows behind `$`, each with the lines below it."""
    found = []
    for line in text(page).splitlines():
        if line.startswith("    $ "):
            found.append((line[6:], []))
        elif line.startswith("    ") and found and found[-1] is not None:
            found[-1][1].append(line[4:])
        elif found and found[-1] is not None:
            found.append(None)
    return [it for it in found if it and OURS.match(it[0]) and not it[0].endswith("\\")]


def fits(printed, lines):
    """Whether lines are as a page shows them, where `..` alone stands for any."""
    form = "".join(r"(?:.*\n)*" if it.strip() == ".." else re.escape(it) + r"\n" for it in lines)
    return re.fullmatch(form, printed) is not None


def shown(program, page):
    """Runs a page's commands in a copy of the examples, and holds what they print to what the page says."""
    for word in re.findall(r"/exbr (net) ", "\n".join(command for command, _ in blocks(page))):
        if not knows(program, word):
            raise Skip(f"this program's usage line has no word {word!r}")
    with tempfile.TemporaryDirectory(prefix="exbr-page-") as room:
        shutil.copytree(f"{TOP}/examples", f"{room}/examples", ignore=shutil.ignore_patterns("out-*"))
        for name in ("tools", "crates"):
            os.symlink(f"{TOP}/{name}", f"{room}/{name}")
        os.symlink(program, f"{room}/exbr")
        here = os.path.dirname(page) if page.startswith("examples/") else ""
        for command, lines in blocks(page):
            moved = re.match(r"cd (\S+) && ", command)
            here = moved[1] if moved else here
            ran = subprocess.run(["sh", "-c", command[moved.end() if moved else 0:]], cwd=f"{room}/{here}", stdin=subprocess.DEVNULL,
                                 stdout=subprocess.PIPE, stderr=subprocess.PIPE, text=True, errors="replace")
            # A page may leave out what a command prints; then it has to end well.
            holds = fits(ran.stdout, lines) if lines else ran.returncode == 0
            assert holds, f"{command}\nprinted {ran.stdout!r}\nwhere the page has {lines}\n{ran.stderr[-300:]}"


def pages(program):
    found = [Test("pages", "tools/pages.py", lambda: agree("tools/pages.py")), Test("pages", "docs/exbr.1", man_page),
             Test("pages", "docs/reference is as the sources have it", lambda: agree("tools/reference.py", "--check")),
             Test("pages", "English of the pages", lambda: agree("tools/english.py")),
             Test("pages", "statuses of docs/exbr.1", statuses)]
    if program:
        of_examples = [f"examples/{it}/README.md" for it in sorted(os.listdir(f"{TOP}/examples"))]
        for page in [it for it in [*PAGES, *of_examples] if os.path.isfile(f"{TOP}/{it}") and blocks(it)]:
            found.append(Test("pages", f"commands of {page}", lambda page=page: shown(program, page)))
        found.append(Test("pages", "the usage line of docs/exbr.1", lambda: usage(program)))
    return found
