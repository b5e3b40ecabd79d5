"""A small repository with the launcher and the gate as they are here, a toolchain that only seems to be one, and /bin/echo as the
program that it builds: so what each says is tested in seconds, and without any proof."""
import hashlib
import os
import platform
import shutil
import subprocess
import sys
import tempfile

TOP = os.path.dirname(os.path.dirname(os.path.dirname(os.path.abspath(__file__))))
# /bin/echo with the text of main.rt behind it: it runs as echo does, and other sources give other bytes.
RT = """#!/bin/sh
case $1 in
version) cat "$(dirname "$0")/kit" ;;
ci)
    echo "ci $*" >>"$(dirname "$0")/calls"
    if grep -q wrong crates/exb_low/src/lib.rt; then
        echo "rt: exb_low NOT PROVED"
        echo "0 passed, 1 failed"
        exit 1
    fi
    mkdir -p crates/exbr/out
    cat /bin/echo crates/exbr/src/main.rt >crates/exbr/out/exbr
    chmod +x crates/exbr/out/exbr
    echo "rt: exb_low is kept: an earlier run proved the same"
    echo "rt: exbr proved"
    echo "2 passed, 0 failed"
    ;;
esac
"""
TEST = """#!/bin/sh
echo "testing $2"
echo "5 passed, 0 failed"
"""
FILES = {
    "crates.txt": "# NAME: libraries\nexb_low:\nexbr: exb_low\nexb_tests: exb_low\n",
    "HANDLES": "Handles allowed: none.\n",
    "crates/exb_low/src/lib.rt": "low\n",
    "crates/exb_low/specs/Low.antt": "spec\n",
    "crates/exb_tests/src/lib.rt": "tests\n",
    "crates/exbr/src/main.rt": "main\n",
    "crates/exb_cases/stdout": "",
    "crates/exb_cases/data/cases.txt": "",
    "examples/none/README.md": "",
    "test": TEST,
    "kit/rt": RT,
    "kit/kit": "kit one\n",
}
PARTS = ["exbr", ".ci/run", "tools/sources", "tools/program", "tools/version", "tools/build", "tools/dist", "tools/gate", "tools/record.py", "tools/schedule.py", "tools/seconds.txt"]
def can_run():
    return platform.machine() == "x86_64" and os.path.isfile("/bin/echo")


class Scratch:
    def __init__(self):
        self.room = tempfile.TemporaryDirectory(prefix="exbr-scratch-")
        self.top = self.room.name
        for name, text in FILES.items():
            self.write(name, text)
        for name in PARTS:
            os.makedirs(os.path.dirname(self.at(name)), exist_ok=True)
            shutil.copy2(os.path.join(TOP, name), self.at(name))
        # Python as it runs here, without packages that these tools don't need, and nothing else of its folder, where an rt may lie.
        self.write("bin/python3", f'#!/bin/sh\nexec "{sys.executable}" -S "$@"\n')
        for name in ("kit/rt", "bin/python3", "test"):
            os.chmod(self.at(name), 0o755)

    def furnish(self):
        """Puts `./test` and `./install` there as they are here, and links to all that isn't there and that they may read."""
        for name in ("test", "install"):
            shutil.copy2(os.path.join(TOP, name), self.at(name))
        shutil.rmtree(self.at("crates/exb_cases"))
        beside = [name for name in os.listdir(TOP) if name not in (".git", "dist")]
        for name in [*beside, *(f"tools/{it}" for it in os.listdir(f"{TOP}/tools")), "crates/exb_cases"]:
            if not os.path.lexists(self.at(name)):
                os.symlink(os.path.join(TOP, name), self.at(name))

    def sum(self):
        """Puts dist/sums there, which `./install` asks for: the sums of what is linked are those of this repository."""
        with open(os.path.join(TOP, "dist/sums"), encoding="utf-8") as file:
            lines = [it for it in file if not it.endswith("  dist/exbr\n")]
        with open(self.at("dist/exbr"), "rb") as file:
            lines.append(f"{hashlib.sha256(file.read()).hexdigest()}  dist/exbr\n")
        self.write("dist/sums", "".join(lines))

    def at(self, name):
        return os.path.join(self.top, name)

    def write(self, name, text):
        os.makedirs(os.path.dirname(self.at(name)), exist_ok=True)
        with open(self.at(name), "w", encoding="utf-8") as it:
            it.write(text)

    def read(self, name):
        with open(self.at(name), encoding="utf-8") as it:
            return it.read()

    def change_byte(self, name, at=-1):
        with open(self.at(name), "rb") as it:
            data = bytearray(it.read())
        data[at] ^= 1
        with open(self.at(name), "wb") as it:
            it.write(data)

    def record(self, word, value):
        """Changes a line of dist/record."""
        lines = [f"{word} {value}" if it.startswith(f"{word} ") else it for it in self.read("dist/record").splitlines()]
        self.write("dist/record", "".join(f"{it}\n" for it in lines))

    def calls(self):
        return len(self.read("kit/calls").splitlines()) if os.path.exists(self.at("kit/calls")) else 0

    def run(self, *words, has_rt=True, cwd=None, seconds=None):
        """Status, standard output and standard error of a command of the scratch repository. It fails if it takes more seconds."""
        path = f"{self.at('bin')}:/usr/bin:/bin"
        path = f"{self.at('kit')}:{path}" if has_rt else path
        env = {"PATH": path, "HOME": self.top, "LC_ALL": "C.UTF-8", "PYTHONDONTWRITEBYTECODE": "1"}
        how = {"stdin": subprocess.DEVNULL, "capture_output": True, "text": True, "errors": "replace", "env": env}
        ran = subprocess.run([self.at(words[0]), *words[1:]], cwd=cwd or self.top, timeout=seconds, **how)
        return ran.returncode, ran.stdout, ran.stderr

    def close(self):
        self.room.cleanup()
