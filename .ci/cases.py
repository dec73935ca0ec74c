"""What the tests of scripts share: a folder that stands for the repository, stand-ins for commands, and what is said."""

import os
import re
import shutil
import subprocess
import sys
import tempfile
import time
from pathlib import Path

HERE = Path(__file__).resolve().parent
TOP = HERE.parent


class Scratch:
    """A folder `top`, with copies of some scripts, and a folder of commands that comes first on the path."""

    def __init__(self, name, *scripts):
        self.name, self.kept = name, tempfile.TemporaryDirectory()
        self.folder = Path(self.kept.name)
        self.top = self.folder / "a folder"
        self.copy(*(f".ci/{it}" for it in scripts))

    def copy(self, *places):
        """Makes files and folders what they are in the repository, without what was built, or removes them."""
        self.remove(*places)
        for place in places:
            (self.top / place).parent.mkdir(parents=True, exist_ok=True)
            if (TOP / place).is_dir():
                shutil.copytree(TOP / place, self.top / place, ignore=shutil.ignore_patterns("out", "target"))
            elif (TOP / place).exists():
                shutil.copy2(TOP / place, self.top / place)

    def write(self, place, text="", mode=0o644):
        file = self.top / place
        file.parent.mkdir(parents=True, exist_ok=True)
        file.write_text(text)
        file.chmod(mode)

    def edit(self, place, old, new):
        text = self.read(place)
        self.expect(f"the text to change in {place}", True, old in text)
        self.write(place, text.replace(old, new, 1), (self.top / place).stat().st_mode)

    def add(self, place, text="\n"):
        self.write(place, self.read(place) + text)

    def read(self, place):
        """What a file has: nothing where there is none."""
        return (self.top / place).read_text() if (self.top / place).exists() else ""

    def command(self, name, text="", folder="../bin"):
        """A stand-in in bash, or in what this says."""
        self.write(f"{folder}/{name}", text if text.startswith("#!") else f"#!/bin/bash\n{text}", 0o755)

    def links(self, name, *commands):
        """A folder of this name beside `top`, with links to these commands alone: for a path."""
        (self.folder / name).mkdir()
        for it in commands:
            (self.folder / name / os.path.basename(it)).symlink_to(it)
        return f"{self.folder}/{name}"

    def changed_before(self, seconds, *places):
        """Sets when these files were changed, since two changes can fall into one tick of the clock."""
        for place in places:
            os.utime(self.top / place, (time.time() - seconds,) * 2)

    def remove(self, *places):
        """Removes files and folders, where they are."""
        for place in places:
            if (self.top / place).is_dir():
                shutil.rmtree(self.top / place)
            (self.top / place).unlink(missing_ok=True)

    def told(self, *words, **variables):
        """What a command prints that is run at the top, and its status as the last line."""
        ways = {"PATH": f"{self.folder}/bin:{os.environ['PATH']}", "CALLS": str(self.folder / "calls")}
        environment = {**os.environ, **ways, **variables}
        how = {"stdin": subprocess.DEVNULL, "stdout": subprocess.PIPE, "stderr": subprocess.STDOUT}
        ran = subprocess.run(words, cwd=self.top, env=environment, encoding="utf-8", **how)
        return f"{ran.stdout}status {ran.returncode}"

    def called(self):
        """What the stand-ins have written into the file CALLS since it was asked for last, by lines."""
        calls = [it.strip() for it in self.read("../calls").splitlines()]
        self.write("../calls")
        return calls

    def says(self, what, wanted, *words, **variables):
        self.expect(what, wanted, self.told(*words, **variables))

    def tried(self, what, wanted, said, good, words, **variables):
        """Of wrong bodies or edits, each a label and a word by which `said` has what is said of it, this is printed: an `!`
        before a label says that it isn't as it must be. The last line counts them, and those of which `good` is said."""
        items = [it.rpartition(" ") for it in wanted.split("; ")]
        lines = [f"{label.replace('!', 'ERROR: ')}: {said[word].format(label.strip('!'))}\n" for label, _, word in items]
        count = sum(label[0] != "!" and f": {good}: " in line for (label, *_), line in zip(items, lines))
        end = f"{count} {self.name.replace('_', ' ')} {good}, {wanted.count('!')} not\nstatus {int('!' in wanted)}"
        got = re.sub(", in .* minutes of a processor\n", "\n", self.told(f".ci/{self.name}", *words.split(), **variables))
        self.expect(what, "".join(lines) + end, got)

    def expect(self, what, wanted, got):
        if wanted != got:
            sys.exit(f"{self.name}, {what}: wanted\n{wanted}\ngot\n{got}")
