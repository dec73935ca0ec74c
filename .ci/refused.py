"""What is kept of the wrong bodies that the prover refused, and of the wrong edits that tests saw, so that one is tried
again only where that may differ.

A line of crates/NAME/wrong/refused has the name of a body and a digest: of the edit, of the crate's sources,
definitions and proofs, of the sources and definitions of the crates below it, whose contracts its functions are proved by,
of the logic that proved them, and of the scripts that judge. A line of bindings/wrong/LANGUAGE/refused has that of what
`.ci/wrong_edits` says.
"""

import hashlib
import re
from pathlib import Path

OWN, BELOW = ("src", "specs", "proofs"), ("src", "specs")
SCRIPTS = "wrong_bodies", "wrong_body.py", "refused.py"


class Record:
    """The lines of one file `refused`, and the digest that an edit beside it would have now."""

    def __init__(self, file, stands_on=b""):
        self.file = file
        known = self.file.read_text().splitlines() if self.file.is_file() else []
        self.known = dict(it.split() for it in known)
        self.stands_on = hashlib.sha256(stands_on)

    def add(self, folder, name, files):
        """These files of a folder, which goes by this name, are stood on too."""
        for file in sorted(files):
            self.stands_on.update(f"\n{name}/{file.relative_to(folder)}\n".encode())
            self.stands_on.update(file.read_bytes())

    def digest(self, body):
        whole = self.stands_on.copy()
        whole.update(body.text.encode())
        return whole.hexdigest()[:32]

    def has(self, body):
        """Whether it was refused, and nothing that this stands on has changed."""
        return self.known.get(body.name) == self.digest(body)

    def keep(self, tried):
        """Writes a line for each of these bodies that was refused, and drops those of bodies that weren't or are gone."""
        if not tried:
            return
        for body, was_refused in tried.items():
            self.known.pop(body.name, None)
            if was_refused:
                self.known[body.name] = self.digest(body)
        names = sorted(it for it in self.known if self.file.with_name(f"{it}.edit").is_file())
        self.file.write_text("".join(f"{it} {self.known[it]}\n" for it in names))


class Refused(Record):
    """The record of one crate."""

    def __init__(self, top, lines, crate, version):
        super().__init__(top / "crates" / crate / "wrong" / "refused")
        self.crate, self.version = crate, version
        self.stand_on(top, lines)

    def stand_on(self, top, lines):
        """Takes the digests of the sources in this folder: the checkout, or the copy that bodies are tried on."""
        logic = re.sub(r".*\b(logic \w+).*", r"\1", self.version, flags=re.S)
        scripts = (Path(__file__).with_name(it).read_bytes() for it in SCRIPTS)
        self.stands_on = hashlib.sha256(b"\n".join([logic.encode(), *scripts]))
        for name, line in lines.items():
            self.stands_on.update(line.encode())
            for part in OWN if name == self.crate else BELOW:
                folder = top / "crates" / name / part
                self.add(folder, f"{name}/{part}", (it for it in folder.rglob("*") if it.is_file()))
