"""A wrong body, as a file NAME.edit says it: what it changes, and the functions whose verdict counts."""

import re
from pathlib import Path

TOP = Path(__file__).resolve().parent.parent
REFUSED = "refused"
FUNCTION = re.compile(r'( *)(?:pub(?:\(\w+\))? )?(?:const |unsafe |extern "C" )*fn (\w+)')
IMPL = re.compile(r"impl(?:<[^>]*>)? (?:(?:\w+::)*(\w+)(?:<(.*)>)? for )?(?:&(?:'\w+ )?)?(\w+)")


class Body:
    """A wrong body: its text, the functions whose verdict counts, and once it is read what it changes."""

    def __init__(self, file):
        self.text = file.read_text()
        self.words = [(it.partition(":")[0], it.partition(":")[2][1:]) for it in self.text.splitlines()]
        self.file, self.name, self.crate = file, file.stem, dict(self.words).get("crate", file.parent.parent.name)
        self.is_kept = file.parent.name == "wrong"
        self.wanted = dict(self.words).get("wanted", REFUSED)
        self.functions = [text for word, text in self.words if word == "fn"]

    def read(self, crate):
        """Finds what it changes in the sources of the crate in this folder, and the functions that this is in."""
        # By file and number the new lines, and the verdict where it can't be tried.
        self.changes, self.changed, self.problem, before, after = {}, set(), None, {}, {}
        for word, text in self.words:
            if word == "file":
                source, path = text, crate / text
                before.setdefault(source, path.read_text() if path.is_file() else "")
                after.setdefault(source, before[source])
            elif word == "old":
                old = text
            elif word == "new":
                if after[source].count(old) != 1:
                    self.problem = "its text is not there once", f"{after[source].count(old)} times in {source}: {old}"
                after[source] = after[source].replace(old, text)
        for source in before:
            lines = before[source].split("\n")
            for at, (line, new) in enumerate(zip(lines, after[source].split("\n"))):
                if line != new:
                    self.changes[source, at] = new
                    self.changed.add(function_around(source, lines, at))
        self.alone = None in self.changed or len(self.changed) > 1 or len(self.functions) > 1
        if not self.functions:
            places = [f"`fn: {it}`" for it in self.changed if it] or ["the name of what it breaks"]
            self.problem = "no line `fn:`", f"{self.file.relative_to(TOP)} may need {', '.join(sorted(places))}"

    def fits(self, other):
        """Whether both can be applied together, and each then has a verdict of its own."""
        of_one = set(self.functions) & set(other.functions) or self.changed & other.changed
        return not (self.alone or other.alone or of_one or self.changes.keys() & other.changes.keys())


def function_around(source, lines, at):
    """The end of the name of the function that this line is in, or None."""
    for start in range(at, -1, -1):
        found = FUNCTION.match(lines[start])
        if found:
            last = next((it for it in range(start, len(lines)) if lines[it] == found[1] + "}"), start)
            return f"{owner(source, lines, start)}::{found[2]}" if at <= last else None
    return None


def owner(source, lines, start):
    """The type that the function at this line belongs to, with the trait that it implements, or its module."""
    for line in reversed(lines[:start] if lines[start].startswith(" ") else []):
        found = IMPL.match(line)
        if found:
            given = re.findall(r"\w+", (found[2] or "").replace("&", "ref "))
            return found[3] + (found[1] or "") + "".join(it[0].upper() + it[1:] for it in given)
    return re.sub(r"(/mod)?\.rt$", "", source).rpartition("/")[2]
