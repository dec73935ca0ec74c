"""The wrong edits of what isn't proved, and how one is planted in a copy."""

from contextlib import contextmanager


class Edit:
    """A wrong edit, as a file says it."""

    def __init__(self, file, top):
        self.text, self.name, self.language = file.read_text(), file.stem, file.parent.name
        lines = self.text.splitlines()
        self.idea = lines[0].removeprefix("# the wrong idea: ") if lines else ""
        words = dict(it.partition(": ")[::2] for it in lines[1:])
        self.file, self.old, self.new = (words.get(it, "") for it in ("file", "old", "new"))
        text = (top / self.file).read_text() if (top / self.file).is_file() else ""
        found = text.count(self.old) if self.old else 0
        self.problem = None
        if not lines or lines[0] == self.idea:
            self.problem = "its first line doesn't say the wrong idea"
        elif found != 1:
            self.problem = f"its text stands {found} times in {self.file or 'no file'}"
        elif self.old == self.new:
            self.problem = "it changes nothing"


@contextmanager
def planted(edit, room):
    """The copy in `room` with this edit."""
    file = room / edit.file
    text = file.read_text()
    file.write_text(text.replace(edit.old, edit.new))
    try:
        yield
    finally:
        file.write_text(text)
