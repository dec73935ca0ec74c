"""How a document that is made from the sources is laid out, printed and checked, for `.ci/contracts` and `.ci/definitions`."""

import difflib
import sys
import textwrap
from pathlib import Path

TOP = Path(__file__).resolve().parent.parent


def point(text):
    """A point of a list, in lines."""
    return textwrap.fill(f"- {text}", 106, subsequent_indent="  ", break_on_hyphens=False)


def finish(place, text, missing):
    """Ends with the document printed. With --check it ends with what differs in the one that stands there, and with what is
    missing elsewhere: the status is then 1."""
    if sys.argv[1:] != ["--check"]:
        sys.stdout.write(text)
        sys.exit()
    old = (TOP / place).read_text() if (TOP / place).exists() else ""
    sys.stderr.writelines(difflib.unified_diff(old.splitlines(True), text.splitlines(True), place, "the sources"))
    sys.stderr.writelines(f"{it} is missing\n" for it in missing)
    sys.exit(old != text or bool(missing))
