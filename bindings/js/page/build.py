#!/usr/bin/env python3
"""Makes one file of the page: its sources, the package for JavaScript and the module are put into the HTML.

usage: build.py OUT.html"""

import base64
import gzip
import hashlib
import re
import sys
from pathlib import Path

HERE = Path(__file__).resolve().parent
PACKAGE = HERE.parent
TABLES = HERE.parent.parent / "python/src/rtp_wire/tables.json"
MOST = 250_000
IMPORT = re.compile(r"^import (?:\* as (\w+)|\{([^}]*)\}) from '([^']+)';\n", re.M)
FROM = re.compile(r"^export \{([^}]*)\} from '([^']+)';\n", re.M)
EXPORT = re.compile(r"^export (?=(?:async )?(?:function\*?|class|const|let) )", re.M)
DECLARED = re.compile(r"^export (?:async )?(?:function\*?|class|const|let) (\w+)", re.M)
TOP_LEVEL = re.compile(r"^(?:export )?(?:async )?(?:function\*?|class|const|let) (\w+)", re.M)
COMMENT = re.compile(r"^[ \t]*(?://[^\n]*|/\*\*.*?\*/)\n", re.M | re.S)


def names_of(listed):
    """The pairs of a list of imports or exports: the name there, and the name here."""
    words = (it.split() for it in listed.split(",") if it.strip())
    return [(it[0], it[-1]) for it in words]


def package_text():
    """The package as one value. Its modules have no two names alike, so they stand in one scope."""
    index = (PACKAGE / "rtp_wire.mjs").read_text("utf-8")
    order, told = [], []

    def add(file):
        if file in order:
            return
        text = file.read_text("utf-8")
        for _, _, place in IMPORT.findall(text):
            add((file.parent / place).resolve())
        order.append(file)

    renamed = {}
    for listed, place in FROM.findall(index):
        add((PACKAGE / place).resolve())
        told += [here if there == here else f"{here}: {there}" for there, here in names_of(listed)]
    for file in order:
        for _, listed, _ in IMPORT.findall(file.read_text("utf-8")):
            renamed.update({here: there for there, here in names_of(listed) if here != there})
    names = [name for it in order for name in TOP_LEVEL.findall(it.read_text("utf-8"))]
    alike = sorted({it for it in names if names.count(it) > 1})
    if alike:
        sys.exit(f"build.py: two modules of the package have the names {', '.join(alike)}")
    text = "".join(EXPORT.sub("", IMPORT.sub("", it.read_text("utf-8"))) for it in order)
    text = text.replace("import.meta.url", "undefined")  # the page gives the bytes of the module, and has no file beside it
    aliases = "".join(f"const {here} = {there};\n" for here, there in renamed.items())
    return f"(() => {{\n{text}{aliases}return {{{', '.join(told)}}};\n}})()"


def script(main):
    """A module of the page with all that it imports, each in a scope of its own, as a script."""
    made, done = [], {}

    def add(file):
        if file in done:
            return done[file]
        name = done[file] = f"${file.stem}"
        if file == PACKAGE / "rtp_wire.mjs":
            made.append(f"const {name} = {package_text()};\n")
            return name
        text = file.read_text("utf-8")
        imports = []
        for whole, listed, place in IMPORT.findall(text):
            of = add((file.parent / place).resolve())
            pairs = ", ".join(here if there == here else f"{there}: {here}" for there, here in names_of(listed))
            imports.append(f"const {whole} = {of};\n" if whole else f"const {{{pairs}}} = {of};\n")
        told = DECLARED.findall(text) + constants_of(text)
        body = EXPORT.sub("", IMPORT.sub("", text))
        made.append(f"const {name} = (() => {{\n{''.join(imports)}{body}return {{{', '.join(dict.fromkeys(told))}}};\n}})();\n")
        return name

    add(HERE / main)
    return "'use strict';\n" + COMMENT.sub("", "".join(made))


def constants_of(text):
    """The names of a line that exports several constants."""
    lines = re.findall(r"^export const ([^;\n]*);$", text, re.M)
    return [it for line in lines for it in re.findall(r"(?:^|, )(\w+) = ", line)]


def safe(text):
    """What may stand in an element of a script."""
    if "</script" in text.lower() or "<!--" in text:
        sys.exit("build: the text would end its element")
    return text


def packed(data):
    """Bytes as a text that the page unpacks."""
    return base64.b64encode(gzip.compress(data, mtime=0)).decode()


def hash_of(text):
    return f"'sha256-{base64.b64encode(hashlib.sha256(text.encode()).digest()).decode()}'"


def main(out):
    style, page = (HERE / "page.css").read_text("utf-8"), safe(script("page.mjs"))
    # No connection, no other file, and no script but this one and the worker that it makes.
    policy = (
        f"default-src 'none'; script-src {hash_of(page)} 'wasm-unsafe-eval'; worker-src blob:; style-src {hash_of(style)};"
        " connect-src 'none'; form-action 'none'; base-uri 'none'"
    )
    parts = {
        "POLICY": policy,
        "STYLE": style,
        "MODULE": packed((PACKAGE / "rtp_wire.wasm").read_bytes()),
        "TABLES": safe(TABLES.read_text("utf-8")),
        "WORKER": packed(script("worker.mjs").encode()),
        "PAGE": page,
    }
    html = (HERE / "page.html").read_text("utf-8")
    html = re.sub(r"/\*([A-Z]+)\*/", lambda it: parts[it[1]], html)
    size = len(html.encode())
    if size > MOST:
        sys.exit(f"build: the page has {size} bytes, and not at most {MOST}")
    Path(out).write_text(html, "utf-8")
    print(f"{out}: {size} bytes")


if __name__ == "__main__":
    if len(sys.argv) != 2:
        sys.exit(__doc__)
    main(sys.argv[1])
