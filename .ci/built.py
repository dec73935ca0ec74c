"""How the code of each language that isn't proved is copied, built and tested, for `.ci/wrong_edits`."""

import os
import re
import shutil
import subprocess
import sys
from functools import lru_cache
from pathlib import Path

TOP = Path(__file__).resolve().parent.parent
# What comes of the proved code, or of a build: nothing here is about it.
BUILT = re.compile(r"(^|/)(out|target|__pycache__|wrong)/")
MADE = re.compile(r"(rtp_wire\.h|calls\.go|layout\.mjs|\.wasm|\.s|\.S|\.so|\.prefix)$|" + BUILT.pattern)
COMMON = ("bindings/c/rtp_wire.h", "bindings/c/rtp_wire_sanitized.h", "bindings/test", "captures")
# What the examples are compared by.
BESIDE = ("captures", *(f"bindings/test/{it}" for it in ("examples.sh", "sanitized.sh", "sfu_*.c", "by_hand.*")))
TEXT = f"generated/rtp_wire-{os.uname().sysname}-{os.uname().machine}.s"
LIBRARY = (
    "import platform, rtp_wire_backend as it; from pathlib import Path; "
    "Path('../src/rtp_wire/librtp_wire.so').write_bytes(it.library(platform.machine()))"
)
# Compares the examples in `out` one by one, or the one that TEST names, which isn't there where the edit has no part in
# it.
EXAMPLES = (
    "all=$(find out -type f -printf '%d%P\\n' | sort | cut -c 2-); "
    "for it in ${TEST:-$all}; do [ -e out/$it ] || continue; rm -rf one; mkdir one; cp out/$it one; "
    "udp=$(dirname out/$it)/udp; [ ! -e $udp ] || cp $udp one; "
    "bindings/test/examples.sh one || { echo FAIL: $it; exit 1; }; done"
)
GO_TESTS = "go test -vet=off -gcflags='-N -l -dwarf=false' -ldflags='-s -w' -c -o ../../out/tests ."
# By language: what is needed of tools, what it is made of, the commands, in the copy, that build it and test it, and
# how the second one tells the name of a test that fails. Where TEST has such a name they are about that test alone, and
# the first one about several where it has those.
# What is built and tested is the library or, for an edit of an example, that, and in C what stands in front of the
# library, and the header file of C++17, too. An example in C is tested as it is, and then under sanitizers, by a name
# that begins with `sanitized/`. In Rust all tests are one program, and where the library builds and they don't they
# have failed, by the name of the file; those of its modules and of what documents it are run where it passes, and of an
# example its own where it prints what is due; in Python those of what makes the packages are run for an edit of that alone.
LANGUAGES = {
    "c": (
        ("cc", "c++", "clang"),
        (
            *("bindings/examples", "bindings/c/test/apart.c", "bindings/test/apart.sh", "generated/apart.c"),
            *("bindings/c/rtp_wire.hpp", "bindings/c/test/*.cpp", "bindings/test/refused.sh"),
            *("bindings/c/rtp_wire_sanitized.h", "bindings/c/test/sanitized*", "bindings/c/test/told.h", "bindings/test/told.sh"),
            *("bindings/c/rtp_wire.h", "bindings/test/abi*", "bindings/described"),
        ),
        "of=(bindings/c text.o \"${EDITED##*/}\"); "
        "if [[ $EDITED == generated/* ]]; then bindings/test/apart.sh out/apart; elif [[ $EDITED == *.hpp ]]; then "
        "mkdir -p out && for it in ${TEST:-wrapped wrapped_alike wrapped_peers refused}; do case $it in "
        "refused) printf '%s\\n' 'exec bindings/test/refused.sh c++ c++17' >out/refused && chmod +x out/refused ;; "
        "*) c++ -std=c++17 bindings/c/test/$it.cpp text.o -o out/$it ;; esac || exit; done; "
        "elif [[ $EDITED == *.sh || $EDITED == */described/* ]]; then mkdir -p out && "
        "printf '%s\\n' 'exec bindings/test/abi_tests.sh' >out/abi_tests && chmod +x out/abi_tests; "
        "elif [[ $EDITED == *_sanitized.h ]]; then for it in ${TEST:-address thread memory bytes fields}; do "
        "bindings/test/told.sh out text.o $it || exit; done; "
        "else for it in ${TEST:-/ sanitized/}; do case $it in "
        "sanitized/*) bindings/test/sanitized.sh out/sanitized \"${of[@]}\" \"${it#*/}\" ;; "
        "*) SANITIZERS= bindings/test/sanitized.sh out \"${of[@]}\" \"${it#/}\" ;; esac || exit; done; fi",
        "case $EDITED in generated/* | *.hpp | *_sanitized.h | *.sh | */described/*) for it in $(ls out); do [ ${TEST:-$it} != $it ] || "
        f"out/$it || {{ echo FAIL: $it; exit 1; }}; done ;; *) {EXAMPLES} ;; esac",
        r"^FAIL: ([\w/.]+)$",
    ),
    "go": (
        ("go",),
        ("bindings/go",),
        f"mkdir -p out && cd bindings/go && case $EDITED in */sfu/*) {GO_TESTS}/examples/sfu ;; "
        f"*/lines/*) go build -o ../../out/lines_go ./examples/lines ;; */rtp/*) {GO_TESTS}/rtp ;; *) {GO_TESTS} ;; esac",
        'if [ -e out/tests ]; then cd bindings/go && ../../out/tests -test.run "^${TEST:-.*}\\$"; '
        f"else {EXAMPLES}; fi",
        r"^(?:--- FAIL|FAIL): (\w+)",
    ),
    "js": (
        ("node",),
        ("bindings/js/rtp_wire.*", "bindings/js/src", "bindings/js/test", "bindings/js/examples"),
        "node --input-type=module -e \"import './bindings/js/rtp_wire.mjs'\"",
        "cd bindings/js && for it in ${TEST:-test/*.test.mjs}; do node --test-reporter=tap $it || exit; done",
        r"location: '[^']*/(test/\w+\.test\.mjs):",
    ),
    "page": (
        ("python3", "cc", "chromium", "node"),
        ("bindings/js", "bindings/python"),
        '[ -e bindings/python/src/rtp_wire/librtp_wire.so ] || (cd bindings/python/backend && '
        f'"$PYTHON" -c "{LIBRARY}") && mkdir -p out && "$PYTHON" bindings/js/page/build.py out/page.html',
        'export PAGE=$PWD/out/page.html && cd bindings/js/page/test && '
        '"$PYTHON" -m unittest ${TEST:-test_damaged test_page.Told test_page.Pictures test_page.Alone}',
        r"^(?:FAIL|ERROR): (\w+) \(([\w.]+)\)",
    ),
    "python": (
        ("python3", "cc"),
        ("bindings/python",),
        'cd bindings/python/backend && for it in ../src/*.c; do '
        f'[ $it -ot ../src/rtp_wire/librtp_wire.so ] || {{ "$PYTHON" -c "{LIBRARY}"; break; }}; done && '
        '"$PYTHON" -m compileall -q --invalidation-mode checked-hash .. && "$PYTHON" -c "import rtp_wire"',
        'cd bindings/python && if [ -n "$TEST" ]; then PYTHONPATH+=:$PWD/tests "$PYTHON" -m unittest "$TEST"; '
        "else of=[!b]*; [[ $EDITED != */backend/* ]] || of=build; "
        '"$PYTHON" -m unittest discover -f -s tests -p "test_$of.py"; fi',
        r"^(?:FAIL|ERROR): (\w+) \(([\w.]+)\)",
    ),
    "rust": (
        ("cargo",),
        ("bindings/rust",),
        "out=$PWD/out && mkdir -p $out && cd bindings/rust/rtp-wire && if [[ $EDITED == */examples/* ]]; then "
        "for it in ${TEST:-lines_rust sfu_rust receive_rust}; do cargo build --quiet --example ${it%_rust} && "
        "cp $CARGO_TARGET_DIR/debug/examples/${it%_rust} $out/$it || exit; done; "
        "else mkdir -p tests/all && for it in ${TEST:-tests/*.rs}; do it=${it#tests/} it=${it%%[.:]*}; "
        "[ ! -e tests/$it.rs ] || echo \"#[path = \\\"../$it.rs\\\"] mod $it;\"; done | sort -u >tests/all/main.rs && "
        "cargo build --quiet && it=$(cargo test --no-run --test all 2>&1 | tee $out/said | "
        "sed -n 's/^ *Executable .*(\\(.*\\))$/\\1/p') && ln -s ${it:-nowhere} $out/tests; fi",
        "if [[ -e out/said ]]; then cd bindings/rust/rtp-wire && cat ../../../out/said && "
        "../../../out/tests ${TEST:+--exact} $TEST && "
        "{ [[ -n $TEST ]] || { cargo test --quiet --lib && cargo test --quiet --doc; }; }; else "
        f"{EXAMPLES} && {{ [[ -n $TEST ]] || (cd bindings/rust/rtp-wire && cargo test --quiet --examples); }}; fi",
        r"^(?:FAIL: |---- )(\S+?)(?: stdout ----)?$|--> tests/all/../(\w+)\.rs:",
    ),
}
# What the tools are told: to ask no network, and to do one thing at a time.
SETTINGS = dict(it.split("=") for it in """PYTHONDONTWRITEBYTECODE=1 CARGO_NET_OFFLINE=true CARGO_BUILD_JOBS=1
CARGO_INCREMENTAL=1 RUST_BACKTRACE=0 GOPROXY=off GOTOOLCHAIN=local GOFLAGS= CGO_ENABLED=0""".split())
# A test that goes on for longer, by the clock of a machine that may be busy, has seen the edit.
SECONDS = 360


def files_in(places, left_out):
    """The files of these places: folders, or patterns of names; without those of this pattern."""
    for place in places:
        for file in (TOP / place).rglob("*") if (TOP / place).is_dir() else TOP.glob(place):
            if file.is_file() and not left_out.search(str(file.relative_to(TOP))):
                yield file


def files_of(language):
    """What the edits of a language stand on."""
    return files_in((*LANGUAGES[language][1], *BESIDE), MADE)


def copy_of(language, room):
    """Copies what the language is made of, without what was built."""
    for file in files_in((*LANGUAGES[language][1], *COMMON, "generated", "LICENSE-*", "NOTICE"), BUILT):
        to = room / file.relative_to(TOP)
        to.parent.mkdir(parents=True, exist_ok=True)
        shutil.copy2(file, to)


def prepare(language, room):
    """What makes the copy ready for its first build."""
    if language == "c":
        run(f"cc -c {TEXT} -o text.o", room)
    if language == "python":  # what says the version of the package, and what of it is compiled
        run('"$PYTHON" -m pip install -q --no-index --target site bindings/python', room)
        run('"$PYTHON" -m compileall -q --invalidation-mode checked-hash site', room)


@lru_cache(maxsize=None)
def python():
    """An interpreter that has numpy, by which the tests of what is made for that are run: this one, or Debian's, for which
    `.ci/install` gets it. Without one these tests are left out."""
    for it in (sys.executable, "/usr/bin/python3"):
        if shutil.which(it) and not subprocess.run([it, "-c", "import numpy, pip"], stderr=subprocess.DEVNULL).returncode:
            return it
    return sys.executable


def run(command, room, edited="", test=""):
    """Whether a command succeeds in the copy, where this file is edited and this test is run, and what it says."""
    environment = {
        **os.environ,
        **SETTINGS,
        "PYTHONPATH": f"{room}/bindings/python/src:{room}/site",
        "PYTHON": python(),
        "EDITED": edited,
        "TEST": test,
        "CARGO_TARGET_DIR": f"{room}/cargo",
        "GOCACHE": f"{TOP}/bindings/out/gocache",
        "GOTMPDIR": str(room),
    }
    how = {"stdin": subprocess.DEVNULL, "stdout": subprocess.PIPE, "stderr": subprocess.STDOUT, "errors": "replace"}
    begun = subprocess.Popen(["bash", "-c", command], cwd=room, env=environment, start_new_session=True, **how)
    try:
        said = begun.communicate(timeout=SECONDS)[0]
    except subprocess.TimeoutExpired:
        os.killpg(begun.pid, 9)
        return False, f"{begun.communicate()[0]}\nstill going after {SECONDS} seconds"
    return begun.returncode == 0, said


def part_of(edit):
    """Which of the programs of a language an edit is a part of."""
    examples = "/examples/lines/", "/examples/sfu/", "/examples/"
    others = "/go/rtp/", "generated/", ".hpp", "_sanitized.h", ".sh", "/described/"
    parts = ("/backend/",) if edit.language == "python" else (*examples, *others)
    return next((it for it in parts if it in edit.file), "")


def last_of(said):
    """The line that says best why a test failed."""
    lines = [it.strip() for it in said.splitlines() if it.strip()]
    words = r"Error|error\[|panicked|_test.go:|differ:|runtime error|examples.sh|apart.c:|wrapped\w*.cpp:"
    telling = [it for it in lines if re.search(words, it)]
    return (telling or lines or ["it said nothing"])[0]


def failed_in(language, said):
    """The name of the first test that failed, by which it is run alone; none where it isn't told."""
    found = re.search(LANGUAGES[language][4], said, re.M)
    if not found:
        return ""
    name, *of = filter(None, found.groups())  # in Python the class follows, which since 3.11 ends in the name
    return ".".join([*(it.removesuffix(f".{name}") for it in of), name])
