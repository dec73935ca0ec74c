#!/usr/bin/env python3
"""Changes constants of the module, one in each copy, and counts how many of these the tests see: those of the library for
C, as beside.sh compiled them, with the digest of all that the calls with random bytes give back, which is to stay what it is,
and those of the package.

usage: mutants.py RTP_WIRE.wasm FOLDER_OF_BESIDE [COUNT [ROUNDS [SEED]]]

Each changed constant is one greater. Not counted is one with which the module is no module any more, or that changes no
answer: a compiler makes the same of it as without it (same.py), or equal.txt says why, by reading. Others are drawn in their
place. What isn't seen is told with the function that it stands in. It takes wasm-objdump and wasm2c (wabt), wasm-opt
(binaryen) and clang-22.

Constants are taken of the module without its traps, which is left in the folder as `without_traps`. The compiler asks before
each access whether addresses wrap around or overlap, and where they do branches to `unreachable`; that this is never taken is
part of what is proved, so what decides over it and over nothing else changes no answer, whatever it is. In front of a copy it
asks whether the bytes lie a little behind the beginning of where they go, and then copies them one by one; that they don't is
what rtp_wire.h asks of each caller, and what the borrows of the proved code say where one part of it calls another. So each
such branch is left out, and binaryen then leaves out what is computed for it alone. That the module gives back the same without
them is compared first.
"""

import hashlib
import random
import re
import shutil
import subprocess
import sys
import tempfile
from concurrent.futures import ThreadPoolExecutor
from pathlib import Path

sys.dont_write_bytecode = True
from same import are_same

HERE = Path(__file__).resolve().parent
PACKAGE = HERE.parent
LINE = re.compile(r"^ ([0-9a-f]+): ((?:[0-9a-f]{2} )+) *\| +(\S+) ?(.*)$")
FUNCTION = re.compile(r"^[0-9a-f]+ func\[(\d+)\](.*):$")
FEATURES = "bulk-memory sign-ext mutable-globals nontrapping-float-to-int multivalue".split()
DROP, NOP, UNREACHABLE = 0x1A, 0x01, 0x00
SECONDS = 200


def functions(wasm):
    """The instructions of each function: where each stands, its bytes, its name and its operand."""
    listed = subprocess.run(["wasm-objdump", "-d", wasm], capture_output=True, text=True, check=True).stdout
    name, found = "", []
    for line in listed.splitlines():
        if named := FUNCTION.match(line):
            if found:
                yield name, found
            name, found = f"func[{named[1]}]{named[2]}", []
        elif it := LINE.match(line):
            found.append((int(it[1], 16), bytes.fromhex(it[2]), it[3], it[4]))
    yield name, found


def traps(instructions):
    """Where the branches stand that are taken to `unreachable` alone."""
    opened, ends, branches = [], {}, []
    for i, (_, _, name, operand) in enumerate(instructions):
        if name in ("block", "loop", "if"):
            opened.append((i, name))
        elif name == "end" and opened:
            ends[opened.pop()[0]] = i
        elif name == "br_if" and int(operand) < len(opened):
            branches.append((i, *opened[-1 - int(operand)]))
    for i, block, name in branches:
        after = ends[block]
        while after < len(instructions) and instructions[after][2] == "end":
            after += 1
        if name != "loop" and after < len(instructions) and instructions[after][2] == "unreachable":
            yield instructions[i]


def overlaps(instructions):
    """The first instructions of copies byte by byte, behind which memory.copy stands, for bytes of which more are copied than
    lie between."""
    opened = []
    for i, (_, _, name, _) in enumerate(instructions):
        if name in ("block", "loop", "if"):
            opened.append((i, name))
        elif name == "end" and opened:
            begin, kind = opened.pop()
            before = [it[2] for it in instructions[max(begin - 2, 0) : begin]]
            after = [it[2] for it in instructions[i + 1 : i + 12]]
            if kind == "if" and before == ["i64.sub", "i64.gt_u"] and "memory.copy" in after:
                yield instructions[begin + 1]


def without_traps(wasm, made):
    """Writes the module without such branches; how many there were."""
    data, count = bytearray(Path(wasm).read_bytes()), 0
    for _, instructions in functions(wasm):
        for at, encoded, _, _ in traps(instructions):
            data[at : at + len(encoded)] = bytes([DROP, *[NOP] * (len(encoded) - 1)])
            count += 1
        for at, encoded, _, _ in overlaps(instructions):
            data[at : at + len(encoded)] = bytes([UNREACHABLE, *[NOP] * (len(encoded) - 1)])
            count += 1
    Path(made).write_bytes(data)
    features = [f"--enable-{it}" for it in FEATURES]
    subprocess.run(["wasm-opt", *features, "--traps-never-happen", "--flatten", "-O3", "-O3", made, "-o", made], check=True)
    return count


def constants(wasm):
    """Where small constants of the code stand, with their functions."""
    for function, instructions in functions(wasm):
        for at, encoded, name, _ in instructions:
            if name in ("i32.const", "i64.const") and len(encoded) == 2 and encoded[1] < 63:
                yield at + 1, function


def said(wasm, tests, rounds):
    """What the tests of the library for C say over the module, where they pass, and what is said of a failure."""
    words = ["node", HERE / "beside.mjs", wasm, tests, "1", str(rounds)]
    done = subprocess.run(words, capture_output=True, text=True, timeout=SECONDS)
    return done.stdout if done.returncode == 0 else None, done.stderr


def judged(wasm):
    """The constants of this module of which equal.txt says that they change nothing."""
    first, *lines = (HERE / "equal.txt").read_text().splitlines()
    if first.split()[-1] != hashlib.sha256(Path(wasm).read_bytes()).hexdigest():
        return set()
    return {int(at, 16) for it in lines if it.startswith("0x") for at in it.split()}


def package_passes(wasm, room):
    """Whether the tests of the package pass over the module."""
    package = Path(room) / "bindings/js"
    shutil.copytree(PACKAGE, package, ignore=shutil.ignore_patterns("page", "bench"))
    for it in ("captures", "bindings/test"):
        (Path(room) / it).symlink_to(PACKAGE.parent.parent / it)
    shutil.copy(wasm, package / "rtp_wire.wasm")
    tests = ["node", "--test", *sorted((package / "test").glob("*.test.mjs"))]
    return subprocess.run(tests, capture_output=True, timeout=SECONDS).returncode == 0


class Tried:
    """Changed constants of a module without traps, and what the tests say of it as it is."""

    def __init__(self, wasm, tests, rounds, room):
        self.tests, self.room, self.bare = tests, room, Path(tests) / "without_traps"
        all_constants, branches = len(list(constants(wasm))), without_traps(wasm, self.bare)
        self.data, self.places, self.equal = self.bare.read_bytes(), list(constants(self.bare)), judged(self.bare)
        # What few rounds see needs no more of them.
        self.right = {it: said(self.bare, tests, it) for it in sorted({min(60, rounds), min(1000, rounds), rounds})}
        given, wrong = self.right[rounds]
        if given is None or given != said(wasm, tests, rounds)[0]:
            sys.exit(f"the module without its {branches} branches to traps gives back something else: {wrong}")
        left_out = all_constants - len(self.places)
        print(f"{branches} branches left out, and {left_out} of {all_constants} constants", flush=True)

    def became(self, place):
        """What became of the constant at a place, one greater."""
        changed = bytearray(self.data)
        changed[place[0]] += 1
        with tempfile.TemporaryDirectory(prefix="mutant-", dir=self.room) as folder:
            mutant = Path(folder) / "rtp_wire.wasm"
            mutant.write_bytes(changed)
            try:
                for rounds, (right, _) in self.right.items():
                    given, error = said(mutant, self.tests, rounds)
                    if "CompileError" in error:
                        return "no module"
                    if given != right:
                        return "seen"
                if are_same(self.bare, mutant):
                    return "the same"
                if not package_passes(mutant, folder):
                    return "seen by the package"
                return "judged equal" if place[0] in self.equal else "not seen"
            except subprocess.TimeoutExpired:
                return "seen"


def main():
    wasm, tests = sys.argv[1:3]
    count, rounds, seed = (int(it) for it in [*sys.argv[3:], *"40 4000 3".split()[len(sys.argv) - 3 :]])
    counted = dict.fromkeys(("seen", "seen by the package", "not seen", "the same", "judged equal", "no module"), 0)
    with tempfile.TemporaryDirectory(prefix="mutants-") as room:
        tried = Tried(wasm, tests, rounds, room)
        drawn = iter(random.Random(seed).sample(tried.places, len(tried.places)))
        with ThreadPoolExecutor(2) as pool:
            while (lacks := count - sum(counted[it] for it in list(counted)[:3])) > 0:
                chosen = [next(drawn) for _ in range(lacks)]
                for (at, function), became in zip(chosen, pool.map(tried.became, chosen)):
                    counted[became] += 1
                    if became not in ("seen", "no module"):
                        print(f"{became}: {at:#x} in {function}, {tried.data[at]} made {tried.data[at] + 1}", flush=True)
    print(f"{counted['seen']} of {count} changed constants seen by the tests for C, and {counted['seen by the package']} by the "
          f"package's alone, of {len(tried.places)} that there are; not counted were {counted['the same']} of which a compiler "
          f"makes the same, {counted['judged equal']} judged equal by reading, and {counted['no module']} that are no module")


main()
