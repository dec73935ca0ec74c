"""Whether a compiler makes the same of two modules: then they give the same answers, whatever they are asked.

The one function that differs is written as C by wasm2c (wabt) and compiled by clang with what is known of the module: that
it never traps, as is proved; that an address is below 4 GiB, as each is in a memory of 32 bits; and that what a function has
below the stack pointer is worth nothing once it has returned, for which it is overwritten there.
"""

import re
import subprocess
import tempfile
from pathlib import Path

SECONDS = 300
DEFINED = re.compile(r"^static (?:void|u32|u64) (w2c_\w+)\(Z_m_instance_t\* instance.*?^}\n", re.M | re.S)
DECLARED = re.compile(r"^static (?:void|u32|u64) w2c_\w+\(Z_m_instance_t\*[^;{]*;$", re.M)
FRAME = re.compile(r"w2c_j0 = instance->w2c_g0;\n *w2c_j1 = (\d+)ull;\n *w2c_j0 ([+-])= w2c_j1;")
WRAPPED = re.compile(r" *(w2c_i\d+) = \(u32\)\(w2c_j\d+\);")
KEPT = r" *(w2c_[lp]\d+) = {};"
ACCESS = r"_(load|store)\w*\(&instance->w2c_memory, \(u64\)\({}\)"
MOST_LINES = 60  # between a value and its use
LOADS = {
    "i32": "load u32 u32, load8_s s8 s32, load8_u u8 u32, load16_s s16 s32, load16_u u16 u32",
    "i64": "load u64 u64, load8_s s8 s64, load8_u u8 u64, load16_s s16 s64, load16_u u16 u64, load32_s s32 s64, "
    "load32_u u32 u64",
}
STORES = {"i32": "store u32, store8 u8, store16 u16", "i64": "store u64, store8 u8, store16 u16, store32 u32"}
HEAD = """\
#include <stdint.h>
#include <string.h>
typedef uint8_t u8; typedef uint16_t u16; typedef uint32_t u32; typedef uint64_t u64;
typedef int8_t s8; typedef int16_t s16; typedef int32_t s32; typedef int64_t s64;
extern u8 memory[]; extern u64 g0;
#define UNLIKELY(x) (x)
#define LIKELY(x) (x)
#define TRAP(x) (__builtin_unreachable(), 0)
#define UNREACHABLE __builtin_unreachable()
#define FUNC_PROLOGUE
#define FUNC_EPILOGUE
#define ADDRESS(x) ({ if ((x) >> 32) __builtin_unreachable(); (u32)(x); })
#define DIV_U(x, y) ((x) / (y))
#define REM_U(x, y) ((x) % (y))
#define I32_CLZ(x) ((x) ? __builtin_clz(x) : 32)
#define I64_CLZ(x) ((x) ? __builtin_clzll(x) : 64)
#define I32_CTZ(x) ((x) ? __builtin_ctz(x) : 32)
#define I64_CTZ(x) ((x) ? __builtin_ctzll(x) : 64)
#define I32_POPCNT(x) __builtin_popcount(x)
#define I64_POPCNT(x) __builtin_popcountll(x)
#define I32_ROTL(x, y) ((x) << ((y) & 31) | (x) >> (-(y) & 31))
#define I32_ROTR(x, y) ((x) >> ((y) & 31) | (x) << (-(y) & 31))
#define I64_ROTL(x, y) ((x) << ((y) & 63) | (x) >> (-(y) & 63))
#define I64_ROTR(x, y) ((x) >> ((y) & 63) | (x) << (-(y) & 63))
static inline void memory_fill(u32 to, u32 byte, u32 len) { memset(memory + to, byte, len); }
static inline void memory_copy(u32 to, u32 from, u32 len) { memmove(memory + to, memory + from, len); }
"""


def head():
    """What a function as wasm2c writes it stands on."""
    yield HEAD
    for kind in ("i32", "i64"):
        whole = kind.replace("i", "u")
        for name, read, wide in map(str.split, LOADS[kind].split(",")):
            yield f"static inline {whole} {kind}_{name}(u64 at) {{ {read} it; memcpy(&it, memory + at, sizeof it);"
            yield f"return ({whole})({wide})it; }}"
        for name, kept in map(str.split, STORES[kind].split(",")):
            yield f"static inline void {kind}_{name}(u64 at, {whole} given) {{ {kept} it = ({kept})given;"
            yield "memcpy(memory + at, &it, sizeof it); }"


def functions(wasm):
    """The functions of a module as C by their names, and how they are declared."""
    with tempfile.TemporaryDirectory(prefix="same-") as folder:
        made = Path(folder) / "module.c"
        subprocess.run(["wasm2c", wasm, "-o", made, "--module-name", "m"], check=True)
        text = made.read_text()
    return {it[1]: it[0] for it in DEFINED.finditer(text)}, DECLARED.findall(text)


def is_address(lines, at, slot):
    """Whether what is put there is next used as an address, as it is or by a local that is nothing else."""
    for line in lines[at + 1 : at + MOST_LINES]:
        if kept := re.fullmatch(KEPT.format(slot), line):
            return is_address_of(lines, kept[1])
        if re.search(rf"\b{slot}\b", line):
            return re.search(ACCESS.format(slot), line) is not None
    return False


def is_address_of(lines, local):
    """Whether each use of a local is one of an address."""
    uses = []
    for at, line in enumerate(lines):
        if used := re.fullmatch(rf" *(w2c_i\d+) = {local};", line):
            after = (it for it in lines[at + 1 : at + MOST_LINES] if not re.fullmatch(KEPT.format(used[1]), it))
            use = next((it for it in after if re.search(rf"\b{used[1]}\b", it)), "")
            uses.append(re.search(ACCESS.format(used[1]), use) is not None)
    return bool(uses) and all(uses)


def plain(text):
    """The same without the parameter that tells of which module it is."""
    text = re.sub(r"(&instance->w2c_memory, )+", "", text).replace("instance->w2c_g0", "g0")
    return re.sub(r"\(instance(, )?", "(", re.sub(r"Z_m_instance_t\*( instance)?(, )?", "", text))


def source(name, text, declared):
    """C of one function, which ends with its frame overwritten."""
    lines, frame = text.split("\n"), FRAME.search(text)
    for at, line in enumerate(lines):
        if (it := WRAPPED.fullmatch(line)) and is_address(lines, at, it[1]):
            lines[at] = line.replace("(u32)", "ADDRESS")
    size = 0 if frame is None else int(frame[1]) if frame[2] == "-" else 2**64 - int(frame[1])
    first, body = plain("\n".join(lines)).split(" {\n", 1)
    kind, taken = first.split()[1], " ".join(first[first.index("(") + 1 : -1].split())
    passed = ", ".join(it.split()[-1] for it in taken.split(",") if it)
    others = [plain(it).replace("static", "extern").replace("()", "(void)") for it in declared if f" {name}(" not in it]
    clear = f"memset(memory + stack - {size}, 0, {size});" if 0 < size < 65536 else ""
    result = ("", "") if kind == "void" else (f"{kind} result = ", "return result;")
    return "\n".join([*head(), *others, f"static inline __attribute__((always_inline)) {kind} inner({taken}) {{\n{body}",
                      f"{kind} {name}({taken}) {{ u64 stack = g0; {result[0]}inner({passed}); {clear} {result[1]} }}\n"])


def assembly(text):
    words = ["clang-22", "-O2", "-S", "-w", "-fno-asynchronous-unwind-tables", "-x", "c", "-", "-o", "-"]
    return subprocess.run(words, input=text, capture_output=True, text=True, check=True, timeout=SECONDS).stdout


def are_same(one, other):
    """Whether the compiler makes the same of each function of two modules; false where it takes too long to tell."""
    (left, declared), (right, _) = functions(one), functions(other)
    try:
        return left.keys() == right.keys() and all(
            assembly(source(it, left[it], declared)) == assembly(source(it, right[it], declared))
            for it in left if left[it] != right[it])
    except subprocess.TimeoutExpired:
        return False
