"""The library as it is linked at address 0 for a package for Go: its bytes, its instructions, and the stack that each
function takes."""

import re
import struct
import subprocess
from collections import defaultdict, namedtuple

Section = namedtuple("Section", "name type flags addr offset size link info align entsize")
Instruction = namedtuple("Instruction", "at bytes words")
APART_AT, TABLE_AT, FRAMES_AT = 0x800000, 0x1000000, 0x2000000
# So many bytes of the stack Go lets functions take that don't ask for it, with those that they call.
MOST_UNASKED = 792


class Refused(Exception):
    """What the text has and Go's assembler text can't carry."""


def run(*words):
    return subprocess.run(words, check=True, stdout=subprocess.PIPE, text=True).stdout


def insist(it, *why):
    if not it:
        raise Refused(" ".join(str(word) for word in why))


class Linked:
    """What is linked of the objects for these functions, of which some, that no other calls, may lie apart."""

    def __init__(self, name, processor, objects, roots, folder, apart=()):
        self.name, self.processor, self.roots, self.apart, self.file = name, processor, roots, apart, folder / name
        script = folder / "script"
        script.write_text(
            f"SECTIONS {{ .apart {APART_AT} : {{ {' '.join(f'*(.text.{it})' for it in apart)} }}"
            ".code 0 : { *(.text .text.*) . = ALIGN(64); constants = .; *(.rodata .rodata.*) }" + processor.FILL + "\n"
            f".table {TABLE_AT} : {{ *(.data.rel.ro .data.rel.ro.*) }} .eh_frame {FRAMES_AT} : {{ KEEP(*(.eh_frame)) }} }}\n")
        run(processor.TOOLS + "ld", "-static", "-nostdlib", "--no-relax", "--emit-relocs", "--gc-sections", "-T", script, "-e", roots[0],
            *(f"--undefined={root}" for root in roots), *objects, "-o", self.file)
        self.read_elf()
        self.read_instructions()
        self.read_frames()
        self.read_calls()

    def read_elf(self):
        elf = self.file.read_bytes()
        begin, = struct.unpack_from("<Q", elf, 0x28)
        count, names = struct.unpack_from("<HH", elf, 0x3C)
        sections = [Section(*struct.unpack_from("<IIQQQQIIQQ", elf, begin + 64 * i)) for i in range(count)]
        string = lambda table, i: elf[table.offset + i : elf.index(b"\0", table.offset + i)].decode()
        named = {string(sections[names], it.name): it for it in sections}
        data = lambda it: elf[it.offset : it.offset + it.size] if it else b""
        rows = lambda it, form: list(struct.iter_unpack(form, data(it)))
        others = {name for name, it in named.items() if it.flags & 2 and it.size} - {".apart", ".code", ".table", ".eh_frame"}
        insist(not others, "sections beside the code and the constants:", *others)
        self.code, self.table = bytearray(data(named[".code"])), data(named.get(".table"))
        self.apart_code = bytearray(data(named.get(".apart")))
        symtab = named[".symtab"]
        symbols = [(string(sections[symtab.link], name), info & 15, value) for name, info, _, _, value, _ in rows(symtab, "<IBBHQQ")]
        insist(all(kind != 6 for _, kind, _ in symbols), "thread-local data")
        self.address = {name: value for name, _, value in symbols if name}
        self.functions = {value: name for name, kind, value in symbols if kind == 2}
        self.text_end = self.address["constants"]
        self.to_table, self.places = {}, {}
        for where, info, addend in rows(named[".rela.code"], "<QQq") + rows(named.get(".rela.apart"), "<QQq"):
            kind, value = info & 0xFFFFFFFF, symbols[info >> 32][2] + addend
            insist(kind not in self.processor.ABSOLUTE, "an address in the code at", where)
            if value >= TABLE_AT - 4:
                self.to_table[where] = value + self.processor.AFTER - TABLE_AT
            self.places[where] = kind, value

    def read_instructions(self):
        self.instructions = []
        self.read_section(".code", 0, f"--stop-address={self.text_end}")
        if self.apart:
            self.read_section(".apart", APART_AT)

    def read_section(self, name, place, *until):
        for line in run(self.processor.TOOLS + "objdump", "-d", "-w", "-z", "-j", name, *until, self.file).split("\n"):
            it = re.match(r"\s*([0-9a-f]+):\t([0-9a-f ]+?)\s*\t(.*)", line)
            if it:
                found = Instruction(int(it[1], 16), self.processor.bytes_of(it[2]), it[3].split("//")[0].strip())
                insist(found.at == place, "a gap before", found)
                insist(not self.processor.NEVER.search(found.words), "an instruction that isn't of plain code:", found.words)
                self.instructions.append(found)
                place += len(found.bytes)

    def read_frames(self):
        """What has been taken of the stack at each instruction, beside the return address."""
        frames, entry = {}, None
        for line in run(self.processor.TOOLS + "readelf", "-W", "--debug-dump=frames-interp", self.file).split("\n"):
            it = re.search(r"FDE .*pc=([0-9a-f]+)\.\.([0-9a-f]+)", line)
            if it:
                entry = int(it[1], 16), int(it[2], 16)
                if entry[0] in self.functions and (entry[1] <= self.text_end or entry[0] >= APART_AT):
                    frames[entry] = []
                else:
                    entry = None
            elif entry and re.match(r"[0-9a-f]{16} ", line):
                frames[entry].append((int(line.split()[0], 16), line.split()[1]))
            elif "CIE" in line:
                entry = None
        self.end = dict(frames.keys())
        without = set(self.functions) ^ set(self.end)
        insist(len(self.end) == len(frames) and not without, "functions without frame information:", *(self.functions.get(it) for it in without))
        self.function_of = {p: begin for begin, end in frames for p in range(begin, end)}
        self.taken = self.processor.taken(self, frames)

    def read_calls(self):
        self.calls, self.with_places = defaultdict(list), set()
        for it in self.instructions:
            begin = self.function_of.get(it.at)
            if "%rsp" in it.words:
                self.with_places.add(begin)
            to = None if begin is None else self.processor.target_of(it)
            if to is not None:
                is_call = self.processor.is_call(it)
                if is_call or self.function_of[to] != begin:
                    insist(self.function_of[to] == to, "a jump into another function:", it.words)
                    self.calls[begin].append((to, self.taken[it.at] + (self.processor.RETURN_ADDRESS if is_call else 0)))
        self.depths = {}
        for root in self.roots:
            self.depth(self.address[root], ())

    def depth(self, begin, above):
        """The most that a function takes with what it calls."""
        if begin not in self.depths:
            insist(begin not in above, "a function that calls itself:", self.functions[begin])
            calls = ((to, by) for to, by in self.calls[begin])
            self.depths[begin] = max([self.frame(begin) + self.processor.RED_ZONE, *(by + self.depth(to, above + (begin,)) for to, by in calls)])
        return self.depths[begin]

    def has_places(self, begin):
        """Whether a function, or one that it calls, has anything in the stack but registers that it saves."""
        return begin in self.with_places or any(self.has_places(to) for to, _ in self.calls[begin])

    def frame(self, begin):
        """The most that a function takes by itself."""
        return max(self.taken[p] for p in range(begin, self.end[begin]))

    def put(self, at, words):
        """Puts other bytes there."""
        code, base = (self.code, 0) if at < APART_AT else (self.apart_code, APART_AT)
        code[at - base : at - base + len(words)] = words

    def bytes_of(self, begin):
        """The bytes of a function that lies apart."""
        return self.apart_code[begin - APART_AT : self.end[begin] - APART_AT]

    def too_large(self):
        """The functions whose frame Go's linker doesn't take of one that doesn't ask for its stack."""
        found = [begin for begin in self.end if self.frame(begin) > MOST_UNASKED]
        called = {to for calls in self.calls.values() for to, _ in calls}
        insist(not called & set(found), "a large frame of a function that others call")
        return [self.functions[begin] for begin in found]
