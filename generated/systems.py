#!/usr/bin/env python3
"""The library for C, and the program, on other systems than that for which they were proved: what is changed in the LLVM
module that the kit's clang was given, and in the text that this clang makes of it; and what stands in front of that text. The
script generated/make calls it (generated/anew.sh).

usage: systems.py library TRIPLE LAYOUT HEADER IN_FRONT.. < module.ll > other.ll
       systems.py program TRIPLE LAYOUT < module.ll > other.ll
       systems.py text TRIPLE EXPORTS LABELS < made.s > plain.s
       systems.py refusal SYSTEM < plain.s > refusing.s

HEADER is bindings/c/rtp_wire.h, and IN_FRONT the functions in front of which generated/apart.c stands. EXPORTS is a regular
expression for the names that can be seen from outside, and what labels begin with is LABELS, so that they meet no others
where the text is part of a larger one. SYSTEM is as in generated/heads.sh.
SPDX-License-Identifier: MIT OR Apache-2.0
Copyright (c) 2026 The rtp-wire developers (NOTICE)
"""

import heapq
import re
import sys

PROVED_FOR = "x86_64-unknown-linux-gnu"

# How a result that is narrower than a register is made as wide as a caller takes it for granted: Apple's callers take 32
# bits, and those on RISC-V all 64, 32 bits with their sign also where they have none. The module has no such word.
NARROW = {"bool": "zeroext", "uint8_t": "zeroext", "uint16_t": "zeroext", "int8_t": "signext", "int16_t": "signext"}
WORDS = {"int32_t": "signext", "uint32_t": "signext"}
WIDE = ("void", "uint64_t", "int64_t", "size_t")


def give_up(why):
    sys.exit(f"systems.py: {why}")


def results(header):
    """What each function gives back, by its name."""
    with open(header, encoding="utf-8") as file:
        found = re.findall(r"^(?!static)(?:RTPW_CHECKED )?(\w+) (rtpw_\w+)\(", file.read(), re.M)
    return {name: kind for kind, name in found}


def extended(module, header, on_riscv):
    """The module whose functions for C give back whole registers."""
    kinds = results(header)
    words = {**NARROW, **(WORDS if on_riscv else {})}
    found = set()

    def head(match):
        returns, name = match[1], match[2]
        kind = kinds.get(name) or give_up(f"{name} isn't in {header}")
        found.add(name)
        if kind not in NARROW and kind not in WORDS and kind not in WIDE:
            give_up(f"{name} gives back {kind}, of which it isn't known how wide it has to be")
        word = words.get(kind, "")
        if word and word not in returns:
            before, _, last = returns.rstrip().rpartition(" ")
            returns = f"{before} {word} {last} "
        return f"define {returns}@{name}("

    module = re.sub(r"(?m)^define ((?!internal)[^\n@]*)@(rtpw_\w+)\(", head, module)
    if found != set(kinds):
        give_up(f"the module has no {', '.join(sorted(set(kinds) - found))}")
    return module


def apple_passes_words(header, names):
    """Apple packs what is narrow on the stack, where generated/apart.c, which passes words on, would read what lies beside it:
    so each argument behind the eighth, which lies there, has to be as wide as a word."""
    with open(header, encoding="utf-8") as file:
        text = re.sub(r"RTPW_[A-Z_]+(\([^()]*\))?", "", file.read())
    for name in names:
        arguments = re.search(rf"\brtpw_{name}\(([^()]*)\);", text)[1].split(",")
        for it in arguments[8:]:
            if "*" not in it and not re.search(r"\b(size_t|u?int64_t)\b", it):
                give_up(f"rtpw_{name}: {it.strip()} lies on the stack and is narrower than a word, as generated/apart.c has it")


def plainly_named(module):
    """The module with names of letters, digits, dots and lines alone: clang writes texts for Windows and RISC-V that no
    assembler reads where a name is of the form a::b. All begin with rtp_."""
    plain = {}

    def name(match):
        if match[1] not in plain:
            it = re.sub(r"\W+", ".", match[1]).strip(".")
            it = it if it.startswith("rtp_") else f"rtp_{it}"
            plain[match[1]] = it if it not in plain.values() else f"{it}.{len(plain)}"
        return "@" + plain[match[1]]

    return re.sub(r'@"([^"\n]+)"', name, module)


def module_for(module, triple, layout):
    """The module for another system. It loses the processor that is named in it, and on Windows what would be taken for the
    name of a function that probes the stack; there each function has an unwind table, for one without is taken to call none
    and to keep no register."""
    module = re.sub(r"(?m)^target datalayout = .*", f'target datalayout = "{layout}"', module)
    module = re.sub(r"(?m)^target triple = .*", f'target triple = "{triple}"', module)
    module = re.sub(r'"target-(cpu|features)"="[^"]*" ?', "", module)
    if not re.match("(x86_64|aarch64)-unknown-linux", triple):
        module = plainly_named(module)
    if "windows" in triple:
        module = re.sub(r'"(probe-stack|stack-probe-size)"="[^"]*" ?', "", module)
        module = re.sub(r"(?m)^(define [^\n]*\S) \{$", r"\1 uwtable {", module)
    return module


def library_for(module, triple, layout, header, *in_front):
    """The module of the library for C, for another system."""
    if "apple" in triple:
        apple_passes_words(header, in_front)
    return module_for(extended(module, header, triple.startswith("riscv64")), triple, layout)


def program_for(module, triple, layout):
    """The module of the program, for another system, on which it calls generated/system.c where it calls Linux' C library. What
    generated/heap.c gives back in two registers Windows' callers would look for in memory."""
    own = r"@(?:__)?(read|write|sysv_signal|x86_get_cpuid_feature_leaf)(?=\()"
    module = re.sub(own, r"@rtp_lines_\1", module)
    declared = r"(?m)^declare [^\n]*(@rtp_lines_write\()[^\n]*\n(?=(?:.*\n)*declare [^\n]*\1)"
    module = re.sub(declared, "", module)
    if "windows" in triple:
        module = re.sub(r"\b(declare|call) (?=\{ i64, i64 \} @rattle_)", r"\1 x86_64_sysvcc ", module)
    return module_for(module, triple, layout)


# What other assemblers don't know of a text, and isn't needed.
UNKNOWN = {
    "linux": r"\t\.(file|ident|cfi_sections|hidden|attribute)[\t ].*\n",
    "apple": r"\t?\.(file|ident|cfi_sections|private_extern|subsections_via_symbols|build_version)\b.*\n",
    "windows": r"\t\.(file|ident|cfi_sections)[\t ].*\n|\t\.seh_(start|end)epilogue\n"
    r"|\t\.def\t@feat\.00;\n(.*\n)*?\t\.endef\n\t\.globl\t@feat\.00\n@feat\.00 = .*\n",
}
# A label within functions and their tables, and any other that the assembler keeps to itself. On Linux objects have the names
# of constants that a linker may merge.
NUMBERED = {
    "linux": r"\.L(?:BB|JTI|pcrel_hi)\d+(?:_\d+)?\b",
    "apple": r"(?<![\w.\"$])L(?:BB|CPI|JTI)\d+_\d+\b",
    "windows": r"\.L(?:BB|CPI|JTI|tmp)\d+(?:_\d+)?\b",
}
LABEL = {
    "linux": r"(\.L)(?=[A-Za-z_])",
    "apple": r"(?<![\w.\"$])([Ll])(?=[A-Z][A-Za-z_]*\d|_|tmp\d|loh\d)",
    "windows": r"(\.L)(?=[A-Za-z_])",
}


def numbered(text, label):
    """The text in which these labels are numbers, as in assembly that is written by hand: `jmp 3f` goes to the next 3, and
    `jmp 3b` to the last one. Behind the last line that needs a number it is given to another label."""
    lines, span, at = text.split("\n"), {}, {}
    for where, line in enumerate(lines):
        for it in re.findall(label, line):
            span[it] = (span.get(it, (where,))[0], where)
            if line == f"{it}:":
                at[it] = where
    number, taken, free = {}, [], []
    for it in span:
        while taken and taken[0][0] < span[it][0]:
            heapq.heappush(free, heapq.heappop(taken)[1])
        number[it] = heapq.heappop(free) if free else len(taken) + 1
        heapq.heappush(taken, (span[it][1], number[it]))
    for where, line in enumerate(lines):
        way = {it: "f" if at[it] > where else "b" if at[it] < where else "" for it in re.findall(label, line)}
        lines[where] = re.sub(label, lambda it, way=way: f"{number[it[0]]}{way[it[0]]}", line)
    return "\n".join(lines)


def text_for(text, triple, exports, labels):
    """The code of a text: without the names of the compiler's files, with numbers for labels, or such as meet no others, with a
    comma alone between operands, and on Linux with call frame information where debuggers and profilers look for it."""
    system = next(it for it in UNKNOWN if it in triple)
    mark = "_" if system == "apple" else ""
    text = re.sub(f"(?m)^(?:{UNKNOWN[system]})", "", text)
    text = re.sub(rf"(?m)^\t\.globl\t(?!{mark}(?:{exports})$).*\n", "", text)
    text = re.sub(r'(?m)^(\t\.section\t\.(?:text|rdata)(?:\$[^,\n]*)?,"[a-z]+"),(?:one_only|associative|discard),.*', r"\1", text)
    if system == "windows":
        # There private data have no label, but a name.
        text = re.sub(r"(?<![\w.$])(static|switch\.table)\.(?=\w)", r"rtp_\1.", text)
    text = re.sub(r"(?m)^(\t\.def\trtp_proved_\w+;\n\t\.scl\t)2;", r"\g<1>3;", text)
    # The program is linked with what Windows' compilers bring for a stack of several pages, and the library with nothing.
    if re.search("inline-asm" if exports == "main" else "chkstk|inline-asm", text):
        give_up(f"{triple}: a stack of several pages, which is to be probed")
    text = re.sub(r"(?m)^\.Lfunc_end\d+:\n(\t\.size\t.*), \.Lfunc_end\d+-", r"\1, .-", text)
    text = re.sub(r"(?m)^\t[^\"\n]*$", lambda line: line[0].replace(", ", ","), numbered(text, NUMBERED[system]))
    return re.sub(
        rf"(?m)^(?!\t\.asci).*$", lambda line: re.sub(LABEL[system], rf"\g<1>{labels}", line[0]), text
    )


# An assembler has no name for what it assembles for. But GNU's has the symbol .gasversion., and a symbol .text where it writes
# ELF files, and there a nop has one byte on x86-64 alone: LLVM can't always tell its length. The section with the nop is put
# into no program. Behind the name of a macro # begins a comment on x86-64 and RISC-V, and on ARM what the macro is given.
ELF = """\
	.ifdef	.gasversion.
	.ifndef	.text
	{error}
	.endif
	.section	.rtp_system,"e",@progbits
.Lrtp_nop:
	nop
.Lrtp_nop_end:
	.if	.Lrtp_nop_end - .Lrtp_nop {nop}
	{error}
	.endif
	.endif
	.macro	rtp_given rest:vararg
	{hash}	\\rest
	{error}
	.endif
	.endm
	rtp_given # a comment
	.purgem	rtp_given
{known}	.section	.{named},"e",@progbits
"""
# No GNU assembler writes files for macOS, where for ARM a semicolon begins a comment, and elsewhere a statement.
MACH_O = """\
	.ifdef	.gasversion.
	{error}
	.endif
	.ifdef	.text
	{error}
	.endif
	.set	Lrtp_comment, 1 ; .set Lrtp_comment, 0
	.if	Lrtp_comment == {other}
	{error}
	.endif
"""
COFF = """\
	.ifdef	.gasversion.
	.ifdef	.text
	{error}
	.endif
	.endif
"""
# The form for each system, with its words. What is `known` to an assembler for one processor alone does nothing.
REFUSAL = {
    "Linux-x86_64": (ELF, {"hash": ".ifnb", "nop": "!= 1", "known": "\t.code64 # {said}\n"}),
    "Linux-aarch64": (ELF, {"hash": ".ifb", "nop": "== 1", "known": ""}),
    "Linux-riscv64": (ELF, {"hash": ".ifnb", "nop": "== 1", "known": "\t.option push # {said}\n\t.option pop\n"}),
    "Darwin-arm64": (MACH_O, {"other": 0}),
    "Darwin-x86_64": (MACH_O, {"other": 1}),
    "Windows-x86_64": (COFF, {}),
}


def refusal_of(text, system):
    """A text in front of which stands what an assembler for another system says. Where LLVM's can't be asked, it shows the first
    line that it doesn't know, which says it too."""
    form, words = REFUSAL[system]
    name, processor = system.split("-")
    said = f"this text is for {name} on {processor}"
    error = f'.error\t"{said}: the folder generated has those for other systems"\n\t.end'
    words = {word: it.format(said=said) if isinstance(it, str) else it for word, it in words.items()}
    if form is not ELF:
        text = text.replace("\n", f" {'#' if form is COFF else '//'} {said}\n", 1)
    return form.format(error=error, named=said.replace(" ", "_"), **words) + text


MAKE = {"library": library_for, "program": program_for, "text": text_for, "refusal": refusal_of}
sys.stdout.write(MAKE[sys.argv[1]](sys.stdin.read(), *sys.argv[2:]))
