"""The frames of the library on arm64, as Go finds its way through them.

Go takes the word at the stack pointer for the return address of a function that has a frame, while the compiler keeps that
elsewhere. So each frame gets 16 bytes more at its bottom, with the return address, which is there before the stack pointer
moves. What lies in the frame is that much further from the stack pointer, what lies in the one above it twice as far, and
arguments in the stack lie behind the 16 bytes of their caller. The stack pointer moves by instructions of their own, by which
Go knows how far the caller's frame is. Where a label has another frame than the instruction before it leaves, an
instruction that never runs is put between."""

import re

from linked import insist

BOTTOM = 16  # the return address, and what keeps the stack pointer at a multiple of 16
MOST_BELOW = 256  # so far below the stack pointer a store reaches
MOST_ABOVE = 255  # so far above it one does whose distance is no multiple of what it stores
FREE = "x16"  # what no caller keeps, for a frame that is larger
ENDS = re.compile(r"(ret|b|br|brk)$")
BRANCHES = re.compile(r"(b|b\.?(eq|ne|cs|cc|hs|lo|mi|pl|vs|vc|hi|ls|ge|lt|gt|le)|cbn?z|tbn?z)$")


class Line:
    """A line of a function: an instruction, or what has no words."""

    def __init__(self, text):
        self.text = text
        words = re.match(r"\t([a-z][a-z0-9.]*)(?:\s+(.*))?$", text)
        self.word, self.rest = words.groups("") if words else ("", "")
        self.label = text[:-1] if re.match(r"\S.*:$", text) else None
        self.frames = None  # the sizes of the frames that are there before it, the last one last

    @property
    def target(self):
        return self.rest.rpartition(",")[2].strip() if BRANCHES.match(self.word) else None

    def changes(self, register):
        """Whether the register may be another one after it."""
        names = [register, "w" + register[1:]]
        return self.word == "bl" or not self.word.startswith("st") and bool(set(self.rest.split("[")[0].split(",")) & set(names))

    def after(self):
        """The frames that are there after it."""
        move = re.match(r"(sub|add)\tsp,sp,#(\d+)$", self.text[1:])
        before, behind = re.search(r"\[sp,#-(\d+)\]!$", self.rest), re.search(r"\[sp\],#(\d+)$", self.rest)
        taken = move and move[1] == "sub" and int(move[2]) or before and int(before[1])
        given = move and move[1] == "add" and int(move[2]) or behind and int(behind[1])
        if taken:
            return self.frames + (taken,)
        if given:
            insist(self.frames and self.frames[-1] == given, "a frame that isn't given back whole:", self.text)
            return self.frames[:-1]
        insist(not re.match(r"sp,|.*\[sp.*\]!|.*\[sp\],", self.rest), "the stack moves:", self.text)
        return self.frames

    def moved(self, by):
        """How far what lies so far from the stack pointer is from it now."""
        ends = [0]
        for size in reversed(self.frames):
            ends.append(ends[-1] + size)
        return by + BOTTOM * sum(end <= by for end in ends)

    def anew(self):
        """The instructions in its place."""
        if not self.word or "sp" not in re.findall(r"[a-z0-9]+", self.rest):
            return [self.text]
        after = self.after()
        size = max(after, self.frames, key=len)[-1] + BOTTOM if after != self.frames else 0
        store, load = [f"\t{self.word}\t{self.rest[:at]}[sp,#{BOTTOM}]" if size else None for at in (self.rest.find("["),) * 2]
        if len(after) > len(self.frames):
            return [*kept(size), f"\tsub\tsp,sp,#{size}", *([store] if self.word != "sub" else [])]
        if size:
            return [*([load] if self.word != "add" else []), f"\tadd\tsp,sp,#{size}"]
        copy = re.match(r"(x\d+),sp$", self.rest)
        if copy:
            insist(self.word == "mov", "an instruction that isn't understood:", self.text)
            return [f"\tadd\t{copy[1]},sp,#{self.moved(0)}"]
        place = re.match(r"(x\d+,sp,#|.*\[sp(?:,#)?)(\d*)(\]?)$", self.rest)
        insist(place and (place[3] or self.word == "add"), "an instruction that isn't understood:", self.text)
        front, by = place[1] if place[1].endswith("#") else place[1] + ",#", self.moved(int(place[2] or 0))
        if re.match(r"(ld|st)ur", self.word) and by > MOST_ABOVE:
            return self.far(by)
        return [f"\t{self.word}\t{front}{by}{place[3]}"]

    def far(self, by):
        """A load or a store at a distance that it doesn't reach: by a register that is kept beside the return address."""
        insist(self.frames, "a distance that isn't reached, without a frame:", self.text)
        register = next(it for it in ("x16", "x17") if it[1:] not in re.findall(r"\d+", self.rest.split("[")[0]))
        there = f"\t{self.word}\t{self.rest.split('[')[0]}[{register}]"
        return [f"\tstr\t{register},[sp,#8]", f"\tadd\t{register},sp,#{by}", there, f"\tldr\t{register},[sp,#8]"]


def kept(size):
    """What puts the return address so far below the stack pointer."""
    if size <= MOST_BELOW:
        return [f"\tstur\tx30,[sp,#-{size}]"]
    return [f"\tsub\t{FREE},sp,#{size}", f"\tstr\tx30,[{FREE}]"]


def find_frames(lines):
    """Finds which frames are there before each instruction, from the first one on."""
    at = [i for i, line in enumerate(lines) if line.word]
    tables = []
    to_do = [(at[0], ())]
    while to_do:
        i, frames = to_do.pop()
        while i < len(lines) and lines[i].frames is None:
            line = lines[i]
            line.frames = frames
            if line.word:
                frames = line.after()
                if line.word == "br":
                    tables.append(frames)
                to = to_label(lines, i, line.target) if line.target else None
                if to is not None:
                    to_do.append((to, frames))
                elif line.target:
                    insist(not frames, "a jump out of a function that has a frame:", line.text)
                if ENDS.match(line.word):
                    break
            i += 1
        else:
            insist(i == len(lines) or lines[i].frames == frames, "two frames at one place:", lines[min(i, len(lines) - 1)].text)
        if not to_do and tables:
            # What a table alone leads to has the frames that the jump by it has.
            others = [i for i, line in enumerate(lines) if line.label and line.frames is None]
            insist(len(set(tables)) == 1 or not others, "jumps by tables with several frames")
            to_do += [(i, tables[0]) for i in others[:1]]


def to_label(lines, i, target):
    """The line of the label that a branch leads to, a number's next one or the last one before it; None in another function."""
    number = re.match(r"(\d+)([fb])$", target)
    places = range(i, -1, -1) if number and number[2] == "b" else range(i if number else 0, len(lines))
    found = next((k for k in places if lines[k].label == (number[1] if number else target)), None)
    insist(found is not None or not number, "a label that isn't there:", target)
    return found


def framed(function):
    """The lines of a function, with frames that Go reads."""
    lines = [Line(it) for it in function]
    find_frames(lines)
    out, tracked, ended = [], 0, None
    for i, line in enumerate(lines):
        insist(not line.word or line.frames is not None, "an instruction that nothing leads to:", line.text)
        if line.word:
            begins = len(line.after()) > len(line.frames)
            insist(line.frames or not line.changes("x30"), "a return address that is changed without a frame:", line.text)
            insist(not begins or not line.frames or in_a_row(lines[:i]), "a frame behind other code:", line.text)
            is_large = begins and line.after()[-1] + BOTTOM > MOST_BELOW
            insist(not is_large or not any(it.changes(FREE) for it in lines[:i]), f"a large frame behind what changes {FREE}:", line.text)
            size = sum(line.frames) + BOTTOM * len(line.frames)
            if size != tracked:
                insist(ended is not None, "other frames where the code goes on:", line.text)
                out[ended:ended] = never(size - tracked)
            out += line.anew()
            after = line.after()
            tracked, ended = sum(after) + BOTTOM * len(after), len(out) if ENDS.match(line.word) else None
        else:
            out.append(line.text)
    if tracked:
        insist(ended is not None, "a function that ends where its code goes on")
        out[ended:ended] = never(-tracked)
    return out


def in_a_row(lines):
    """Whether the last instructions before a frame, up to those that begin the one above it, store registers alone."""
    for line in reversed([it for it in lines if it.word]):
        if line.after() != line.frames:
            return True
        if not line.word.startswith("st") or line.label:
            return False
    return False


def never(by):
    """An instruction that never runs, which moves the stack pointer."""
    return [f"\t{'sub' if by > 0 else 'add'}\tsp,sp,#{abs(by)}"]


def with_frames(lines):
    """A text in which each function has frames that Go reads."""
    out, function = [], None
    for line in lines:
        if line.startswith("\t.cfi_startproc"):
            out.append(line)
            function = []
        elif line.startswith("\t.cfi_endproc"):
            out += framed(function) + [line]
            function = None
        elif function is None:
            out.append(line)
        elif not line.startswith("\t.cfi_"):
            function.append(line)
    return out
