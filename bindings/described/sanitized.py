"""What is made of the description for sanitizers: what each call reads and writes, as its marks say, and where these
don't the rows of sanitized.h.in."""

import re
from textwrap import indent

from .header import SIZES, Api, Field, Function, Parameter, Struct, laid_out, template


def block(start: str, *done: str) -> str:
    line = f"{start} {{ {' '.join(done)} }}"
    return line if len(line) < 112 and "\n" not in line else indented(start + " {", *done, "}")


def indented(first: str, *lines: str) -> str:
    return "\n".join([first, indent("\n".join(lines[:-1]), "    "), lines[-1]])


def for_each(count: str, done: str) -> str:
    return block(f"for (size_t i = 0; i < {count}; i++)", done)


def side_by_side(fields, does: str):
    """What reads or writes these fields: those that lie side by side at once, since ThreadSanitizer keeps only some of the
    accesses to a word."""
    lines = []
    while fields:
        run = [it for i, it in enumerate(fields) if it.at == fields[0].at + sum(before.size for before in fields[:i])]
        size = sum(it.size for it in run) if run[1:] else f"sizeof it->{run[0].name}"
        others = f" /* up to {run[-1].name} */" if run[1:] else ""
        lines.append(f"rtpw_sanitizer_{does}(&it->{run[0].name}, {size});{others}")
        fields = fields[len(run):]
    return lines


def is_number(it: Field) -> bool:
    return it.is_plain and it.type != "char" and not it.counted and not it.part


def reader_of(it, without=()) -> str:
    return f"rtpw_sanitizer_{it}" + f"_but_{'_'.join(without)}" * bool(without)


def reads(it: Field) -> str:
    """What reads a field that is no plain number."""
    at, one = f"it->{it.name}", reader_of(it.short_type)
    if it.is_pointer:
        return f"rtpw_sanitizer_reads({at}, it->{it.counted});"
    least = f"rtpw_sanitizer_least(it->{it.counted}, {it.count})"
    if it.part:
        return f"rtpw_sanitizer_reads({at} + {it.part[0]}, {it.part[1]});"
    if it.type == "char":
        return f"rtpw_sanitizer_text({at}, sizeof {at});"
    if it.is_plain:
        return f"rtpw_sanitizer_reads({at}, sizeof *{at} * {least});"
    return for_each(least, f"{one}(&{at}[i]);") if it.counted else f"{one}(&{at});"


def reading(it: Struct, without=()) -> str:
    """What reads the fields of a struct that count: those side by side at once, flags before what they tell of, and
    counts before what they count."""
    def put(flag):
        fields = [f for f in it.fields if f.told == flag and not f.is_out and f.name not in without]
        flags = [f for f in fields if any(other.told == f.name for other in it.fields)]
        lines = side_by_side([f for f in fields if is_number(f)], "reads")
        lines += [reads(f) for f in fields if not is_number(f)]
        return lines + [block(f"if (it->{f.name})", *put(f.name)) for f in flags]

    start = f"static inline void {reader_of(it.short, without)}(const {it.name} *it) {{"
    return indented(start, "RTPW_SANITIZER_ROOM(it, sizeof *it);", *put(None), "}")


def writing(it: Struct) -> str:
    """What has been written of one of several structs: its status, and the fields that go by it."""
    fields = [f for f in it.fields if f.is_out]
    by_status = side_by_side([f for f in fields if not f.written_if], "wrote")
    lines = side_by_side([f for f in fields if f.written_if], "wrote")
    lines += [block("if (it->status == RTPW_OK)", *by_status)] if by_status else []
    return indented(f"static inline void rtpw_sanitizer_wrote_{it.short}(const {it.name} *it) {{", *lines, "}")


def room_of(p: Parameter) -> str:
    of_one = f"sizeof *{p.name}"
    return of_one if not p.count else p.count if SIZES.get(p.type) == 1 else f"{p.count} * {of_one}"


def place_of(p: Parameter) -> str:
    """Where the parameter is looked at, and how many bytes."""
    if not p.part:
        return f"{p.name}, {room_of(p)}"
    at = p.name if p.is_plain else f"({'const ' if p.is_const else ''}uint8_t *){p.name}"
    return f"{at if p.part[0] == '0' else f'{at} + {p.part[0]}'}, {p.part[1]}"


def packet_of(p: Parameter, at: str) -> str:
    return "\n".join(f"rtpw_sanitizer_packet_{part}({at});" for part in p.packet)


def looked_at(it: Function, p: Parameter) -> str:
    """What is read of a parameter."""
    of, one = f"{p.each}[i]", reader_of(p.short_type, p.without)
    if p.each and p.packet:
        is_there = f"rtpw_sanitizer_has_datagram({p.name}, {p.count}, {of}.at, {of}.len)"
        done = block(f"if ({is_there})", packet_of(p, f"{p.name} + {of}.at, {of}.len"))
    elif p.each and p.is_plain:
        done = f"rtpw_sanitizer_part({p.name}, {p.count}, {of}.data_at, {of}.data_len);"
    elif p.each:
        done = block(f"if ({of}.{p.name[:-1]} < {p.count})", f"{one}(&{p.name}[{of}.{p.name[:-1]}]);")
    elif p.packet:
        return packet_of(p, f"{p.name}, {p.count}")
    elif p.part or p.is_plain:
        return f"rtpw_sanitizer_reads({place_of(p)});"
    else:
        return for_each(p.count, f"{one}(&{p.name}[i]);") if p.count else f"{one}({p.name});"
    return for_each(it.named[p.each].count, done)


def tested(it: Function, p: Parameter):
    """What is tested of a parameter before the call, each with whether that goes by other parameters."""
    if p is it.grown:
        lines = ["rtpw_sanitizer_before before = rtpw_sanitizer_front(buf, size, len);"]
        lines += packet_of(p, "buf, before.len").splitlines() if p.packet != ("header_len",) else []
        return [(False, line) for line in lines]
    room = (False, f"RTPW_SANITIZER_ROOM({p.name}, {room_of(p)});")
    if p.mark == "out" or p.mark == "inout" and p.part and not (p.packet or p.read_if):
        return [room]
    done = looked_at(it, p)
    if p.read_if:
        return [room, (True, block(f"if ({p.read_if})", done))]
    tests_room = not p.each and (p.packet or not p.part and (p.is_plain or not p.count))
    return [room] * (not tests_room) + [(bool(p.each), done)]


def written(api: Api, it: Function, p: Parameter) -> str:
    """What has been written after it."""
    if p is it.grown:
        done = "rtpw_sanitizer_rebuilt(buf, len, before);"
    elif "block" in p.packet:
        done = f"rtpw_sanitizer_wrote_block({p.name}, {p.count});"
    elif p.each:
        one = f"rtpw_sanitizer_wrote(&{p.name}[{p.each}[i].{p.name[:-1]}], sizeof *{p.name});"
        done = for_each(it.named[p.each].count, block(f"if ({p.each}[i].status == RTPW_OK)", one))
    elif p.count and not p.is_plain and any(f.is_out for f in api.struct[p.type].fields):
        done = for_each(p.count, f"rtpw_sanitizer_wrote_{p.short_type}(&{p.name}[i]);")
    else:
        done = f"rtpw_sanitizer_wrote({f'{p.name}, *len' if it.fills(p) else place_of(p)});"
    return where(it, done, p.written_if)


def where(it: Function, done: str, statuses=()) -> str:
    """What is done at these statuses, unless it asks for the status itself."""
    if not it.has_status or re.search(r"\bstatus\b", done.replace(".status", "")):
        return done
    return block(f"if ({' || '.join(f'status == {name}' for name in statuses or ['RTPW_OK'])})", done)


def call_of(api: Api, it: Function, rows) -> str:
    """The call, and what is done before and after it: what goes by others behind these, and last what rows say."""
    rows = [row for row in rows if it.short in row[0]]
    pointers = [p for p in it.pointers if not it.grown or p.name != "len"]
    left = [[p for p in pointers if not any(row[i] and p.name in row[1] for row in rows)] for i in (2, 3)]
    before = sorted((row for p in left[0] for row in tested(it, p)), key=lambda row: row[0])
    after = sorted((p for p in left[1] if not p.is_const), key=lambda p: (bool(p.count), bool(p.each)))
    lines = [text for _, text in before] + [row[2] for row in rows if row[2]]
    ends = [written(api, it, p) for p in after] + [where(it, row[3]) for row in rows if row[3]]
    given = ", ".join(f"{p.c}{'' if p.is_pointer else ' '}{p.name}".replace(" ", "~") for p in it.parameters)
    call = f"rtpw_{it.short}({', '.join(p.name for p in it.parameters)});"
    ends += ["rtpw_sanitizer_forget(before);"] if it.grown else []
    if it.result != "void":
        lines, call, ends = [f"{it.result} status;", *lines], f"status = {call}", [*ends, "return status;"]
    checked = "RTPW_CHECKED " if it.has_status else ""
    start = laid_out(f"{checked}static inline {it.result} rtpw_sanitized_{it.short}({given})~{{", others=8)
    return indented(start, *lines, call, *ends, "}") + f"\n#define {it.name} rtpw_sanitized_{it.short}"


def rows_of(rules: str):
    """The rows: calls, parameters, what is done before these, and after them; "" is what the marks say."""
    for line in re.sub(r"^#.*\n|\n   (?= )", "", rules, flags=re.M).splitlines():
        calls, names, rest = line.split(";", 2)
        before, _, after = f"{rest} ".partition(" | ")
        yield calls.split(), names.split(), before.strip(), after.strip()


def structs_for(api: Api, wanted: str) -> str:
    """The functions that read and write structs, of those that are wanted, those within others before these."""
    made, partly = [], {(p.type, p.without) for it in api.all_functions for p in it.pointers if p.without}
    for it in reversed(api.all_structs):
        several = [reading(it, without) for name, without in partly if name == it.name]
        for text in (writing(it), *several, reading(it)):
            if re.search(r"rtpw_sanitizer_\w+\(", text)[0] in wanted:
                made.insert(0, text)
                wanted += text
    return "\n\n".join(made)


def files(api: Api):
    start, rules, end = re.split(r"@CALLS\n|@END\n", template("sanitized.h.in"))
    rows = list(rows_of(rules))
    calls = "\n".join(call_of(api, it, rows) for it in api.all_functions if it.pointers)
    text = start.replace("@STRUCTS@", structs_for(api, start + calls)) + calls + "\n" + end
    said = "/* Made by bindings/described/make of rtp_wire.h and bindings/described/sanitized.h.in. */\n"
    return {"bindings/c/rtp_wire_sanitized.h": said + text}
