#!/usr/bin/env python3
"""Writes a header file that stands in front of the programs of bindings/test: with it each call of the library adds to a digest
what the function gives back and writes, field by field, so that two systems can be compared. The program prints the digest
of all calls when it ends. Which parameters are written, and when, is what the marks of rtp_wire.h say.

usage: bindings/test/systems/digest.py > digest_calls.h
SPDX-License-Identifier: MIT OR Apache-2.0
Copyright (c) 2026 The rtp-wire developers (NOTICE)
"""

import sys
from pathlib import Path

sys.path.insert(0, str(Path(__file__).resolve().parent.parent.parent))
from described.header import read  # noqa: E402

HEAD = """\
#include "{header}"
#include <stdio.h>
#include <stdlib.h>
#include <string.h>
extern uint64_t digest_of_calls, count_of_calls;
static inline void digest_number(uint64_t number) {{
    digest_of_calls = (digest_of_calls ^ number) * 0x9E3779B97F4A7C15u;
    digest_of_calls ^= digest_of_calls >> 32;
}}
static inline void digest_bytes(const uint8_t *bytes, size_t count) {{
    for (size_t at = 0; at < count; at += 8) {{
        uint64_t word = 0;
        memcpy(&word, bytes + at, count - at < 8 ? count - at : 8);
        digest_number(word);
    }}
}}
#ifdef DIGEST_MAIN
uint64_t digest_of_calls = 14695981039346656037u, count_of_calls;
static void digest_print(void) {{
    printf("digest %016llx of %llu calls\\n", (unsigned long long)digest_of_calls, (unsigned long long)count_of_calls);
}}
__attribute__((constructor)) static void digest_at_the_end(void) {{
    atexit(digest_print);
}}
#endif
"""


def fields_of(api, struct, at):
    """The statements that add the fields of a struct."""
    for it in struct.fields:
        place = f"{at}.{it.name}"
        if it.count is None:
            yield from value_of(api, it.type, place)
        else:
            yield f"for (size_t i_{it.name} = 0; i_{it.name} < {it.count}; i_{it.name}++) {{"
            yield from value_of(api, it.type, f"{place}[i_{it.name}]")
            yield "}"


def value_of(api, kind, place):
    if kind in api.struct:
        yield from fields_of(api, api.struct[kind], place)
    else:
        yield f"digest_number((uint64_t){place});"


def call_of(api, function):
    """A function that calls this one, and adds to the digest."""
    parameters = ", ".join(f"{it.c} {it.name}" for it in function.parameters) or "void"
    call = f"{function.name}({', '.join(it.name for it in function.parameters)});"
    result = function.result
    yield f"static inline {result} digest_{function.name}({parameters}) {{"
    yield call if result == "void" else f"{result} result_ = {call}"
    yield "count_of_calls++;"
    if result != "void":
        yield "digest_number((uint64_t)result_);"
    for it in function.parameters:
        if it.mark not in ("out", "inout"):
            continue
        statuses = it.written_if or ("RTPW_OK",)
        is_always = result != "int32_t" or "RTPW_ANY_STATUS" in statuses
        is_written = "1" if is_always else " || ".join(f"result_ == {status}" for status in statuses)
        if it.type == "uint8_t" and it.count:
            yield f"if ({is_written}) digest_bytes({it.name}, {it.count});"
            continue
        yield f"if ({is_written}) for (size_t at_ = 0; at_ < (size_t)({it.count or 1}); at_++) {{"
        yield from value_of(api, it.type, f"{it.name}[at_]")
        yield "}"
    if result != "void":
        yield "return result_;"
    yield "}"
    yield f"#define {function.name}(...) digest_{function.name}(__VA_ARGS__)"


def main():
    api = read()
    header = Path(__file__).resolve().parent.parent.parent / "c/rtp_wire.h"
    print(HEAD.format(header=header))
    for function in api.functions:
        print("\n".join(call_of(api, function)))


main()
