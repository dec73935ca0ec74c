"""Makes the wheels of the package rtp_wire for each system that there is one for, on any of them, of the texts in the
repository. It takes clang and lld: no headers and no library of another system, since of the C library three functions
are called, or four on macOS.

usage: python3 bindings/python/backend/rtp_wire_wheels.py FOLDER [SYSTEM..]        SYSTEM as in SYSTEMS
"""

import re
import shlex
import shutil
import subprocess
import sys
import tempfile
from pathlib import Path
from typing import Dict, List, NamedTuple, Tuple

import rtp_wire_backend as backend

# What src takes of the C library.
STRING_H = """\
#include <stddef.h>
void *memcpy(void *to, const void *from, size_t len);
void *memset(void *to, int byte, size_t len);
"""
# Windows has this C library in each of its versions. What is linked with is made of a DLL of its name.
MSVCRT = "LIBRARY msvcrt.dll\nEXPORTS\n    memcpy\n    memmove\n    memset\n"
MSVCRT_S = ".globl memcpy, memmove, memset\nmemcpy:\nmemmove:\nmemset:\n    ret\n"
LIB_SYSTEM = """\
--- !tapi-tbd
tbd-version: 4
targets: [ arm64-macos, x86_64-macos ]
install-name: '/usr/lib/libSystem.B.dylib'
exports:
  - targets: [ arm64-macos, x86_64-macos ]
    symbols: [ _bzero, ___bzero, _memcpy, _memmove, _memset, dyld_stub_binder ]
...
"""


class System(NamedTuple):
    """What the compiler calls a system, and the platforms of its wheel (PEP 425, 600, 656)."""

    target: str
    platforms: Tuple[str, ...]


def linux(machine: str) -> System:
    # The library names no C library and no version of a function, so one wheel is for glibc and for musl.
    platforms = ("manylinux_2_17", "manylinux2014", "musllinux_1_1")
    return System(f"{machine}-unknown-linux-gnu", tuple(f"{it}_{machine}" for it in platforms))


SYSTEMS = {
    "Linux-x86_64": linux("x86_64"),
    "Linux-aarch64": linux("aarch64"),
    "Darwin-arm64": System("arm64-apple-macosx11.0.0", ("macosx_11_0_arm64",)),
    "Darwin-x86_64": System("x86_64-apple-macosx11.0.0", ("macosx_11_0_x86_64",)),
    "Windows-x86_64": System("x86_64-pc-windows-msvc", ("win_amd64",)),
}


def run(*command: str) -> None:
    if shutil.which(command[0]) is None:
        raise SystemExit(f"rtp_wire: there is no {command[0]}: the wheels are made with clang and lld")
    if subprocess.run(command, check=False).returncode != 0:
        raise SystemExit(f"rtp_wire: this failed: {shlex.join(command)}")


def exported() -> List[str]:
    """The functions that the library shows: those of rtp_wire.h, and those of src that the package calls."""
    told = backend.texts()["rtp_wire.h"].read_text("utf-8")
    names = re.findall(r"^(?:RTPW_CHECKED )?[a-z]\w* \**(rtpw_\w+)\(", told, re.M)
    return [*names, "columns_parse", "columns_receive", "package_version"]


def objects(system: str, folder: Path) -> List[str]:
    """The text and src, compiled into a folder."""
    text = backend.REPOSITORY / f"generated/rtp_wire-{system}.s"
    if not text.is_file():
        raise SystemExit(f"rtp_wire: missing: {text.name}. The wheels are made in a clone of the repository.")
    (folder / "string.h").write_text(STRING_H, "utf-8")
    command = ["clang", f"--target={SYSTEMS[system].target}", "-c"]
    header = backend.texts()["rtp_wire.h"]
    words = ["-std=c99", "-O2", "-fno-stack-protector", "-nostdlibinc", f"-I{folder}", f"-I{header.parent}"]
    words += [f'-DPACKAGE_VERSION="{backend.version()}"']
    if not system.startswith("Windows-"):
        words.append("-fPIC")
    made = []
    for source in [*sorted(backend.HERE.glob("src/*.c")), text]:
        made.append(str(folder / f"{source.stem}.o"))
        run(*command, *(words if source.suffix == ".c" else []), str(source), "-o", made[-1])
    return made


def link_for_linux(made: List[str], folder: Path) -> str:
    names, to = folder / "names", str(folder / "librtp_wire.so")
    names.write_text(f"{{ global: {'; '.join(exported())}; local: *; }};", "utf-8")
    words = ["-z", "noexecstack", "-z", "relro", "-z", "now", "-soname", "librtp_wire.so", "--hash-style=both"]
    run("lld", "-flavor", "gnu", "-shared", "-s", *words, f"--version-script={names}", "-o", to, *made)
    return to


def link_for_macos(made: List[str], folder: Path, architecture: str) -> str:
    names, to = folder / "names", str(folder / "librtp_wire.dylib")
    names.write_text("".join(f"_{name}\n" for name in exported()), "utf-8")
    (folder / "libSystem.tbd").write_text(LIB_SYSTEM, "utf-8")
    words = ["-arch", architecture, "-platform_version", "macos", "11.0", "11.0", f"-L{folder}", "-lSystem"]
    words += ["-install_name", "@rpath/librtp_wire.dylib", "-exported_symbols_list", str(names)]
    run("lld", "-flavor", "darwin", "-dylib", *words, "-o", to, *made)
    return to


def link_for_windows(made: List[str], folder: Path) -> str:
    names = "LIBRARY rtp_wire.dll\nEXPORTS\n" + "".join(f"    {name}\n" for name in exported())
    stub = folder / "msvcrt.s"
    stub.write_text(MSVCRT_S, "utf-8")
    run("clang", f"--target={SYSTEMS['Windows-x86_64'].target}", "-c", str(stub), "-o", str(folder / "msvcrt.o"))
    for name, said, given in (
        ("msvcrt", MSVCRT, [str(folder / "msvcrt.o")]),
        ("rtp_wire", names, [*made, str(folder / "msvcrt.lib")]),
    ):
        definition = folder / f"{name}.def"
        definition.write_text(said, "utf-8")
        words = ["/machine:x64", "/Brepro", "/dll", "/noentry", "/nodefaultlib", f"/def:{definition}"]
        words += [f"/implib:{folder / name}.lib", f"/out:{folder / name}.dll"]
        run("lld", "-flavor", "link", *words, *given)
    return str(folder / "rtp_wire.dll")


def library(system: str) -> Tuple[str, bytes]:
    """The name of a system's shared library, and the library."""
    kind, _, architecture = system.partition("-")
    with tempfile.TemporaryDirectory() as name:
        folder = Path(name)
        made = objects(system, folder)
        if kind == "Darwin":
            to = link_for_macos(made, folder, architecture)
        else:
            to = link_for_windows(made, folder) if kind == "Windows" else link_for_linux(made, folder)
        return Path(to).name, Path(to).read_bytes()


def main(words: List[str]) -> None:
    if not words or not set(words[1:]) <= SYSTEMS.keys():
        raise SystemExit(f"usage: rtp_wire_wheels.py FOLDER [SYSTEM..]      SYSTEM: {', '.join(SYSTEMS)}")
    to = Path(words[0])
    to.mkdir(parents=True, exist_ok=True)
    for system in words[1:] or SYSTEMS:
        print(backend.pack_wheel(to, SYSTEMS[system].platforms, *library(system)))


if __name__ == "__main__":
    main(sys.argv[1:])
