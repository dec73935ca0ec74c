"""The wheels for all systems. Expected values are worked out by hand from PEP 425, 427, 600 and 656, and the formats ELF,
PE and Mach-O."""

import email
import hashlib
import importlib.util
import re
import shutil
import subprocess
import sys
import tempfile
import unittest
import unittest.mock
import zipfile
from pathlib import Path
from typing import Any, Dict, List, Tuple

BACKEND = Path(__file__).resolve().parent.parent / "backend"
OWN = {"columns_parse", "columns_receive", "package_version"}
# Of each system: the tags, and the library with the first bytes of its file.
ROWS: Dict[str, Tuple[List[str], str, bytes]] = {
    # ELF of 64 bits, low byte first; behind 16 bytes: a shared object (3), for x86-64 (62) or AArch64 (183)
    "Linux-x86_64": (
        ["manylinux_2_17_x86_64", "manylinux2014_x86_64", "musllinux_1_1_x86_64"],
        "librtp_wire.so",
        b"\x7fELF\x02\x01\x01" + bytes(9) + b"\x03\0\x3e\0",
    ),
    "Linux-aarch64": (
        ["manylinux_2_17_aarch64", "manylinux2014_aarch64", "musllinux_1_1_aarch64"],
        "librtp_wire.so",
        b"\x7fELF\x02\x01\x01" + bytes(9) + b"\x03\0\xb7\0",
    ),
    # Mach-O of 64 bits, for ARM (0x0100000C, all of them) or x86-64 (0x01000007, all of them: 3): a dynamic library (6)
    "Darwin-arm64": (
        ["macosx_11_0_arm64"],
        "librtp_wire.dylib",
        bytes.fromhex("cffaedfe 0c000001 00000000 06000000"),
    ),
    "Darwin-x86_64": (
        ["macosx_11_0_x86_64"],
        "librtp_wire.dylib",
        bytes.fromhex("cffaedfe 07000001 03000000 06000000"),
    ),
    "Windows-x86_64": (["win_amd64"], "rtp_wire.dll", b"MZ"),
}


def said_by(*command: str) -> str:
    return subprocess.run(command, stdout=subprocess.PIPE, check=True, text=True).stdout


@unittest.skipUnless(shutil.which("clang") and shutil.which("lld"), "there is no clang or no lld")
@unittest.skipUnless((BACKEND.parents[2] / "generated").is_dir(), "the texts for other systems aren't here")
class Wheels(unittest.TestCase):
    folder: Path
    wheels: Any

    @classmethod
    def setUpClass(cls) -> None:
        made = tempfile.TemporaryDirectory()
        cls.addClassCleanup(made.cleanup)
        cls.folder = Path(made.name)
        spec = importlib.util.spec_from_file_location("rtp_wire_wheels", BACKEND / "rtp_wire_wheels.py")
        assert spec and spec.loader
        cls.wheels = importlib.util.module_from_spec(spec)
        with unittest.mock.patch.object(sys, "path", [str(BACKEND), *sys.path]):
            spec.loader.exec_module(cls.wheels)
        with unittest.mock.patch("builtins.print"):
            cls.wheels.main([str(cls.folder)])

    def wheel(self, system: str) -> Path:
        (found,) = self.folder.glob(f"*-{'.'.join(ROWS[system][0])}.whl")
        return found

    def library(self, system: str) -> Path:
        """The library of a wheel, in a file of its own."""
        to = self.folder / f"{system}-{ROWS[system][1]}"
        with zipfile.ZipFile(self.wheel(system)) as archive:
            to.write_bytes(archive.read(f"rtp_wire/{ROWS[system][1]}"))
        return to

    def shown(self) -> List[str]:
        """The functions that a library shows: those of rtp_wire.h, and those of the package in C."""
        header = self.wheels.backend.texts()["rtp_wire.h"].read_text("utf-8")
        header = re.sub(r"/\*.*?\*/", "", header, flags=re.S)
        return sorted({*re.findall(r"\b(rtpw_[a-z0-9_]+)\([^;{}]*\);", header), *OWN} - {"rtpw_status_text"})

    def test_the_tags_and_the_files(self) -> None:
        version = self.wheels.backend.version()
        self.assertEqual(len(list(self.folder.glob("*.whl"))), len(ROWS))
        self.assertEqual(list(self.wheels.SYSTEMS), list(ROWS))
        for system, (platforms, library, head) in ROWS.items():
            wheel, info = self.wheel(system), f"rtp_wire-{version}.dist-info"
            self.assertEqual(wheel.name, f"rtp_wire-{version}-py3-none-{'.'.join(platforms)}.whl")
            with zipfile.ZipFile(wheel) as archive:
                names, read = archive.namelist(), archive.read(f"rtp_wire/{library}")
                told = email.message_from_bytes(archive.read(f"{info}/WHEEL"))
                modes = {it.filename: it.external_attr >> 16 for it in archive.infolist()}
            parts = [*self.wheels.backend.package_files(), f"rtp_wire/{library}"]
            parts += [f"{info}/{it}" for it in ("METADATA", "WHEEL", "RECORD")]
            parts += [f"{info}/licenses/{it}" for it in ("LICENSE-APACHE", "LICENSE-MIT", "NOTICE")]
            self.assertEqual(sorted(names), sorted(parts))
            self.assertEqual(told.get_all("Tag"), [f"py3-none-{it}" for it in platforms])
            self.assertEqual(told["Root-Is-Purelib"], "false")
            self.assertEqual(read[: len(head)], head, system)
            self.assertEqual([it for it, mode in modes.items() if mode == 0o100755], [f"rtp_wire/{library}"])

    def test_they_are_the_same_each_time(self) -> None:
        for system in ROWS:
            name, made = self.wheels.library(system)
            self.assertEqual((name, made), (ROWS[system][1], self.library(system).read_bytes()), system)

    def test_linux(self) -> None:
        # what it takes is in the C library of the process, glibc or musl, by no version: no other library is named
        for system in ("Linux-x86_64", "Linux-aarch64"):
            said = said_by("readelf", "-W", "-d", "--dyn-syms", "-l", "-S", str(self.library(system)))
            rows = [line.split() for line in said.splitlines()]
            symbols = [row for row in rows if len(row) >= 8 and row[4] in ("GLOBAL", "WEAK")]
            self.assertEqual(sorted(row[7] for row in symbols if row[6] != "UND"), self.shown())
            self.assertEqual({row[7] for row in symbols if row[6] == "UND"}, {"memcpy", "memmove", "memset"})
            self.assertNotIn("(NEEDED)", said)
            self.assertNotIn(".symtab", said)
            self.assertNotIn("TEXTREL", said)
            self.assertIn("Library soname: [librtp_wire.so]", said)
            self.assertIn("GNU_RELRO", said)
            self.assertRegex(said, r"BIND_NOW|Flags: NOW")
            self.assertIn("RW", next(row for row in rows if row[:1] == ["GNU_STACK"]))

    @unittest.skipUnless(shutil.which("llvm-readobj"), "there is no llvm-readobj")
    def test_windows(self) -> None:
        library = str(self.library("Windows-x86_64"))
        said = said_by("llvm-readobj", "--file-headers", "--coff-exports", "--coff-imports", library)
        self.assertIn("Machine: IMAGE_FILE_MACHINE_AMD64", said)
        self.assertEqual(sorted(re.findall(r"Export \{\s+Ordinal: \d+\s+Name: (\w+)", said)), self.shown())
        self.assertEqual(re.findall(r"Import \{\s+Name: (\S+)", said), ["msvcrt.dll"])
        self.assertEqual(sorted(re.findall(r"Symbol: (\w+)", said)), ["memcpy", "memmove", "memset"])
        for it in ("DYNAMIC_BASE", "HIGH_ENTROPY_VA", "NX_COMPAT"):
            self.assertIn(f"IMAGE_DLL_CHARACTERISTICS_{it}", said)

    @unittest.skipUnless(shutil.which("llvm-objdump"), "there is no llvm-objdump")
    def test_macos(self) -> None:
        for system, taken in (("Darwin-arm64", {"_bzero"}), ("Darwin-x86_64", {"___bzero"})):
            library = str(self.library(system))
            said = said_by("llvm-objdump", "--macho", "--private-headers", library)
            libraries = re.findall(r" name (\S+\.dylib) ", said)
            self.assertEqual(libraries, ["@rpath/librtp_wire.dylib", "/usr/lib/libSystem.B.dylib"])
            self.assertRegex(said, r"platform (macos|1)\n +(sdk 11.0\n +)?minos 11.0")
            exports = said_by("llvm-objdump", "--macho", "--exports-trie", library)
            self.assertEqual(sorted(re.findall(r"\b_(\w+)$", exports, re.M)), self.shown())
            symbols = said_by("llvm-nm", "--undefined-only", library).split()
            self.assertEqual(set(symbols) - {"U", "dyld_stub_binder"}, {"_memcpy", "_memmove"} | taken)

    def test_macos_on_arm_takes_a_signed_library_alone(self) -> None:
        # a code directory has the SHA-256 of each page of 4,096 bytes: its magic is 0xFADE0C02, and behind it stand, of 4
        # bytes each, length, version, flags (ad hoc: 2), where the digests are, where the name is, the digests of other
        # kinds, those of pages, and how many bytes are signed
        data = self.library("Darwin-arm64").read_bytes()
        at = data.index(bytes.fromhex("fade0c02"))
        _, _, flags, digests, _, _, pages, signed = (
            int.from_bytes(data[at + 4 * i : at + 4 * i + 4], "big") for i in range(1, 9)
        )
        self.assertEqual((flags & 2, pages, data[at + 36], data[at + 39]), (2, -(-signed // 4096), 32, 12))
        self.assertLess(0, pages)
        for i in range(pages):
            page = data[4096 * i : min(4096 * (i + 1), signed)]
            told = data[at + digests + 32 * i : at + digests + 32 * (i + 1)]
            self.assertEqual(told, hashlib.sha256(page).digest(), i)

    def test_what_is_missing_is_named(self) -> None:
        with self.assertRaises(SystemExit) as raised:
            self.wheels.main([str(self.folder), "Plan9-x86_64"])
        self.assertIn(f"SYSTEM: {', '.join(ROWS)}", str(raised.exception))
        with unittest.mock.patch("shutil.which", lambda _: None), self.assertRaises(SystemExit) as raised:
            self.wheels.main([str(self.folder)])
        self.assertEqual(str(raised.exception), "rtp_wire: there is no clang: the wheels are made with clang and lld")
        elsewhere = unittest.mock.patch.object(self.wheels.backend, "REPOSITORY", self.folder)
        with elsewhere, self.assertRaises(SystemExit) as raised:
            self.wheels.main([str(self.folder), "Darwin-arm64"])
        self.assertIn("missing: rtp_wire-Darwin-arm64.s", str(raised.exception))


if __name__ == "__main__":
    unittest.main()
