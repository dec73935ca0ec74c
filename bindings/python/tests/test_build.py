"""The wheel and the source distribution. Expected values are worked out by hand from PEP 376, 427 and 517, the core
metadata, and RFC 1952 for gzip."""

import base64
import email
import gzip
import hashlib
import importlib.util
import os
import platform as platform_module
import shlex
import shutil
import subprocess
import sys
import tarfile
import tempfile
import unittest
import unittest.mock
import zipfile
from pathlib import Path
from types import ModuleType
from typing import Any, Dict, List

ARM = "aarch64-linux-gnu-gcc"
BACKEND = ("backend/rtp_wire_backend.py", "backend/rtp_wire_wheels.py")
HERE = Path(__file__).resolve().parent.parent


def backend_of(folder: Path) -> ModuleType:
    spec = importlib.util.spec_from_file_location("backend", folder / "backend/rtp_wire_backend.py")
    assert spec and spec.loader
    module = importlib.util.module_from_spec(spec)
    spec.loader.exec_module(module)
    return module


def files_of(wheel: Path) -> Dict[str, bytes]:
    with zipfile.ZipFile(wheel) as archive:
        return {name: archive.read(name) for name in archive.namelist()}


class Build(unittest.TestCase):
    def setUp(self) -> None:
        folder = tempfile.TemporaryDirectory()
        self.addCleanup(folder.cleanup)
        self.folder = Path(folder.name)
        self.backend: Any = backend_of(HERE)

    def unpacked(self) -> Path:
        """The source distribution, in a folder of its own."""
        with tarfile.open(self.folder / self.backend.build_sdist(str(self.folder))) as archive:
            archive.extractall(self.folder / "unpacked")
        (found,) = (self.folder / "unpacked").iterdir()
        return found

    def test_a_source_distribution_has_all_that_a_wheel_is_built_of(self) -> None:
        unpacked = self.unpacked()
        for name in (
            "rtp_wire.h",
            "rtp_wire-Linux-x86_64.s",
            "rtp_wire-Linux-aarch64.s",
            "LICENSE-MIT",
            "LICENSE-APACHE",
            "NOTICE",
        ):
            self.assertTrue((unpacked / "texts" / name).is_file(), name)
        here, there = self.folder / "here", self.folder / "there"
        here.mkdir()
        there.mkdir()
        wheel: str = self.backend.build_wheel(str(here))
        self.assertEqual(backend_of(unpacked).build_wheel(str(there)), wheel)
        self.assertEqual((here / wheel).read_bytes(), (there / wheel).read_bytes())
        files = files_of(here / wheel)
        self.assertLessEqual(
            {"rtp_wire/py.typed", "rtp_wire/librtp_wire.so", "rtp_wire/_packet.py"}, files.keys()
        )

    def test_a_source_distribution_has_the_tests(self) -> None:
        unpacked = self.unpacked()
        command = [
            sys.executable,
            "-m",
            "unittest",
            "discover",
            "-s",
            "tests",
            "-k",
            "Reading",
            "-k",
            "Library",
        ]
        said = subprocess.run(command, cwd=unpacked, capture_output=True, text=True, check=False)
        self.assertEqual(said.returncode, 0, said.stderr)

    def test_archives_are_the_same_each_time(self) -> None:
        other = self.folder / "other"
        other.mkdir()
        for build in (self.backend.build_sdist, self.backend.build_wheel):
            name = build(str(self.folder))
            self.assertEqual(build(str(other)), name)
            self.assertEqual((self.folder / name).read_bytes(), (other / name).read_bytes())

    def test_the_order_of_a_source_distribution(self) -> None:
        # part by part, and in each by name, in whatever order the file system lists them
        def names_of(folder: str) -> List[str]:
            return sorted(f"{folder}/{name}" for name in os.listdir(HERE / folder) if name.endswith(".py"))

        wanted = ["PKG-INFO", "pyproject.toml", "README.md", *BACKEND]
        wanted += ["src/columns.c", "src/version.c"]
        wanted += [*names_of("src/rtp_wire"), "src/rtp_wire/tables.json", "src/rtp_wire/py.typed"]
        wanted += [*names_of("examples"), *names_of("tests")]
        wanted += [f"texts/{name}" for name in self.backend.TEXTS]
        glob, folder = Path.glob, f"rtp_wire-{self.backend.version()}"
        for backwards in (False, True):

            def listed(place: Path, part: str, backwards: bool = backwards) -> List[Path]:
                return sorted(glob(place, part), reverse=backwards)

            with unittest.mock.patch.object(Path, "glob", listed):
                file = self.folder / self.backend.build_sdist(str(self.folder))
            with tarfile.open(file) as archive:
                self.assertEqual(archive.getnames(), [f"{folder}/{name}" for name in wanted])

    @unittest.skipUnless(shutil.which(ARM), f"there is no {ARM}")
    def test_the_library_is_built_for_arm(self) -> None:
        with unittest.mock.patch.dict(os.environ, CC=ARM):
            made = self.backend.library("aarch64")
        # an ELF file of 64 bits for AArch64 (183)
        self.assertEqual((made[:5], made[18:20]), (b"\x7fELF\x02", b"\xb7\x00"))

    def built(self) -> Path:
        """The wheel."""
        return Path(self.folder, self.backend.build_wheel(str(self.folder)))

    def test_the_list_of_a_wheel(self) -> None:
        # a SHA-256 of 32 bytes is 43 letters of base64, which PEP 376 writes without the "=" behind them
        files = files_of(self.built())
        info = next(name for name in files if name.endswith("RECORD"))
        lines = [line.split(",") for line in files[info].decode().splitlines()]
        self.assertEqual([line[0] for line in lines], list(files))
        for name, digest, size in lines:
            if name == info:
                self.assertEqual((digest, size), ("", ""))
                continue
            told = digest.partition("sha256=")[2]
            self.assertRegex(told, r"\A[A-Za-z0-9_-]{43}\Z")
            self.assertEqual(base64.urlsafe_b64decode(told + "="), hashlib.sha256(files[name]).digest())
            self.assertEqual(size, str(len(files[name])))
        self.assertTrue(files[info].endswith(b",,\n"))

    def test_the_files_of_a_wheel(self) -> None:
        wheel = self.built()
        version, machine = self.backend.version(), os.uname().machine
        self.assertEqual(wheel.name, f"rtp_wire-{version}-py3-none-linux_{machine}.whl")
        info = f"rtp_wire-{version}.dist-info"
        parts = [f"rtp_wire/{it.name}" for it in (HERE / "src/rtp_wire").glob("*.py")]
        parts += ["rtp_wire/py.typed", "rtp_wire/tables.json", "rtp_wire/librtp_wire.so"]
        parts += [f"{info}/{name}" for name in ("METADATA", "WHEEL", "RECORD")]
        parts += [f"{info}/licenses/{name}" for name in ("LICENSE-APACHE", "LICENSE-MIT", "NOTICE")]
        files = files_of(wheel)
        self.assertEqual(sorted(files), sorted(parts))
        told = email.message_from_bytes(files[f"{info}/WHEEL"])
        self.assertEqual([told["Wheel-Version"], told["Root-Is-Purelib"]], ["1.0", "false"])
        self.assertEqual(told.get_all("Tag"), [f"py3-none-linux_{machine}"])
        for file in (HERE / "src/rtp_wire").glob("*.py"):
            self.assertEqual(files[f"rtp_wire/{file.name}"], file.read_bytes())
        # an ELF file of 64 bits
        self.assertEqual(files["rtp_wire/librtp_wire.so"][:5], b"\x7fELF\x02")
        with zipfile.ZipFile(wheel) as archive:
            for item in archive.infolist():
                self.assertEqual(item.date_time, (1980, 1, 1, 0, 0, 0))
                self.assertEqual(item.compress_type, zipfile.ZIP_DEFLATED)
                mode = 0o100755 if item.filename.endswith(".so") else 0o100644
                self.assertEqual(item.external_attr >> 16, mode, item.filename)
        # what pip asks for before it builds is what it then gets
        there = self.folder / "there"
        there.mkdir()
        self.assertEqual(self.backend.prepare_metadata_for_build_wheel(str(there)), info)
        prepared = {str(it.relative_to(there)): it.read_bytes() for it in there.rglob("*") if it.is_file()}
        self.assertEqual(prepared, {name: files[name] for name in files if info in name and "RECORD" not in name})

    def test_the_files_of_a_source_distribution(self) -> None:
        file = self.folder / self.backend.build_sdist(str(self.folder))
        folder = f"rtp_wire-{self.backend.version()}"
        self.assertEqual(file.name, f"{folder}.tar.gz")
        # RFC 1952: the bytes 4 to 7 are the time, here none
        packed = file.read_bytes()
        self.assertEqual((packed[:4], packed[4:8]), (b"\x1f\x8b\x08\0", bytes(4)))
        # PEP 517: in the format of POSIX, whose magic and version these are
        self.assertEqual(gzip.decompress(packed)[257:265], b"ustar\x0000")
        parts = ["PKG-INFO", "pyproject.toml", "README.md", *BACKEND]
        parts += ["src/columns.c", "src/version.c"]
        parts += ["src/rtp_wire/py.typed", "src/rtp_wire/tables.json"]
        parts += ["examples/lines.py", "examples/pcap.py", "examples/pcap_dpkt.py", "examples/times.py"]
        for inner in ("src/rtp_wire", "tests"):
            parts += [str(it.relative_to(HERE)) for it in (HERE / inner).glob("*.py")]
        parts += [f"texts/{name}" for name in self.backend.TEXTS]
        with tarfile.open(file) as archive:
            items = archive.getmembers()
            data = {it.name: archive.extractfile(it) for it in items}
            read = {name: it.read() for name, it in data.items() if it}
        self.assertEqual(sorted(read), sorted(f"{folder}/{name}" for name in parts))
        for item in items:
            self.assertTrue(item.isreg())
            self.assertEqual((item.mode, item.mtime, item.uid, item.gid), (0o644, 0, 0, 0))
        sources = ("src/rtp_wire/_packet.py", "src/columns.c")
        for name in ("README.md", "tests/test_build.py", *sources):
            self.assertEqual(read[f"{folder}/{name}"], (HERE / name).read_bytes())
        for name, place in self.backend.texts().items():
            self.assertEqual(read[f"{folder}/texts/{name}"], place.read_bytes())
        self.assertEqual(read[f"{folder}/PKG-INFO"], self.backend.metadata())

    def test_the_version_is_one_of_pip(self) -> None:
        # PEP 440: a development release has a number, and sorts before the release that it becomes
        header = self.folder / "rtp_wire.h"
        for said, version in (("1.2.3", "1.2.3"), ("1.2.3-dev", "1.2.3.dev0"), ("10.0.20-dev", "10.0.20.dev0")):
            header.write_text(f'#define RTPW_VERSION "{said}"\n', "utf-8")
            with unittest.mock.patch.object(self.backend, "texts", lambda: {"rtp_wire.h": header}):
                self.assertEqual(self.backend.version(), version)

    def test_metadata(self) -> None:
        folder = self.backend.prepare_metadata_for_build_wheel(str(self.folder))
        said = email.message_from_bytes((self.folder / folder / "METADATA").read_bytes())
        told = {
            "Metadata-Version": "2.1",
            "Name": "rtp-wire",
            "Version": self.backend.version(),
            "Summary": "RTP packets, their header extensions and receive state:"
            " read, written, and changed where they lie",
            "License": "MIT OR Apache-2.0",
            "Keywords": "rtp,rfc3550,rfc8285,webrtc,srtp",
            "Requires-Python": ">=3.9",
            "Description-Content-Type": "text/markdown",
        }
        self.assertEqual({name: said[name] for name in told}, told)
        self.assertRegex(said["Version"], r"\A[0-9]+\.[0-9]+\.[0-9]+(\.dev0)?\Z")
        self.assertEqual(said.get_all("License-File"), ["LICENSE-APACHE", "LICENSE-MIT", "NOTICE"])
        classifiers = [
            "Development Status :: 4 - Beta",
            "Intended Audience :: Developers",
            "License :: OSI Approved :: Apache Software License",
            "License :: OSI Approved :: MIT License",
            "Operating System :: MacOS :: MacOS X",
            "Operating System :: Microsoft :: Windows",
            "Operating System :: POSIX :: Linux",
            "Programming Language :: Python :: 3",
            "Programming Language :: Python :: Implementation :: CPython",
            "Topic :: Multimedia",
            "Typing :: Typed",
        ]
        self.assertEqual(said.get_all("Classifier"), classifiers)
        self.assertEqual(said.get_payload().strip(), (HERE / "README.md").read_text("utf-8").strip())
        self.assertIsNone(said["Requires-Dist"])

    def test_the_compiler(self) -> None:
        # $CC may have options, as of the shell; else the first of three that is there
        compiler = self.backend.compiler
        with unittest.mock.patch.dict(os.environ, CC="ccache 'my cc' -m64"):
            self.assertEqual(compiler(), ["ccache", "my cc", "-m64"])
        found = shlex.join(compiler())
        with unittest.mock.patch.dict(os.environ, CC=f"env {found} -DNOTHING='a b'"):
            self.assertEqual(self.backend.library(self.backend.this_machine())[:4], b"\x7fELF")
        with unittest.mock.patch.dict(os.environ, CC=""):
            for there in (["cc", "gcc", "clang"], ["gcc", "clang"], ["clang"]):
                with unittest.mock.patch("shutil.which", lambda name, there=there: name in there or None):
                    self.assertEqual(compiler(), there[:1])
            with unittest.mock.patch("shutil.which", lambda name: None), self.assertRaises(SystemExit) as raised:
                compiler()
            self.assertIn("there is no C compiler", str(raised.exception))
        with unittest.mock.patch.dict(os.environ, CC="false"), self.assertRaises(SystemExit) as raised:
            self.backend.library("aarch64")
        self.assertIn("this failed: false -shared ", str(raised.exception))
        # what other compilers don't do by themselves
        asked = str(raised.exception).split()
        for option in ("-fPIC", "-std=c99", "-O2", "-s"):
            self.assertIn(option, asked)
        for option in ("--no-undefined", "-z,noexecstack", "-z,relro", "-z,now", "-soname,librtp_wire.so"):
            self.assertIn(f"-Wl,{option}", asked)
        self.assertIn(str(self.backend.texts()["rtp_wire-Linux-aarch64.s"]), asked)

    def test_the_machine(self) -> None:
        rows = {"x86_64": "x86_64", "AMD64": "x86_64", "aarch64": "aarch64", "arm64": "aarch64"}
        for said, machine in rows.items():
            with unittest.mock.patch("platform.machine", lambda said=said: said):
                self.assertEqual(self.backend.this_machine(), machine)
                platform = self.backend.platform_here()
                self.assertEqual(self.backend.tag(platform), f"py3-none-linux_{machine}")
        there = "Linux (x86-64, aarch64), macOS 11 and later (arm64, x86-64: by a wheel), and Windows (x86-64: by a wheel)."
        of_this = f"on {platform_module.machine()} with a Python of 64 bits."
        for place, value, told in (
            ("platform.machine", lambda: "riscv64", "nothing for linux on riscv64 with a Python of 64 bits."),
            ("struct.calcsize", lambda _: 4, f"nothing for linux on {platform_module.machine()} with a Python of 32 bits."),
            ("sys.platform", "win32", f"nothing for win32 {of_this}"),
            ("sys.platform", "freebsd14", f"nothing for freebsd14 {of_this}"),
        ):
            with unittest.mock.patch(place, value), self.assertRaises(SystemExit) as raised:
                self.backend.build_wheel(str(self.folder))
            self.assertIn(told, str(raised.exception))
            self.assertTrue(str(raised.exception).endswith(there))

    def test_texts_that_are_missing(self) -> None:
        # those of this folder come before those around it
        own, around = self.folder / "own", self.folder / "around"
        (own / "texts").mkdir(parents=True)
        for name, folder in self.backend.TEXTS.items():
            (around / folder).mkdir(parents=True, exist_ok=True)
            (around / folder / name).write_text("around")
            (own / "texts" / name).write_text("own")
        with unittest.mock.patch.multiple(self.backend, HERE=own, REPOSITORY=around):
            self.assertEqual({it.read_text() for it in self.backend.texts().values()}, {"own"})
            (own / "texts/NOTICE").unlink()
            self.assertEqual(self.backend.texts()["NOTICE"].read_text(), "around")
            (around / "NOTICE").unlink()
            with self.assertRaises(SystemExit) as raised:
                self.backend.texts()
            self.assertIn("missing: NOTICE. ", str(raised.exception))

    @unittest.skipUnless(shutil.which("readelf"), "there is no readelf")
    def test_what_can_be_seen_of_the_library(self) -> None:
        made = self.folder / "librtp_wire.so"
        made.write_bytes(self.backend.library(self.backend.this_machine()))
        command = ["readelf", "--wide", "--dynamic", "--dyn-syms", "--program-headers", "--section-headers", str(made)]
        said = subprocess.run(command, stdout=subprocess.PIPE, check=True, text=True).stdout
        rows = [line.split() for line in said.splitlines()]
        seen = {row[-1] for row in rows if len(row) == 8 and row[4] in ("GLOBAL", "WEAK") and row[6] != "UND"}
        own = {"columns_parse", "columns_receive", "package_version"}
        self.assertEqual({it for it in seen if not it.startswith("rtpw_")}, own)
        self.assertGreater(len(seen), 40)
        self.assertIn("Library soname: [librtp_wire.so]", said)
        # no stack that can be run, and no table that can be written once the library is loaded
        stack = next(row for row in rows if row[:1] == ["GNU_STACK"])
        self.assertIn("RW", stack)
        self.assertIn("GNU_RELRO", said)
        self.assertRegex(said, r"BIND_NOW|Flags: NOW")
        self.assertNotIn(".symtab", said)


if __name__ == "__main__":
    unittest.main()
