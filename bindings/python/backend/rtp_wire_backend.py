"""Builds the package rtp_wire for pip (PEP 517): its wheel, with the shared library that a C compiler makes of the
assembly text for this machine, and its source distribution, with the texts for all machines.

In the repository the texts are taken from where they lie there; a source distribution has them in the folder `texts`.
The compiler is $CC, or else cc, gcc or clang. Linux on x86-64 or ARM (aarch64), with a Python of 64 bits; the wheels for
these and for other systems, which take no compiler, are made by rtp_wire_wheels.py.
"""

import base64
import gzip
import hashlib
import io
import os
import platform
import re
import shlex
import shutil
import struct
import subprocess
import sys
import tarfile
import tempfile
import zipfile
from pathlib import Path
from typing import Any, Dict, List, Optional, Sequence, Tuple

HERE = Path(__file__).resolve().parent.parent
REPOSITORY = HERE.parent.parent
# Where each text lies in the repository.
TEXTS = {
    "rtp_wire.h": "bindings/c",
    "rtp_wire-Linux-x86_64.s": "generated",
    "rtp_wire-Linux-aarch64.s": "generated",
    "LICENSE-APACHE": ".",
    "LICENSE-MIT": ".",
    "NOTICE": ".",
}
LICENCES = ("LICENSE-APACHE", "LICENSE-MIT", "NOTICE")
MACHINES = {"x86_64": "x86_64", "amd64": "x86_64", "aarch64": "aarch64", "arm64": "aarch64"}
# What pip says where it has found no wheel and can't build one.
NOT_HERE = (
    "rtp_wire: there is nothing for {system} on {machine} with a Python of {bits} bits. It is for a Python of 64 bits"
    " on Linux (x86-64, aarch64), macOS 11 and later (arm64, x86-64: by a wheel), and Windows (x86-64: by a wheel)."
)
METADATA = """\
Metadata-Version: 2.1
Name: rtp-wire
Version: {version}
Summary: RTP packets, their header extensions and receive state: read, written, and changed where they lie
License: MIT OR Apache-2.0
Keywords: rtp,rfc3550,rfc8285,webrtc,srtp
Classifier: Development Status :: 4 - Beta
Classifier: Intended Audience :: Developers
Classifier: License :: OSI Approved :: Apache Software License
Classifier: License :: OSI Approved :: MIT License
Classifier: Operating System :: MacOS :: MacOS X
Classifier: Operating System :: Microsoft :: Windows
Classifier: Operating System :: POSIX :: Linux
Classifier: Programming Language :: Python :: 3
Classifier: Programming Language :: Python :: Implementation :: CPython
Classifier: Topic :: Multimedia
Classifier: Typing :: Typed
Requires-Python: >=3.9
Description-Content-Type: text/markdown
{licences}
{description}"""
# All files of an archive have one date, so that the same files give the same archive.
DATE = (1980, 1, 1, 0, 0, 0)


def texts() -> Dict[str, Path]:
    """Where each text lies: in this folder, or in the repository around it."""
    found: Dict[str, Path] = {}
    for name, folder in TEXTS.items():
        for place in (HERE / "texts" / name, REPOSITORY / folder / name):
            if place.is_file():
                found.setdefault(name, place)
    missing = ", ".join(TEXTS.keys() - found.keys())
    if missing:
        raise SystemExit(
            f"rtp_wire: missing: {missing}. Build in a clone of the repository, with pip 21.3 or later, or from the"
            " source distribution."
        )
    return found


def version() -> str:
    found = re.search(r'^#define RTPW_VERSION "(.*)"$', texts()["rtp_wire.h"].read_text("utf-8"), re.M)
    assert found, "rtp_wire.h has no version"
    return re.sub("-dev$", ".dev0", found[1])  # as PEP 440 has it


def metadata() -> bytes:
    licences = "".join(f"License-File: {name}\n" for name in LICENCES)
    description = (HERE / "README.md").read_text("utf-8")
    return METADATA.format(version=version(), licences=licences, description=description).encode()


def this_machine() -> str:
    """The end of the name of the text for this machine."""
    machine = MACHINES.get(platform.machine().lower())
    if not sys.platform.startswith("linux") or machine is None or struct.calcsize("P") != 8:
        bits = struct.calcsize("P") * 8
        raise SystemExit(NOT_HERE.format(system=sys.platform, machine=platform.machine(), bits=bits))
    return machine


def platform_here() -> str:
    return f"linux_{this_machine()}"


def tag(platforms: str) -> str:
    """The library is called by ctypes: any Python 3 can load it, on these systems and machines."""
    return f"py3-none-{platforms}"


def compiler() -> List[str]:
    if os.environ.get("CC"):
        return shlex.split(os.environ["CC"])
    for name in ("cc", "gcc", "clang"):
        if shutil.which(name):
            return [name]
    raise SystemExit("rtp_wire: there is no C compiler: install one, or name it by CC")


def library(machine: str) -> bytes:
    """The shared library for a machine. Only the functions of rtp_wire.h and those of src can be seen."""
    with tempfile.TemporaryDirectory() as folder:
        names, made = Path(folder, "names"), Path(folder, "librtp_wire.so")
        names.write_text("{ global: rtpw_*; columns_*; package_version; local: *; };", "utf-8")
        found = texts()
        command = [*compiler(), "-shared", "-fPIC", "-std=c99", "-O2", "-s", "-o", str(made)]
        command += [f'-DPACKAGE_VERSION="{version()}"', f"-I{found['rtp_wire.h'].parent}"]
        command += [*map(str, sorted(HERE.glob("src/*.c")))]
        command += [str(found[f"rtp_wire-Linux-{machine}.s"])]
        command += [f"-Wl,--version-script={names}", "-Wl,-soname,librtp_wire.so", "-Wl,--no-undefined"]
        command += ["-Wl,-z,noexecstack", "-Wl,-z,relro", "-Wl,-z,now"]
        if subprocess.run(command, check=False).returncode != 0:
            raise SystemExit(f"rtp_wire: this failed: {shlex.join(command)}")
        return made.read_bytes()


def package_files() -> Dict[str, Path]:
    return {
        f"rtp_wire/{file.name}": file
        for file in sorted((HERE / "src/rtp_wire").iterdir())
        if file.suffix in (".py", ".json") or file.name == "py.typed"
    }


def digest_of(data: bytes) -> str:
    return base64.urlsafe_b64encode(hashlib.sha256(data).digest()).rstrip(b"=").decode()


def info_files(platforms: Sequence[str]) -> Dict[str, bytes]:
    """The files of the folder .dist-info, but for the list of all files."""
    wheel = "Wheel-Version: 1.0\nGenerator: rtp_wire_backend\nRoot-Is-Purelib: false\n"
    wheel += "".join(f"Tag: {tag(it)}\n" for it in platforms)
    files = {"METADATA": metadata(), "WHEEL": wheel.encode()}
    for name in LICENCES:
        files[f"licenses/{name}"] = texts()[name].read_bytes()
    return files


def prepare_metadata_for_build_wheel(
    metadata_directory: str, config_settings: Optional[Dict[str, Any]] = None
) -> str:
    folder = f"rtp_wire-{version()}.dist-info"
    for name, data in info_files([platform_here()]).items():
        place = Path(metadata_directory, folder, name)
        place.parent.mkdir(parents=True, exist_ok=True)
        place.write_bytes(data)
    return folder


def pack_wheel(folder: Path, platforms: Sequence[str], name: str, made: bytes) -> str:
    """Writes the wheel for these platforms with their shared library, and gives back its name."""
    info = f"rtp_wire-{version()}.dist-info"
    files = {name: file.read_bytes() for name, file in package_files().items()}
    files[f"rtp_wire/{name}"] = made
    files.update({f"{info}/{it}": data for it, data in info_files(platforms).items()})
    record = [f"{it},sha256={digest_of(data)},{len(data)}\n" for it, data in files.items()]
    files[f"{info}/RECORD"] = "".join([*record, f"{info}/RECORD,,\n"]).encode()

    wheel = f"rtp_wire-{version()}-{tag('.'.join(platforms))}.whl"
    with zipfile.ZipFile(Path(folder, wheel), "w", zipfile.ZIP_DEFLATED) as archive:
        for it, data in files.items():
            item = zipfile.ZipInfo(it, DATE)
            item.compress_type = zipfile.ZIP_DEFLATED
            item.external_attr = (0o100755 if it == f"rtp_wire/{name}" else 0o100644) << 16
            archive.writestr(item, data)
    return wheel


def build_wheel(
    wheel_directory: str,
    config_settings: Optional[Dict[str, Any]] = None,
    metadata_directory: Optional[str] = None,
) -> str:
    made = library(this_machine())
    return pack_wheel(Path(wheel_directory), [platform_here()], "librtp_wire.so", made)


def source_files() -> List[Tuple[str, Path]]:
    """Those of this folder, and the texts."""
    parts = (
        "pyproject.toml",
        "README.md",
        "backend/*.py",
        "src/*.c",
        "src/rtp_wire/*.py",
        "src/rtp_wire/*.json",
        "src/rtp_wire/py.typed",
        "examples/*.py",
        "tests/*.py",
    )
    own = [file for part in parts for file in sorted(HERE.glob(part))]
    named = [(str(file.relative_to(HERE)), file) for file in own]
    return named + [(f"texts/{name}", place) for name, place in texts().items()]


def build_sdist(sdist_directory: str, config_settings: Optional[Dict[str, Any]] = None) -> str:
    folder = f"rtp_wire-{version()}"
    files = [("PKG-INFO", metadata()), *((name, file.read_bytes()) for name, file in source_files())]
    packed = io.BytesIO()
    with tarfile.open(fileobj=packed, mode="w", format=tarfile.PAX_FORMAT) as archive:
        for name, data in files:
            item = tarfile.TarInfo(f"{folder}/{name}")
            item.size, item.mode = len(data), 0o644
            archive.addfile(item, io.BytesIO(data))
    Path(sdist_directory, f"{folder}.tar.gz").write_bytes(gzip.compress(packed.getvalue(), mtime=0))
    return f"{folder}.tar.gz"
