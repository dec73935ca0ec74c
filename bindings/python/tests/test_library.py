"""The structs and functions of the package beside those of rtp_wire.h."""

import ctypes
import os
import pickle
import re
import shutil
import subprocess
import tempfile
import unittest
from importlib import metadata
from pathlib import Path
from typing import Any, Dict, Iterator, List, Tuple, Type

import rtp_wire
from rtp_wire import Cause, Form, Kind, Status, _column, _errors, _library, _loaded

HERE = Path(__file__).resolve().parent.parent
# In the repository, and in a source distribution.
HEADER = next(it for it in (HERE.parent / "c/rtp_wire.h", HERE / "texts/rtp_wire.h") if it.exists())
TEXT = re.sub(r"/\*.*?\*/|//.*?$", " ", HEADER.read_text("utf-8"), flags=re.S | re.M)
STRUCTS = {
    "rtpw_packet": _library.RawPacket,
    "rtpw_fields": _library.RawFields,
    "rtpw_element": _library.RawElement,
    "rtpw_map": _library.RawMap,
    "rtpw_new_ids": _library.RawNewIds,
    "rtpw_time": _library.RawTime,
    "rtpw_values": _library.RawValues,
    "rtpw_header": _library.RawHeader,
    "rtpw_datagram": _library.RawDatagram,
    "rtpw_arrival": _library.RawArrival,
    "rtpw_template": _library.RawTemplate,
    "rtpw_group": _library.RawGroup,
    "rtpw_routed_header": _library.RawRoutedHeader,
    "rtpw_layer": _library.RawLayer,
    "rtpw_stream": _library.RawStream,
    "rtpw_layers": _library.RawLayers,
    "rtpw_receiver": _library.RawReceiver,
    "rtpw_wide_receiver": _library.RawWideReceiver,
    "rtpw_wide_restarting_receiver": _library.RawWideRestartingReceiver,
    "rtpw_reception": _library.RawReception,
    "rtpw_report": _library.RawReport,
    "rtpw_frame_marking": _library.RawFrameMarking,
    "rtpw_orientation": _library.RawOrientation,
    "rtpw_timing": _library.RawTiming,
    "rtpw_transport_number": _library.RawTransportNumber,
    "rtpw_chromaticity": _library.RawChromaticity,
    "rtpw_hdr_metadata": _library.RawHdrMetadata,
    "rtpw_color_space": _library.RawColorSpace,
    "rtpw_dependency_descriptor": _library.RawDependencyDescriptor,
    "rtpw_whole_packet": _library.RawWholePacket,
    "rtpw_whole_datagram": _library.RawWholeDatagram,
    "column": _column.RawColumn,
}
SOURCES = [it.read_text("utf-8") for it in sorted(HERE.glob("src/*.c"))]
# Of the receivers for a sender that may start again the package has the one with a window of any size, and its version
# is that of its metadata, and many packets with values are whole ones. Go's package alone reads and writes a fixed
# part by itself and writes a block of data.
OF_C_ALONE = {
    *("rtpw_restarting_receive", "rtpw_version", "rtpw_parse_many"),
    *("rtpw_read_fixed_part", "rtpw_write_fixed_part", "rtpw_write_data_elements"),
}
NUMBERS: Dict[str, Any] = {
    "void": None,
    "bool": ctypes.c_bool,
    "size_t": ctypes.c_size_t,
    **{f"{it}_t": getattr(ctypes, f"c_{it}") for it in ("uint8", "uint16", "uint32", "uint64", "int8", "int32")},
}


def type_of(text: str) -> Any:
    """The type of a parameter or result, as the package declares it."""
    name, *pointer = re.sub(r"\bconst\b", "", text).replace("*", " * ").split()
    if pointer[:1] != ["*"]:
        return NUMBERS[name]
    return ctypes.c_void_p if name == "uint8_t" else ctypes.POINTER(STRUCTS.get(name) or NUMBERS[name])


def declared() -> Iterator[Tuple[str, Any, List[Any]]]:
    """The functions of rtp_wire.h, with the types of their results and parameters."""
    unmarked = re.sub(r"\bRTPW_[A-Z_]+(?:\([^()]*\))?\s+", "", TEXT)
    for result, name, parameters in re.findall(r"^(\w+) (rtpw_\w+)\(([^)]*)\);", unmarked, re.M):
        if name in OF_C_ALONE:
            continue
        listed = [] if parameters == "void" else parameters.split(",")
        yield name, NUMBERS[result], [type_of(it) for it in listed]


def names_in(prefix: str) -> Dict[str, int]:
    return {name: int(number) for name, number in re.findall(rf"\bRTPW_{prefix}(\w+) = (\d+)", TEXT)}


def facts() -> Iterator[str]:
    """What C has to say of each field."""
    for name, struct in STRUCTS.items():
        yield f"sizeof({name}) == {ctypes.sizeof(struct)}"
        for field in struct._fields_:
            described = getattr(struct, field[0])
            places = [(field[0], described.offset, described.size)]
            if (name, field[0]) == ("rtpw_values", "has"):
                places = [(f"has_{it}", described.offset + at, 1) for at, it in enumerate(_library.VALUES)]
            if (name, field[0]) == ("rtpw_whole_packet", "unpadded_len"):
                yield f"offsetof({name}, header) == 0"  # whose fields are its own
            for place, offset, size in places:
                yield f"offsetof({name}, {place}) == {offset}"
                yield f"sizeof((({name} *)0)->{place}) == {size}"


class Library(unittest.TestCase):
    def test_each_function_is_declared_as_in_the_header_file(self) -> None:
        functions = {name: it for name, it in _loaded.FUNCTIONS.items() if name.startswith("rtpw_")}
        wanted = {name: (result, parameters) for name, result, parameters in declared()}
        self.assertEqual({name: (it.restype, list(it.argtypes)) for name, it in functions.items()}, wanted)
        self.assertGreater(len(wanted), 39)

    def test_each_function_is_used(self) -> None:
        used = "".join(
            it.read_text("utf-8")
            for it in (HERE / "src/rtp_wire").glob("_[a-z]*.py")
            if it.stem not in ("_library", "_loaded")
        )
        used += "".join([(HERE / "src/rtp_wire/__init__.py").read_text("utf-8"), *SOURCES])
        for name in _loaded.FUNCTIONS:
            self.assertRegex(used, rf"_library\.{name[5:]}\b|\b{name}\(")

    def test_each_field_lies_where_it_does_in_c(self) -> None:
        lines = [*SOURCES, *(f'_Static_assert({it}, "");' for it in facts())]
        options = [
            "-std=c11",
            "-Wall",
            "-Wextra",
            "-Wpedantic",
            "-Werror",
            f"-I{HEADER.parent}",
            '-DPACKAGE_VERSION="1.2.3"',
            "-fsyntax-only",
        ]
        with tempfile.TemporaryDirectory() as folder:
            Path(folder, "facts.c").write_text("\n".join(lines), "utf-8")
            for compiler in filter(shutil.which, (os.environ.get("CC") or "cc", "aarch64-linux-gnu-gcc")):
                command = [compiler, *options, f"{folder}/facts.c"]
                said = subprocess.run(command, stderr=subprocess.PIPE, text=True, check=False)
                self.assertEqual((said.returncode, said.stderr), (0, ""))

    def test_numbers_and_texts(self) -> None:
        statuses = {it.name: it.value for it in Status}
        everything = names_in("")
        self.assertEqual({name: everything[name] for name in statuses}, statuses)
        self.assertEqual(
            {it.name: it.value for it in Cause},
            {it.name: it.value for it in Status if 0 < it < 7 and it != Status.UNKNOWN_FORM},
        )
        self.assertEqual(names_in("KIND_"), {it.name: it.value for it in Kind})
        forms = ("NO_BLOCK", "ONE_BYTE_FORM", "TWO_BYTE_FORM", "OTHER_FORM")
        self.assertEqual(tuple(everything[name] for name in forms), tuple(Form))
        texts = dict(re.findall(r'case RTPW_(\w+): return "(.*)";', TEXT))
        self.assertEqual({it.name: it.text for it in Status}, texts)

    def test_each_kind_has_its_uri_and_its_values(self) -> None:
        text = re.sub(r"/\*.*?\*/", " ", HEADER.read_text("utf-8"), flags=re.S)
        rows = re.findall(r'\bRTPW_KIND_(\w+) = \d+\s+RTPW_KIND\("([^"]+)"(?:, ([^)]*))?\)', text)
        self.assertEqual({name: uri for name, uri, _ in rows}, {it.name: it.uri for it in Kind if it.uri})
        told = {field: Kind[name] for name, _, fields in rows for field in fields.split(", ") if field}
        self.assertEqual(told.keys(), set(_library.VALUES))
        for field, kind in told.items():  # without a block each value is left out
            raw, kinds = _library.RawHeader(), ctypes.c_uint32()
            raw.values.playout_delay_min.hertz = raw.values.playout_delay_max.hertz = 100
            raw.values.has[_library.VALUES.index(field)] = 1
            self.assertEqual((_library.left_out(_library.RawMap(), raw, kinds), kinds.value), (0, 1 << kind), field)

    def test_exceptions(self) -> None:
        kinds: Dict[Status, Type[rtp_wire.RtpError]] = {
            Status.UNKNOWN_FORM: rtp_wire.OtherForm,
            Status.SHORT_BUFFER: rtp_wire.ShortBuffer,
            Status.BAD_FIELD: rtp_wire.BadField,
            Status.NONE: rtp_wire.NoElement,
            Status.BAD_ID: rtp_wire.BadId,
            Status.FORM_NOT_ALLOWED: rtp_wire.FormNotAllowed,
            Status.LONG_BLOCK: rtp_wire.LongBlock,
            Status.LONG_ID: rtp_wire.LongId,
            Status.REFUSED: rtp_wire.RtpError,
            **{Status(cause): rtp_wire.NotAPacket for cause in Cause},
        }
        for status, kind in kinds.items():
            with self.assertRaises(kind) as raised:
                _errors.check(status)
            self.assertIs(type(raised.exception), kind)
            self.assertEqual(str(raised.exception), status.text)
            stored = pickle.loads(pickle.dumps(raised.exception))
            self.assertEqual((type(stored), str(stored)), (kind, status.text))
            self.assertEqual((stored.status, isinstance(stored, ValueError)), (status, True))
        _errors.check(Status.OK)

    def test_each_public_name_is_in_all(self) -> None:
        names = {name for name in vars(rtp_wire) if not name.startswith("_")}
        self.assertEqual((set(rtp_wire.__all__), len(rtp_wire.__all__)), (names, len(names)))

    def test_the_version(self) -> None:
        # PEP 440 has 1.1.0.dev0 for what the header file calls 1.1.0-dev
        (numbers, is_dev) = re.findall(r'#define RTPW_VERSION "([0-9]+\.[0-9]+\.[0-9]+)(-dev)?"', TEXT)[0]
        version = f"{numbers}.dev0" if is_dev else numbers
        self.assertEqual([rtp_wire.__version__, metadata.version("rtp_wire")], [version] * 2)


if __name__ == "__main__":
    unittest.main()
