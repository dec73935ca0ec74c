"""Headers and elements that are written, maps and new ids. Expected values are worked out by hand from RFC 3550, 5.1
and RFC 8285, 4.2 and 4.3."""

import copy
import pickle
import unittest
from types import SimpleNamespace
from typing import Any, Callable

from rtp_wire import (
    BadField,
    Form,
    Header,
    Kind,
    Layers,
    LeftOut,
    Map,
    NewIds,
    ShortBuffer,
    Time,
    Values,
    put_element,
    write_elements,
)

MID = "urn:ietf:params:rtp-hdrext:sdes:mid"
# Of the kinds from Kind.MIXER_LEVELS to Kind.NTP_56.
URIS = [
    "urn:ietf:params:rtp-hdrext:csrc-audio-level",
    "http://www.webrtc.org/experiments/rtp-hdrext/transport-wide-cc-02",
    "https://aomediacodec.github.io/av1-rtp-spec/#dependency-descriptor-rtp-header-extension",
    "urn:ietf:params:rtp-hdrext:ntp-64",
    "urn:ietf:params:rtp-hdrext:ntp-56",
]


class Headers(unittest.TestCase):
    HEADER = Header(33, 47000, 10000, 44, (1, 2), True, True, True, Values(mid="1"))
    WRITTEN = bytes.fromhex("B2A1B798 00002710 0000002C 00000001 00000002 BEDE0001 30310000")
    MAP = Map({3: Kind.MID})

    def test_headers_are_written_and_read(self) -> None:
        self.assertEqual(self.HEADER.write(self.MAP), self.WRITTEN)
        self.assertEqual(self.HEADER.wire_len(self.MAP), 28)
        buf = bytearray(b"\xEE" * 30)
        self.assertEqual(self.HEADER.write_to(buf, self.MAP), 28)
        self.assertEqual(buf, self.WRITTEN + b"\xEE\xEE")
        read = Header.parse(buf, self.MAP)
        self.assertEqual((read, read.header_len), (self.HEADER, 28))
        self.assertEqual(Header().write(self.MAP), bytes.fromhex("80") + bytes(11))
        without = Header(has_extension=False, values=Values(mid="1"))
        self.assertEqual(without.write(self.MAP), bytes.fromhex("80") + bytes(11))
        self.assertEqual(
            Header(has_extension=True).write(Map()),
            bytes.fromhex("90") + bytes(11) + bytes.fromhex("BEDE0000"),
        )

    def test_a_block_is_there_where_a_value_is(self) -> None:
        self.assertIs(Header(values=Values(mid="1")).has_extension, True)
        self.assertIs(Header(values=Values(layers=Layers((), 0))).has_extension, True)
        self.assertIs(Header(values=Values()).has_extension, False)
        self.assertIs(Header(has_extension=True).has_extension, True)
        self.assertIs(Header.parse(bytes.fromhex("80") + bytes(11)).has_extension, False)

    def test_what_is_left_out_is_told_or_refused(self) -> None:
        map = Map({1: Kind.AUDIO_LEVEL, 2: Kind.PLAYOUT_DELAY, 200: Kind.VIDEO_ORIENTATION, 5: Kind(130)})
        values = Values(mid="a", audio_level=-42, playout_delay_max=Time(5, 100), video_orientation=90)
        header, left = Header(values=values), {Kind.AUDIO_LEVEL, Kind.PLAYOUT_DELAY, Kind.MID}
        self.assertEqual(header.left_out(map), left)
        buf = bytearray(b"\xEE" * 40)
        write: Any
        for write in (lambda: header.write_all(map), lambda: header.write_all_to(buf, map)):
            with self.assertRaises(LeftOut) as caught:
                write()
            self.assertEqual(caught.exception.kinds, left)
            self.assertEqual(str(caught.exception), "values that no element carries: AUDIO_LEVEL, PLAYOUT_DELAY, MID")
            made = pickle.loads(pickle.dumps(caught.exception))
            self.assertEqual((type(made), made.kinds, str(made)), (LeftOut, left, str(caught.exception)))
        self.assertEqual(buf, b"\xEE" * 40)
        block = bytes.fromhex("10000001 C8010300")
        self.assertEqual(header.write(map)[12:], block)
        header.values = Values(video_orientation=90)
        self.assertEqual((header.left_out(map), header.write_all(map)[12:]), (frozenset(), block))
        self.assertEqual((header.write_all_to(buf, map), bytes(buf[12:20])), (20, block))
        with self.assertRaises(ShortBuffer):
            header.write_all_to(bytearray(19), map)
        header.has_extension = False
        self.assertEqual(header.left_out(map), {Kind.VIDEO_ORIENTATION})
        header.values = Values(layers=Layers((), 0), capture_offset=1)
        self.assertEqual(header.left_out(map), {Kind.LAYERS, Kind.ABS_CAPTURE_TIME})
        header.values, header.has_extension = Values(layers=Layers((), 0)), True
        self.assertEqual(header.write_all(Map({5: Kind.LAYERS}))[12:].hex(), "1000000105010000")
        header.payload_type = 128
        with self.assertRaises(BadField):
            header.left_out(map)

    def test_what_cannot_be_written(self) -> None:
        buf = bytearray(27)
        with self.assertRaises(ShortBuffer):
            self.HEADER.write_to(buf, self.MAP)
        self.assertEqual(buf, bytes(27))
        for buffer in (b"", bytes(30), memoryview(bytes(30))):
            with self.assertRaises(TypeError):
                self.HEADER.write_to(buffer, self.MAP)  # type: ignore[arg-type]
        rows = [
            Header(payload_type=128),
            Header(sequence_number=65536),
            Header(timestamp=-1),
            Header(ssrc=1 << 32),
            Header(csrc=(1,) * 16),
            Header(csrc=(1 << 32,)),
        ]
        for header in rows:
            with self.assertRaises(BadField):
                header.write(self.MAP)
            with self.assertRaises(BadField):
                header.write_with([])

    def test_what_is_wrong_is_named(self) -> None:
        packet = bytearray(self.WRITTEN + bytes(4))
        two_bytes = bytearray(bytes.fromhex("90") + bytes(11) + bytes.fromhex("1000 0000") + bytes(8))
        rows: list[tuple[Callable[[], object], str]] = [
            (lambda: Map({0: Kind.MID}), "an id is 0, and not 1 to 255"),
            (lambda: Map({256: Kind.MID}), "an id is 256, and not 1 to 255"),
            (lambda: Map({1: 21}), "a kind is 21, and not 1 to 20 or 128 to 255"),  # type: ignore[arg-type]
            (lambda: write_elements([(0, b"")], 2), "an id is 0, and not 1 to 255"),
            (lambda: write_elements([], 0), "a form is 0, and not 1 to 2"),
            (lambda: put_element(packet, 28, 0, b""), "id is 0, and not 1 to 255"),
            (lambda: put_element(packet, 33, 1, b""), "length is 33, and not 0 to 32"),
            (lambda: put_element(packet, 28, 1, bytes(256)), "the length of data is 256, and not 0 to 255"),
            (
                lambda: put_element(two_bytes, 16, 1, b"1", Form.ONE_BYTE),
                "a form of the extension block that isn't allowed",
            ),
            (lambda: self.told(mid="a-1"), "mid is 'a-1', and not up to 16 letters, digits and underscores"),
            (lambda: self.told(rid="9" * 9), "rid is '999999999', and not up to 8 letters, digits and underscores"),
            (lambda: self.told(video_orientation=91), "video_orientation is 91, and not 0, 90, 180 or 270"),
            (
                lambda: self.told(playout_delay_min=Time(1, 0)),
                "hertz of playout_delay_min is 0, and not 1 to 4294967295",
            ),
        ]
        for call, text in rows:
            with self.assertRaises(BadField) as caught:
                call()
            self.assertEqual(str(caught.exception), text)
        for map in ({3: Kind.MID}, b"", None):
            with self.assertRaisesRegex(TypeError, f"^a map is {type(map).__name__}, and not Map$"):
                self.HEADER.write(map)  # type: ignore[arg-type]
        with self.assertRaisesRegex(TypeError, "^a map is dict, and not Map$"):
            Header.parse(self.WRITTEN, {})  # type: ignore[arg-type]

    def told(self, **values: Any) -> bytes:
        return Header(values=Values(**values)).write(self.MAP)

    def test_elements_are_written(self) -> None:
        elements = [(1, b"\xAA"), (2, bytearray(b"\xBB\xCC"))]
        self.assertEqual(write_elements(elements, Form.ONE_BYTE).hex(), "10aa21bbcc")
        self.assertEqual(write_elements(elements, Form.TWO_BYTE).hex(), "0101aa0202bbcc")
        self.assertEqual(write_elements([], Form.TWO_BYTE), b"")
        fixed = bytes.fromhex("90") + bytes(11)
        self.assertEqual(Header().write_with(elements), fixed + bytes.fromhex("BEDE0002 10AA21BB CC000000"))
        self.assertEqual(
            Header().write_with([(15, b"\xAA"), *elements[1:]]),
            fixed + bytes.fromhex("10000002 0F01AA02 02BBCC00"),
        )
        for form, wanted in (
            (Form.ONE_BYTE, "BEDE0002 10AA21BB CC000000"),
            (Form.TWO_BYTE, "10000002 0101AA02 02BBCC00"),
            (Form.NONE, "BEDE0002 10AA21BB CC000000"),
            (None, "BEDE0002 10AA21BB CC000000"),
        ):
            self.assertEqual(Header().write_with(elements, form), fixed + bytes.fromhex(wanted))
        # its elements are those that are given, whatever the values are
        self.assertEqual(Header(values=Values(mid="-")).write_with([]), fixed + bytes.fromhex("BEDE0000"))
        with_sources = Header(csrc=tuple(range(15))).write_with([(255, bytes(255))])
        self.assertEqual(len(with_sources), 12 + 60 + 4 + 260)

    def test_elements_that_cannot_be_written(self) -> None:
        for elements in (
            [(0, b"\xAA")],
            [(256, b"\xAA")],
            [(-1, b"\xAA")],
            [(1, bytes(256))],
            [(1, bytes(255))] * 1021,
        ):
            with self.assertRaises(BadField):
                Header().write_with(elements)
        # 1,020 * 257 bytes are as many as a block can have
        self.assertEqual(len(Header().write_with([(1, bytes(255))] * 1020)), 16 + 262_140)
        for form, id, data in (
            (1, 15, b"a"),
            (1, 1, b""),
            (1, 1, bytes(17)),
            (0, 1, b"a"),
            (3, 1, b"a"),
            (256, 1, b"a"),
        ):
            with self.assertRaises(BadField):
                write_elements([(id, data)], form)
            if form != Form.NONE:
                with self.assertRaises(BadField):
                    Header().write_with([(id, data)], form)
        # None alone leaves the form open: what is false, but no whole number, is no form
        other: Any
        for other in ("", b"", 0.0, ()):
            with self.assertRaises(TypeError):
                Header().write_with([(1, b"a")], other)


class Maps(unittest.TestCase):
    def test_kinds_have_uris(self) -> None:
        self.assertEqual(Kind.from_uri(MID), Kind.MID)
        for uri in ("", MID.upper(), MID + " ", "urn:\xE9"):
            self.assertEqual(Kind.from_uri(uri), Kind.NONE)

    def test_maps(self) -> None:
        map = Map.from_uris({4: MID, 9: "urn:3gpp:video-orientation"})
        self.assertEqual(dict(map), {4: Kind.MID, 9: Kind.VIDEO_ORIENTATION})
        self.assertEqual(map, Map([(9, Kind.VIDEO_ORIENTATION), (4, Kind.MID)]))
        self.assertEqual(Map.from_uris([(4, MID)]), Map({4: Kind.MID}))
        map[255] = Kind.LAYERS
        self.assertEqual((map[255], len(map), 200 in map, map.get(7)), (Kind.LAYERS, 3, False, None))
        with self.assertRaisesRegex(BadField, "^a kind is 0, and not 1 to 20 or 128 to 255$"):
            map[255] = Kind.NONE
        self.assertIs(map[255], Kind.LAYERS)
        del map[9], map[255]
        self.assertEqual(list(map), [4])
        for id in (0, 9, 256, -1):
            with self.assertRaises(KeyError):
                map[id]
            with self.assertRaises(KeyError):
                del map[id]
        for id in (0, 256, -1):
            with self.assertRaises(BadField):
                map[id] = Kind.MID
            for uri in (MID, "urn:x"):
                with self.assertRaises(BadField):
                    Map.from_uris({id: uri})
        with self.assertRaises(BadField):
            map[1] = 21  # type: ignore[assignment]
        self.assertEqual(map, Map({4: Kind.MID}))
        self.assertEqual(repr(map), "Map({4: <Kind.MID: 12>})")

    def test_maps_of_what_other_packages_have(self) -> None:
        # RTCRtpHeaderExtensionParameters of aiortc have these attributes
        negotiated = [SimpleNamespace(id=4, uri=MID), SimpleNamespace(id=5, uri="urn:x")]
        map = Map.from_uris((it.id, it.uri) for it in negotiated)
        self.assertEqual((map[4], map[5] >= Kind.OWN, len(map)), (Kind.MID, True, 2))

    def test_each_kind_has_its_uri(self) -> None:
        for kind in list(Kind)[1:21]:
            self.assertEqual(Kind.from_uri(kind.uri or ""), kind)
        self.assertEqual([kind.uri for kind in list(Kind)[16:21]], URIS)
        self.assertEqual(Kind.MID.uri, MID)
        self.assertEqual((Kind.NONE.uri, Kind.OWN.uri, Kind(255).uri), (None, None, None))

    def test_the_usual_ids(self) -> None:
        usual = {
            1: "AUDIO_LEVEL",
            2: "ABS_SEND_TIME",
            3: "TRANSPORT_NUMBER",
            4: "MID",
            10: "RID",
            11: "REPAIRED_RID",
        }
        self.assertEqual(
            {id: kind.name for id, kind in Map.standard().items()}, {**usual, 13: "VIDEO_ORIENTATION"}
        )

    def test_new_ids(self) -> None:
        sender = Map({1: Kind.MID, 2: Kind.RID, 3: Kind.MID, 4: Kind.AUDIO_LEVEL})
        ids = NewIds.between(sender, Map({9: Kind.MID, 8: Kind.MID, 200: Kind.AUDIO_LEVEL}))
        self.assertEqual(dict(ids), {1: 8, 3: 8, 4: 200})
        ids[2] = 5
        del ids[3]
        self.assertEqual((ids, repr(ids)), (NewIds({1: 8, 2: 5, 4: 200}), "NewIds({1: 8, 2: 5, 4: 200})"))
        for id, new in ((0, 1), (256, 1), (1, 0), (1, 256)):
            with self.assertRaises(BadField):
                ids[id] = new
        with self.assertRaises(KeyError):
            ids[3]

    def test_maps_are_copied(self) -> None:
        for table in (Map.standard(), NewIds({1: 2})):
            for made in (copy.copy(table), copy.deepcopy(table), pickle.loads(pickle.dumps(table))):
                # a map and new ids of the same numbers are equal as mappings
                self.assertEqual((type(made), made), (type(table), table))
                made.clear()
                self.assertEqual((len(made), bool(table)), (0, True))


if __name__ == "__main__":
    unittest.main()
