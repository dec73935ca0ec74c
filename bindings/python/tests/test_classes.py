"""What each class and function is: the fields of a value, whether it is hashed and may be changed, the parameters of
each call with their defaults, what an exception is caught by, and how many bytes a struct has. Expected values are
worked out by hand from what the documentation says, from rtp_wire.h, and from CPython's object.h."""

import collections.abc
import copy
import ctypes
import dataclasses
import enum
import inspect
import pickle
import threading
import unittest
from pathlib import Path
from typing import Any, Dict, List, Tuple

import rtp_wire
from rtp_wire import (
    BadField,
    Cause,
    Element,
    Form,
    Header,
    Kind,
    Layer,
    Layers,
    Map,
    NewIds,
    NoElement,
    NotAPacket,
    OtherForm,
    OwnUris,
    Packet,
    Receiver,
    Resolution,
    ReceptionReport,
    ReceptionStatistics,
    RestartingReceiver,
    RtpError,
    ShortBuffer,
    Status,
    Taken,
    Time,
    Values,
    VideoTiming,
    WideReceiver,
    _buffers,
    _column,
    _errors,
    _library,
    _loaded,
)

PLAIN = bytes.fromhex("80210005 000000A0 0000002C")
MID = "urn:ietf:params:rtp-hdrext:sdes:mid"

VALUES = (
    *("mid", "rid", "repaired_rid", "audio_level", "voice_activity", "send_time", "transport_number"),
    *("video_orientation", "capture_time", "capture_offset", "transmission_offset", "playout_delay_min"),
    *("playout_delay_max", "video_content_type", "video_timing", "frame_marking", "layers"),
)
HEADER = (
    *("payload_type", "sequence_number", "timestamp", "ssrc", "csrc", "marker", "has_padding", "has_extension"),
    *("values", "header_len"),
)
FIELDS: Dict[Any, Tuple[str, ...]] = {
    Header: HEADER,
    Values: VALUES,
    Layers: ("streams", "current"),
    Layer: ("kbps", "resolution"),
    Resolution: ("width", "height", "framerate"),
    Time: ("ticks", "hertz"),
    VideoTiming: ("encode_start", "encode_finish", "packetize_complete", "last_left_pacer", "flags"),
    Element: ("id", "data"),
    Taken: ("number", "restarted"),
    rtp_wire.Route: (
        *("data", "payload_type", "sequence_number", "timestamp", "ssrc", "marker", "original_number"),
        "clears_padding",
    ),
    rtp_wire.FrameMarking: ("start", "end", "independent", "discardable", "layers"),
    rtp_wire.FrameLayers: ("base_layer_sync", "temporal_id", "layer_id", "tl0_pic_idx"),
    rtp_wire.Orientation: ("camera", "flip", "turn"),
    rtp_wire.Timing: (
        *("encode_start", "encode_finish", "packetize_complete", "last_left_pacer", "network", "network2"),
        "flags",
    ),
    rtp_wire.TransportNumber: ("number", "request"),
    rtp_wire.FeedbackRequest: ("timestamps", "packets"),
    rtp_wire.Chromaticity: ("x", "y"),
    rtp_wire.HdrMetadata: (
        *("luminance_max", "luminance_min", "red", "green", "blue", "white", "max_content_light_level"),
        "max_frame_average_light_level",
    ),
    rtp_wire.ColorSpace: ("primaries", "transfer", "matrix", "range", "horizontal", "vertical", "hdr"),
    rtp_wire.DependencyDescriptor: ("start_of_frame", "end_of_frame", "template_id", "frame_number"),
}
# The parameters of each call, as inspect tells them but for the types.
CALLS: Dict[Any, str] = {
    rtp_wire.is_rtcp: "(datagram)",
    rtp_wire.elements: "(body, form)",
    rtp_wire.put_element: "(buffer, length, id, data, allowed=None)",
    rtp_wire.add_element: "(buffer, length, id, data, allowed=None)",
    rtp_wire.change_form: "(buffer, length, form)",
    rtp_wire.put_block: "(buffer, length, profile, body)",
    rtp_wire.remove_block: "(datagram)",
    rtp_wire.compact: "(datagram)",
    rtp_wire.write_elements: "(elements, form)",
    rtp_wire.structured_array: (
        "(buffer, at, lengths, map=None, values=(), receivers=None, rollover_count=1)"
    ),
    rtp_wire.Group: "(ids, elements=(), allowed=None)",
    rtp_wire.HeaderTemplate: "(datagram, ids, elements=(), allowed=None)",
    rtp_wire.HeaderTemplate.from_group: "(datagram, group)",
    rtp_wire.HeaderTemplate.write: "(self, routes)",
    rtp_wire.HeaderTemplate.write_into: "(self, buffer, routes)",
    rtp_wire.pad: "(datagram, header_len, pad_len, block_size=1)",
    rtp_wire.read_original: "(payload)",
    rtp_wire.write_original: "(payload, number)",
    rtp_wire.to_retransmission: "(buf, length, ssrc, payload_type, number, ids)",
    rtp_wire.from_retransmission: "(buf, length, ssrc, payload_type, ids)",
    rtp_wire.extend_u8: "(previous, number)",
    rtp_wire.extend_u15: "(previous, number)",
    rtp_wire.extend_u16: "(previous, number)",
    rtp_wire.extend_u32: "(previous, number)",
    Packet.parse: "(datagram, map=None)",
    Packet.set_csrc: "(self, index, source)",
    Packet.set_fields: "(self, *, payload_type=None, sequence_number=None, timestamp=None, ssrc=None, marker=None)",
    Packet.remove_padding: "(self)",
    Packet.elements: "(self)",
    Packet.element: "(self, id)",
    Packet.set_element: "(self, id, data)",
    Packet.remove_element: "(self, id)",
    Packet.renumber: "(self, ids)",
    Header.parse: "(datagram, map=None)",
    Header.wire_len: "(self, map)",
    Header.write: "(self, map)",
    Header.write_to: "(self, buf, map)",
    Header.write_with: "(self, elements, form=None)",
    Values.read: "(body, form, map)",
    Values.data_of: "(self, kind)",
    Kind.from_uri: "(uri)",
    Map: "(kinds=())",
    Map.standard: "()",
    Map.from_uris: "(uris, own=None)",
    OwnUris: "(uris=())",
    OwnUris.kind_of: "(self, uri)",
    Map.id_of: "(self, kind)",
    NewIds: "(ids=())",
    NewIds.between: "(sender, receiver)",
    NewIds.to_retransmission: "(map)",
    NewIds.from_retransmission: "(map)",
    Receiver: "(rollover_count)",
    WideReceiver: "(words, rollover_count)",
    RestartingReceiver: "(max_dropout=3000, min_sequential=1, max_misorder=None, words=16)",
    Receiver.standing_of: "(self, number)",
    RestartingReceiver.number_of: "(self, sequence_number)",
    RestartingReceiver.standing_of: "(self, number)",
    ReceptionStatistics: "()",
    ReceptionStatistics.record: "(self, number, timestamp, arrival)",
    ReceptionReport.block: "(self, ssrc, last_report=0, delay=0)",
    Receiver.record: "(self, number)",
    Receiver.receive: "(self, sequence_number)",
    Layer: "(kbps, resolution)",
    Layers: "(streams, current)",
    Element: "(id, data)",
    Taken: "(number, restarted)",
    Time: "(ticks, hertz)",
    RtpError: "(status, text=None)",
    rtp_wire.FrameMarking: "(start, end, independent, discardable, layers=None)",
    rtp_wire.FrameLayers: "(base_layer_sync, temporal_id, layer_id, tl0_pic_idx=None)",
    rtp_wire.Orientation: "(camera, flip, turn)",
    rtp_wire.TransportNumber: "(number, request=None)",
    rtp_wire.ColorSpace: "(primaries, transfer, matrix, range, horizontal, vertical, hdr=None)",
    rtp_wire.DependencyDescriptor: "(start_of_frame, end_of_frame, template_id, frame_number)",
    rtp_wire.FrameMarking.from_data: "(data)",
    rtp_wire.ColorSpace.to_data: "(self)",
    rtp_wire.read_transmission_offset: "(data)",
    rtp_wire.transmission_offset_data: "(ticks)",
    rtp_wire.read_token: "(data)",
    rtp_wire.read_mixer_level: "(data, csrc_count, index)",
    rtp_wire.mixer_levels_data: "(levels)",
    rtp_wire.read_ntp_64: "(data)",
    rtp_wire.ntp_56_data: "(time)",
    rtp_wire.extend_ntp_56: "(near, low)",
    rtp_wire.read_send_time: "(data)",
    rtp_wire.send_time_data: "(units)",
    rtp_wire.extend_send_time: "(near, units)",
    rtp_wire.is_stream_id: "(text)",
    rtp_wire.Columns.unpadded_payload: "(self, row)",
    rtp_wire.Columns.differences: "(self, verdicts)",
    rtp_wire.has_dependency_structure: "(data)",
    Packet.token: "(self, id)",
    Kind.keeps: "(self, text)",
}


def untyped(call: Any) -> str:
    parameters = inspect.signature(call).parameters.values()
    bare = [it.replace(annotation=inspect.Parameter.empty) for it in parameters]
    return str(inspect.Signature(bare))


class Fields(unittest.TestCase):
    LAYER = Layer((5, 6), Resolution(640, 360, 30))
    LAYERS = Layers(((LAYER,), (Layer((), None),)), 1)

    def test_each_value_has_its_fields_in_order(self) -> None:
        for kind, names in FIELDS.items():
            is_tuple = issubclass(kind, tuple)
            found = kind._fields if is_tuple else tuple(it.name for it in dataclasses.fields(kind))
            self.assertEqual(found, names)
            made = kind(*range(len(names)))
            self.assertEqual([getattr(made, name) for name in names], list(range(len(names))))
            self.assertEqual(made, kind(**dict(zip(names, range(len(names))))))
            if is_tuple:
                self.assertEqual((made, tuple(made)), (tuple(range(len(names))), made))
                self.assertRaises(AttributeError, setattr, made, names[0], 7)
        self.assertEqual(untyped(rtp_wire.Route)[:30], "(data=b'', payload_type=None, ")
        self.assertEqual(untyped(Header)[:40], "(payload_type=0, sequence_number=0, time")
        self.assertEqual(untyped(Values), f"({', '.join(f'{name}=None' for name in VALUES)})")

    def test_those_that_are_frozen(self) -> None:
        for value, same, other in (
            (self.LAYER, Layer((5, 6), Resolution(640, 360, 30)), Layer((5, 6), None)),
            (self.LAYERS, copy.deepcopy(self.LAYERS), dataclasses.replace(self.LAYERS, current=0)),
        ):
            self.assertEqual((value, hash(value), len({value, same, other})), (same, hash(same), 2))
            self.assertEqual({value: 7}[same], 7)
            for name in FIELDS[type(value)]:
                self.assertRaises(dataclasses.FrozenInstanceError, setattr, value, name, 3)
                self.assertRaises(dataclasses.FrozenInstanceError, delattr, value, name)
            self.assertEqual((value, pickle.loads(pickle.dumps(value))), (same, same))
        self.assertEqual(repr(Layers(((Layer((5,), None),),), 0)), self.TOLD)

    TOLD = "Layers(streams=((Layer(kbps=(5,), resolution=None),),), current=0)"

    def test_those_that_may_be_changed(self) -> None:
        for value in (Header(), Values()):
            self.assertRaises(TypeError, hash, value)
            for name in FIELDS[type(value)]:
                other: Any = copy.copy(value)
                setattr(other, name, 7)
                self.assertEqual((getattr(other, name), other == value), (7, name == "header_len"))
            self.assertRaises(TypeError, lambda: value < value)  # type: ignore[operator]
        told = "Header(payload_type=0, sequence_number=5, timestamp=0, ssrc=0, csrc=(1,), marker=False,"
        told += " has_padding=False, has_extension=True, values=Values(mid='a'), header_len=3)"
        header = Header(sequence_number=5, csrc=(1,), has_extension=True, values=Values(mid="a"), header_len=3)
        self.assertEqual(repr(header), told)

    def test_a_misspelled_name_cannot_be_set(self) -> None:
        value: Any
        wrong_names = (Header(), "seqence_number"), (Header.parse(PLAIN), "seqence_number"), (Values(), "audio_levle")
        for value, name in wrong_names:
            for wrong in (name, "extra", "__dict__"):
                self.assertRaises(AttributeError, setattr, value, wrong, 5)
                self.assertNotIn(wrong, vars(value))
            for same in copies_of(value):
                self.assertEqual((same, type(same), list(vars(same))), (value, type(value), [*FIELDS[type(value)]]))
                self.assertRaises(AttributeError, setattr, same, name, 5)
        with self.assertRaises(AttributeError):
            Header().values.audio_levle = 5  # type: ignore[attr-defined]

        class Own(Header):  # a class of one's own may have attributes of its own
            extra = 0

        own: Any = Own.parse(PLAIN)
        own.extra = 5
        self.assertEqual((type(own), own.extra, own.ssrc), (Own, 5, Header.parse(PLAIN).ssrc))

    def test_values_of_a_packet_cannot_be_set(self) -> None:
        level = bytearray.fromhex("90000000 00000000 00000000 BEDE0001 108A0000")
        allocation = rtp_wire.Layers(((Layer((5,), None),),), 0)
        layered = Header(values=Values(layers=allocation)).write_all(Map({1: Kind.LAYERS}))
        for datagram, kind, wanted in (
            (level, Kind.AUDIO_LEVEL, Values(audio_level=-10, voice_activity=True)),
            (layered, Kind.LAYERS, Values(layers=allocation)),
            (level, Kind.MID, Values()),
        ):
            packet = Packet.parse(datagram, Map({1: kind}))
            values: Any = packet.values
            self.assertEqual((values == wanted, wanted == values, isinstance(values, Values)), (True, True, True))
            self.assertEqual((repr(values), vars(values)), (repr(wanted), vars(wanted)))
            for name in ("audio_level", "audio_levle", "layers", "__dict__"):
                self.assertRaises(AttributeError, setattr, values, name, -3)
            self.assertEqual(packet.values, wanted)
            for other in copies_of(values):
                self.assertEqual((other, type(other)), (wanted, Values))
                other.audio_level = -3
                self.assertEqual((other.audio_level, packet.values), (-3, wanted))
            self.assertEqual(dataclasses.asdict(values), dataclasses.asdict(wanted))
        packet = Packet.parse(level, Map({1: Kind.AUDIO_LEVEL}))
        packet.set_element(1, dataclasses.replace(packet.values, audio_level=-3).data_of(Kind.AUDIO_LEVEL))
        self.assertEqual(packet.values, Values(audio_level=-3, voice_activity=True))

    def test_what_is_not_there_cannot_be_set(self) -> None:
        packet = Packet.parse(bytearray(PLAIN))
        states = (Receiver(0), WideReceiver(16, 1), RestartingReceiver())
        value: Any
        for value in (packet, Map(), NewIds(), rtp_wire.Group(NewIds()), ReceptionStatistics(), *states):
            self.assertFalse(hasattr(value, "__dict__"), type(value))
            self.assertRaises(AttributeError, setattr, value, "sequence_numer", 5)
        for name in ("csrc", "form", "block_profile", "body", "payload", "header_len", "header_bytes", "values"):
            self.assertRaises(AttributeError, setattr, packet, name, 5)
        self.assertRaises(AttributeError, setattr, packet, "unpadded_payload", b"")
        for state in states:
            self.assertRaises(AttributeError, setattr, state, "highest", 5)
        with self.assertRaises(AttributeError):
            Time(1, 2).seconds = 5.0  # type: ignore[misc]


def copies_of(value: Any) -> List[Any]:
    stored = pickle.loads(pickle.dumps(value))
    return [copy.copy(value), copy.deepcopy(value), stored, dataclasses.replace(value)]


class Calls(unittest.TestCase):
    def test_each_has_its_parameters(self) -> None:
        for call, parameters in CALLS.items():
            self.assertEqual(untyped(call), parameters, call)
        for name in ("accepts", "number_of", "receive", "record"):
            told = [untyped(getattr(kind, name)) for kind in (Receiver, WideReceiver)]
            self.assertEqual(told[0], told[1], name)

    def test_what_returns_nothing(self) -> None:
        packet = Packet.parse(bytearray(bytes.fromhex("91210005 000000A0 0000002C 00000009 BEDE0001 10AA0000")))
        calls: Any = [
            lambda: packet.set_csrc(0, 5),
            lambda: packet.set_fields(ssrc=1),
            lambda: packet.set_element(1, b"a"),
            lambda: packet.renumber(NewIds({1: 2})),
            lambda: packet.remove_element(2),
            lambda: Receiver(0).record(5),
            lambda: rtp_wire.write_original(bytearray(2), 5),
        ]
        for call in calls:
            self.assertIsNone(call())

    def test_subclasses_make_themselves(self) -> None:
        class OwnMap(Map):
            pass

        class OwnIds(NewIds):
            pass

        class OwnPacket(Packet):
            pass

        class OwnHeader(Header):
            pass

        class OwnReceiver(Receiver):
            pass

        maps = [OwnMap.standard(), OwnMap.from_uris({4: MID})]
        ids = [OwnIds.between(*maps), OwnIds.to_retransmission(maps[0]), OwnIds.from_retransmission(maps[0])]
        self.assertEqual({type(it) for it in maps}, {OwnMap})
        self.assertEqual({type(it) for it in ids}, {OwnIds})
        self.assertEqual((type(OwnPacket.parse(PLAIN)), type(OwnHeader.parse(PLAIN))), (OwnPacket, OwnHeader))
        self.assertEqual((repr(maps[1]), repr(OwnIds({1: 2}))), ("OwnMap({4: <Kind.MID: 12>})", "OwnIds({1: 2})"))
        self.assertEqual(type(copy.copy(OwnReceiver(5))), OwnReceiver)
        # a state of another class is another one, whichever of the two stands first
        self.assertFalse(Receiver(0) == OwnReceiver(0) or OwnReceiver(0) == Receiver(0))
        self.assertTrue(OwnReceiver(2) == OwnReceiver(2) and OwnReceiver(2) != OwnReceiver(3))

    def test_each_makes_one_of_its_own(self) -> None:
        # one for each call, which doesn't follow what it was made of
        map = Map({1: Kind.RID, 2: Kind.REPAIRED_RID, 4: Kind.MID})
        makes: Any = [
            Map.standard,
            lambda: Map.from_uris({4: MID}),
            lambda: NewIds.between(map, map),
            lambda: NewIds.to_retransmission(map),
            lambda: NewIds.from_retransmission(map),
            lambda: Map(map),
            lambda: copy.copy(Packet.parse(PLAIN).values),
            lambda: Header.parse(PLAIN).values,
            lambda: Header().values,
        ]
        for make in makes:
            one, other = make(), make()
            self.assertEqual(one, other)
            if isinstance(one, Values):
                one.mid = "a"
            else:
                del one[4]
            self.assertNotEqual(one, other)
            self.assertEqual(make(), other)
        ids = NewIds.between(map, map)
        map.clear()
        self.assertEqual((ids, NewIds.between(map, map)), (NewIds({1: 1, 2: 2, 4: 4}), NewIds()))

    def test_iterations_are_apart(self) -> None:
        body = b"\x10\xAA\x21\xBB\xCC\x30\xDD"
        wanted = [(1, b"\xAA"), (2, b"\xBB\xCC"), (3, b"\xDD")]
        first, second = rtp_wire.elements(body, 1), rtp_wire.elements(body, 1)
        self.assertEqual(next(first).id, 1)
        self.assertEqual([(it.id, bytes(it.data)) for it in second], wanted)
        self.assertEqual([(it.id, bytes(it.data)) for it in first], wanted[1:])
        packet = Packet.parse(b"\x90" + PLAIN[1:] + b"\xBE\xDE\0\2" + body + b"\0")
        pairs = zip(packet.elements(), packet.elements())
        self.assertEqual([(one.id, bytes(other.data)) for one, other in pairs], wanted)
        # and so are packets, headers and states that live side by side
        map = Map({1: Kind.AUDIO_LEVEL, 3: Kind.VIDEO_CONTENT_TYPE})
        packet, header = Packet.parse(bytes(packet), map), Header.parse(bytes(packet), map)
        states: Any = [Receiver(0), WideReceiver(16, 1), RestartingReceiver()]
        others: Any = [Receiver(0), WideReceiver(16, 1), RestartingReceiver()]
        plain, short = Packet.parse(b"\x80" + bytes(11)), Header.parse(b"\x80" + bytes(11))
        for state in others:
            state.receive(9)
        self.assertEqual((packet.ssrc, packet.body, header.ssrc, header.header_len), (44, body + b"\0", 44, 24))
        self.assertEqual((plain.ssrc, plain.body, short.ssrc, short.header_len), (0, b"", 0, 12))
        said = Values(audio_level=-0x2A, voice_activity=True, video_content_type=0xDD)
        self.assertEqual((packet.values, header.values, plain.values, short.values), (said, said, Values(), Values()))
        self.assertEqual([it.highest for it in states], [None] * 3)

    def test_what_is_said_of_what_is_refused(self) -> None:
        table: Any
        for table in (Map(), NewIds()):
            for id in (9, 0, 256):
                for call in (table.__getitem__, table.__delitem__):
                    with self.assertRaises(KeyError) as raised:
                        call(id)
                    self.assertEqual(raised.exception.args, (id,))
        with self.assertRaises(TypeError) as refused:
            Packet()
        self.assertEqual(str(refused.exception), "a packet is read by Packet.parse")
        with self.assertRaises(NotAPacket) as cut:
            Packet.parse(PLAIN[:11])
        self.assertEqual(str(cut.exception), "fewer than twelve bytes")
        with self.assertRaises(BadField) as bad:
            Map({5: 21})  # type: ignore[arg-type]
        self.assertEqual(str(bad.exception), "a kind is 21, and not 1 to 20 or 128 to 255")

    def test_what_they_are(self) -> None:
        for kind in (Map, NewIds):
            self.assertTrue(issubclass(kind, collections.abc.MutableMapping))
        for numbers in (Status, Cause, Kind, Form):
            self.assertTrue(issubclass(numbers, enum.IntEnum))
        self.assertEqual([int(it) for it in Form], [0, 1, 2, 3])
        self.assertEqual([it.name for it in Form], ["NONE", "ONE_BYTE", "TWO_BYTE", "OTHER"])
        for iterator in (rtp_wire.elements(b"", 1), Packet.parse(PLAIN).elements(), iter(Map())):
            self.assertIsInstance(iterator, collections.abc.Iterator)
            self.assertEqual(list(iterator), [])
        table: Any
        for table in (Map(), NewIds()):
            self.assertRaises(TypeError, hash, table)

    def test_exceptions_are_caught_by_their_bases(self) -> None:
        bases = {it: it.__bases__ for it in (RtpError, NotAPacket, OtherForm, BadField, ShortBuffer, NoElement)}
        one = (RtpError,)
        self.assertEqual(bases[RtpError], (ValueError,))
        self.assertEqual([bases[it] for it in (NotAPacket, OtherForm, BadField, ShortBuffer)], [one] * 4)
        self.assertEqual(bases[NoElement], (RtpError, LookupError))
        for kind in (rtp_wire.BadId, rtp_wire.FormNotAllowed, rtp_wire.LongBlock):
            self.assertEqual(kind.__bases__, (BadField,))
        self.assertEqual(rtp_wire.LongId.__bases__, (rtp_wire.FormNotAllowed,))
        for status in Status:
            error = _errors.error_of(int(status))
            self.assertEqual((str(error), error.args, error.status), (status.text, (status.text,), status))
        self.assertIs(type(_errors.error_of(Status.RESTARTED)), RtpError)
        self.assertEqual(str(BadField(Status.BAD_FIELD, "ssrc is 7")), "ssrc is 7")
        for cause in Cause:
            self.assertIs(NotAPacket(Status(cause)).cause, cause)
        self.assertRaises(ValueError, _errors.error_of, 7)

    def test_a_uri_is_all_of_its_letters(self) -> None:
        # of a letter outside of ASCII, which is no letter of a URI, nothing is passed over
        level = "urn:ietf:params:rtp-hdrext:ssrc-audio-level"
        for letter in ("\xE9", "\u0131", "\u200b", "\U0001F600", "\0", "?", "a"):
            for uri in (MID + letter, letter + MID, MID[:7] + letter + MID[7:], MID[:-1] + letter):
                self.assertIs(Kind.from_uri(uri), Kind.NONE, repr(uri))
                own = OwnUris()
                map = Map.from_uris({4: uri, 5: level}, own)
                self.assertEqual((map, list(own)), (Map({4: Kind(255), 5: Kind.AUDIO_LEVEL}), [uri]))
        self.assertIs(Kind.from_uri(MID), Kind.MID)
        self.assertIs(Kind.from_uri("urn:\u0131etf:params:rtp-hdrext:sdes:mid"), Kind.NONE)
        for other, told in ((5, "int"), (None, "NoneType"), (b"urn:x", "bytes")):
            with self.assertRaisesRegex(TypeError, f"^a URI is {told}, and not str$"):
                Kind.from_uri(other)  # type: ignore[arg-type]
        # of an id the last URI counts
        self.assertEqual(Map.from_uris([(4, MID), (4, level)]), Map({4: Kind.AUDIO_LEVEL}))


# Each struct's size, as rtp_wire.h tells it where it tells it, and where its fields lie.
SIZES = {
    _library.RawPacket: 64,
    _library.RawFields: 20,
    _library.RawElement: 32,
    _library.RawMap: 256,
    _library.RawNewIds: 256,
    _library.RawTime: 16,
    _library.RawValues: 136,
    _library.RawHeader: 224,
    _library.RawDatagram: 88,
    _library.RawArrival: 24,
    _library.RawTemplate: 88,
    _library.RawGroup: 550,
    _library.RawRoutedHeader: 48,
    _column.RawColumn: 32,
    _library.RawLayer: 40,
    _library.RawStream: 168,
    _library.RawLayers: 680,
    _library.RawReceiver: 32,
    _library.RawWideReceiver: 16,
    _library.RawWideRestartingReceiver: 24,
    _library.RawReception: 56,
    _library.RawReport: 16,
    _library.RawFrameMarking: 10,
    _library.RawOrientation: 4,
    _library.RawTiming: 14,
    _library.RawTransportNumber: 6,
    _library.RawChromaticity: 4,
    _library.RawHdrMetadata: 24,
    _library.RawColorSpace: 32,
    _library.RawDependencyDescriptor: 6,
    _library.RawWholePacket: 256,
    _library.RawWholeDatagram: 280,
}
SMALL = {
    _library.RawReport: 4,
    _library.RawFields: 4,
    _library.RawTemplate: 4,
    _library.RawGroup: 2,
    _library.RawMap: 1,
    _library.RawNewIds: 1,
    _library.RawFrameMarking: 1,
    _library.RawOrientation: 2,
    _library.RawTiming: 2,
    _library.RawTransportNumber: 2,
    _library.RawChromaticity: 2,
    _library.RawHdrMetadata: 2,
    _library.RawColorSpace: 2,
    _library.RawDependencyDescriptor: 2,
}


class Structs(unittest.TestCase):
    def test_each_has_its_size(self) -> None:
        named = [*vars(_library).values(), _column.RawColumn]
        kinds = {it for it in named if isinstance(it, type) and issubclass(it, ctypes.Structure)}
        self.assertEqual(kinds - {ctypes.Structure}, SIZES.keys())
        for kind, size in SIZES.items():
            self.assertEqual((ctypes.sizeof(kind), ctypes.alignment(kind)), (size, SMALL.get(kind, 8)), kind)

    def test_a_buffer_of_the_interpreter(self) -> None:
        # three of size_t or a pointer, a size_t, two ints, and five pointers: what lies behind them isn't ours
        places = {"buf": 0, "obj": 8, "len": 16, "itemsize": 24, "readonly": 32, "ndim": 36, "format": 40, "shape": 48}
        places.update({"strides": 56, "suboffsets": 64, "internal": 72})
        raw = _buffers._PyBuffer
        self.assertEqual({name: getattr(raw, name).offset for name, *_ in raw._fields_}, places)
        self.assertEqual((ctypes.sizeof(raw), ctypes.alignment(raw)), (80, 8))

    def test_a_view_has_no_export_afterwards(self) -> None:
        datagram = bytearray(PLAIN)
        view = memoryview(datagram).toreadonly()
        at = _buffers.address_of(view)
        self.assertEqual(at, ctypes.addressof(ctypes.c_char.from_buffer(datagram)))
        view.release()
        datagram.append(0)

    def test_the_call_for_a_whole_packet(self) -> None:
        made = _loaded.FUNCTIONS["rtpw_read"]
        given = [ctypes.c_void_p, ctypes.c_size_t]
        given += [ctypes.POINTER(_library.RawMap), ctypes.POINTER(_library.RawWholePacket)]
        self.assertEqual((made.restype, list(made.argtypes)), (ctypes.c_int32, given))
        self.assertIs(_library.read, made)
        for name, function in _loaded.FUNCTIONS.items():
            if name.startswith("rtpw_"):
                self.assertIs(getattr(_library, name.replace("rtpw_", "", 1)), function)

    def test_the_package_is_typed(self) -> None:
        self.assertTrue(Path(rtp_wire.__file__).with_name("py.typed").is_file())

    def test_values_are_read_side_by_side(self) -> None:
        # threads that read packets of other values don't see those of each other
        map = Map({1: Kind.TRANSPORT_NUMBER, 2: Kind.MID})
        wrong = []

        def read(number: int) -> None:
            values = Values(transport_number=number, mid=str(number)) if number % 2 else Values(mid="a")
            datagram = Header(has_extension=True, values=values).write(map)
            for _ in range(200):
                if Packet.parse(datagram, map).values != values or Header.parse(datagram, map).values != values:
                    wrong.append(number)

        threads = [threading.Thread(target=read, args=(it,)) for it in range(4)]
        for thread in threads:
            thread.start()
        for thread in threads:
            thread.join()
        self.assertEqual(wrong, [])


if __name__ == "__main__":
    unittest.main()
