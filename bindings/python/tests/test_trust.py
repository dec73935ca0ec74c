"""What C is told of memory is so, whatever class an object has and whatever was done with a column or a stored state:
how many bytes there are, how many numbers a column has, and how many words a window."""

import copy
import pickle
import unittest
from array import array
from typing import Any, Callable, Dict, List

import rtp_wire
from rtp_wire import (
    BadField,
    Columns,
    Form,
    Header,
    HeaderTemplate,
    Kind,
    Map,
    NewIds,
    NotAPacket,
    Packet,
    Receiver,
    ReceptionStatistics,
    RestartingReceiver,
    Route,
    RtpError,
    Taken,
    Values,
    WideReceiver,
)

# 96, 5, 100, 44, the element 1 (AA) and the payload "hi"
PACKET = bytes.fromhex("90600005 00000064 0000002C BEDE0001 10AA0000 6869")
MID = "urn:ietf:params:rtp-hdrext:sdes:mid"


class Longer(bytes):
    def __len__(self) -> int:
        return super().__len__() + 40


class Shorter(bytes):
    def __len__(self) -> int:
        return 1


class LongerArray(bytearray):
    def __len__(self) -> int:
        return super().__len__() + 40


class Encoded(str):
    """A text that says other bytes than its own."""

    def encode(self, *_: Any) -> bytes:
        return Longer(b"urn:3gpp:video-orientation")


def grown(call: Callable[..., int], id: int, data: Any) -> bytes:
    buffer = bytearray(PACKET + bytes(60))
    return bytes(buffer[: call(buffer, 22, id, data)])


def changed(data: Any) -> bytes:
    buffer = bytearray(PACKET)
    Packet.parse(buffer).set_element(1, data)
    return bytes(buffer)


def told(columns: Columns) -> List[object]:
    payload = columns.payload(0)
    return [list(columns.status), list(columns.payload_len), None if payload is None else payload.tobytes()]


# Calls with the bytes that each is given.
CALLS: Dict[str, Any] = {
    "Packet.parse": (PACKET, lambda it: (lambda packet: (len(packet), bytes(packet), repr(packet)))(Packet.parse(it))),
    "payload": (PACKET, lambda it: bytes(Packet.parse(it).payload)),
    "Header.parse": (PACKET[:20], Header.parse),
    "is_rtcp": (b"\x80\xC8", rtp_wire.is_rtcp),
    "elements": (PACKET[16:20], lambda it: [bytes(found.data) for found in rtp_wire.elements(it, 1)]),
    "Values.read": (b"\x10\x8A", lambda it: Values.read(it, Form.ONE_BYTE, Map.standard())),
    "read_token": (b"cam", rtp_wire.read_token),
    "read_original": (b"\1\2", rtp_wire.read_original),
    "read_ntp_64": (bytes(range(8)), rtp_wire.read_ntp_64),
    "read_send_time": (b"\1\2\3", rtp_wire.read_send_time),
    "read_mixer_level": (b"\1\2", lambda it: rtp_wire.read_mixer_level(it, 15, 1)),
    "has_dependency_structure": (b"\1\2\3\xFF", rtp_wire.has_dependency_structure),
    "set_element": (b"\xBB", changed),
    "put_element": (b"\xBB\xCC", lambda it: grown(rtp_wire.put_element, 2, it)),
    "add_element": (b"\xBB\xCC", lambda it: grown(rtp_wire.add_element, 1, it)),
    "put_block": (b"\1\2\3\4", lambda it: grown(rtp_wire.put_block, 0xABAC, it)),
    "write_elements": (b"\xBB", lambda it: rtp_wire.write_elements([(1, it)], Form.ONE_BYTE)),
    "write_with": (b"\xBB", lambda it: Header().write_with([(1, it)])),
    "HeaderTemplate": (PACKET, lambda it: HeaderTemplate(it, NewIds({1: 3}))),
    "its elements": (b"\xBB", lambda it: HeaderTemplate(PACKET, NewIds(), [(1, it)])),
    "Route": (b"\xBB", lambda it: HeaderTemplate(PACKET, NewIds(), [(1, b"\0")]).write([Route(it)])),
    "Columns.parse": (PACKET, lambda it: told(Columns.parse(it, [0, 0], [22, 23]))),
}


class Lengths(unittest.TestCase):
    def test_a_class_of_bytes_has_as_many_as_lie_there(self) -> None:
        for name, (data, call) in CALLS.items():
            wanted = call(data)
            for kind in (Longer, Shorter, LongerArray):
                self.assertEqual(call(kind(data)), wanted, (name, kind))

    def test_bytes_of_no_packet(self) -> None:
        for kind in (Longer, LongerArray):
            self.assertRaises(NotAPacket, Packet.parse, kind(PACKET[:11]))
            self.assertRaises(NotAPacket, Header.parse, kind(PACKET[:19]))

    def test_a_buffer_that_is_written(self) -> None:
        buffer = LongerArray(11)
        self.assertRaises(RtpError, Header().write_to, buffer, Map())
        self.assertRaises(BadField, rtp_wire.put_element, LongerArray(PACKET), 23, 1, b"\xBB")
        self.assertEqual(Packet.parse(LongerArray(PACKET)).remove_padding(), 22)

    def test_a_class_of_texts(self) -> None:
        self.assertIs(Kind.from_uri(Encoded(MID)), Kind.MID)
        self.assertIs(Kind.from_uri(Encoded("urn:x")), Kind.NONE)
        self.assertEqual((rtp_wire.is_stream_id(Encoded("a")), rtp_wire.is_stream_id(Encoded("-"))), (True, False))
        self.assertEqual(Values(mid=Encoded("a")).data_of(Kind.MID), b"a")

    def test_sources_of_another_length(self) -> None:
        class Sources(tuple):  # type: ignore[type-arg]
            def __len__(self) -> int:
                return 1

        header = Header(csrc=Sources((1, 2, 3)))
        written = bytes.fromhex("83000000 00000000 00000000 00000001 00000002 00000003")
        self.assertEqual(header.write(Map()), written)
        self.assertEqual(header.write_with([(1, b"\xAA")]), b"\x93" + written[1:] + bytes.fromhex("BEDE0001 10AA0000"))


def columns_of(numbers: List[int]) -> Columns:
    datagrams = [bytes([0x80, 96, 0, it]) + bytes(7) + b"\7" for it in numbers]
    return Columns.parse(b"".join(datagrams), range(0, 12 * len(numbers), 12), [12] * len(numbers))


class ChangedColumns(unittest.TestCase):
    def is_refused(self, columns: Columns, name: str) -> None:
        receivers: Dict[int, Receiver] = {}
        with self.assertRaisesRegex(BadField, f"^the column {name} isn't 40 numbers of the type '[HIB]'$"):
            columns.receive(receivers)
        self.assertEqual(receivers, {})

    def test_those_of_another_length(self) -> None:
        numbers = list(range(40))
        for name in ("sequence_number", "ssrc", "is_rtp"):
            for rows in (slice(0, 10), slice(1, 40), slice(0, 0)):
                columns = columns_of(numbers)
                setattr(columns, name, getattr(columns, name)[rows])
                self.is_refused(columns, name)
            for rows in (slice(0, 10), slice(39, 40), slice(0, 40)):
                columns = columns_of(numbers)
                del getattr(columns, name)[rows]
                self.is_refused(columns, name)
            getattr(columns := columns_of(numbers), name).append(0)
            self.is_refused(columns, name)

    def test_those_of_another_type(self) -> None:
        for name in ("sequence_number", "ssrc", "is_rtp"):
            columns = columns_of(list(range(40)))
            column = list(getattr(columns, name))
            for code in "BHIq":
                if code != getattr(columns, name).typecode:
                    other = columns_of(list(range(40)))
                    setattr(other, name, array(code, column))
                    self.is_refused(other, name)
            setattr(columns, name, memoryview(array(getattr(columns, name).typecode, 2 * column))[::2])
            self.is_refused(columns, name)
            setattr(columns, name, column)
            self.assertRaises(TypeError, columns.receive, {})
            delattr(columns, name)
            self.assertRaises(AttributeError, columns.receive, {})

    def test_others_of_the_same_length_are_taken(self) -> None:
        columns = columns_of([1, 2, 3])
        columns.sequence_number = array("H", [7, 9, 8])
        columns.is_rtp = memoryview(b"\1\0\1")  # type: ignore[assignment]
        self.assertEqual([list(it) for it in columns.receive({})], [[65543, 0, 65544], [1, 0, 1]])

    def test_they_keep_their_length_while_packets_are_judged(self) -> None:
        columns = columns_of([1, 2, 3])

        class Receivers(Dict[int, Receiver]):
            def __contains__(self, ssrc: object) -> bool:
                del columns.sequence_number[1:]
                return False

        with self.assertRaises(BufferError):
            columns.receive(Receivers())
        self.assertEqual(list(columns.receive({}).number), [65537, 65538, 65539])


class StoredStates(unittest.TestCase):
    def are_refused(self, made: Any, states: List[Any]) -> None:
        before = copy.copy(made)
        for state in states:
            with self.assertRaises((ValueError, TypeError), msg=repr(state)):
                made.__setstate__(state)
            self.assertEqual(made, before)
        made.__setstate__(before.__getstate__())
        self.assertEqual(made, before)

    def test_windows(self) -> None:
        most, last = (0,) * 512, (1 << 64) - 1
        wrong = [(), (0,) * 513, (0,) * 5000, (-1,), (1 << 64,), ("1",), (1.5,), 5, None]
        wide = WideReceiver(2, 1)
        wide.receive(7)
        states: List[Any] = [(65543, True, words) for words in wrong]
        states += [(1 << 64, True, (0,)), (-1, True, (0,)), (5, 2, (0,)), ("5", True, (0,)), (5, True), (5,), ()]
        self.are_refused(wide, [*states, (5, True, (0,), (0,))])
        wide.__setstate__((last, True, most))
        self.assertEqual((wide.highest, wide.accepts(last), wide.accepts(last - 32767)), (last, False, True))
        restarting = RestartingReceiver()
        restarting.receive(7)
        good = 65543, (0,), 3000, 3000, 0, 1, 0, True
        states = [(65543, words, *good[2:]) for words in wrong]
        for at, most_of_it in ((0, last), (2, 65535), (3, 65535), (4, 65535), (5, 255), (6, 255), (7, 1)):
            for number in (-1, most_of_it + 1, "1"):
                states.append((*good[:at], number, *good[at + 1 :]))
        self.are_refused(restarting, [*states, good[:-1], (*good, 0)])
        restarting.__setstate__(good)
        self.assertEqual(restarting.receive(8), Taken(65544, False))

    def test_numbers(self) -> None:
        last = (1 << 64) - 1
        receiver, statistics = Receiver(1), ReceptionStatistics()
        receiver.receive(7)
        statistics.record(65543, 5, 9)
        good: Any
        for made, good, ends in (
            (receiver, receiver.__getstate__(), [last, last, last, 1]),
            (statistics, statistics.__getstate__(), [last] * 6 + [0xFFFFFFFF]),
        ):
            states: List[Any] = [good[:-1], (*good, 0), ()]
            for at, end in enumerate(ends):
                states += [(*good[:at], number, *good[at + 1 :]) for number in (-1, end + 1, "1", None)]
            self.are_refused(made, states)

    def test_templates(self) -> None:
        made = HeaderTemplate(PACKET, NewIds({1: 3}))
        header, raw = made.__getstate__()

        class Stored(bytes):
            def __bytes__(self) -> bytes:
                return Longer(memoryview(self))

        other = HeaderTemplate.__new__(HeaderTemplate)
        for kind in (Stored, Longer, bytearray):
            other.__setstate__((kind(header), raw))
            self.assertEqual((other, other.header_len, type(other.header)), (made, 20, bytes))
        for wrong in ((Stored(header[:12]), raw), (header, Longer(raw[:-1])), (20, raw)):
            self.assertRaises((ValueError, TypeError), other.__setstate__, wrong)

    def test_packets(self) -> None:
        packet = Packet.parse(PACKET, Map({1: Kind.AUDIO_LEVEL}))
        for made in (copy.copy(packet), copy.deepcopy(packet), pickle.loads(pickle.dumps(packet))):
            self.assertEqual((bytes(made), made.payload), (PACKET, b"hi"))
            self.assertEqual(made.values, Values(audio_level=-42, voice_activity=True))
        lying = copy.copy(Packet.parse(buffer := bytearray(PACKET)))
        lying.ssrc = 45
        self.assertEqual(buffer[11], 45)
        # what is stored is read again: here with a block of 65,535 words, which aren't there
        stored = pickle.dumps(packet)
        self.assertEqual(stored.count(PACKET), 1)
        forged = stored.replace(PACKET, PACKET[:14] + b"\xFF\xFF" + PACKET[16:])
        self.assertRaises(NotAPacket, pickle.loads, forged)


class Keys(unittest.TestCase):
    def test_what_is_no_id_has_no_entry(self) -> None:
        table: Any
        for table in (Map({1: Kind.MID, 255: Kind.RID}), NewIds({1: 9, 255: 8})):
            for key in ("x", "1", b"1", None, 1.5, (1,), 0, 256, -1, 257, 1 << 64):
                self.assertNotIn(key, table)
                self.assertEqual((table.get(key), table.pop(key, 7)), (None, 7))
                for call in (table.__getitem__, table.__delitem__, table.pop):
                    with self.assertRaises(KeyError) as raised:
                        call(key)
                    self.assertEqual(raised.exception.args, (key,))
            self.assertEqual((list(table), True in table), ([1, 255], True))
            with self.assertRaisesRegex(TypeError, "^an id is str, and no whole number$"):
                table["x"] = 5
            del table[True]
            self.assertEqual(list(table), [255])


if __name__ == "__main__":
    unittest.main()
