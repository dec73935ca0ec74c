"""The numbers of a stream, padding and retransmissions. Expected values are worked out by hand from RFC 3711, 3.3.1 and
3.3.2, RFC 3550, 5.1 and A.1, and RFC 4588, 4."""

import copy
import pickle
import unittest
from typing import Any, List, Optional, Tuple

import rtp_wire
from rtp_wire import BadField, Receiver, RestartingReceiver, ShortBuffer, Standing, Taken, WideReceiver

LAST = (1 << 64) - 1


class Receivers(unittest.TestCase):
    def test_a_run(self) -> None:
        receiver = Receiver(1)
        self.assertIsNone(receiver.highest)
        rows = [
            (5, 65541),
            (65533, 65533),
            (6, 65542),
            (6, None),
            (5, None),
            (134, 65670),
            (6, None),
            (7, 65543),
        ]
        for low, number in rows:
            self.assertEqual(receiver.receive(low), number)
        self.assertEqual(
            (receiver.highest, repr(receiver)), (65670, "Receiver(rollover_count=1, highest=65670)")
        )

    def test_three_steps(self) -> None:
        receiver = Receiver(0)
        for low, number in ((65535, 65535), (0, 65536)):
            self.assertEqual(receiver.number_of(low), number)
            self.assertTrue(receiver.accepts(number))
            receiver.record(number)
            self.assertFalse(receiver.accepts(number))
        # less than 128 below the highest
        self.assertTrue(receiver.accepts(65536 - 127))
        self.assertFalse(receiver.accepts(65536 - 128))

    def test_the_start(self) -> None:
        self.assertEqual(repr(Receiver(0)), "Receiver(rollover_count=0)")
        self.assertEqual(Receiver((1 << 48) - 1).receive(65535), LAST)
        for count in (-1, 1 << 48, 1 << 64):
            with self.assertRaises(BadField):
                Receiver(count)

    def test_a_packet_from_before_the_first(self) -> None:
        receiver: Any
        for receiver in (Receiver(1), WideReceiver(16, 1)):
            self.assertEqual([receiver.receive(it) for it in (5, 65533, 6, 7)], [65541, 65533, 65542, 65543])
        # at the rollover count 0 it has a number near 2^64
        for receiver in (Receiver(0), WideReceiver(16, 0)):
            self.assertEqual([receiver.receive(it) for it in (5, 65533, 6, 7)], [5, LAST - 2, None, None])

    def test_why_a_number_is_not_accepted(self) -> None:
        receiver, wide = Receiver(1), WideReceiver(16, 1)
        self.assertEqual((receiver.standing_of(0), wide.standing_of(0)), (Standing.NEW, Standing.NEW))
        receiver.record(66536)
        self.assertTrue(wide.record(66536))
        wanted = [Standing.NEW, Standing.TAKEN, Standing.NEW, Standing.TOO_OLD]
        self.assertEqual([receiver.standing_of(it) for it in (66537, 66536, 66409, 66408)], wanted)
        self.assertEqual([wide.standing_of(it) for it in (66537, 66536, 65513, 65512)], wanted)

    def test_the_rollover_count_is_asked_for(self) -> None:
        made: Any
        for made in (Receiver, WideReceiver, lambda: WideReceiver(16)):  # type: ignore[call-arg]
            with self.assertRaises(TypeError):
                made()

    def test_the_state_is_copied_and_stored(self) -> None:
        receiver = Receiver(3)
        self.assertNotEqual(receiver, Receiver(0))
        receiver.receive(7)
        for made in (copy.copy(receiver), copy.deepcopy(receiver), pickle.loads(pickle.dumps(receiver))):
            self.assertEqual(made, receiver)
            self.assertEqual((made.receive(7), made.receive(8)), (None, 196616))
            self.assertNotEqual(made, receiver)
        self.assertEqual(receiver.highest, 196615)

    def test_what_is_out_of_its_range(self) -> None:
        receiver = Receiver(0)
        for number in (-1, 65536):
            for call in (receiver.receive, receiver.number_of):
                with self.assertRaises(BadField):
                    call(number)
        for number in (-1, 1 << 64):
            for change in (receiver.accepts, receiver.record):
                with self.assertRaises(BadField):
                    change(number)
        self.assertEqual(receiver, Receiver(0))

    def test_the_nearest_number(self) -> None:
        self.assertEqual((rtp_wire.extend_u8(255, 0), rtp_wire.extend_u8(256, 129)), (256, 129))
        self.assertEqual(
            (rtp_wire.extend_u15(32767, 0), rtp_wire.extend_u15(0, 16385)), (32768, LAST - 16382)
        )
        self.assertEqual((rtp_wire.extend_u16(65535, 0), rtp_wire.extend_u16(0, 32768)), (65536, 32768))
        self.assertEqual((rtp_wire.extend_u16(5, 65535), rtp_wire.extend_u16(LAST, 0)), (LAST, 0))
        self.assertEqual(rtp_wire.extend_u32(0xFFFFFFFF, 1), (1 << 32) + 1)
        for extend, bits in (
            (rtp_wire.extend_u8, 8),
            (rtp_wire.extend_u15, 15),
            (rtp_wire.extend_u16, 16),
            (rtp_wire.extend_u32, 32),
        ):
            for previous, number in ((0, 1 << bits), (1 << 64, 0), (-1, 0), (0, -1)):
                with self.assertRaises(BadField):
                    extend(previous, number)


class WideReceivers(unittest.TestCase):
    def test_a_window_of_1024(self) -> None:
        receiver = WideReceiver(16, 1)
        self.assertIsNone(receiver.highest)
        # 1,023 below the highest, and 1,024
        for low, number in (
            (5000, 70536),
            (3977, 69513),
            (3977, None),
            (3976, None),
            (5001, 70537),
            (3978, 69514),
        ):
            self.assertEqual(receiver.receive(low), number)
        self.assertEqual(
            (receiver.highest, repr(receiver)),
            (70537, "WideReceiver(words=16, rollover_count=1, highest=70537)"),
        )

    def test_the_least_and_the_most_words(self) -> None:
        for words in (1, 512):
            size, receiver = 64 * words, WideReceiver(words, 1)
            self.assertEqual(receiver.receive(40000), 105536)
            self.assertTrue(receiver.accepts(105536 - size + 1))
            self.assertFalse(receiver.accepts(105536 - size))
        for words in (-1, 0, 513):
            with self.assertRaises(BadField):
                WideReceiver(words, 1)
        with self.assertRaises(TypeError):
            WideReceiver(16.0, 1)  # type: ignore[arg-type]

    def test_three_steps(self) -> None:
        receiver = WideReceiver(2, rollover_count=0)
        self.assertEqual(receiver.number_of(65535), 65535)
        self.assertTrue(receiver.record(65535))
        self.assertEqual(receiver.number_of(0), 65536)
        self.assertTrue(receiver.accepts(65536))
        self.assertTrue(receiver.record(65536))
        self.assertFalse(receiver.accepts(65536))
        state = copy.copy(receiver)
        self.assertFalse(receiver.record(65536))
        self.assertFalse(receiver.record(65536 - 128))
        self.assertEqual(receiver, state)
        self.assertTrue(receiver.record(65536 - 127))

    def test_the_start(self) -> None:
        self.assertEqual(repr(WideReceiver(3, 1)), "WideReceiver(words=3, rollover_count=1)")
        self.assertEqual(WideReceiver(1, (1 << 48) - 1).receive(65535), LAST)
        for count in (-1, 1 << 48, 1 << 64):
            with self.assertRaises(BadField):
                WideReceiver(1, count)

    def test_the_state_is_copied_and_stored(self) -> None:
        receiver = WideReceiver(4, 1)
        self.assertNotEqual(receiver, WideReceiver(5, 1))
        receiver.receive(7)
        for made in (copy.copy(receiver), copy.deepcopy(receiver), pickle.loads(pickle.dumps(receiver))):
            self.assertEqual(made, receiver)
            self.assertEqual((made.receive(7), made.receive(8)), (None, 65544))
            self.assertNotEqual(made, receiver)
        self.assertEqual(receiver.highest, 65543)

    def test_what_is_out_of_its_range(self) -> None:
        receiver = WideReceiver(16, 1)
        for number in (-1, 65536):
            for call in (receiver.receive, receiver.number_of):
                with self.assertRaises(BadField):
                    call(number)
        for number in (-1, 1 << 64):
            for change in (receiver.accepts, receiver.record):
                with self.assertRaises(BadField):
                    change(number)
        self.assertEqual(receiver, WideReceiver(16, 1))


class RestartingReceivers(unittest.TestCase):
    Rows = List[Tuple[int, Optional[Taken]]]

    def judges(self, receiver: RestartingReceiver, rows: Rows) -> None:
        for low, taken in rows:
            self.assertEqual(receiver.receive(low), taken)

    def test_a_large_jump(self) -> None:
        # 2,999 ahead is of the stream, and 3,000 isn't. 65,536 + 6,999 has the rollover count 1: the epoch has 3.
        receiver = RestartingReceiver()
        self.assertIsNone(receiver.highest)
        rows: RestartingReceivers.Rows = [
            (1000, Taken(66536, False)),
            (3999, Taken(69535, False)),
            (6999, None),
            (7001, None),
            (7000, None),
            (7001, Taken(203609, True)),
            (7001, None),
            (7000, Taken(203608, False)),
            (7002, Taken(203610, False)),
        ]
        self.judges(receiver, rows)
        self.assertEqual(
            (receiver.highest, repr(receiver)),
            (203610, "RestartingReceiver(max_dropout=3000, min_sequential=1, max_misorder=3000, words=16, highest=203610)"),
        )

    def test_the_very_next_packet(self) -> None:
        rows: RestartingReceivers.Rows = [
            (1000, Taken(66536, False)),
            (29999, None),
            (1001, Taken(66537, False)),
            (30000, None),
            (30001, Taken(226609, True)),
        ]
        self.judges(RestartingReceiver(), rows)

    def test_late_packets_are_no_restart(self) -> None:
        # 1,023 below is in the window, and 2,999 below is of the stream
        rows: RestartingReceivers.Rows = [
            (5000, Taken(70536, False)),
            (4800, Taken(70336, False)),
            (4801, Taken(70337, False)),
            (4801, None),
            (3977, Taken(69513, False)),
            (3976, None),
            (2001, None),
            (2002, None),
            (2000, None),
            (2001, None),
            (1999, None),
            (2000, Taken(198608, True)),
        ]
        self.judges(RestartingReceiver(), rows)
        # a window of 32,768 numbers is the bound
        rows = [(40000, Taken(105536, False)), (7233, Taken(72769, False))]
        self.judges(RestartingReceiver(words=512), rows)
        # RFC 3550's bounds: 99 below is of the stream, and 100 isn't; a source is valid with its second packet
        rows = [
            (999, None),
            (1000, Taken(66536, False)),
            (901, Taken(66437, False)),
            (899, None),
            (900, Taken(197508, True)),
        ]
        self.judges(RestartingReceiver(max_misorder=100, min_sequential=2), rows)
        self.judges(RestartingReceiver(max_misorder=100, min_sequential=2, words=2), rows)

    def test_the_bounds(self) -> None:
        rows: RestartingReceivers.Rows = [
            (500, None),
            (502, None),
            (503, Taken(66039, False)),
            (603, None),
            (602, Taken(66138, False)),
        ]
        self.judges(RestartingReceiver(max_dropout=100, min_sequential=2), rows)
        self.judges(RestartingReceiver(min_sequential=0), [(10, Taken(65546, False))])
        for bounds in ((0, 1), (65536, 1), (-1, 1), (1, -1), (1, 256)):
            with self.assertRaises(BadField):
                RestartingReceiver(*bounds)
        for number in (-1, 65536):
            with self.assertRaises(BadField):
                RestartingReceiver().receive(number)

    def test_why_a_packet_is_refused(self) -> None:
        # the window has 1,024 numbers, and 3,000 below is outside
        taken, old, new = Standing.TAKEN, Standing.TOO_OLD, Standing.NEW
        rows: List[Tuple[int, Optional[Taken], int, int, Standing]] = [
            (60000, Taken(125536, False), 0, 125536, taken),
            (60000, None, 0, 125536, taken),
            (58977, Taken(124513, False), 0, 124513, taken),
            (58976, None, 0, 124512, old),
            (57001, None, 0, 122537, old),
            (57000, None, 1, 122536, old),
            (7, None, 1, 131079, new),
            (60000, None, 0, 125536, taken),
            (8, None, 1, 131080, new),
            (9, Taken(196617, True), 0, 196617, taken),
            (9, None, 0, 196617, taken),
            (8, Taken(196616, False), 0, 196616, taken),
        ]
        receiver = RestartingReceiver()
        self.assertEqual((receiver.in_row, receiver.number_of(0), receiver.number_of(65535)), (0, 65536, 131071))
        self.assertEqual(receiver.standing_of(5), new)
        for low, due, in_row, number, standing in rows:
            self.judges(receiver, [(low, due)])
            self.assertEqual((receiver.in_row, receiver.number_of(low)), (in_row, number))
            self.assertIs(receiver.standing_of(number), standing)
        self.assertEqual((receiver.standing_of(196618), receiver.standing_of(125536)), (new, old))
        for call in (receiver.number_of, receiver.standing_of):
            for number in (-1, 1 << 64):
                self.assertRaises(BadField, call, number)
        self.assertRaises(BadField, receiver.number_of, 65536)

    def test_a_restart_that_is_not_seen(self) -> None:
        # at 4,999 after 5,000 and 5,002: what was taken is refused, and all else is late
        numbers = [(5000, 70536), (5002, 70538), (4999, 70535), (5000, 0), (5001, 70537), (5002, 0), (5003, 70539)]
        rows = [(low, Taken(number, False) if number else None) for low, number in numbers]
        self.judges(RestartingReceiver(), rows)

    def test_packets_before_a_source_is_valid(self) -> None:
        # they are outside of the stream, and count too
        for words in (1, 16):
            receiver = RestartingReceiver(min_sequential=255, words=words)
            for low in range(1, 255):
                self.judges(receiver, [(low, None)])
                self.assertEqual((receiver.in_row, receiver.number_of(low)), (low, 65536 + low))
                self.assertIs(receiver.standing_of(65536), Standing.NEW)
            stored = pickle.loads(pickle.dumps(receiver))
            self.assertEqual(stored.in_row, 254)
            self.judges(stored, [(255, Taken(65791, False))])
            self.assertEqual((stored.in_row, receiver.in_row), (0, 254))

    def test_packets_of_the_stream_are_reported(self) -> None:
        # two were expected, and four came
        receiver, statistics = RestartingReceiver(), rtp_wire.ReceptionStatistics()
        for low in (5, 6, 6, 40000, 5):
            receiver.receive(low)
            if not receiver.in_row:
                statistics.record(receiver.number_of(low), 0, 0)
        self.assertEqual(statistics.report(), rtp_wire.ReceptionReport(0, -2, 6, 0))

    def test_the_state_is_copied_and_stored(self) -> None:
        receiver = RestartingReceiver(max_dropout=100)
        self.assertNotEqual(receiver, RestartingReceiver())
        self.judges(receiver, [(7, Taken(65543, False)), (200, None)])
        for made in (copy.copy(receiver), copy.deepcopy(receiver), pickle.loads(pickle.dumps(receiver))):
            self.assertEqual(made, receiver)
            self.judges(made, [(201, Taken(196809, True))])
            self.assertNotEqual(made, receiver)
        # which packet was the last one outside of the stream counts no more
        self.judges(receiver, [(8, Taken(65544, False))])
        other = RestartingReceiver(max_dropout=100)
        self.judges(other, [(7, Taken(65543, False)), (8, Taken(65544, False))])
        self.assertEqual(receiver, other)


class Payloads(unittest.TestCase):
    def test_padding_is_made(self) -> None:
        datagram = bytearray(b"\x80" + b"\x11" * 16)
        self.assertEqual(rtp_wire.pad(datagram, 12, 3, 4), 4)
        self.assertEqual(datagram, b"\xA0" + b"\x11" * 11 + bytes([0, 0, 0, 4, 0x11]))
        self.assertEqual(rtp_wire.pad(datagram, 1 << 63, 0, 4), 0)
        for header_len, pad_len, size in ((12, 3, 8), (14, 4, 1), ((1 << 64) - 1, 3, 4)):
            with self.assertRaises(ShortBuffer):
                rtp_wire.pad(datagram, header_len, pad_len, size)
        for header_len, pad_len, size in ((12, 3, 0), (12, 256, 1), (-1, 3, 4), (12, -1, 4)):
            with self.assertRaises(BadField):
                rtp_wire.pad(datagram, header_len, pad_len, size)
        with self.assertRaises(TypeError):
            rtp_wire.pad(bytes(20), 12, 3)  # type: ignore[arg-type]

    def test_retransmissions(self) -> None:
        payload = bytearray(b"\x11\x11\x11")
        rtp_wire.write_original(payload, 0x123456)
        self.assertEqual((payload, rtp_wire.read_original(payload)), (b"\x34\x56\x11", 0x3456))
        for short in (b"", b"\x01"):
            with self.assertRaises(ShortBuffer):
                rtp_wire.read_original(short)
            with self.assertRaises(ShortBuffer):
                rtp_wire.write_original(bytearray(short), 1)

    def test_retransmissions_in_place(self) -> None:
        there = rtp_wire.NewIds.to_retransmission(rtp_wire.Map.standard())
        back = rtp_wire.NewIds.from_retransmission(rtp_wire.Map.standard())
        self.assertEqual((there[10], there.get(11), there[4]), (11, None, 4))
        self.assertEqual((back.get(10), back[11], back[4]), (None, 10, 4))
        packet = bytes.fromhex("b0e0fffe0102030405060708bede00024061a16869b07800ccddee00027777")
        buf = bytearray(packet)
        for length, payload_type in ((32, 99), (29, 128), (29, -1), (-1, 99), (27, 99)):
            with self.assertRaises(BadField):
                rtp_wire.to_retransmission(memoryview(buf)[:27], length, 7, payload_type, 1, there)
            with self.assertRaises(BadField):
                rtp_wire.from_retransmission(memoryview(buf)[:27], length, 7, payload_type, back)
        with self.assertRaises(rtp_wire.NotAPacket):
            rtp_wire.to_retransmission(buf, 11, 7, 99, 1, there)
        self.assertEqual(buf, packet)
        self.assertEqual(rtp_wire.to_retransmission(buf, 29, 0x090A0B0C, 99, 1, there), 29)
        sent = bytes.fromhex("90e3000101020304090a0b0cbede00024061b16869000000fffeccddee7777")
        self.assertEqual(buf, sent)
        with self.assertRaises(ShortBuffer):
            rtp_wire.to_retransmission(memoryview(buf)[:30], 29, 7, 98, 2, there)
        self.assertEqual(buf, sent)
        self.assertEqual(rtp_wire.from_retransmission(buf, 29, 0x05060708, 96, back), 27)
        self.assertEqual(buf[:27], bytes.fromhex("90e0fffe0102030405060708bede00024061a16869000000ccddee"))
        with self.assertRaises(rtp_wire.NoElement):
            rtp_wire.from_retransmission(buf, 25, 1, 2, back)


if __name__ == "__main__":
    unittest.main()
