"""Blocks that are put, taken off and made of the other form, and a second element of an id. The expected packets are
worked out by hand from RFC 3550, 5.3.1, and RFC 8285, 4.2 and 4.3."""

import unittest
from random import Random
from typing import Any, Callable, List, Optional, Tuple, Type

from rtp_wire import (
    BadField,
    BadId,
    Cause,
    Form,
    FormNotAllowed,
    LongBlock,
    LongId,
    NewIds,
    NotAPacket,
    OtherForm,
    Packet,
    RtpError,
    ShortBuffer,
    Status,
    add_element,
    change_form,
    compact,
    put_block,
    put_element,
    remove_block,
)

ONE, TWO = Form.ONE_BYTE, Form.TWO_BYTE
PLAIN = "90 BEDE0001 10AA0000 01"
MOST = 4 * 65535

Call = Callable[[memoryview, int], int]


def written(text: str) -> bytes:
    """The packet that is written as its first byte, and what follows its twelve."""
    first, rest = bytes.fromhex(text[:2]), bytes.fromhex(text[2:])
    return first + bytes.fromhex("600005 00000064 0000002C") + rest


class ChangedBlocks(unittest.TestCase):
    def becomes(self, before: str, call: Call, after: str) -> None:
        """One packet becomes the other in each buffer that has room for both, and in none with less."""
        packet, wanted = written(before), written(after)
        least = max(len(packet), len(wanted))
        for room in (0, 1, 40):
            buf = bytearray(packet + b"\xEE" * (least + room + 8 - len(packet)))
            left = bytes(buf)
            self.assertEqual(call(memoryview(buf)[: least + room], len(packet)), len(wanted), before)
            self.assertEqual(buf.hex(), (wanted + left[len(wanted) :]).hex(), before)
        if len(wanted) > len(packet):
            buf = bytearray(packet + b"\xEE" * len(wanted))
            left = bytes(buf)
            self.assertRaises(ShortBuffer, call, memoryview(buf)[: len(wanted) - 1], len(packet))
            self.assertEqual(buf, left)

    def stays(self, before: str, call: Call, kind: Type[RtpError], text: Optional[str] = None) -> None:
        """It is refused by exactly this exception, and stays as it was."""
        buf = bytearray(written(before) + b"\xEE" * 40)
        left = bytes(buf)
        with self.assertRaises(kind) as raised:
            call(memoryview(buf), len(buf) - 40)
        self.assertIs(type(raised.exception), kind)
        if text is not None:
            self.assertEqual(str(raised.exception), text)
        self.assertEqual(buf, left)

    def adds(self, id: int, data: bytes, allowed: Any = None) -> Call:
        return lambda buf, length: add_element(buf, length, id, data, allowed)

    def test_elements_are_added_behind_all_others(self) -> None:
        rows: List[Tuple[str, Call, str]] = [
            (PLAIN, self.adds(1, b"\xBB"), "90 BEDE0001 10AA10BB 01"),
            (PLAIN, self.adds(1, b"\xBB", ONE), "90 BEDE0001 10AA10BB 01"),
            (PLAIN, self.adds(1, b"\xBB", Form.NONE), "90 BEDE0001 10AA10BB 01"),
            (PLAIN, self.adds(2, b"\7\x08"), "90 BEDE0002 10AA2107 08000000 01"),
            (PLAIN, self.adds(15, b"\7"), "90 10000002 0101AA0F 01070000 01"),
            (PLAIN, self.adds(1, b""), "90 10000002 0101AA01 00000000 01"),
            (PLAIN, self.adds(2, b"\7", TWO), "90 10000002 0101AA02 01070000 01"),
            ("80 01", self.adds(1, b"\7"), "90 BEDE0001 10070000 01"),
            ("80", self.adds(1, b"\7", TWO), "90 10000001 01010700"),
            # the bits of the application stay
            ("90 100F0001 01010700 01", self.adds(1, b"\x08"), "90 100F0002 01010701 01080000 01"),
            # an element of the id 0 goes, and what stands where reading ends: behind the id 15, and cut short
            ("90 BEDE0001 01AABB00 01", self.adds(1, b"\7"), "90 BEDE0001 10070000 01"),
            ("90 BEDE0001 F0556677 01", self.adds(1, b"\7"), "90 BEDE0001 10070000 01"),
            ("90 BEDE0001 10AA2355 01", self.adds(1, b"\7"), "90 BEDE0001 10AA1007 01"),
            # what has 16 bytes is in one form, and what has 17 in the other
            ("80", self.adds(14, b"7" * 16), f"90 BEDE0005 EF{'37' * 16}000000"),
            ("80", self.adds(14, b"7" * 17), f"90 10000005 0E11{'37' * 17}00"),
            ("80", self.adds(255, b"7" * 255), f"90 10000041 FFFF{'37' * 255}000000"),
        ]
        for row in rows:
            self.becomes(*row)

    def test_elements_are_not_added(self) -> None:
        form = "a form of the extension block that isn't allowed"
        long = "an id above 14, which the one-byte form can't carry"
        self.stays(PLAIN, self.adds(15, b"\7", ONE), LongId, long)
        self.stays("90 10000001 01010700 01", self.adds(255, b"", ONE), LongId, long)
        self.stays("90 ABAC0001 01020304 01", self.adds(15, b"\x08", ONE), OtherForm)
        self.stays(PLAIN, self.adds(2, b"", ONE), FormNotAllowed, form)
        self.stays(PLAIN, self.adds(2, b"7" * 17, ONE), FormNotAllowed, form)
        self.stays("90 10000001 01010700 01", self.adds(1, b"\x08", ONE), FormNotAllowed, form)
        self.stays("90 ABAC0001 01020304 01", self.adds(1, b"\x08"), OtherForm)
        self.stays(PLAIN, self.adds(0, b"\7"), BadId, "id is 0, and not 1 to 255")
        for id in (-1, 256, 257, 1 << 64):
            self.stays(PLAIN, self.adds(id, b"\7"), BadId, f"id is {id}, and not 1 to 255")
        self.stays(PLAIN, self.adds(1, b"7" * 256), BadField, "the length of data is 256, and not 0 to 255")
        self.stays(PLAIN, self.adds(1, b"7", 3), BadField, "allowed is 3, and not 0 to 2")
        self.stays("90 BEDE0002 10AA0000 01", self.adds(1, b"\7"), NotAPacket)

    def test_elements_are_not_put(self) -> None:
        def puts(id: int, allowed: Optional[Form] = None) -> Call:
            return lambda buf, length: put_element(buf, length, id, b"\7", allowed)

        self.stays(PLAIN, puts(0), BadId, "id is 0, and not 1 to 255")
        self.stays(PLAIN, puts(15, ONE), LongId)
        self.stays("90 10000001 0101AA00 01", puts(15, ONE), LongId)
        self.stays("90 10000001 0101AA00 01", puts(1, ONE), FormNotAllowed)
        with self.assertRaises(BadId) as raised:
            puts(0)(memoryview(bytearray(written(PLAIN))), 21)
        self.assertIs(raised.exception.status, Status.BAD_ID)

    def test_an_id_has_several_elements(self) -> None:
        # the last one counts, and one that is put stands in place of them
        buf, length = bytearray(written(PLAIN) + bytes(43)), 21
        for data in (b"\xBB", b"\xCC\xDD", b"\xEE"):
            length = add_element(buf, length, 1, data, ONE)
        self.assertEqual(buf[:length], written("90 BEDE0003 10AA10BB 11CCDD10 EE000000 01"))
        packet = Packet.parse(bytes(buf[:length]))
        self.assertEqual((packet.element(1), len(list(packet.elements()))), (b"\xEE", 4))
        length = put_element(buf, length, 1, b"\7", ONE)
        self.assertEqual(buf[:length], written("90 BEDE0003 10070000 00000000 00000000 01"))

    def test_forms_are_changed(self) -> None:
        sixteen, seventeen = "37" * 16, "37" * 17
        rows: List[Tuple[str, Form, str]] = [
            (PLAIN, TWO, "90 10000001 0101AA00 01"),
            ("90 10000001 0101AA00 01", ONE, PLAIN),
            ("90 BEDE0001 10AA20BB 01", TWO, "90 10000002 0101AA02 01BB0000 01"),
            ("90 BEDE0002 0010AA00 0021BBCC 01", TWO, "90 10000002 0101AA02 02BBCC00 01"),
            ("90 BEDE0001 01AABB00 01", TWO, "90 10000001 00000000 01"),
            ("90 BEDE0001 10AAF055 01", TWO, "90 10000001 0101AA00 01"),
            ("90 BEDE0001 10AA2355 01", TWO, "90 10000001 0101AA00 01"),
            ("90 BEDE0000 01", TWO, "90 10000000 01"),
            ("90 100F0001 0101AA00 01", ONE, PLAIN),
            ("90 10000002 01010701 01080000 01", ONE, "90 BEDE0002 10071008 00000000 01"),
            (f"90 10000005 0E10{sixteen}0000 01", ONE, f"90 BEDE0005 EF{sixteen}000000 01"),
            # it has the form, or has no block
            ("90 BEDE0001 01AABB00 01", ONE, "90 BEDE0001 01AABB00 01"),
            ("90 100F0001 0F01AA00 01", TWO, "90 100F0001 0F01AA00 01"),
            ("80 01", ONE, "80 01"),
            ("80 01", TWO, "80 01"),
        ]
        for before, form, after in rows:
            self.becomes(before, self.changes(form), after)
        for before in ("90 10000001 01000000 01", f"90 10000005 0111{seventeen}00 01"):
            self.stays(before, self.changes(ONE), FormNotAllowed)
        for before in ("90 10000001 0F01AA00 01", "90 10000001 0100FF00 01"):
            self.stays(before, self.changes(ONE), LongId)
        for form in (ONE, TWO):
            self.stays("90 ABAC0001 01020304 01", self.changes(form), OtherForm)
            self.stays("90 BEDE0002 10AA0000 01", self.changes(form), NotAPacket)
        for other in (-1, 0, 3, 257, 258):
            self.stays(PLAIN, self.changes(other), BadField, f"form is {other}, and not 1 to 2")
            self.stays("80 01", self.changes(other), BadField)

    def changes(self, form: Any) -> Call:
        return lambda buf, length: change_form(buf, length, form)

    def test_an_id_above_14_is_put_then(self) -> None:
        buf, ids = bytearray(written(PLAIN)), NewIds({1: 200})
        with self.assertRaises(LongId):
            Packet.parse(buf).renumber(ids)
        self.assertEqual(change_form(buf, 21, TWO), 21)
        Packet.parse(buf).renumber(ids)
        self.assertEqual(buf, written("90 10000001 C801AA00 01"))

    def puts(self, profile: int, body: bytes) -> Call:
        return lambda buf, length: put_block(buf, length, profile, body)

    def test_blocks_are_put(self) -> None:
        rows: List[Tuple[str, Call, str]] = [
            ("80 01", self.puts(0xABAC, b"\1\2\3\4"), "90 ABAC0001 01020304 01"),
            ("80", self.puts(0xBEDE, b"\x10\xAA\0\0"), "90 BEDE0001 10AA0000"),
            (PLAIN, self.puts(0xC0DE, b""), "90 C0DE0000 01"),
            ("90 ABAC0002 0102030405060708 01", self.puts(0x1000, b"\x0F\1\7\0"), "90 10000001 0F010700 01"),
            ("90 ABAC0001 01020304 01", self.puts(0xFFFF, b"12345678"), "90 FFFF0002 3132333435363738 01"),
            ("A1 00000009 0102", self.puts(0x1234, b"7777"), "B1 00000009 12340001 37373737 0102"),
            ("80 01", self.puts(0, b"7" * 1200), f"90 0000012C{'37' * 1200}01"),
        ]
        for row in rows:
            self.becomes(*row)
        for length in (1, 2, 3, 5, MOST + 1, MOST + 3, MOST + 5):
            text = f"the length of body is {length}, and no multiple of 4"
            self.stays(PLAIN, self.puts(0xABAC, bytes(length)), BadField, text)
        for profile in (-1, 65536, 65536 + 0xABAC):
            self.stays(PLAIN, self.puts(profile, b""), BadField, f"profile is {profile}, and not 0 to 65535")
        self.stays("80 01", self.puts(0xABAC, bytes(MOST + 4)), LongBlock)
        self.stays("80 01", self.puts(0xABAC, bytes(MOST)), ShortBuffer)
        for before, cause in (("40 01", Cause.OTHER_VERSION), ("90 BEDE0002 10AA0000 01", Cause.CUT_BLOCK)):
            with self.assertRaises(NotAPacket) as raised:
                self.puts(0xABAC, b"")(memoryview(bytearray(written(before))), len(written(before)))
            self.assertIs(raised.exception.cause, cause)
            self.stays(before, self.puts(0xABAC, b""), NotAPacket)

    def test_blocks_are_taken_off(self) -> None:
        def removes(buf: memoryview, length: int) -> int:
            return remove_block(buf[:length])

        for before, after in (
            (PLAIN, "80 01"),
            ("90 BEDE0000", "80"),
            ("90 100F0001 01010700 01", "80 01"),
            ("90 ABAC0001 01020304 0102", "80 0102"),
            ("B1 00000009 12340001 AABBCCDD 0102", "A1 00000009 0102"),
            ("80 01", "80 01"),
            ("A1 00000009 0102", "A1 00000009 0102"),
        ):
            self.becomes(before, removes, after)
        for before in ("40 01", "90 BEDE0002 10AA0000 01"):
            self.stays(before, removes, NotAPacket)
        self.assertRaises(NotAPacket, remove_block, bytearray())
        # what is left of a block whose last element is gone
        buf = bytearray(written(PLAIN))
        Packet.parse(buf).remove_element(1)
        length = compact(buf)
        self.assertEqual(buf[:length], written("90 BEDE0000 01"))
        length = remove_block(memoryview(buf)[:length])
        self.assertEqual(buf[:length], written("80 01"))

    def test_blocks_have_at_most_65535_words(self) -> None:
        # 1,020 elements of 255 bytes fill them in the two-byte form, and 15,420 of 16 bytes in the one-byte form
        element = b"\3\xFF" + b"7" * 255
        full = written("90 1000FFFF") + element * 1020
        self.assertEqual(len(full), 16 + MOST)
        calls: List[Callable[[bytearray], int]] = [
            lambda buf: put_element(buf, len(full), 4, b""),
            lambda buf: add_element(buf, len(full), 3, b""),
        ]
        for call in calls:
            buf = bytearray(full + bytes(600))
            with self.assertRaises(LongBlock) as raised:
                call(buf)
            self.assertEqual(str(raised.exception), "an extension block of more than 65,535 words")
            self.assertEqual(buf, full + bytes(600))
        # with one element fewer there is room for one of 255 bytes
        buf = bytearray(full[:-257] + bytes(257))
        self.assertEqual(add_element(buf, len(full), 9, element[2:], TWO), len(full))
        self.assertEqual(buf, full[:-257] + b"\x09" + element[1:])
        short = written("90 BEDEFFFF") + (b"\x3F" + b"7" * 16) * 15420
        buf = bytearray(short + bytes(70000))
        self.assertRaises(LongBlock, change_form, buf, len(short), TWO)
        self.assertEqual(buf, short + bytes(70000))
        buf = bytearray(written("80") + bytes(4 + MOST))
        self.assertEqual(put_block(buf, 12, 0xABAC, b"7" * MOST), 16 + MOST)
        self.assertEqual(buf, written("90 ABACFFFF") + b"7" * MOST)

    def test_lengths_past_the_buffer(self) -> None:
        buf = bytearray(written(PLAIN) + bytes(19))
        for length in (-1, 41, (1 << 32) + 21, 1 << 64):
            for call in (self.adds(1, b"\7"), self.changes(TWO), self.puts(0xABAC, b"")):
                with self.assertRaises(BadField) as raised:
                    call(memoryview(buf), length)
                self.assertEqual(str(raised.exception), f"length is {length}, and not 0 to 40")
        self.assertEqual(buf, written(PLAIN) + bytes(19))

    def test_data_of_the_buffer_itself(self) -> None:
        random = Random(3)
        for _ in range(1000):
            packet = written("90 BEDE0002 10AA21BB CC10DD00 01") + bytes(random.randrange(256) for _ in range(40))
            at, id, words = random.randrange(45), random.choice((1, 2, 7, 15)), random.randrange(6)
            rows: List[Tuple[int, Callable[[bytearray, Any], int]]] = [
                (at + random.randrange(17), lambda buf, data: add_element(buf, 25, id, data)),
                (at + 4 * words, lambda buf, data: put_block(buf, 25, 0xABAC, data)),
            ]
            for end, call in rows:
                apart, within = bytearray(packet), bytearray(packet)
                data = bytes(packet[at:end])
                data += bytes(-len(data) % 4) if call is rows[1][1] else b""
                if len(data) == end - at:
                    self.assertEqual(call(within, memoryview(within)[at:end]), call(apart, data))
                    self.assertEqual(within, apart)


if __name__ == "__main__":
    unittest.main()
