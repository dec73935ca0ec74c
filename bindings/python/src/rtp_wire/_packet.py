"""A packet where it lies in its datagram."""

from __future__ import annotations

from ctypes import c_size_t
from enum import IntEnum
from struct import unpack_from
from typing import TYPE_CHECKING, Iterator, NamedTuple, Optional, Tuple, Union

from . import _library
from ._buffers import address_of, copy_of, place_of, view_of, writable_view_of
from ._errors import LONG_PADDING, Status, check, checked, error_of, unsigned, within
from ._header import read_layers
from ._loaded import Function
from ._map import Map, NewIds, raw_map, raw_new_ids
from ._standard import token_of
from ._values import Values, values_of

if TYPE_CHECKING:
    from ._buffers import Address, Buffer

CSRC_AT = 12


class Form(IntEnum):
    """The form of a block of elements (RFC 8285, 4); a block of another form has none."""

    NONE = 0
    ONE_BYTE = 1
    TWO_BYTE = 2
    OTHER = 3


class Element(NamedTuple):
    """An element of a block: its id, and its data where they lie."""

    id: int
    data: memoryview


def is_rtcp(datagram: Buffer) -> bool:
    """Whether a datagram on a port that RTP and RTCP share is RTCP (RFC 5761, 4). It comes before `Packet.parse`,
    which would take a receiver report for RTP."""
    data, at = place_of(datagram)
    return bool(_library.is_rtcp(at, len(data)))


def elements(body: Buffer, form: int) -> Iterator[Element]:
    """The elements of a block's body in order, up to one that is cut short, or in the one-byte form has the id 15. One
    of the id 0 with length bits, behind which a receiver that follows RFC 8285, 4.2, reads nothing, is passed over.
    BadField where the form is none of the two."""
    view, raw = view_of(body), _library.RawElement()
    at, length, form = address_of(view), len(view), within("a form", form, 1, 2)
    while True:
        status = _library.next_element(at, length, form, raw.end, raw)
        if status == Status.NONE:
            return
        check(status)
        yield Element(raw.id, view[raw.data_at : raw.end])


# The fields that are set together: the name of each, of what says that it is there, and how many bits it has.
_FIELDS = [
    (name, f"has_{name}", bits)
    for name, bits in (
        ("payload_type", 7),
        ("sequence_number", 16),
        ("timestamp", 32),
        ("ssrc", 32),
        ("marker", 1),
    )
]


def put_fields(fields: _library.RawFields, *given: Optional[int]) -> None:
    """Puts these, which are all in their order, into the fields; one that is None isn't there."""
    for (name, has, bits), value in zip(_FIELDS, given):
        if value is not None:
            setattr(fields, name, unsigned(name, value, bits))
            setattr(fields, has, 1)


_NO_KINDS = _library.RawMap()
_HAS_AT: int = _library.RawWholePacket.values.offset + _library.RawValues.has.offset
_HAS_LAYERS_AT = _HAS_AT + _library.VALUES.index("layers")


def _read_as_rtp(at: Address, length: int, kinds: _library.RawMap, raw: _library.RawWholePacket) -> int:
    """Reads as RTP what would be RTCP on a port that both share: it has M and a payload type of 64 to 95."""
    packet = _library.RawPacket()
    status: int = _library.packet_parse(at, length, packet)
    if status == 0:
        _library.parse(at, length, kinds, raw)  # which leaves all as it is where the block has another form
        raw.header_len, raw.has_extension = packet.payload_at, packet.block_form != Form.NONE
        for name in _OF_BOTH:
            setattr(raw, name, getattr(packet, name))
    return status


# The fields that both structs have.
_OF_BOTH = {name for name, *_ in _library.RawPacket._fields_ if hasattr(_library.RawWholePacket, name)}


class Packet:
    """A packet where it lies. `parse` looks at it once; no byte of it is copied.

    >>> packet = Packet.parse(bytes.fromhex("A0600005 00000064 0000002C 6869 0002"))
    >>> packet.ssrc, packet.unpadded_payload.hex(), packet.payload.hex()
    (44, '6869', '68690002')

    The datagram is `bytes`, or another object with the buffer protocol, whose size then can't change while there is a
    packet of it. One that can be written, as a `bytearray`, is changed in place: by setting an attribute of the packet,
    or by its methods. Of one that can't be written that is a TypeError.
    """

    __slots__ = ("_data", "_len", "_map", "_raw", "_values")

    _data: Union[bytes, memoryview]
    _len: int
    _map: Optional[Map]
    _raw: _library.RawWholePacket
    _values: Optional[Values]

    def __init__(self) -> None:
        raise TypeError("a packet is read by Packet.parse")

    @classmethod
    def parse(cls, datagram: Buffer, map: Optional[Map] = None) -> Packet:
        """Reads the packet that the datagram is, and what its elements say under the map, which is looked at again
        when the packet is changed. NotAPacket, with the first cause for which it is none."""
        packet = cls.__new__(cls)
        packet._map = map
        packet._data, at = place_of(datagram)
        packet._len = len(packet._data)
        packet._read(at)
        return packet

    def _read(self, at: Address) -> None:
        """Reads the packet as it is now."""
        map, raw = self._map, _library.RawWholePacket()
        kinds = _NO_KINDS if map is None else raw_map(map)
        status = _library.read(at, self._len, kinds, raw)
        if status:
            if status == Status.RTCP:
                status = _read_as_rtp(at, self._len, kinds, raw)
            if status:
                raise error_of(status)
        self._raw, self._values = raw, None
        if map is not None and bytes(raw)[_HAS_LAYERS_AT]:
            layers = read_layers(at, self._len, map)
            self._values = values_of(raw.values, layers, of_a_packet=True)

    def __reduce__(self) -> Tuple[object, ...]:
        """Its datagram and map: what is stored is read again."""
        return type(self).parse, (self._data, self._map)

    def __bytes__(self) -> bytes:
        """A copy of the whole packet."""
        return bytes(self._data)

    def __len__(self) -> int:
        """How many bytes the packet has."""
        return self._len

    def __repr__(self) -> str:
        return (
            f"Packet(payload_type={self.payload_type}, sequence_number={self.sequence_number},"
            f" timestamp={self.timestamp}, ssrc={self.ssrc}, csrc={self.csrc}, marker={self.marker},"
            f" has_padding={self.has_padding}, form={self.form!r}, header_len={self.header_len},"
            f" payload=<{self._len - self._raw.header_len} bytes>, values={self.values})"
        )

    # ---- The header, and where it can be written the way to change it ----

    @property
    def payload_type(self) -> int:
        """What the payload is, 0 to 127."""
        return self._raw.payload_type

    @payload_type.setter
    def payload_type(self, payload_type: int) -> None:
        self._set(_library.set_payload_type, unsigned("payload_type", payload_type, 7))

    @property
    def sequence_number(self) -> int:
        """The low 16 bits of the packet's number."""
        return self._raw.sequence_number

    @sequence_number.setter
    def sequence_number(self, number: int) -> None:
        self._set(_library.set_sequence_number, unsigned("sequence_number", number, 16))

    @property
    def timestamp(self) -> int:
        """In ticks of the payload's clock, 32 bits."""
        return self._raw.timestamp

    @timestamp.setter
    def timestamp(self, timestamp: int) -> None:
        self._set(_library.set_timestamp, unsigned("timestamp", timestamp, 32))

    @property
    def ssrc(self) -> int:
        """The stream's source, 32 bits."""
        return self._raw.ssrc

    @ssrc.setter
    def ssrc(self, ssrc: int) -> None:
        self._set(_library.set_ssrc, unsigned("ssrc", ssrc, 32))

    @property
    def marker(self) -> bool:
        """M."""
        return self._raw.marker != 0

    @marker.setter
    def marker(self, marker: bool) -> None:
        self._set(_library.set_marker, unsigned("marker", marker, 1))

    @property
    def has_padding(self) -> bool:
        """P: the payload ends with padding, which its last byte counts. To set or clear it changes no other bit:
        `remove_padding` clears it and tells where the packet then ends, and `pad` writes padding."""
        return self._raw.has_padding != 0

    @has_padding.setter
    def has_padding(self, has_padding: bool) -> None:
        self._set(_library.set_padding, unsigned("has_padding", has_padding, 1))

    @property
    def csrc(self) -> Tuple[int, ...]:
        """The contributing sources, up to 15."""
        count = self._raw.csrc_count
        return unpack_from(f">{count}I", self._data, CSRC_AT) if count else ()

    def set_csrc(self, index: int, source: int) -> None:
        """Sets the contributing source at this place, counted from 0. NoElement where the list has no such place."""
        self._set(_library.set_csrc, unsigned("index", index, 64), unsigned("source", source, 32))

    def set_fields(
        self,
        *,
        payload_type: Optional[int] = None,
        sequence_number: Optional[int] = None,
        timestamp: Optional[int] = None,
        ssrc: Optional[int] = None,
        marker: Optional[bool] = None,
    ) -> None:
        """Sets those that are given, after one look at the packet: all of them or, where one is refused, none."""
        fields = _library.RawFields()
        put_fields(fields, payload_type, sequence_number, timestamp, ssrc, marker)
        self._set(_library.set_fields, fields)

    def _set(self, change: Function, *arguments: object, reason: Optional[str] = None) -> None:
        """Changes the packet, and reads it again. The reason is that of a BadField."""
        data = writable_view_of(memoryview(self._data))
        at = address_of(data)
        status = change(at, self._len, *arguments)
        if reason is not None:
            checked(status, reason)
        check(status)
        self._read(at)

    def _view(self) -> memoryview:
        return memoryview(self._data)

    # ---- The payload ----

    @property
    def header_len(self) -> int:
        """How many bytes the header has: the payload begins there."""
        return self._raw.header_len

    @property
    def header_bytes(self) -> memoryview:
        """The header where it lies: a packet without a payload. P of it is the packet's: `payload` belongs behind it,
        with the padding."""
        return self._view()[: self._raw.header_len]

    @property
    def payload(self) -> memoryview:
        """The payload where it lies, with any padding: what is passed on. `unpadded_payload` is what is heard and
        seen."""
        return self._view()[self._raw.header_len :]

    @property
    def unpadded_payload(self) -> Optional[memoryview]:
        """The payload without its padding; None where the padding is longer than the payload. With SRTP the padding is
        known only once the payload is decrypted."""
        raw = self._raw
        return self._view()[raw.header_len : raw.header_len + raw.unpadded_len] if raw.padding_fits else None

    def remove_padding(self) -> int:
        """Clears P, and returns how many bytes the packet then has, which are its first ones. BadField where the
        padding is longer than the payload."""
        length = c_size_t()
        self._set(_library.remove_padding, length, reason=LONG_PADDING)
        return length.value

    # ---- The elements of its block ----

    @property
    def form(self) -> Form:
        """The form of the block; NONE where X is clear."""
        return Form(self._raw.block_form)

    @property
    def block_profile(self) -> Optional[int]:
        """The 16 bits that the block begins with, those of a form or others, which its profile defines (RFC 3550,
        5.3.1): 0xABAC of ONVIF's cameras, say, and 0xC0DE and 0xC2DE of Cryptex (RFC 9335). None where X is clear."""
        return self._raw.block_profile if self._raw.block_form else None

    @property
    def body(self) -> memoryview:
        """The body of the block where it lies; no bytes where there is no block."""
        return self._view()[self._raw.body_at : self._raw.header_len]

    @property
    def values(self) -> Values:
        """What the elements say under the map that the packet was parsed with; without a map each field is None. They
        can't be set: `set_element` changes the packet, with the data that a copy of them has (`Values.data_of`)."""
        if self._values is None:
            self._values = values_of(self._raw.values, of_a_packet=True)
        return self._values

    def elements(self) -> Iterator[Element]:
        """The elements of the block in order, up to one that is cut short, or in the one-byte form has the id 15."""
        form = self._raw.block_form
        return elements(self.body, form) if form in (Form.ONE_BYTE, Form.TWO_BYTE) else iter(())

    def element(self, id: int) -> Optional[memoryview]:
        """The data of the last element of this id, which is the one that counts; None where there is none."""
        body, found = self.body, _library.RawElement()
        form = self._raw.block_form
        status = _library.last_element(address_of(body), len(body), form, unsigned("an id", id, 8), found)
        return body[found.data_at : found.end] if status == 0 else None

    def token(self, id: int) -> Optional[str]:
        """The text of the last element of this id as it lies, as `read_token` has it: that of `map.id_of(Kind.MID)`,
        say. None where there is no element of the id, or its data are no token. Where the kind doesn't keep it
        (`Kind.keeps`) the text of the values is another one.

        >>> datagram = bytes.fromhex("90000000 00000000 00000000 BEDE0002 14") + b"cam-1" + bytes(2)
        >>> packet = Packet.parse(datagram, Map.from_uris([(1, "urn:ietf:params:rtp-hdrext:sdes:mid")]))
        >>> packet.values.mid, packet.token(1)
        ('cam_1', 'cam-1')
        """
        data = self.element(id)
        return None if data is None else token_of(data)

    def set_element(self, id: int, data: Buffer) -> None:
        """Gives the last element of this id these data. NoElement where the packet has none, or its last one has
        another number of bytes. The data may be a part of the datagram."""
        copy = copy_of(data)
        self._set(_library.set_element, unsigned("an id", id, 8), copy, len(copy))

    def remove_element(self, id: int) -> None:
        """Makes each element of this id padding. NoElement where the packet has none."""
        self._set(_library.remove_element, unsigned("an id", id, 8))

    def renumber(self, ids: NewIds) -> None:
        """Gives each element its new id, and makes one that gets none padding. LongId where the form of the block
        can't carry a new id, one above 14 in the one-byte form, of which `change_form` makes the other; then nothing
        changes. To read the values under the receiver's map parse the packet again."""
        self._set(_library.renumber, raw_new_ids(ids))
