"""A header as a value of its own."""

from __future__ import annotations

from ctypes import Array, c_size_t, c_uint32
from dataclasses import dataclass, field, fields
from typing import TYPE_CHECKING, Any, Dict, FrozenSet, Iterable, Optional, Tuple, cast

from . import _library
from ._buffers import address_of, place_of, view_of, writable_view_of
from ._errors import BadField, LeftOut, Status, check, checked, unsigned, within
from ._kind import Kind
from ._layers import Layers, layers_of, raw_layers_of
from ._loaded import Function
from ._map import Map, raw_map
from ._values import Values, put_values, values_of

if TYPE_CHECKING:
    from ._buffers import Address, Buffer, WritableBuffer

MOST_CSRCS = 15
# Of the header of a block, and the word that its elements are filled up to.
BLOCK_HEADER, WORD = 4, 4


def read_layers(address: Address, length: int, map: Map) -> Layers:
    """The layer allocation of the header that the bytes begin with, which has one under the map."""
    header, layers = _library.RawHeader(), _library.RawLayers()
    check(_library.parse_layers(address, length, raw_map(map), header, layers))
    return layers_of(layers)


@dataclass
class Header:
    """The header of a packet, with the values of its block: read by `parse`, or filled and written by `write_all`. What is
    no field can't be set: it is an AttributeError.

    >>> from rtp_wire import Kind
    >>> header = Header(payload_type=33, sequence_number=47000, values=Values(mid="1"))
    >>> header.write_all(Map({3: Kind.MID})).hex(" ", 4)
    '9021b798 00000000 00000000 bede0001 30310000'

    To send a packet like one that came, with its payload without the padding:

    >>> from rtp_wire import Packet
    >>> datagram = bytes.fromhex("A0600005 00000064 0000002C 6869 0002")
    >>> header, packet = Header.parse(datagram), Packet.parse(datagram)
    >>> header.ssrc, header.has_padding = 45, False
    >>> (header.write_all(Map()) + packet.unpadded_payload).hex(" ", -4)
    '80600005 00000064 0000002d 6869'
    """

    payload_type: int = 0
    """What the payload is, 0 to 127."""
    sequence_number: int = 0
    """The low 16 bits of the packet's number."""
    timestamp: int = 0
    """In ticks of the payload's clock, 32 bits."""
    ssrc: int = 0
    """The stream's source, 32 bits."""
    csrc: Tuple[int, ...] = ()
    """The contributing sources, up to 15."""
    marker: bool = False
    """M."""
    has_padding: bool = False
    """P. As written only with padding behind the payload (`pad`): where a header that was read is written for a payload
    without its padding set it to False, or each peer takes the payload's last bytes for padding."""
    has_extension: bool = cast(bool, None)
    """X, whether there is a block: without one no value is written. Where it isn't given, it is set exactly where one
    of the values is there."""
    values: Values = field(default_factory=Values)
    """What the elements of the block say."""
    header_len: int = field(default=0, compare=False)
    """How many bytes the header took that was read: the payload begins there. Nothing is written of it."""

    if not TYPE_CHECKING:  # by which a name that there isn't is found before

        def __setattr__(self, name: str, value: object) -> None:
            if name not in _FIELDS and type(self) is Header:
                raise AttributeError(f"a header has no field {name!r}")
            object.__setattr__(self, name, value)

    def __post_init__(self) -> None:
        if self.has_extension is None:
            self.has_extension = self.values != Values()

    @classmethod
    def parse(cls, datagram: Buffer, map: Optional[Map] = None) -> Header:
        """Reads the header that the bytes begin with, and what its elements say under the map; nothing after it is
        looked at. NotAPacket as Packet.parse, and OtherForm, before a block is found cut short."""
        data, at = place_of(datagram)
        map, raw = Map() if map is None else map, _library.RawHeader()
        check(_library.parse(at, len(data), raw_map(map), raw))
        layers = None
        if raw.values.has[-1]:
            layers = read_layers(at, len(data), map)
        values = values_of(raw.values, layers)
        fields_of: Dict[str, Any] = {
            "payload_type": raw.payload_type,
            "sequence_number": raw.sequence_number,
            "timestamp": raw.timestamp,
            "ssrc": raw.ssrc,
            "csrc": tuple(raw.csrc[: raw.csrc_count]),
            "marker": raw.marker != 0,
            "has_padding": raw.has_padding != 0,
            "has_extension": raw.has_extension != 0,
            "values": values,
            "header_len": raw.header_len,
        }
        if cls is not Header:
            return cls(**fields_of)
        header = object.__new__(Header)
        vars(header).update(fields_of)  # all that __init__ does, in one step
        return header

    def _raw(self, with_values: bool = True) -> _library.RawHeader:
        raw = _library.RawHeader()
        raw.payload_type = unsigned("payload_type", self.payload_type, 7)
        raw.sequence_number = unsigned("sequence_number", self.sequence_number, 16)
        raw.timestamp = unsigned("timestamp", self.timestamp, 32)
        raw.ssrc = unsigned("ssrc", self.ssrc, 32)
        sources = [unsigned("a source", source, 32) for source in self.csrc]
        if len(sources) > MOST_CSRCS:
            raise BadField(Status.BAD_FIELD, f"csrc has {len(sources)} sources, and not up to {MOST_CSRCS}")
        raw.csrc_count = len(sources)
        raw.csrc[: len(sources)] = sources
        raw.marker = unsigned("marker", self.marker, 1)
        raw.has_padding = unsigned("has_padding", self.has_padding, 1)
        raw.has_extension = unsigned("has_extension", self.has_extension, 1)
        if with_values:
            put_values(raw.values, self.values)
        return raw

    def _calls(self, map: Map) -> Tuple[Function, Function, Tuple[object, ...]]:
        """The calls that tell the length and write, and what both are given."""
        given = (raw_map(map), self._raw())
        if self.values.layers is None:
            return _library.wire_len, _library.write, given
        return _library.wire_len_layers, _library.write_layers, (*given, raw_layers_of(self.values.layers))

    def wire_len(self, map: Map) -> int:
        """How many bytes `write` writes: a multiple of 4. BadField as `write`."""
        wire_len, _, given = self._calls(map)
        length = c_size_t()
        checked(wire_len(*given, length), NO_LAYERS)
        return length.value

    def write(self, map: Map) -> bytes:
        """The bytes of the header. Where has_extension is set there is a block, by rising id an element for each
        mapped id whose value is there: in the one-byte form unless an id above 14 or Kind.LAYERS is mapped or a text
        that is written is empty. Spatial layers at the end of a stream that aren't active are left out. So is a value
        without an id, or without a block, and nothing says so: `left_out` tells these, and `write_all` refuses them.
        BadField where a field or a value is out of its range, or no element can carry the layers, as those of more than
        255 bytes. P is has_padding, and the padding itself is yours to write behind the payload.
        """
        wire_len, write, given = self._calls(map)
        length = c_size_t()
        checked(wire_len(*given, length), NO_LAYERS)
        buf = bytearray(length.value)
        checked(write(*given, address_of(memoryview(buf)), len(buf), length), NO_LAYERS)
        return bytes(buf)

    def write_to(self, buf: WritableBuffer, map: Map) -> int:
        """Writes the header to the front of the buffer, and returns how many bytes it took; those after it stay.
        BadField as `write`, and else ShortBuffer; nothing is written then."""
        view, length = writable_view_of(buf), c_size_t()
        _, write, given = self._calls(map)
        checked(write(*given, address_of(view), len(view), length), NO_LAYERS)
        return length.value

    def left_out(self, map: Map) -> FrozenSet[Kind]:
        """The kinds of which there is a value that `write` leaves out: all that are there where has_extension is
        False, and else those that aren't mapped, and those of which a second value is absent, as an audio level without
        voice or one of two playout delays. BadField as `write`.

        >>> header = Header(values=Values(audio_level=-42, mid="1"))
        >>> [kind.name for kind in sorted(header.left_out(Map({3: Kind.AUDIO_LEVEL})))]
        ['AUDIO_LEVEL', 'MID']
        >>> header.values.voice_activity = False
        >>> [kind.name for kind in header.left_out(Map({3: Kind.AUDIO_LEVEL}))]
        ['MID']
        """
        kinds, given = c_uint32(), (raw_map(map), self._raw())
        if self.values.layers is None:
            checked(_library.left_out(*given, kinds), NO_LAYERS)
        else:
            checked(_library.left_out_layers(*given, raw_layers_of(self.values.layers), kinds), NO_LAYERS)
        return frozenset(kind for kind in Kind if kind < Kind.OWN and kinds.value >> kind & 1)

    def _all_is_written(self, map: Map) -> None:
        kinds = self.left_out(map)
        if kinds:
            raise LeftOut(kinds)

    def write_all(self, map: Map) -> bytes:
        """The bytes of the header, as `write` has them, where no value is left out. BadField as `write`; LeftOut, with
        the kinds, where `left_out` tells any."""
        self._all_is_written(map)
        return self.write(map)

    def write_all_to(self, buf: WritableBuffer, map: Map) -> int:
        """Writes the header to the front of the buffer as `write_to` does, where no value is left out. BadField and
        LeftOut as `write_all`, and else ShortBuffer; nothing is written then."""
        self._all_is_written(map)
        return self.write_to(buf, map)

    def write_with(self, elements: Iterable[Tuple[int, Buffer]], form: Optional[int] = None) -> bytes:
        """The bytes of the header with a block of these elements, pairs of an id and its data, whatever has_extension
        and the values hold: in the one-byte form where that can carry each of them, or in the form that is given
        alone, for a peer that hasn't agreed to both in one stream. BadField where a field is out of its range, an id
        isn't 1 to 255, data have more than 255 bytes, a block can't have as many bytes, or the form can't carry an
        element. P is has_padding, as `write` has it.
        """
        allowed = 0 if form is None else within("a form", form, 0, 2)
        data, places = _gather(elements, allowed)
        raw = self._raw(with_values=False)
        room = _room(data, places) + BLOCK_HEADER + 12 + 4 * raw.csrc_count
        buf, length = bytearray(room), c_size_t()
        given = (raw, data, len(data), places, len(places))
        into = (address_of(memoryview(buf)), len(buf), length)
        if form is None:
            checked(_library.write_with(*given, *into), LONG)
        else:
            checked(_library.write_with_form(*given, allowed, *into), LONG)
        return bytes(memoryview(buf)[: length.value])


_FIELDS = {it.name for it in fields(Header)}

# Why a header isn't written, all of whose fields are in their ranges.
NO_LAYERS = "no element can carry the layers"
LONG = "the elements have more bytes than a block can"


# By form the highest id, and the least and the most bytes, that elements have.
_BOUNDS = {0: (255, 0, 255), 1: (14, 1, 16), 2: (255, 0, 255)}


def _gather(elements: Iterable[Tuple[int, Buffer]], form: int) -> Tuple[bytes, Array[_library.RawElement]]:
    """The data of all elements, one after the other, and where those of each lie; 0 stands for each form. BadField
    where the form can't carry one."""
    data, places = bytearray(), []
    highest, least, most = _BOUNDS[form]
    for id, part in elements:
        view, number = view_of(part), within("an id", id, 1, highest)
        places.append(_library.RawElement(len(data), within("the length of data", len(view), least, most), 0, number))
        data += view
    return bytes(data), (_library.RawElement * len(places))(*places)


def _room(data: bytes, places: Array[_library.RawElement]) -> int:
    """As many bytes as the elements take in the two-byte form, and as a word is filled up with."""
    return len(data) + 2 * len(places) + WORD - 1


def write_elements(elements: Iterable[Tuple[int, Buffer]], form: int) -> bytes:
    """The elements, pairs of an id and its data, one after the other as the body of a block has them. BadField where
    the form is none of the two, or can't carry one of them."""
    form = within("a form", form, 1, 2)
    data, places = _gather(elements, form)
    buf, length = bytearray(_room(data, places)), c_size_t()
    view = memoryview(buf)
    check(
        _library.write_elements(
            data, len(data), places, len(places), form, address_of(view), len(buf), length
        )
    )
    return bytes(view[: length.value])
