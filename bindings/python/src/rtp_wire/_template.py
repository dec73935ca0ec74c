"""A packet's header for each of its receivers."""

from __future__ import annotations

from ctypes import Array
from typing import TYPE_CHECKING, Iterable, Iterator, List, NamedTuple, Optional, Tuple, Union

from . import _library
from ._buffers import address_of, copy_of, place_of, view_of, writable_view_of
from ._errors import BadField, RtpError, Status, check, checked, error_of, unsigned
from ._group import Group, places_of
from ._growing import allowed_forms
from ._map import NewIds, raw_new_ids
from ._packet import Form, put_fields

if TYPE_CHECKING:
    from ._buffers import Buffer, WritableBuffer

# A place that no data have.
_NOWHERE = (1 << 64) - 1


class Route(NamedTuple):
    """What one of the receivers of a packet gets of its own; a field that is None is the packet's."""

    data: Buffer = b""
    """The data of the elements that are put, one after another in their order, each as long as in the template."""
    payload_type: Optional[int] = None
    sequence_number: Optional[int] = None
    timestamp: Optional[int] = None
    ssrc: Optional[int] = None
    marker: Optional[bool] = None
    original_number: Optional[int] = None
    """Where it is given the receiver gets a retransmission (RFC 4588, 4) of the packet that it got with this number:
    the fields are those of the retransmission's stream, with the timestamp and marker that it got the packet with where
    these were its own, P is clear, and the header ends with the number in two bytes. The payload follows without its
    padding, which isn't looked at here. That is what `to_retransmission` makes of what the receiver got, where each id
    stays."""
    clears_padding: bool = False
    """Whether P is clear, as it always is for a retransmission: where the payload is sent without its padding. Where P
    stays set the receiver takes the last bytes of what is sent for padding."""


class HeaderTemplate:
    """A packet's header for receivers that have the same ids and elements: each gets a copy with fields and data of its
    own before the one payload, which stays where it lies (`socket.sendmsg`; RFC 7667, 3.7): `Packet.payload`, with its
    padding, or with `clears_padding` of the route `Packet.unpadded_payload`. The header is what
    `Packet.set_fields`, `Packet.renumber`, `put_element` for each element and `compact` make of a copy of the packet's
    header, one after another, with `change_form` before `renumber` where a new id is above 14 and the two-byte form is
    allowed. The template has bytes of its own: the packet may change. Two with the same header and places of the data
    are equal; it can be copied and pickled.

    >>> packet = bytes.fromhex("90600005 00000064 0000002C BEDE0001 10AA0000 6869")
    >>> template = HeaderTemplate(packet, NewIds({1: 3}), [(4, bytes(2))])
    >>> routes = [Route(bytes([0, 7]), ssrc=45), Route(b"", ssrc=46), Route(bytes([0, 8]), ssrc=47)]
    >>> headers = template.write(routes)
    >>> headers[2].hex(" ", -4)
    '90600005 00000064 0000002f bede0002 30aa4100 08000000'
    >>> headers[1]
    BadField('the length of data is 0, and not 2')
    """

    __slots__ = ("_header", "_raw")

    _header: bytes
    _raw: _library.RawTemplate

    def __init__(
        self,
        datagram: Buffer,
        ids: NewIds,
        elements: Iterable[Tuple[int, Buffer]] = (),
        allowed: Optional[Form] = None,
    ) -> None:
        """Makes the header that the packet gets: each of its elements gets its new id, and one that gets none goes;
        then these, pairs of an id and its data, are put into it in their order, at most 16 of ids of their own, in the
        forms that are allowed, as in `put_element`. An id above 14 asks for the two-byte form. Its header alone is
        enough.

        BadField where there are more elements, two have one id, or one has more than 255 bytes of data; BadId where an
        id isn't 1 to 255; LongId where the one-byte form alone is allowed, and an element of a block of that form gets
        a new id above 14, or one that is put has such an id; NotAPacket; OtherForm; FormNotAllowed; LongBlock."""
        data, places = _gather(elements)
        forms, new_ids = allowed_forms(allowed), raw_new_ids(ids)
        packet, at = place_of(datagram)
        room, self._raw = _room_for(packet, len(places)), _library.RawTemplate()
        status = _library.make_template(
            at,
            len(packet),
            new_ids,
            data,
            len(data),
            places,
            len(places),
            forms,
            address_of(room),
            len(room),
            self._raw,
        )
        self._take(status, room)

    @classmethod
    def from_group(cls, datagram: Buffer, group: Group) -> HeaderTemplate:
        """The same of what was prepared once: a server makes the `Group` when a session's ids are agreed on, and for each
        packet a template of it. In place of the elements' data its header has zeros.

        NotAPacket; OtherForm; LongId, FormNotAllowed and LongBlock as where it is made of ids and elements.

        >>> group = Group(NewIds({1: 3}), [(4, 2)])
        >>> packet = bytes.fromhex("90600005 00000064 0000002C BEDE0001 10AA0000 6869")
        >>> template = HeaderTemplate.from_group(packet, group)
        >>> [header.hex(" ", -4) for header in template.write([Route(bytes([0, 7])), Route(bytes([0, 8]), ssrc=46)])]
        ['90600005 00000064 0000002c bede0002 30aa4100 07000000', '90600005 00000064 0000002e bede0002 30aa4100 08000000']
        """
        if not isinstance(group, Group):
            raise TypeError(f"a group is {type(group).__name__}, and not Group")
        made, raw = cls.__new__(cls), group._raw
        packet, at = place_of(datagram)
        room, made._raw = _room_for(packet, raw.count), _library.RawTemplate()
        status = _library.make_from_group(raw, at, len(packet), address_of(room), len(room), made._raw)
        made._take(status, room)
        return made

    def _take(self, status: int, room: memoryview) -> None:
        """Keeps the header that was made, or raises why there is none."""
        check(status)
        self._header = bytes(room[: self._raw.header_len])

    @property
    def header(self) -> bytes:
        """The header that was made, with the packet's fields and the data that were put."""
        return self._header

    @property
    def header_len(self) -> int:
        """How many bytes it has, and each that is written; that of a retransmission has 2 more."""
        return len(self._header)

    @property
    def data_len(self) -> int:
        """How many bytes of data each receiver brings, those of all elements that are put."""
        return self._raw.data_total

    def write(self, routes: Iterable[Route]) -> List[Union[bytes, RtpError]]:
        """The header of each receiver, in one call of the library for all; in its place the exception where a receiver
        can't be served, and all others are as without it: BadField where its data aren't `data_len` bytes, or a field
        is out of its range. TypeError where one is no `Route`, or has a value of another type.

        >>> template = HeaderTemplate(bytes.fromhex("A0600005 00000064 0000002C 6869 0002"), NewIds())
        >>> again = Route(payload_type=97, sequence_number=9, ssrc=45, original_number=5)
        >>> [header.hex(" ", -4) for header in template.write([Route(), Route(clears_padding=True), again])]
        ['a0600005 00000064 0000002c', '80600005 00000064 0000002c', '80610009 00000064 0000002d 0005']
        """
        listed = _listed(routes)
        room = memoryview(bytearray((len(self._header) + 2) * len(listed)))
        return [it if isinstance(it, RtpError) else bytes(it) for it in self._write(listed, room)]

    def write_into(self, buffer: WritableBuffer, routes: Iterable[Route]) -> List[Union[memoryview, RtpError]]:
        """The same in a buffer: the header of each receiver where it lies, one after another from the first byte on.
        One that is refused takes no bytes; there is one more cause, ShortBuffer, where a header would reach past the
        buffer, which `header_len` and 2 more for each is room enough for. The data of receivers may lie in the buffer.

        >>> template = HeaderTemplate(bytes.fromhex("80600005 00000064 0000002C"), NewIds())
        >>> buffer = bytearray(20)
        >>> first, second = template.write_into(buffer, [Route(ssrc=45), Route(ssrc=46)])
        >>> buffer.hex(" ", -4), len(first), second
        ('80600005 00000064 0000002d 00000000 00000000', 12, ShortBuffer('a buffer is too short'))
        """
        return self._write(_listed(routes), writable_view_of(buffer))

    def _write(self, routes: List[Route], room: memoryview) -> List[Union[memoryview, RtpError]]:
        """Writes the headers, and lends each, or says why it isn't written."""
        receivers = (_library.RawRoutedHeader * len(routes))()
        data, causes = bytearray(), {}
        for row, route in enumerate(routes):
            receiver = receivers[row]
            receiver.data_at = len(data)
            try:
                data += self._own(receiver, route)
            except RtpError as error:
                causes[row] = error
                receiver.data_at = _NOWHERE
        self._call(bytes(data), receivers, room)
        return [
            causes.get(row) or (error_of(it.status) if it.status else room[it.at : it.at + it.len])
            for row, it in enumerate(receivers)
        ]

    def _own(self, receiver: _library.RawRoutedHeader, route: Route) -> memoryview:
        """The data of a receiver, whose fields and original number are put."""
        data, *fields, original_number, clears_padding = route
        view = view_of(data)
        if len(view) != self._raw.data_total:
            told = f"the length of data is {len(view)}, and not {self._raw.data_total}"
            raise BadField(Status.BAD_FIELD, told)
        put_fields(receiver.fields, *fields)
        receiver.clears_padding = unsigned("clears_padding", clears_padding, 1)
        if original_number is not None:
            receiver.original_number = unsigned("original_number", original_number, 16)
            receiver.is_retransmission = 1
        return view

    def _call(self, data: bytes, receivers: Array[_library.RawRoutedHeader], room: memoryview) -> None:
        status = _library.write_headers(
            self._raw,
            self._header,
            len(self._header),
            data,
            len(data),
            receivers,
            len(receivers),
            address_of(room),
            len(room),
        )
        checked(status, "no template was stored")

    def _state(self) -> Tuple[bytes, bytes]:
        return self._header, bytes(self._raw)

    def __eq__(self, other: object) -> bool:
        return isinstance(other, HeaderTemplate) and self._state() == other._state()

    def __hash__(self) -> int:
        return hash(self._state())

    def __repr__(self) -> str:
        return f"HeaderTemplate(header={self._header.hex()!r}, data_len={self.data_len})"

    def __getstate__(self) -> Tuple[bytes, bytes]:
        return self._state()

    def __setstate__(self, state: Tuple[bytes, bytes]) -> None:
        """BadField where what was stored is no template."""
        header, raw = state
        self._header, self._raw = copy_of(header), _library.RawTemplate.from_buffer_copy(raw)
        self._call(b"", (_library.RawRoutedHeader * 0)(), memoryview(b""))


def _listed(routes: Iterable[Route]) -> List[Route]:
    """The routes; TypeError where one is none."""
    listed = list(routes)
    for it in listed:
        if not isinstance(it, Route):
            raise TypeError(f"a route is {type(it).__name__}, and not Route")
    return listed


def _room_for(packet: Union[bytes, memoryview], count: int) -> memoryview:
    """Room for the packet's header with so many elements more."""
    return memoryview(bytearray(2 * len(packet) + 264 * count))


def _gather(elements: Iterable[Tuple[int, Buffer]]) -> Tuple[bytes, Array[_library.RawElement]]:
    """The data of the elements, one after the other, and where those of each lie."""
    data = bytearray()

    def lengths() -> Iterator[Tuple[int, int]]:
        for id, part in elements:
            view = view_of(part)
            yield id, len(view)
            data.extend(view)

    places = places_of(lengths())
    return bytes(data), places
