"""What is read of many packets at once: the fields and values that there are, and the call of C that puts them into
columns."""

from __future__ import annotations

from array import array
from typing import TYPE_CHECKING, Dict, Iterable, List, Optional, Tuple, Union

from . import _library
from ._buffers import place_of
from ._column import RawColumn, columns_parse
from ._errors import BadField, Status
from ._map import Map, raw_map

if TYPE_CHECKING:
    from ._buffers import Buffer

    Places = Union[Buffer, Iterable[int]]

_PACKET_AT = _library.RawDatagram.packet.offset
_VALUES_AT = _library.RawWholeDatagram.packet.offset + _library.RawWholePacket.values.offset
_HAS_AT: int = _VALUES_AT + _library.RawValues.has.offset

# The columns of fields: what `array` calls the type of each, and where it stands in the struct.
FIELDS: Dict[str, Tuple[str, int]] = {
    **{name: (code, getattr(_library.RawDatagram, name).offset) for name, code in (("status", "i"), ("is_rtcp", "B"))},
    **{
        name: (code, _PACKET_AT + getattr(_library.RawPacket, name).offset)
        for name, code in {
            "sequence_number": "H",
            "timestamp": "I",
            "ssrc": "I",
            "payload_type": "B",
            "marker": "B",
            "payload_at": "Q",
            "payload_len": "Q",
            "unpadded_len": "Q",
            "padding_fits": "B",
        }.items()
    },
}
# The columns of values: the type of each, where it stands in the struct, and what says that it is there.
NUMBERS: Dict[str, Tuple[str, int, str]] = {
    **{
        name: (code, _VALUES_AT + getattr(_library.RawValues, name).offset, name)
        for name, code in {
            "send_time": "Q",
            "capture_time": "Q",
            "capture_offset": "q",
            "playout_delay_min": "Q",
            "playout_delay_max": "Q",
            "transmission_offset": "I",
            "frame_marking": "I",
            "transport_number": "H",
            "video_orientation": "H",
            "video_content_type": "B",
            "audio_level": "b",
            "voice_activity": "B",
        }.items()
    },
    **{
        name: (code, _VALUES_AT + getattr(_library.RawValues, name).offset, "video_timing")
        for name, code in {
            "encode_start": "H",
            "encode_finish": "H",
            "packetize_complete": "H",
            "last_left_pacer": "H",
            "timing_flags": "B",
        }.items()
    },
}
# The columns of texts, and how many bytes each takes in the struct.
TEXTS: Dict[str, Tuple[int, int, str]] = {
    name: (_VALUES_AT + described.offset, described.size, name)
    for name in ("mid", "rid", "repaired_rid")
    for described in [getattr(_library.RawValues, name)]
}


def _numbers(places: Places) -> array[int]:
    """The places, as numbers of 64 bits."""
    numbers = array("q")
    try:
        view = memoryview(places)  # type: ignore[arg-type]
    except TypeError:
        pass
    else:
        if view.itemsize == 8 and view.format.lstrip("@=") in ("q", "Q", "l", "L", "n", "N"):
            numbers.frombytes(view.tobytes())  # also where they don't lie together
            return numbers
    try:
        numbers.extend(iter(places))  # type: ignore[arg-type]
    except OverflowError as error:
        raise BadField(Status.BAD_FIELD, "a place is no number of 64 bits") from error
    return numbers


def places_of(at: Places, lengths: Places) -> Tuple[array[int], array[int]]:
    """Where datagrams begin, and how long they are."""
    places = _numbers(at), _numbers(lengths)
    if len(places[0]) != len(places[1]):
        raise BadField(Status.BAD_FIELD, f"there are {len(places[0])} places and {len(places[1])} lengths")
    return places


def has_at(name: str) -> int:
    """Where in the struct it stands whether this value is there."""
    return _HAS_AT + _library.VALUES.index(name)


def no_column(name: object) -> BadField:
    return BadField(Status.BAD_FIELD, f"there is no column of {name!r}")


def read(
    data: Union[bytes, memoryview],
    at: array[int],
    lengths: array[int],
    map: Optional[Map],
    fields: List[RawColumn],
    values: List[RawColumn],
    is_rtp: RawColumn,
) -> None:
    """Reads the datagrams at these places into these columns of fields and values."""
    columns_parse(
        place_of(data)[1],
        len(data),
        raw_map(Map() if map is None else map),
        at.buffer_info()[0],
        lengths.buffer_info()[0],
        len(at),
        (RawColumn * len(fields))(*fields),
        len(fields),
        (RawColumn * len(values))(*values),
        len(values),
        is_rtp,
    )
