"""A packet's header field by field, each with its bytes."""

from __future__ import annotations

from typing import Callable, Dict, Iterator, Optional, Tuple

from . import _library
from ._buffers import address_of
from ._kind import Kind
from ._layers import Layers
from ._map import Map
from ._packet import Form, Packet
from ._values import Values

# So many bytes of a field are shown.
SHOWN = 16
FORMS = {Form.ONE_BYTE: "one-byte form", Form.TWO_BYTE: "two-byte form", Form.OTHER: "another form"}

Row = Tuple[str, str, str, str]


class _Rows:
    """Makes rows of the table `fields` of tables.json, for a datagram."""

    def __init__(self, datagram: memoryview) -> None:
        self.datagram = datagram

    def row(self, at: int, end: int, field: str, value: object) -> Row:
        shown = bytes(self.datagram[at : min(end, at + SHOWN)]).hex(" ") + (" .." if end - at > SHOWN else "")
        return (str(at) if end == at + 1 else f"{at}-{end - 1}"), shown, field, str(value)


def fields_of(datagram: memoryview, map: Map) -> Iterator[Row]:
    """The rows of a packet. NotAPacket where the datagram is none."""
    packet, rows = Packet.parse(datagram, map), _Rows(datagram)
    yield rows.row(0, 1, "Version", 2)
    yield rows.row(0, 1, "Padding", _yes_or_no(packet.has_padding))
    yield rows.row(0, 1, "Extension", _yes_or_no(packet.form != Form.NONE))
    yield rows.row(0, 1, "CSRC count", len(packet.csrc))
    yield rows.row(1, 2, "Marker", _yes_or_no(packet.marker))
    yield rows.row(1, 2, "Payload type", packet.payload_type)
    yield rows.row(2, 4, "Sequence number", packet.sequence_number)
    yield rows.row(4, 8, "Timestamp", packet.timestamp)
    yield rows.row(8, 12, "SSRC", f"0x{packet.ssrc:08x}")
    for index, source in enumerate(packet.csrc):
        yield rows.row(12 + 4 * index, 16 + 4 * index, f"CSRC {index + 1}", f"0x{source:08x}")
    yield from _of_block(packet, map, rows)
    end, media = len(datagram), packet.unpadded_payload
    padding_at = end if media is None else packet.header_len + len(media)
    if padding_at > packet.header_len:
        yield rows.row(packet.header_len, padding_at, "Payload", f"{padding_at - packet.header_len} bytes")
    if padding_at < end:
        yield rows.row(padding_at, end, "Padding", f"{end - padding_at} bytes")


def _of_block(packet: Packet, map: Map, rows: _Rows) -> Iterator[Row]:
    """The rows of the header extension: its profile and length, and each element."""
    if packet.form == Form.NONE:
        return
    body_at = packet.header_len - len(packet.body)
    form = f"0x{packet.block_profile:04x}, {FORMS[packet.form]}"
    yield rows.row(body_at - 4, body_at - 2, "Extension profile", form)
    yield rows.row(body_at - 2, body_at, "Extension length", f"{len(packet.body) // 4} words")
    for id, at, end in _places_of(packet):
        kind = map.get(id)
        name = f"Element {id}" if kind is None else f"Element {id}: {NAMES.get(kind) or map.uris.get(id, '')}"
        yield rows.row(body_at + at, body_at + end, name, _value_of(packet.values, kind))


def _places_of(packet: Packet) -> Iterator[Tuple[int, int, int]]:
    """Of each element that has data its id, and where in the body they begin and end."""
    body, room = packet.body, (_library.RawElement * 16)()
    at, end, count = address_of(body), 0, len(room)
    while count == len(room):
        count = _library.next_elements(at, len(body), packet.form, end, room, len(room))
        for it in room[:count]:
            end = it.end
            if it.data_len:
                yield it.id, it.data_at, it.end


def _yes_or_no(flag: bool) -> str:
    return "yes" if flag else "no"


def _thousandths(number: int, unit: str) -> str:
    return f"{number // 1000}.{number % 1000:03} {unit}"


def _level_of(values: Values) -> str:
    voice = "" if values.voice_activity is None else ", voice" if values.voice_activity else ", no voice"
    return f"{values.audio_level} dB{voice}"


def _layers_of(layers: Optional[Layers]) -> str:
    """Each layer of each stream with its size and rate: "0.1: 640x360, 30 fps, 500 kbit/s"."""
    if layers is None:
        return ""
    texts = []
    for stream, spatial in enumerate(layers.streams):
        for index, layer in enumerate(spatial):
            size = f"{layer.resolution[0]}x{layer.resolution[1]}, {layer.resolution[2]} fps, " if layer.resolution else ""
            rate = f"{layer.kbps[-1]} kbit/s" if layer.kbps else "not active"
            texts.append(f"{stream}.{index}: {size}{rate}")
    return "; ".join(texts)


# What a table calls an extension, and how the value of one is told, where it is there.
NAMES = {
    Kind.ABS_SEND_TIME: "send time",
    Kind.ABS_CAPTURE_TIME: "capture time",
    Kind.AUDIO_LEVEL: "audio level",
    Kind.TRANSMISSION_OFFSET: "transmission offset",
    Kind.VIDEO_ORIENTATION: "video orientation",
    Kind.TRANSPORT_NUMBER: "transport number",
    Kind.PLAYOUT_DELAY: "playout delay",
    Kind.VIDEO_CONTENT_TYPE: "video content type",
    Kind.VIDEO_TIMING: "video timing",
    Kind.RID: "rid",
    Kind.REPAIRED_RID: "repaired rid",
    Kind.MID: "mid",
    Kind.FRAME_MARKING: "frame marking",
    Kind.COLOR_SPACE: "color space",
    Kind.LAYERS: "layers",
    Kind.MIXER_LEVELS: "mixer levels",
    Kind.TRANSPORT_NUMBER_2: "transport number, version 2",
    Kind.DEPENDENCY_DESCRIPTOR: "dependency descriptor",
    Kind.NTP_64: "NTP time",
    Kind.NTP_56: "NTP time, 56 bits",
}
_TOLD: Dict[Kind, Tuple[str, Callable[[Values], str]]] = {
    Kind.ABS_SEND_TIME: ("send_time", lambda it: _thousandths((it.send_time or 0) // 1000, "s")),
    Kind.AUDIO_LEVEL: ("audio_level", _level_of),
    Kind.VIDEO_ORIENTATION: ("video_orientation", lambda it: f"{it.video_orientation} degrees"),
    Kind.TRANSPORT_NUMBER: ("transport_number", lambda it: str(it.transport_number)),
    Kind.VIDEO_CONTENT_TYPE: ("video_content_type", lambda it: "screen" if it.video_content_type == 1 else "unspecified"),
    Kind.RID: ("rid", lambda it: it.rid or ""),
    Kind.REPAIRED_RID: ("repaired_rid", lambda it: it.repaired_rid or ""),
    Kind.MID: ("mid", lambda it: it.mid or ""),
    Kind.LAYERS: ("layers", lambda it: _layers_of(it.layers)),
}


def _value_of(values: Values, kind: Optional[Kind]) -> str:
    """What an element of the kind says, where its value is there and is one that is told in words."""
    name, told = _TOLD.get(kind, ("", None)) if kind is not None else ("", None)
    return told(values) if told and getattr(values, name) is not None else ""
