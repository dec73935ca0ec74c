"""What the elements of a block say."""

from __future__ import annotations

import re
from ctypes import c_size_t
from dataclasses import dataclass, fields
from functools import lru_cache
from operator import attrgetter
from typing import TYPE_CHECKING, Any, Callable, Dict, NamedTuple, Optional, Tuple

from . import _library
from ._buffers import address_of, place_of
from ._errors import BadField, Status, check, unsigned, whole, within
from ._kind import Kind, kind_number
from ._layers import Layers
from ._map import Map, raw_map

if TYPE_CHECKING:
    from ._buffers import Buffer

# Enough for the data of an element of each kind.
MOST_DATA = 16


class Time(NamedTuple):
    """A length of time: ticks / hertz seconds."""

    ticks: int
    hertz: int

    @property
    def seconds(self) -> float:
        return self.ticks / self.hertz


class VideoTiming(NamedTuple):
    """When a frame passed each step on its way out, in milliseconds after its capture."""

    encode_start: int
    encode_finish: int
    packetize_complete: int
    last_left_pacer: int
    flags: int  # why the times were sent: bit 0 a timer, bit 1 a large frame


@dataclass(repr=False)
class Values:
    """What the elements of a block say under a map. A value is None where it isn't there. Some are read as str0m does
    and not as the standard of the extension has them: what says so names the call that does.

    A value may be set, but for those that a packet tells: they say what lies in its datagram, and a copy of them may
    be changed. What is no value can't be set: it is an AttributeError.

    >>> import dataclasses
    >>> from rtp_wire import Kind, Map, Packet
    >>> datagram = bytearray.fromhex("90000000 00000000 00000000 BEDE0001 108A0000")
    >>> packet = Packet.parse(datagram, Map({1: Kind.AUDIO_LEVEL}))
    >>> packet.set_element(1, dataclasses.replace(packet.values, audio_level=-5).data_of(Kind.AUDIO_LEVEL))
    >>> packet.values
    Values(audio_level=-5, voice_activity=True)
    """

    mid: Optional[str] = None
    """The media section, up to 16 letters, digits and underscores (RFC 9143). As read each other character is an
    underscore, and what is longer is cut: "cam-1", "cam_1" and "cam.1" are one. `Packet.token` has the text as it lies,
    for a mid that the peer chose."""
    rid: Optional[str] = None
    """The stream (RFC 8852), up to 8 of them, where the RFC has up to 255, changed and cut as the mid is:
    `Packet.token`, and `is_stream_id` for what is sent."""
    repaired_rid: Optional[str] = None
    """The stream that this one repairs, the same."""
    audio_level: Optional[int] = None
    """Decibels relative to the overload point, -127 to 0. It is written together with the voice activity, or not."""
    voice_activity: Optional[bool] = None
    """Whether the audio has voice."""
    send_time: Optional[int] = None
    """When the packet left its sender, in whole microseconds: as read modulo 64 seconds. Nearly all of the 2^24 times
    lose a unit where they are read and written: `read_send_time` is exact."""
    transport_number: Optional[int] = None
    """The packet's number over all streams of the transport, 16 bits, without the request for feedback of
    transport-wide-cc-02: `TransportNumber`."""
    video_orientation: Optional[int] = None
    """How the picture is to be turned, in degrees counter-clockwise: 0, 90, 180 or 270. Which camera it is of and
    whether it is mirrored is lost, and written as a front camera and no flip: `Orientation`."""
    capture_time: Optional[int] = None
    """When the frame was captured, an NTP timestamp with 32 bits of fraction."""
    capture_offset: Optional[int] = None
    """How far the capturer's clock is ahead of the sender's, in seconds with 32 bits of fraction. It is written with a
    capture time alone."""
    transmission_offset: Optional[int] = None
    """str0m's, in ticks of the stream's clock: four bytes without a sign. RFC 5450 has three, which are never read so,
    and no other peer takes the four that are written: `read_transmission_offset`, `transmission_offset_data`."""
    playout_delay_min: Optional[Time] = None
    """For how long the receiver may hold the frame at least. Of the two delays both are written, or none."""
    playout_delay_max: Optional[Time] = None
    """And for how long at most."""
    video_content_type: Optional[int] = None
    """0 unspecified, 1 a screen."""
    video_timing: Optional[VideoTiming] = None
    """When the frame was encoded and sent. Of 12 bytes, the older form, the first is taken for flags, and neither
    network time is read or written: `Timing`."""
    frame_marking: Optional[int] = None
    """The first four bytes of the frame marking, which is str0m's reading and not that of RFC 9626: `FrameMarking`."""
    layers: Optional[Layers] = None
    """Which simulcast streams and layers the sender keeps active."""

    @classmethod
    def read(cls, body: Buffer, form: int, map: Map) -> Values:
        """The values of the elements of a block's body under the map, but for a layer allocation, which is read from
        a whole packet. BadField where the form is none of the two."""
        data, at = place_of(body)
        raw = _library.RawValues()
        check(_library.values_read(at, len(data), within("a form", form, 1, 2), raw_map(map), raw))
        return values_of(raw)

    def data_of(self, kind: Kind) -> bytes:
        """The data that an element of the kind has for these values, as `Header.write` writes them: so
        `packet.set_element(id, values.data_of(kind))` sets one value where it lies. NoElement where a value that the
        kind needs isn't there, and always for Kind.COLOR_SPACE (`ColorSpace`), Kind.LAYERS, those from
        Kind.MIXER_LEVELS to Kind.NTP_56 and your own kinds. BadField for Kind.NONE, and where a value, of this kind or
        not, is out of its range."""
        raw, data, length = _library.RawValues(), bytearray(MOST_DATA), c_size_t()
        put_values(raw, self)
        view = memoryview(data)
        check(_library.data_of(kind_number(kind), raw, address_of(view), len(data), length))
        return bytes(view[: length.value])

    if not TYPE_CHECKING:  # by which a name that there isn't is found before

        def __setattr__(self, name: str, value: object) -> None:
            if name not in _ABSENT and type(self) is Values:
                raise AttributeError(f"there is no value {name!r}")
            object.__setattr__(self, name, value)

    def __repr__(self) -> str:
        """With the values that are there alone."""
        told = ((it.name, getattr(self, it.name)) for it in fields(self))
        return f"Values({', '.join(f'{name}={value!r}' for name, value in told if value is not None)})"


Raw = _library.RawValues
_ABSENT: Dict[str, Any] = {it.name: None for it in fields(Values)}


class _Told(Values):
    """Values that a packet tells, which can't be set. In all else they are `Values`, as a copy of them is."""

    if not TYPE_CHECKING:
        __class__ = property(lambda self: Values)

        def __setattr__(self, name: str, value: object) -> None:
            told = f"{name} is what a packet tells, and can't be set"
            raise AttributeError(f"{told}: set_element changes the packet, and a copy of the values may be changed")

    def __reduce__(self) -> Tuple[object, ...]:
        return Values, tuple(vars(self).values())



def _time_of(raw: _library.RawTime) -> Time:
    return Time(raw.ticks, raw.hertz)


def _timing_of(raw: Raw) -> VideoTiming:
    times = (raw.encode_start, raw.encode_finish, raw.packetize_complete, raw.last_left_pacer)
    return VideoTiming(*times, flags=raw.timing_flags)


# How each value that isn't a number is read from the struct.
_READERS: Dict[str, Callable[[Raw], Any]] = {
    "mid": lambda raw: raw.mid.decode(),
    "rid": lambda raw: raw.rid.decode(),
    "repaired_rid": lambda raw: raw.repaired_rid.decode(),
    "voice_activity": lambda raw: raw.voice_activity != 0,
    "playout_delay_min": lambda raw: _time_of(raw.playout_delay_min),
    "playout_delay_max": lambda raw: _time_of(raw.playout_delay_max),
    "video_timing": _timing_of,
    "layers": lambda raw: None,
}


@lru_cache(maxsize=1024)
def _readers_of(has: bytes) -> Tuple[Tuple[str, Callable[[Raw], Any]], ...]:
    """The values that these flags say are there, and how each is read."""
    there = (name for name, flag in zip(_library.VALUES, has) if flag)
    return tuple((name, _READERS.get(name) or attrgetter(name)) for name in there)


def values_of(raw: Raw, layers: Optional[Layers] = None, of_a_packet: bool = False) -> Values:
    """The values of the struct, with this layer allocation; those of a packet can't be set."""
    values: Values = object.__new__(_Told if of_a_packet else Values)
    there = vars(values)
    there.update(_ABSENT)
    for name, read in _readers_of(bytes(raw.has)):
        there[name] = read(raw)
    there["layers"] = layers
    return values


def _text(name: str, text: str, most: int) -> bytes:
    if not isinstance(text, str):
        raise TypeError(f"{name} is {type(text).__name__}, and not str")
    data = str.encode(text, "ascii", "replace")
    if len(data) > most or re.fullmatch(b"[A-Za-z0-9_]*", data) is None:
        raise BadField(
            Status.BAD_FIELD, f"{name} is {text!r}, and not up to {most} letters, digits and underscores"
        )
    return data


def _raw_time(name: str, time: Time) -> _library.RawTime:
    try:
        ticks, hertz = time
    except (TypeError, ValueError):
        raise TypeError(f"{name} is {type(time).__name__}, and not Time") from None
    return _library.RawTime(unsigned(name, ticks, 64), within(f"hertz of {name}", hertz, 1, (1 << 32) - 1))


def _degrees(value: int) -> int:
    value = whole("video_orientation", value)
    if value not in (0, 90, 180, 270):
        raise BadField(Status.BAD_FIELD, f"video_orientation is {value}, and not 0, 90, 180 or 270")
    return value


# How many bits a value has that is any number of its field.
_NUMBERS = "send_time capture_time transmission_offset frame_marking transport_number video_content_type".split()
_BITS = {**{name: 8 * getattr(Raw, name).size for name in _NUMBERS}, "voice_activity": 1}
_LEVELS = _library.RANGES["RawValues.audio_level"]
# What each value is in the struct.
_WRITERS: Dict[str, Callable[[Any], Any]] = {
    "mid": lambda value: _text("mid", value, 16),
    "rid": lambda value: _text("rid", value, 8),
    "repaired_rid": lambda value: _text("repaired_rid", value, 8),
    "audio_level": lambda value: within("audio_level", value, *_LEVELS),
    "capture_offset": lambda value: within("capture_offset", value, -(1 << 63), (1 << 63) - 1),
    "video_orientation": _degrees,
    "playout_delay_min": lambda value: _raw_time("playout_delay_min", value),
    "playout_delay_max": lambda value: _raw_time("playout_delay_max", value),
}


def _put_timing(raw: Raw, timing: VideoTiming) -> None:
    if not isinstance(timing, VideoTiming):
        raise TypeError(f"video_timing is {type(timing).__name__}, and not VideoTiming")
    for name in ("encode_start", "encode_finish", "packetize_complete", "last_left_pacer"):
        setattr(raw, name, unsigned(name, getattr(timing, name), 16))
    raw.timing_flags = unsigned("flags of video_timing", timing.flags, 8)


def put_values(raw: Raw, values: Values) -> None:
    """Puts the values into an empty struct. BadField where one is out of its range; TypeError where they are none."""
    if not isinstance(values, Values):
        raise TypeError(f"values are {type(values).__name__}, and not Values")
    for at, name in enumerate(_library.VALUES):
        value = getattr(values, name)
        if value is None or name == "layers":
            continue
        if name == "video_timing":
            _put_timing(raw, value)
        elif name in _WRITERS:
            setattr(raw, name, _WRITERS[name](value))
        else:
            setattr(raw, name, unsigned(name, value, _BITS[name]))
        raw.has[at] = 1
