"""The data of one element as the standard of its extension has them, where `Values` has another reading, that of
str0m, or none.

What is read is what `Packet.element` lends, and what is written is for `put_element`, `Packet.set_element` and
`write_elements`. The id of each is that of its kind in the map, but for RFC 9626's frame marking, whose URI has a
number of your own (`OwnUris`).
"""

from __future__ import annotations

from ctypes import c_size_t
from dataclasses import dataclass
from enum import IntEnum
from operator import index
from typing import TYPE_CHECKING, Optional, TypeVar

from . import _library
from ._buffers import address_of, place_of
from ._errors import BadField, Status, check, ranged, unsigned
from ._loaded import Function

if TYPE_CHECKING:
    from ._buffers import Buffer

# Enough for the data of each value but the levels of a mixer.
MOST_DATA = 28
Raw = TypeVar("Raw")


def read_data(function: Function, raw: Raw, data: Buffer, what: str) -> Raw:
    """What the data say, in the struct that is given. BadField, with what they should be, where they aren't
    well-formed."""
    view, at = place_of(data)
    if function(at, len(view), raw):
        raise BadField(Status.BAD_FIELD, f"{len(view)} bytes are no {what}")
    return raw


def written(function: Function, *value: object, most: int = MOST_DATA) -> bytes:
    """The data that the function writes of a value."""
    data, length = bytearray(most), c_size_t()
    view = memoryview(data)
    check(function(*value, address_of(view), most, length))
    return bytes(view[: length.value])


@dataclass(frozen=True)
class FrameLayers:
    """Where a frame is among the layers of its stream (RFC 9626, 3.1)."""

    base_layer_sync: bool
    """Whether the frame depends on the base temporal layer alone; by RFC 9626 not where it is of that, which isn't
    looked at: it is read as it lies, and written as it is given."""
    temporal_id: int
    """The temporal layer, 0 to 7; 0 is the base layer."""
    layer_id: int
    """The spatial and quality layer, by the numbers of its codec, 0 to 255."""
    tl0_pic_idx: Optional[int] = None
    """The running number of the frame of the base temporal layer, 0 to 255, where it is sent."""


@dataclass(frozen=True)
class FrameMarking:
    """What a packet is to its frame, and the frame to its stream (RFC 9626, 3): one byte for a stream without layers,
    and two or three for one with. `Values` have str0m's number of four bytes, which is none. The RFC's URI is
    urn:ietf:params:rtp-hdrext:framemarking, which has a number of your own (`OwnUris`).

    >>> marking = FrameMarking.from_data(bytes.fromhex("A90207"))
    >>> marking.start, marking.end, marking.independent, marking.discardable
    (True, False, True, False)
    >>> marking.layers
    FrameLayers(base_layer_sync=True, temporal_id=1, layer_id=2, tl0_pic_idx=7)
    >>> FrameMarking(start=False, end=True, independent=False, discardable=False).to_data()
    b'@'
    """

    start: bool
    """Whether the packet is the first of its frame."""
    end: bool
    """Whether it is the last of its frame."""
    independent: bool
    """Whether the frame can be decoded without any frame before it."""
    discardable: bool
    """Whether no other frame needs this one."""
    layers: Optional[FrameLayers] = None
    """Where the frame is among the layers, for a stream that has some."""

    @classmethod
    def from_data(cls, data: Buffer) -> FrameMarking:
        """Reads a marking. Of one byte the low four bits aren't looked at. BadField where there are none or more than
        three bytes."""
        raw = _library.RawFrameMarking()
        read_data(_library.read_frame_marking, raw, data, "frame marking: it has 1 to 3")
        layers = None
        if raw.has_layers:
            index = raw.tl0_pic_idx if raw.has_tl0_pic_idx else None
            layers = FrameLayers(raw.base_layer_sync != 0, raw.temporal_id, raw.layer_id, index)
        return cls(raw.start != 0, raw.end != 0, raw.independent != 0, raw.discardable != 0, layers)

    def to_data(self) -> bytes:
        """The data of the marking. BadField where a field is out of its range."""
        raw = _library.RawFrameMarking()
        for name in ("start", "end", "independent", "discardable"):
            setattr(raw, name, unsigned(name, getattr(self, name), 1))
        if self.layers is not None:
            raw.has_layers = 1
            raw.base_layer_sync = unsigned("base_layer_sync", self.layers.base_layer_sync, 1)
            raw.temporal_id = ranged("RawFrameMarking.temporal_id", self.layers.temporal_id)
            raw.layer_id = unsigned("layer_id", self.layers.layer_id, 8)
            if self.layers.tl0_pic_idx is not None:
                raw.has_tl0_pic_idx = 1
                raw.tl0_pic_idx = unsigned("tl0_pic_idx", self.layers.tl0_pic_idx, 8)
        return written(_library.write_frame_marking, raw)


class Camera(IntEnum):
    """Which way the camera of a video faces."""

    FRONT = 0
    """Towards the user."""
    BACK = 1
    """Away from the user."""


@dataclass(frozen=True)
class Orientation:
    """How a picture was taken, and is to be shown (3GPP TS 26.114, 7.4.5): one byte. Of it `Values` have the turn
    alone, and write a front camera and no flip.

    >>> Orientation.from_data(b"\\x0D")
    Orientation(camera=<Camera.BACK: 1>, flip=True, turn=270)
    >>> Orientation(Camera.FRONT, flip=True, turn=180).to_data().hex()
    '06'
    """

    camera: Camera
    """Which way the camera faces."""
    flip: bool
    """Whether the picture is mirrored, left for right, as it is sent, before the receiver turns it."""
    turn: int
    """How the receiver has to turn the picture, in degrees counter-clockwise: 0, 90, 180 or 270."""

    @classmethod
    def from_data(cls, data: Buffer) -> Orientation:
        """Reads an orientation, whose high four bits aren't looked at. BadField where there is not one byte."""
        raw = _library.RawOrientation()
        read_data(_library.read_orientation, raw, data, "orientation: it has 1")
        return cls(Camera(raw.camera), raw.flip != 0, raw.turn)

    def to_data(self) -> bytes:
        """The byte of the orientation. BadField where a field is out of its range."""
        raw = _library.RawOrientation()
        raw.turn = turn = index(self.turn)
        if turn not in (0, 90, 180, 270):
            raise BadField(Status.BAD_FIELD, f"turn is {turn}, and none of 0, 90, 180 and 270")
        raw.camera = ranged("RawOrientation.camera", self.camera)
        raw.flip = unsigned("flip", self.flip, 1)
        return written(_library.write_orientation, raw)


def token_of(data: Buffer) -> Optional[str]:
    """The text of the data; None where they are no token."""
    view, at = place_of(data)
    return bytes(view).decode("ascii") if _library.is_token(at, len(view)) else None


def read_token(data: Buffer) -> str:
    """The text of a mid or of a stream id as it lies, to be compared with the SDP's: a token of 1 to 255 characters
    (RFC 8866, 9), as a mid is (RFC 5888, 4). A stream id that is sent has to be less: `is_stream_id`. BadField where
    the data are none. The data of a text are `text.encode()`.

    >>> read_token(b"cam-1")
    'cam-1'
    """
    token = token_of(data)
    if token is None:
        raise BadField(Status.BAD_FIELD, "the data are no token")
    return token


def is_stream_id(text: str) -> bool:
    """Whether a text is 1 to 255 letters and digits of ASCII, as a stream id and a repaired one have to be where they
    are sent (RFC 8852, 3). In SDP `a=rid` also allows - and _ (RFC 8851, 10): a stream whose id has one can't be told
    by it, so choose one without.

    >>> is_stream_id("hi1"), is_stream_id("hi-1"), is_stream_id("hi_1")
    (True, False, False)
    """
    if not isinstance(text, str):
        raise TypeError(f"a stream id is {type(text).__name__}, and not str")
    data = str.encode(text, "utf-8", "replace")  # of a character that has no bytes, ?
    return bool(_library.is_stream_id(data, len(data)))


@dataclass(frozen=True)
class Timing:
    """When a frame passed each step on its way, in milliseconds after its capture (WebRTC's video-timing): 13 bytes,
    or 12 in the older form. `Values` read 12 bytes askew, and have neither network time.

    >>> Timing.from_data(bytes.fromhex("01 000A 0014 001E 0028 0032 003C"))
    Timing(encode_start=10, encode_finish=20, packetize_complete=30, last_left_pacer=40, network=50, network2=60,
        flags=1)
    """

    encode_start: int
    """When its encoding began."""
    encode_finish: int
    """When its encoding ended."""
    packetize_complete: int
    """When its last packet was made."""
    last_left_pacer: int
    """When its last packet left the pacer."""
    network: int
    """A time that a server on the way fills in; what it means is the application's."""
    network2: int
    """Another such time."""
    flags: Optional[int]
    """Why the times were sent: bit 0 a timer, bit 1 a large frame; of 255, which libwebrtc has for times that aren't
    valid, the times mean nothing. None in the older form, which has no flags."""

    @classmethod
    def from_data(cls, data: Buffer) -> Timing:
        """Reads a timing. BadField where there are neither 12 nor 13 bytes."""
        raw = read_data(_library.read_timing, _library.RawTiming(), data, "timing: it has 12 or 13")
        times = {name: getattr(raw, name) for name in _TIMES}
        return cls(**times, flags=raw.flags if raw.has_flags else None)

    def to_data(self) -> bytes:
        """The data of the timing: 13 bytes, or 12 without flags. BadField where a field is out of its range, 16 bits
        of a time and 8 of flags."""
        raw = _library.RawTiming()
        for name in _TIMES:
            setattr(raw, name, unsigned(name, getattr(self, name), 16))
        if self.flags is not None:
            raw.has_flags, raw.flags = 1, unsigned("flags", self.flags, 8)
        return written(_library.write_timing, raw)


_TIMES = ("encode_start", "encode_finish", "packetize_complete", "last_left_pacer", "network", "network2")


@dataclass(frozen=True)
class FeedbackRequest:
    """A request for transport-wide feedback."""

    timestamps: bool
    """Whether the feedback is to have the times at which the packets arrived."""
    packets: int
    """For how many packets the feedback is to be, 0 to 32,767, of which this one is the last; 0 asks for none."""


@dataclass(frozen=True)
class TransportNumber:
    """The packet's number on its transport, and what feedback it asks for (Kind.TRANSPORT_NUMBER_2): two bytes, or four
    with a request. `Values` have the number alone, of the older URI, where feedback is on all packets.

    >>> TransportNumber.from_data(bytes.fromhex("1234 8005"))
    TransportNumber(number=4660, request=FeedbackRequest(timestamps=True, packets=5))
    >>> TransportNumber(4660).to_data().hex()
    '1234'
    """

    number: int
    """The packet's number over all streams of the transport, 16 bits."""
    request: Optional[FeedbackRequest] = None
    """The feedback that the sender asks for with this packet, if it does."""

    @classmethod
    def from_data(cls, data: Buffer) -> TransportNumber:
        """Reads a number, and a request where there are four bytes. BadField where there are neither two nor four
        bytes."""
        raw = _library.RawTransportNumber()
        read_data(_library.read_transport_number, raw, data, "transport number: it has 2 or 4")
        return cls(raw.number, FeedbackRequest(raw.timestamps != 0, raw.packets) if raw.has_request else None)

    def to_data(self) -> bytes:
        """The data of the number. BadField where a field is out of its range."""
        raw = _library.RawTransportNumber()
        raw.number = unsigned("number", self.number, 16)
        if self.request is not None:
            raw.has_request = 1
            raw.packets = ranged("RawTransportNumber.packets", self.request.packets)
            raw.timestamps = unsigned("timestamps", self.request.timestamps, 1)
        return written(_library.write_transport_number, raw)


@dataclass(frozen=True)
class DependencyDescriptor:
    """The fields of a dependency descriptor that each packet has (Kind.DEPENDENCY_DESCRIPTOR; AV1's RTP payload format,
    A.8): its first three bytes. What follows them needs the structure that the sender sent before: hand it on as it is.

    >>> DependencyDescriptor.from_data(bytes.fromhex("83 0102"))
    DependencyDescriptor(start_of_frame=True, end_of_frame=False, template_id=3, frame_number=258)
    """

    start_of_frame: bool
    """Whether the packet is the first of its frame."""
    end_of_frame: bool
    """Whether it is the last of its frame."""
    template_id: int
    """The template that the frame's dependencies are like, 0 to 63."""
    frame_number: int
    """The number of the frame, 16 bits, which rolls over."""

    @classmethod
    def from_data(cls, data: Buffer) -> DependencyDescriptor:
        """Reads the first three bytes. BadField where there are fewer."""
        raw = _library.RawDependencyDescriptor()
        read_data(_library.read_dependency_descriptor, raw, data, "dependency descriptor: it has 3 or more")
        return cls(raw.start_of_frame != 0, raw.end_of_frame != 0, raw.template_id, raw.frame_number)

    def to_data(self) -> bytes:
        """The three bytes, which are a whole descriptor. BadField where a field is out of its range."""
        raw = _library.RawDependencyDescriptor()
        raw.start_of_frame = unsigned("start_of_frame", self.start_of_frame, 1)
        raw.end_of_frame = unsigned("end_of_frame", self.end_of_frame, 1)
        raw.template_id = ranged("RawDependencyDescriptor.template_id", self.template_id)
        raw.frame_number = unsigned("frame_number", self.frame_number, 16)
        return written(_library.write_dependency_descriptor, raw)


def has_dependency_structure(data: Buffer) -> bool:
    """Whether a dependency descriptor brings a template dependency structure, as that of the first packet of a key
    frame does: the first bit of its fourth byte is set, if it has one.

    >>> has_dependency_structure(bytes.fromhex("83 0102 80"))
    True
    """
    view, at = place_of(data)
    return bool(_library.has_structure(at, len(view)))
