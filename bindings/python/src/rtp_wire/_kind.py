"""The kinds of header extension, and numbers for those that the library doesn't know."""

from __future__ import annotations

import re
from ctypes import c_size_t
from enum import IntEnum
from threading import Lock
from typing import Dict, Iterable, Iterator, Optional, Tuple, Union

from . import _library
from ._buffers import address_of
from ._errors import BadField, Status, check, whole


class Kind(IntEnum):
    """The kinds of header extension, by numbers of this library, and from Kind(128), which is Kind.OWN, to Kind(255)
    by yours. Those from MIXER_LEVELS to NTP_56, and yours, have no field of `Values`: their elements are read and
    written by their data, and go from one map to another.
    """

    NONE = 0
    ABS_SEND_TIME = 1
    ABS_CAPTURE_TIME = 2
    AUDIO_LEVEL = 3
    TRANSMISSION_OFFSET = 4
    VIDEO_ORIENTATION = 5
    TRANSPORT_NUMBER = 6
    PLAYOUT_DELAY = 7
    VIDEO_CONTENT_TYPE = 8
    VIDEO_TIMING = 9
    RID = 10
    REPAIRED_RID = 11
    MID = 12
    FRAME_MARKING = 13
    """The draft's. That of RFC 9626 has another URI, and so a number of your own."""
    COLOR_SPACE = 14
    LAYERS = 15
    MIXER_LEVELS = 16
    """Of the contributing sources: `read_mixer_level`."""
    TRANSPORT_NUMBER_2 = 17
    """With what feedback it asks for: `TransportNumber`."""
    DEPENDENCY_DESCRIPTOR = 18
    """Of AV1: `DependencyDescriptor`."""
    NTP_64 = 19
    """`read_ntp_64`."""
    NTP_56 = 20
    """`read_ntp_56`."""
    OWN = 128

    @classmethod
    def _missing_(cls, value: object) -> Optional[Kind]:
        if not isinstance(value, int) or not cls.OWN < value < 256:
            return None
        made = int.__new__(cls, value)
        made._name_, made._value_ = f"OWN + {value - cls.OWN}", value
        return cls._value2member_map_.setdefault(value, made)  # type: ignore[return-value]

    def __reduce_ex__(self, protocol: object) -> Tuple[object, ...]:
        return Kind, (int(self),)  # not by its name, which one of your own can't be found by

    @classmethod
    def from_uri(cls, uri: str) -> Kind:
        """The kind whose URI this is, letter for letter; NONE where the library doesn't know it, as one that is
        misspelled, and no map takes that. `OwnUris.kind_of` has a number for those too."""
        if not isinstance(uri, str):
            raise TypeError(f"a URI is {type(uri).__name__}, and not str")
        data = str.encode(uri)
        return cls(_library.kind_of_uri(data, len(data)))

    @property
    def uri(self) -> Optional[str]:
        """The URI that names the kind in SDP, as an answer says it; None of NONE, and of your own kinds (`Map.uris`).

        >>> Kind.MID.uri
        'urn:ietf:params:rtp-hdrext:sdes:mid'
        """
        buf, length = bytearray(_LONGEST_URI), c_size_t()
        status = _library.uri_of_kind(self, address_of(memoryview(buf)), len(buf), length)
        if status == Status.NONE:
            return None
        check(status)
        return buf[: length.value].decode()

    def keeps(self, text: str) -> bool:
        """Whether `Values` have this text of an element of the kind as it is: MID up to 16 ASCII letters, digits and
        underscores, and RID and REPAIRED_RID up to 8. They have "cam_1" of "cam_1", "cam-1" and "cam.1", and the first
        16 of 17 letters. A peer whose SDP has texts that aren't kept is understood by `Packet.token`.

        >>> [text for text in ("cam_1", "cam-1", "cam.1") if Kind.MID.keeps(text)]
        ['cam_1']
        """
        return len(text) <= _MOST.get(self, -1) and re.fullmatch("[A-Za-z0-9_]*", text) is not None


# How many bytes a URI has at most.
_LONGEST_URI = 87

# How many characters of a text there may be.
_MOST = {Kind.MID: 16, Kind.RID: 8, Kind.REPAIRED_RID: 8}


def kind_number(kind: int) -> int:
    """The number of a kind. BadField where it is none, as Kind.NONE."""
    number = whole("a kind", kind)
    if not (1 <= number <= Kind.NTP_56 or Kind.OWN <= number <= 255):
        raise BadField(Status.BAD_FIELD, f"a kind is {number}, and not 1 to 20 or 128 to 255")
    return number


class OwnUris:
    """Numbers of your own, `Kind.OWN` to `Kind(255)`, for URIs that the library doesn't know: each gets one when it is
    first asked for, and keeps it. So the maps of two peers have one number for what both agreed on, and its elements go
    from one to the other. There are 128, which are given from 255 down: those that you set by hand, from Kind.OWN on,
    stay apart from them, or are asked for here.

    `Map.from_uris` takes those of the process, `OWN_URIS`, where it is given no others. A server that takes SDPs from
    strangers makes one for each call: nobody's URIs then use up the numbers of all. Threads may share one.

    >>> own = OwnUris()
    >>> [int(own.kind_of(uri)) for uri in ("urn:x", "urn:y", "urn:x", "urn:ietf:params:rtp-hdrext:sdes:mid")]
    [255, 254, 255, 12]
    """

    __slots__ = ("_kinds", "_lock")

    def __init__(self, uris: Iterable[str] = ()) -> None:
        """With numbers for these URIs already, in their order. BadField where they are more than 128."""
        self._kinds: Dict[str, Kind] = {}
        self._lock = Lock()
        for uri in uris:
            if not self.kind_of(uri):
                raise BadField(Status.BAD_FIELD, "there are more than 128 URIs")

    def kind_of(self, uri: str) -> Kind:
        """The kind whose URI this is, the library's or the one of your own that stands for it here. Kind.NONE where it
        has no number, and all are given."""
        known = Kind.from_uri(uri)
        if known:
            return known
        with self._lock:
            if uri not in self._kinds and len(self._kinds) < 256 - Kind.OWN:
                self._kinds[uri] = Kind(255 - len(self._kinds))
            return self._kinds.get(uri, Kind.NONE)

    def __len__(self) -> int:
        """How many numbers are given."""
        return len(self._kinds)

    def __iter__(self) -> Iterator[str]:
        """The URIs that have a number, from that of 255 down."""
        return iter(list(self._kinds))

    def __repr__(self) -> str:
        return f"OwnUris({list(self)})"

    def __reduce__(self) -> Union[str, Tuple[object, ...]]:
        return "OWN_URIS" if self is OWN_URIS else (type(self), (list(self),))


OWN_URIS = OwnUris()
"""The numbers for URIs that all maps of the process share, where they are given no others."""
