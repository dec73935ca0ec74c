"""The color space of a video."""

from __future__ import annotations

from dataclasses import dataclass, fields
from enum import IntEnum
from typing import TYPE_CHECKING, NamedTuple, Optional

from . import _library
from ._errors import ranged, unsigned
from ._standard import read_data, written

if TYPE_CHECKING:
    from ._buffers import Buffer


class ColorRange(IntEnum):
    """Which numbers stand for the colors of a video."""

    UNKNOWN = 0
    LIMITED = 1
    """As in broadcasting, 16 to 235 where there are 8 bits."""
    FULL = 2
    """All numbers."""
    DERIVED = 3
    """By the transfer and matrix code points."""


class ChromaSiting(IntEnum):
    """Where the chroma samples lie in one direction."""

    UNSPECIFIED = 0
    COLLOCATED = 1
    """On the luma samples."""
    HALF = 2
    """Half way between two of them."""


class Chromaticity(NamedTuple):
    """A point of the CIE 1931 chromaticity diagram, in 0.00002: 16 bits each."""

    x: int
    y: int


@dataclass(frozen=True)
class HdrMetadata:
    """The screen on which a video of high dynamic range was made, and its light (SMPTE ST 2086, CTA-861.3). Each number
    has 16 bits."""

    luminance_max: int
    """The greatest luminance of the screen, in cd/m^2."""
    luminance_min: int
    """Its least luminance, in 0.0001 cd/m^2."""
    red: Chromaticity
    green: Chromaticity
    blue: Chromaticity
    white: Chromaticity
    max_content_light_level: int
    """The greatest light level of a pixel, in cd/m^2."""
    max_frame_average_light_level: int
    """The greatest mean light level of a frame, in cd/m^2."""


_POINTS = ("red", "green", "blue", "white")
_HDR = tuple(it.name for it in fields(HdrMetadata))


def _hdr_of(raw: _library.RawHdrMetadata) -> HdrMetadata:
    told = {name: getattr(raw, name) for name in _HDR}
    told.update((name, Chromaticity(told[name].x, told[name].y)) for name in _POINTS)
    return HdrMetadata(**told)


def _put_hdr(raw: _library.RawHdrMetadata, hdr: HdrMetadata) -> None:
    for name in _HDR:
        value = getattr(hdr, name)
        if name in _POINTS:
            point = getattr(raw, name)
            point.x, point.y = unsigned(f"x of {name}", value[0], 16), unsigned(f"y of {name}", value[1], 16)
        else:
            setattr(raw, name, unsigned(name, value, 16))


@dataclass(frozen=True)
class ColorSpace:
    """The color space of a video, as WebRTC's color-space has it: four bytes, or 28 with HDR metadata, for which an
    element needs the two-byte form. `Values` have none, though Kind.COLOR_SPACE can be mapped. All numbers are read
    and written; libwebrtc passes over an element with a code point that H.273 reserves, as the primaries 0 or 3, or
    with HDR metadata beyond 20,000 cd/m^2 (luminance_min beyond 5), or with a chromaticity above 1.

    >>> space = ColorSpace.from_data(bytes.fromhex("01 01 01 24"))  # BT.709
    >>> space.primaries, space.range.name, space.horizontal.name, space.vertical.name, space.hdr
    (1, 'FULL', 'COLLOCATED', 'UNSPECIFIED', None)
    >>> space.to_data().hex()
    '01010124'
    """

    primaries: int
    """The color primaries, a code point of H.273, 8.1: 8 bits."""
    transfer: int
    """The transfer characteristics, a code point of H.273, 8.2: 8 bits."""
    matrix: int
    """The matrix coefficients, a code point of H.273, 8.3: 8 bits."""
    range: ColorRange
    """Which numbers stand for the colors."""
    horizontal: ChromaSiting
    """Where the chroma samples lie, from left to right."""
    vertical: ChromaSiting
    """Where they lie from top to bottom."""
    hdr: Optional[HdrMetadata] = None
    """The screen on which the video was made, and its light, for one of high dynamic range."""

    @classmethod
    def from_data(cls, data: Buffer) -> ColorSpace:
        """Reads a color space. The high two bits of the fourth byte aren't looked at. BadField where there are neither
        four nor 28 bytes, or a siting is 3."""
        raw = _library.RawColorSpace()
        read_data(_library.read_color_space, raw, data, "color space: it has 4 or 28, and no siting of 3")
        return cls(
            raw.primaries,
            raw.transfer,
            raw.matrix,
            ColorRange(raw.range),
            ChromaSiting(raw.horizontal),
            ChromaSiting(raw.vertical),
            _hdr_of(raw.hdr) if raw.has_hdr else None,
        )

    def to_data(self) -> bytes:
        """The data of the color space: four bytes, or 28 with HDR metadata. BadField where a field is out of its
        range."""
        raw = _library.RawColorSpace()
        for name in ("primaries", "transfer", "matrix"):
            setattr(raw, name, unsigned(name, getattr(self, name), 8))
        raw.range = ranged("RawColorSpace.range", self.range)
        raw.horizontal = ranged("RawColorSpace.horizontal", self.horizontal)
        raw.vertical = ranged("RawColorSpace.vertical", self.vertical)
        if self.hdr is not None:
            raw.has_hdr = 1
            _put_hdr(raw.hdr, self.hdr)
        return written(_library.write_color_space, raw)
