"""Elements that are numbers, as their standards have them: send times, offsets, the levels of a mixer, and NTP
times."""

from __future__ import annotations

from ctypes import c_int8, c_int32, c_uint32, c_uint64
from typing import TYPE_CHECKING, Sequence

from . import _library
from ._buffers import place_of
from ._errors import BadField, Status, unsigned, within
from ._standard import read_data, written

if TYPE_CHECKING:
    from ._buffers import Buffer


# How many sources a packet has at most.
MOST_SOURCES = 15


def read_send_time(data: Buffer) -> int:
    """The send time of Kind.ABS_SEND_TIME as it lies: 24 bits, in units of 2^-18 seconds, modulo 64 seconds. BadField
    where there are not three bytes. `Values` have whole microseconds, and nearly all of the 2^24 times lose a unit
    there: to send a time on as it came, or to reckon with it, take this one.

    >>> read_send_time(bytes.fromhex("060000")) / 2**18
    1.5
    """
    return read_data(_library.read_send_time, c_uint32(), data, "send time: it has 3").value


def send_time_data(units: int) -> bytes:
    """The three bytes of a send time in units of 2^-18 seconds. BadField where it has more than 24 bits.

    >>> time = 1_000_000_000.75  # seconds, of any clock
    >>> send_time_data(int(time * 2**18) % 2**24).hex()
    '030000'
    """
    return written(_library.write_send_time, unsigned("units", units, 24))


def extend_send_time(near: int, units: int) -> int:
    """The time, in units of 2^-32 seconds, whose low 38 bits are these 24 and then 14 zeros, and that is nearest to
    `near`, modulo 2^64; of two that are equally near the later one. Where `near` is the time at which the packet
    arrived, of a clock that is less than 32 seconds off the sender's, it is the time at which that sent it. BadField
    where `near` has more than 64 bits, or the units more than 24.

    >>> arrived = 1_000_000_001 << 32  # a quarter of a second after it was sent
    >>> extend_send_time(arrived, 0x030000) / 2**32
    1000000000.75
    """
    return int(_library.extend_send_time(unsigned("near", near, 64), unsigned("units", units, 24)))


def read_transmission_offset(data: Buffer) -> int:
    """A transmission time offset: how long after the time of its timestamp the packet was sent, in ticks of the
    stream's clock, -8,388,608 to 8,388,607 (RFC 5450, 3). BadField where there are not three bytes. `Values` have
    str0m's, which are four.

    >>> read_transmission_offset(b"\\xFF\\xFF\\xFE")
    -2
    """
    return read_data(_library.read_transmission_offset, c_int32(), data, "transmission offset: it has 3").value


def transmission_offset_data(ticks: int) -> bytes:
    """The three bytes of a transmission time offset in ticks (RFC 5450, 3). BadField where it doesn't fit.

    >>> transmission_offset_data(-2).hex()
    'fffffe'
    """
    offset = within("a transmission offset", ticks, -(1 << 23), (1 << 23) - 1)
    return written(_library.write_transmission_offset, offset)


def read_mixer_level(data: Buffer, csrc_count: int, index: int) -> int:
    """The audio level of the contributing source at this index of the `csrc_count` that the packet has
    (Kind.MIXER_LEVELS; RFC 6465, 4), in decibels relative to the overload point, -127 (silence) to 0. BadField where
    the packet doesn't have that source, or the data no byte for it.

    >>> read_mixer_level(b"\\x7F\\x0A", csrc_count=2, index=1)
    -10
    """
    view, at = place_of(data)
    level, place = c_int8(), (unsigned("csrc_count", csrc_count, 64), unsigned("index", index, 64))
    if _library.read_mixer_level(at, len(view), *place, level):
        told = f"{len(view)} bytes have no level of the source {place[1]} of {place[0]}"
        raise BadField(Status.BAD_FIELD, told)
    return level.value


def mixer_levels_data(levels: Sequence[int]) -> bytes:
    """The levels of a packet's contributing sources, in their order, a byte for each (RFC 6465, 4). BadField where one
    is none of -127 to 0, or there are more than 15, which no packet has. Of none the data are empty, which the two-byte
    form alone carries.

    >>> mixer_levels_data([-127, -10]).hex()
    '7f0a'
    """
    checked = [within("a level", level, -127, 0) for level in levels]
    count = within("the number of levels", len(checked), 0, MOST_SOURCES)
    return written(_library.write_mixer_levels, (c_int8 * count)(*checked), count, most=count)


def read_ntp_64(data: Buffer) -> int:
    """An NTP timestamp of eight bytes (Kind.NTP_64; RFC 6051, 3.3), in units of 2^-32 seconds since 1900. BadField
    where there are not eight bytes.

    >>> read_ntp_64(bytes.fromhex("00000001 80000000")) / 2**32
    1.5
    """
    return read_data(_library.read_ntp_64, c_uint64(), data, "NTP timestamp of 64 bits: it has 8").value


def ntp_64_data(time: int) -> bytes:
    """The eight bytes of an NTP timestamp. BadField where it has more than 64 bits."""
    return written(_library.write_ntp_64, unsigned("time", time, 64))


def read_ntp_56(data: Buffer) -> int:
    """The low 56 bits of an NTP timestamp, in seven bytes (Kind.NTP_56; RFC 6051, 3.3): `extend_ntp_56` finds the
    others. BadField where there are not seven bytes."""
    return read_data(_library.read_ntp_56, c_uint64(), data, "NTP timestamp of 56 bits: it has 7").value


def ntp_56_data(time: int) -> bytes:
    """The seven bytes of the low 56 bits of an NTP timestamp. BadField where it has more than 64 bits."""
    return written(_library.write_ntp_56, unsigned("time", time, 64))


def extend_ntp_56(near: int, low: int) -> int:
    """The NTP timestamp that ends in the low 56 bits of `low` and is nearest to `near`, modulo 2^64; of two that are
    equally near the later one. Where `near` is less than 97 days off, as the time at which the packet arrived, it is
    the time that the sender meant. BadField where one has more than 64 bits.

    >>> hex(extend_ntp_56(near=0x00FFFFFF_80000000, low=0x80000000))
    '0x100000080000000'
    """
    return int(_library.extend_ntp_56(unsigned("near", near, 64), unsigned("low", low, 64)))
