"""Padding, and the payloads of retransmissions."""

from __future__ import annotations

from ctypes import c_size_t, c_uint16
from typing import TYPE_CHECKING

from . import _library
from ._buffers import address_of, place_of, writable_view_of
from ._errors import LONG_PADDING, check, checked, unsigned, within
from ._map import raw_new_ids

if TYPE_CHECKING:
    from ._buffers import Buffer, WritableBuffer
    from ._map import NewIds


def pad(datagram: WritableBuffer, header_len: int, pad_len: int, block_size: int = 1) -> int:
    """Makes a packet of padding alone after its header: sets P, writes the padding from `header_len` on, and returns
    how many bytes it took: `pad_len` rounded up to whole blocks, at most 240. With a `pad_len` of 0 nothing changes.
    To pad a packet with a payload, pass the end of the payload.

    BadField where the block size is 0, or the padding above 255; ShortBuffer where there is too little room.
    """
    view, count = writable_view_of(datagram), c_size_t()
    sizes = (
        unsigned("header_len", header_len, 64),
        unsigned("pad_len", pad_len, 8),
        within("block_size", block_size, 1, (1 << 64) - 1),
    )
    check(_library.pad(address_of(view), len(view), *sizes, count))
    return count.value


def read_original(payload: Buffer) -> int:
    """The original sequence number that the payload of a retransmission packet begins with, two bytes before the
    original payload (RFC 4588, 4). ShortBuffer where there are fewer."""
    number = c_uint16()
    data, at = place_of(payload)
    check(_library.read_original(at, len(data), number))
    return number.value


def write_original(payload: WritableBuffer, number: int) -> None:
    """Writes the low 16 bits of the original sequence number to the front of the payload. ShortBuffer where there are
    fewer than two bytes."""
    view = writable_view_of(payload)
    check(_library.write_original(address_of(view), len(view), unsigned("number", number, 64)))


def to_retransmission(buf: WritableBuffer, length: int, ssrc: int, payload_type: int, number: int, ids: NewIds) -> int:
    """Makes the packet in the first `length` bytes of the buffer a retransmission, in place, and returns its length
    (RFC 4588, 4): it has this SSRC, payload type and number of its own, the elements under their new ids
    (`NewIds.to_retransmission`), and as payload the original number in two bytes and the original payload without its
    padding. P becomes clear, and all else stays.

    BadField where an argument is out of its range, the length is above that of the buffer, or the padding's last byte
    counts more bytes than the payload has; LongId where the packet's form can't carry a new id; NotAPacket; ShortBuffer
    where there is no room for the two bytes. Nothing changes then.
    """
    view = writable_view_of(buf)
    end = c_size_t(within("length", length, 0, len(view)))
    fields = (unsigned("ssrc", ssrc, 32), unsigned("payload_type", payload_type, 7), unsigned("number", number, 16))
    status = _library.to_retransmission(address_of(view), len(view), end, *fields, raw_new_ids(ids))
    checked(status, LONG_PADDING)
    return end.value


def from_retransmission(buf: WritableBuffer, length: int, ssrc: int, payload_type: int, ids: NewIds) -> int:
    """Makes the retransmission in the first `length` bytes of the buffer the packet that it repeats, in place, and
    returns its length: it has this SSRC and payload type, the original number, the elements under their new ids
    (`NewIds.from_retransmission`), and as payload what follows that number, without padding. P
    becomes clear, and all else stays.

    BadField and LongId as `to_retransmission`; NotAPacket; NoElement where the payload has fewer than the two bytes of a number.
    Nothing changes then.
    """
    view = writable_view_of(buf)
    end = c_size_t(within("length", length, 0, len(view)))
    fields = (unsigned("ssrc", ssrc, 32), unsigned("payload_type", payload_type, 7))
    status = _library.from_retransmission(address_of(view), len(view), end, *fields, raw_new_ids(ids))
    checked(status, LONG_PADDING)
    return end.value
