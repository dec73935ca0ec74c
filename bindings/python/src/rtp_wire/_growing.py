"""Elements that are put into a packet, which grows where it lies."""

from __future__ import annotations

from ctypes import c_size_t
from typing import TYPE_CHECKING, Optional

from . import _library
from ._buffers import address_of, copy_of, writable_view_of
from ._errors import BadField, Status, check, element_id, unsigned, within
from ._loaded import Function
from ._packet import Form

if TYPE_CHECKING:
    from ._buffers import Buffer, WritableBuffer


def put_element(
    buffer: WritableBuffer, length: int, id: int, data: Buffer, allowed: Optional[Form] = None
) -> int:
    """Puts an element, of an id from 1 on with at most 255 bytes of data, into the packet in the first `length` bytes
    of the buffer, and returns how many bytes the packet then has: it has exactly one element of the id, in place of the
    last one of the id or as the last of all. The other elements stay, in order, but those of the id 0, behind which a
    receiver that follows RFC 8285, 4.2, reads nothing, and all other parts stay too; without a block the packet gets
    one. A body never becomes shorter (`compact`). What stands where reading ends, an element that
    is cut short or what follows the id 15, goes where the block is made anew. A header alone is enough, and the data
    may be a part of the buffer.

    A one-byte block that can't carry the element becomes a two-byte one, unless the one-byte form alone is allowed, as
    for a peer that hasn't agreed to both in one stream (RFC 8285, 4.1.2). Where the two-byte form alone is allowed, the
    block gets that.

    BadField where `length` is past the buffer, or there are more than 255 bytes of data; BadId where the id isn't 1 to
    255; NotAPacket; OtherForm; LongId where the id is above 14, and the one-byte form alone is allowed; FormNotAllowed
    where else the block has, or the element needs, a form that isn't allowed; LongBlock where the block would have more
    than 65,535 words; ShortBuffer where there is no room. Nothing changes then.
    """
    return _put(_library.put_element, buffer, length, id, data, allowed)


def add_element(
    buffer: WritableBuffer, length: int, id: int, data: Buffer, allowed: Optional[Form] = None
) -> int:
    """Puts an element behind all others, and those of its id stay: an id may have several, of which the last one counts
    (`Packet.element`). The id, the data, the form that is allowed, the form that the block gets, the room behind the
    packet and the exceptions are as those of `put_element`. The block is always made anew: elements of the id 0, which
    is padding's, go, and so does what stands where reading ends.

    >>> packet = bytearray.fromhex("90600005 00000064 0000002C BEDE0001 10AA0000 01")
    >>> add_element(packet, 21, 1, bytes([0xBB]))
    21
    >>> packet[12:].hex(" ")
    'be de 00 01 10 aa 10 bb 01'
    """
    return _put(_library.add_element, buffer, length, id, data, allowed)


def _put(
    call: Function, buffer: WritableBuffer, length: int, id: int, data: Buffer, allowed: Optional[Form]
) -> int:
    """Puts an element by this function of the library."""
    view = writable_view_of(buffer)
    count, number = c_size_t(within("length", length, 0, len(view))), element_id(id)
    copy = copy_of(data)
    within("the length of data", len(copy), 0, 255)
    check(call(address_of(view), len(view), count, number, copy, len(copy), allowed_forms(allowed)))
    return count.value


def allowed_forms(allowed: Optional[Form]) -> int:
    """The forms that are allowed, as the library has them: 0 for both."""
    return Form.NONE if allowed is None else within("allowed", allowed, Form.NONE, Form.TWO_BYTE)


def change_form(buffer: WritableBuffer, length: int, form: Form) -> int:
    """Makes a block of the other form one of this form, ONE_BYTE or TWO_BYTE, in the packet in the first `length` bytes
    of the buffer, and returns how many bytes the packet then has. Its elements stay, in order, and all other parts of
    the packet too; the payload moves where the body has to grow, and a body never becomes shorter (`compact`). Elements
    of the id 0, which is padding's, go, and so does what stands where reading ends. A block that has the form, and a
    packet without a block, stay as they are. In the two-byte form elements may have ids above 14, as new ones by
    `Packet.renumber`, no data, and more than 16 bytes. A header alone is enough.

    BadField where `length` is past the buffer, or the form is none of the two; NotAPacket; OtherForm; LongId where an
    element has an id above 14, which the one-byte form can't carry; FormNotAllowed where else it can't carry an element;
    LongBlock where the block would have more than 65,535 words; ShortBuffer where there is no room. Nothing changes then.

    >>> packet = bytearray.fromhex("90600005 00000064 0000002C BEDE0001 10AA0000 01")
    >>> change_form(packet, 21, Form.TWO_BYTE)
    21
    >>> packet[12:].hex(" ")
    '10 00 00 01 01 01 aa 00 01'
    """
    view = writable_view_of(buffer)
    count = c_size_t(within("length", length, 0, len(view)))
    number = within("form", form, Form.ONE_BYTE, Form.TWO_BYTE)
    check(_library.change_form(address_of(view), len(view), count, number))
    return count.value


def put_block(buffer: WritableBuffer, length: int, profile: int, body: Buffer) -> int:
    """Gives the packet in the first `length` bytes of the buffer a block that begins with these 16 bits, which a profile
    defines (RFC 3550, 5.3.1), and has this body, in place of the block that is there, and returns how many bytes the
    packet then has: X is set, and the payload moves. What the body holds isn't looked at: of 0xBEDE and 0x1000 to 0x100F
    it is read as elements. A header alone is enough, and the body may be a part of the buffer.

    BadField where `length` is past the buffer, the profile isn't one of 16 bits, or the body is no whole number of words
    of four bytes; LongBlock where it has more than 65,535 words; NotAPacket; ShortBuffer where there is no room. Nothing
    changes then.

    >>> buffer = bytearray.fromhex("80600005 00000064 0000002C 01") + bytes(8)
    >>> put_block(buffer, 13, 0xABAC, bytes([1, 2, 3, 4]))
    21
    >>> buffer[12:].hex(" ")
    'ab ac 00 01 01 02 03 04 01'
    """
    view = writable_view_of(buffer)
    count, number = c_size_t(within("length", length, 0, len(view))), unsigned("profile", profile, 16)
    copy = copy_of(body)
    if len(copy) % 4:
        raise BadField(Status.BAD_FIELD, f"the length of body is {len(copy)}, and no multiple of 4")
    check(_library.put_block(address_of(view), len(view), count, number, copy, len(copy)))
    return count.value


def remove_block(datagram: WritableBuffer) -> int:
    """Takes the block off the packet in the buffer, of whatever form, and clears X, and returns how many bytes the packet
    then has, which are the first ones: the payload moves to the end of the CSRC list. Without a block nothing changes. So
    the block of no words goes that `Packet.remove_element` and `compact` leave. A header alone is enough.

    NotAPacket where the buffer holds none, and then nothing changes.

    >>> packet = bytearray.fromhex("90600005 00000064 0000002C BEDE0001 10AA0000 01")
    >>> remove_block(packet), packet[:13].hex(" ", -4)
    (13, '80600005 00000064 0000002c 01')
    """
    view = writable_view_of(datagram)
    count = c_size_t(len(view))
    check(_library.remove_block(address_of(view), len(view), count))
    return count.value


def compact(datagram: WritableBuffer) -> int:
    """Makes the packet in the buffer as short as its elements allow, and returns how many bytes it then has, which are
    the first ones: the elements stand in a row, the body is filled up to whole words, and the payload moves to the
    front; elements of the id 0 go, and so does what stands where reading ends, and a block of another form stays. So
    `Packet.remove_element` and then this gives bytes back. A header alone is enough.

    NotAPacket where the buffer holds none, and then nothing changes.
    """
    view = writable_view_of(datagram)
    count = c_size_t(len(view))
    check(_library.compact(address_of(view), len(view), count))
    return count.value
