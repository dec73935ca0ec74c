"""What the functions of the library return, and the exceptions for it."""

from __future__ import annotations

from enum import IntEnum
from operator import index
from typing import TYPE_CHECKING, FrozenSet, Iterable, List, Optional, Sequence

from ._library import RANGES, TEXTS

if TYPE_CHECKING:
    from ._kind import Kind


class Status(IntEnum):
    """What a function of the library returns. Those from 1 to 6 are the causes for which bytes are no packet, and
    UNKNOWN_FORM, for which no header is read."""

    OK = 0
    CUT_FIXED_PART = 1
    OTHER_VERSION = 2
    CUT_SOURCES = 3
    CUT_BLOCK_HEADER = 4
    UNKNOWN_FORM = 5
    CUT_BLOCK = 6
    SHORT_BUFFER = 8
    BAD_FIELD = 9
    REFUSED = 10
    NONE = 11
    RESTARTED = 12
    BAD_ID = 13
    FORM_NOT_ALLOWED = 14
    LONG_BLOCK = 15
    LONG_ID = 16
    RTCP = 17

    @property
    def text(self) -> str:
        """What the status says, in words."""
        return TEXTS[self]


class Cause(IntEnum):
    """Why bytes are no RTP packet: the first of these that applies."""

    CUT_FIXED_PART = 1
    OTHER_VERSION = 2
    CUT_SOURCES = 3
    CUT_BLOCK_HEADER = 4
    CUT_BLOCK = 6


class RtpError(ValueError):
    """A call was refused, and changed nothing. `status` says why."""

    status: Status

    def __init__(self, status: Status, text: Optional[str] = None) -> None:
        super().__init__(text or status.text)
        self.status = status

    def __reduce__(self) -> tuple[object, ...]:
        return type(self), (self.status, str(self))


class NotAPacket(RtpError):
    """The bytes are no RTP packet."""

    @property
    def cause(self) -> Cause:
        """The first cause for which they are none."""
        return Cause(self.status)


class OtherForm(RtpError):
    """The block has another form than the two: so no header is read, and no element put into it."""


class BadField(RtpError):
    """An argument or a field is out of its range."""


class BadId(BadField):
    """The id isn't 1 to 255: no element has the id 0."""


class FormNotAllowed(BadField):
    """The block has, or an element needs, a form that isn't allowed; or an element can't be in the form that the block
    is to get. Where the one-byte form alone is allowed, and it isn't a `LongId`, `Packet.form` tells which: the
    two-byte form, or else the element has no data or more than 16 bytes of them."""


class LongId(FormNotAllowed):
    """An id is above 14, which the one-byte form can't carry."""


class LongBlock(BadField):
    """The block would have more than 65,535 words."""


class LeftOut(BadField):
    """Values of these kinds would be left out where a header is written (`Header.write_all`)."""

    kinds: FrozenSet[Kind]

    def __init__(self, kinds: Iterable[Kind]) -> None:
        self.kinds = frozenset(kinds)
        names = ", ".join(kind.name for kind in sorted(self.kinds))
        super().__init__(Status.BAD_FIELD, f"values that no element carries: {names}")

    def __reduce__(self) -> tuple[object, ...]:
        return type(self), (sorted(self.kinds),)


class ShortBuffer(RtpError):
    """The buffer is too short."""


class NoElement(RtpError, LookupError):
    """The packet has no such element or contributing source, or the element has another length; or a value that an
    element needs isn't there."""


_KINDS = {
    Status.UNKNOWN_FORM: OtherForm,
    Status.SHORT_BUFFER: ShortBuffer,
    Status.BAD_FIELD: BadField,
    Status.NONE: NoElement,
    Status.BAD_ID: BadId,
    Status.FORM_NOT_ALLOWED: FormNotAllowed,
    Status.LONG_BLOCK: LongBlock,
    Status.LONG_ID: LongId,
}


def error_of(status: int) -> RtpError:
    """The exception for a status that isn't OK."""
    status = Status(status)
    kind = NotAPacket if status <= Status.CUT_BLOCK else RtpError
    return _KINDS.get(status, kind)(status)


def check(status: int) -> None:
    """Raises the exception for a status that isn't OK."""
    if status:
        raise error_of(status)


# Why a packet isn't changed, where all that was given is in its range.
LONG_PADDING = "the padding is longer than the payload"


def checked(status: int, reason: str) -> None:
    """As `check`, where this alone may be wrong with what was given."""
    if status == Status.BAD_FIELD:
        raise BadField(Status.BAD_FIELD, reason)
    check(status)


def whole(name: str, value: int) -> int:
    """The value; TypeError where it is no whole number."""
    try:
        return index(value)
    except TypeError:
        raise TypeError(f"{name} is {type(value).__name__}, and no whole number") from None


def within(name: str, value: int, low: int, high: int) -> int:
    """The value, where it is in this range; TypeError where it is no whole number."""
    try:
        value = index(value)
    except TypeError:
        whole(name, value)  # which says what it is
    if not low <= value <= high:
        raise BadField(Status.BAD_FIELD, f"{name} is {value}, and not {low} to {high}")
    return value


def ranged(field: str, value: int) -> int:
    """The value of a field of a struct, as RawFrameMarking.temporal_id, where it is in the range that the field has."""
    return within(field.partition(".")[2], value, *RANGES[field])


def unsigned(name: str, value: int, bits: int) -> int:
    """The value, where it is a whole number of so many bits."""
    return within(name, value, 0, (1 << bits) - 1)


def stored(numbers: Sequence[int], *bits: int) -> List[int]:
    """The numbers of a state that was stored, each of so many bits. BadField where it is none."""
    if len(numbers) != len(bits):
        raise BadField(Status.BAD_FIELD, f"a state has {len(bits)} numbers, and not {len(numbers)}")
    return [unsigned("a stored number", it, count) for it, count in zip(numbers, bits)]


def element_id(id: int) -> int:
    """The id of an element; BadId where it is none."""
    number = whole("id", id)
    if not 1 <= number <= 255:
        raise BadId(Status.BAD_ID, f"id is {number}, and not 1 to 255")
    return number
