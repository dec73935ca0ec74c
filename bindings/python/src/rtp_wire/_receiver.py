"""The numbers of a stream, extended to 64 bits, and which of them were taken."""

from __future__ import annotations

from ctypes import c_uint64
from enum import IntEnum
from typing import Any, Iterable, NamedTuple, Optional, Tuple

from . import _library
from ._errors import Status, check, stored, unsigned, within

MOST_WORDS = 512
MAX_DROPOUT = 3000


def _window(words: Iterable[int]) -> Any:
    """The words of a window that was stored. BadField where they are none."""
    listed = list(words)
    return (c_uint64 * within("words", len(listed), 1, MOST_WORDS))(*stored(listed, *[64] * len(listed)))


class _State:
    """A receive state, which is compared, copied and stored by its fields."""

    __slots__ = ("_raw",)
    _raw: Any

    @property
    def highest(self) -> Optional[int]:
        """The highest number taken; None where none is."""
        return int(self._raw.highest) if self._raw.started else None

    def _state(self) -> Tuple[Any, ...]:
        raise NotImplementedError

    def __eq__(self, other: object) -> bool:
        return isinstance(other, type(self)) and self._state() == other._state()

    __hash__ = None  # type: ignore[assignment]

    def __getstate__(self) -> Tuple[Any, ...]:
        return self._state()


class Standing(IntEnum):
    """What a receiver knows of a number: why it isn't accepted."""

    NEW = 0
    """It may be taken."""
    TAKEN = 1
    """It is in the window and was taken: the packet is a replay."""
    TOO_OLD = 2
    """It is behind the window, which doesn't tell any more whether it was taken."""


class Receiver(_State):
    """The receive state of one stream: a replay window of 128 numbers (RFC 3711, 3.3.1 and 3.3.2). Keep one for each
    SSRC.

    With SRTP: `number_of`, `accepts`, authenticate the packet, `record`; a forged packet then changes nothing. The
    rollover count is the one that was signalled, or 0: a stream's packet indices begin there.

    Where nothing is authenticated: `receive`, and a rollover count of 1, so that a packet from before the first one has
    a number too. With 0 it gets one near 2^64, and once that is taken nearly all later ones are refused.

    >>> receiver = Receiver(1)
    >>> [receiver.receive(it) for it in (5, 65533, 6, 6)]
    [65541, 65533, 65542, None]
    """

    __slots__ = ()

    def __init__(self, rollover_count: int) -> None:
        """The first packet has this rollover count, below 2^48; BadField otherwise."""
        self._raw = _library.RawReceiver()
        check(_library.receiver_start(self._raw, unsigned("rollover_count", rollover_count, 48)))

    def number_of(self, sequence_number: int) -> int:
        """The number nearest to the highest taken that ends in these 16 bits; of the first packet the one with the
        rollover count of the start."""
        return int(_library.receiver_number_of(self._raw, unsigned("sequence_number", sequence_number, 16)))

    def accepts(self, number: int) -> bool:
        """Whether the number may be taken: none is yet, or it is above the highest, or less than 128 below it and not
        taken."""
        return bool(_library.receiver_accepts(self._raw, unsigned("number", number, 64)))

    def standing_of(self, number: int) -> Standing:
        """What is known of the number. A packet that was refused changed nothing, so it can be asked afterwards.

        >>> receiver = Receiver(1)
        >>> receiver.receive(1000), receiver.receive(872)
        (66536, None)
        >>> receiver.standing_of(receiver.number_of(872)).name, receiver.standing_of(66536).name
        ('TOO_OLD', 'TAKEN')
        """
        return Standing(_library.receiver_standing_of(self._raw, unsigned("number", number, 64)))

    def record(self, number: int) -> None:
        """Records that the number is taken. One that isn't accepted changes nothing."""
        _library.receiver_record(self._raw, unsigned("number", number, 64))

    def receive(self, sequence_number: int) -> Optional[int]:
        """Takes the packet's number, and returns it; None where it is a replay, or too old to tell."""
        number = c_uint64()
        status = _library.receiver_receive(
            self._raw, unsigned("sequence_number", sequence_number, 16), number
        )
        return None if status == Status.REFUSED else number.value

    def __repr__(self) -> str:
        taken = f", highest={self.highest}" if self._raw.started else ""
        return f"Receiver(rollover_count={self._raw.highest >> 16}{taken})"

    def _state(self) -> Tuple[int, int, int, bool]:
        raw = self._raw
        return raw.highest, raw.recorded_low, raw.recorded_high, raw.started != 0

    def __setstate__(self, state: Tuple[int, int, int, bool]) -> None:
        """BadField where what was stored is no state."""
        self._raw = _library.RawReceiver(*stored(state, 64, 64, 64, 1))


class WideReceiver(_State):
    """The receive state of one stream with a replay window of another size: 64 numbers for each of 1 to 512 words.
    Choose it so that the window is longer than a packet can be late: at 30 Mbit/s the 128 numbers of a `Receiver` are
    43 ms, and 16 words are 1,024 numbers. Its calls are those of `Receiver`.
    """

    __slots__ = ("_words",)

    def __init__(self, words: int, rollover_count: int) -> None:
        """The first packet has this rollover count, below 2^48, as `Receiver` says. BadField otherwise, or where words
        isn't 1 to 512."""
        self._words = (c_uint64 * within("words", words, 1, MOST_WORDS))()
        self._raw = _library.RawWideReceiver()
        check(_library.wide_receiver_start(self._raw, unsigned("rollover_count", rollover_count, 48)))

    def number_of(self, sequence_number: int) -> int:
        """As `Receiver.number_of`."""
        low = unsigned("sequence_number", sequence_number, 16)
        return int(_library.wide_receiver_number_of(self._raw, low))

    def accepts(self, number: int) -> bool:
        """Whether the number may be taken: none is yet, or it is above the highest, or in the window and not taken."""
        number = unsigned("number", number, 64)
        return bool(_library.wide_receiver_accepts(self._raw, self._words, len(self._words), number))

    def standing_of(self, number: int) -> Standing:
        """As `Receiver.standing_of`."""
        number = unsigned("number", number, 64)
        return Standing(_library.wide_receiver_standing_of(self._raw, self._words, len(self._words), number))

    def record(self, number: int) -> bool:
        """Records that the number is taken, and says whether it is accepted. One that isn't changes nothing."""
        number = unsigned("number", number, 64)
        status = _library.wide_receiver_record(self._raw, self._words, len(self._words), number)
        return bool(status == Status.OK)

    def receive(self, sequence_number: int) -> Optional[int]:
        """Takes the packet's number, and returns it; None where it is a replay, or too old to tell."""
        low, number = unsigned("sequence_number", sequence_number, 16), c_uint64()
        status = _library.wide_receiver_receive(self._raw, self._words, len(self._words), low, number)
        return None if status == Status.REFUSED else number.value

    def __repr__(self) -> str:
        taken = f", highest={self.highest}" if self._raw.started else ""
        return f"WideReceiver(words={len(self._words)}, rollover_count={self._raw.highest >> 16}{taken})"

    def _state(self) -> Tuple[int, bool, Tuple[int, ...]]:
        return self._raw.highest, self._raw.started != 0, tuple(self._words)

    def __setstate__(self, state: Tuple[int, bool, Tuple[int, ...]]) -> None:
        """BadField where what was stored is no state."""
        *numbers, words = state
        self._raw, self._words = _library.RawWideReceiver(*stored(numbers, 64, 1)), _window(words)


class Taken(NamedTuple):
    """A packet that a `RestartingReceiver` took."""

    number: int
    """Its number, extended to 64 bits."""
    restarted: bool
    """Whether it is the first one after its sender has started again: what hangs on numbers begins anew."""


class RestartingReceiver(_State):
    """The receive state of one stream that isn't authenticated and whose sender may start again under the same SSRC
    (RFC 3550, appendix A.1), with a window of 64 numbers for each of 1 to 512 words. Not for SRTP: there a packet that
    isn't authentic must change nothing.

    The first packet of an epoch is taken: a loop that drops what is None keeps it.

    >>> receiver = RestartingReceiver()
    >>> for low in (7, 7, 30000, 30001):
    ...     taken = receiver.receive(low)
    ...     if taken is None:
    ...         continue
    ...     if taken.restarted:
    ...         print("begin anew")
    ...     print(taken.number)
    65543
    begin anew
    226609

    A packet is of the stream where its number is less than max_dropout above the highest one taken, or less than
    max_misorder below it: it is judged by the window, as by `WideReceiver`. Any other is outside of the stream, and is
    refused; but where the very next packet has the number after it and is outside of the stream too, the sender has
    started again. That second packet is taken as the first one of a new epoch, with a new window.

    The bounds are safe where packets are sent again under the stream's own SSRC: late packets are no restart, copies
    are refused, and no packet of a source is lost. A sender that starts again less than max_misorder below the highest
    number, or less than max_dropout above it, isn't seen: until its packets pass the highest number they are judged as
    late ones, and refused where their numbers were taken or are too old to tell. RFC 3550 has a MAX_MISORDER of 100 and
    a MIN_SEQUENTIAL of 2.

    The first packet of all has the rollover count 1, and the first one of each later epoch 2 more than the highest
    number before it, so all numbers of an epoch are above those of the epochs before it.
    """

    __slots__ = ("_words",)

    def __init__(
        self,
        max_dropout: int = MAX_DROPOUT,
        min_sequential: int = 1,
        max_misorder: Optional[int] = None,
        words: int = 16,
    ) -> None:
        """A new source's first packet is taken with the last of min_sequential packets in a row, each with the number
        after that of the one before, up to 255; 0 is as 1.
        Without a max_misorder it is 3,000, or the size of the window where that is more. BadField where min_sequential
        is more, max_dropout or max_misorder isn't 1 to 65,535, or words isn't 1 to 512."""
        self._words = (c_uint64 * within("words", words, 1, MOST_WORDS))()
        if max_misorder is None:
            max_misorder = max(MAX_DROPOUT, 64 * len(self._words))
        self._raw = _library.RawWideRestartingReceiver(
            max_dropout=within("max_dropout", max_dropout, 1, 0xFFFF),
            max_misorder=within("max_misorder", max_misorder, 1, 0xFFFF),
            min_sequential=unsigned("min_sequential", min_sequential, 8),
        )

    def receive(self, sequence_number: int) -> Optional[Taken]:
        """Judges the next packet of the source: its number, and whether its sender has started again. None where it is
        refused: a replay, too old to tell, or outside of the stream, which `in_row` then tells.

        >>> receiver = RestartingReceiver()
        >>> [receiver.receive(it).number for it in (1999, 1800)]  # a late one
        [67535, 67336]
        >>> receiver.receive(30000)
        >>> receiver.receive(30001)
        Taken(number=226609, restarted=True)
        """
        low, number = unsigned("sequence_number", sequence_number, 16), c_uint64()
        status = _library.wide_restarting_receive(self._raw, self._words, len(self._words), low, number)
        if status == Status.REFUSED:
            return None
        return Taken(number.value, restarted=status == Status.RESTARTED)

    @property
    def in_row(self) -> int:
        """How many packets outside of the stream came last in a row, each with the number after that of the one before,
        up to 255, and 0 where the last packet was of the stream or taken. So it tells why `receive` returned None just
        now: where it is 0 the packet is of the stream, and a replay or too old (`standing_of`), and counts in
        `ReceptionStatistics`; else the packet is far from the stream, and remembered as what may lead up to a new
        epoch.

        >>> receiver = RestartingReceiver()
        >>> for low in (60000, 60000, 58000, 7, 8):
        ...     print(low, receiver.receive(low), receiver.in_row, receiver.standing_of(receiver.number_of(low)).name)
        60000 Taken(number=125536, restarted=False) 0 TAKEN
        60000 None 0 TAKEN
        58000 None 0 TOO_OLD
        7 None 1 NEW
        8 Taken(number=196616, restarted=True) 0 TAKEN
        """
        return int(self._raw.in_row)

    def number_of(self, sequence_number: int) -> int:
        """The number of a packet of the stream, taken or refused: the nearest to the highest taken that ends in these
        16 bits; where nothing is taken yet the one with the rollover count 1."""
        return int(_library.wide_receiver_number_of(self._epoch(), unsigned("sequence_number", sequence_number, 16)))

    def standing_of(self, number: int) -> Standing:
        """What is known of the number in the epoch, as `Receiver.standing_of` has it. Of a packet that was refused and
        is of the stream it says why."""
        number = unsigned("number", number, 64)
        return Standing(_library.wide_receiver_standing_of(self._epoch(), self._words, len(self._words), number))

    def _epoch(self) -> _library.RawWideReceiver:
        """The epoch, whose window is that of a `WideReceiver`."""
        raw = self._raw
        return _library.RawWideReceiver(raw.highest if raw.started else 1 << 16, raw.started)

    def __repr__(self) -> str:
        raw = self._raw
        bounds = f"max_dropout={raw.max_dropout}, min_sequential={raw.min_sequential}"
        taken = f", highest={self.highest}" if raw.started else ""
        return f"RestartingReceiver({bounds}, max_misorder={raw.max_misorder}, words={len(self._words)}{taken})"

    def _state(self) -> Tuple[int, Tuple[int, ...], int, int, int, int, int, bool]:
        raw = self._raw
        row = (raw.next if raw.in_row else 0), raw.min_sequential, raw.in_row
        return (raw.highest, tuple(self._words), raw.max_dropout, raw.max_misorder, *row, raw.started != 0)

    def __setstate__(self, state: Tuple[int, Tuple[int, ...], int, int, int, int, int, bool]) -> None:
        """BadField where what was stored is no state."""
        highest, words, *others = state
        numbers = stored([highest, *others], 64, 16, 16, 16, 8, 8, 1)
        self._raw, self._words = _library.RawWideRestartingReceiver(*numbers), _window(words)


def extend_u8(previous: int, number: int) -> int:
    """The number nearest to the previous one, modulo 2^64, that ends in these 8 bits."""
    return int(_library.extend_u8(unsigned("previous", previous, 64), unsigned("number", number, 8)))


def extend_u15(previous: int, number: int) -> int:
    """The number nearest to the previous one, modulo 2^64, that ends in these 15 bits."""
    return int(_library.extend_u15(unsigned("previous", previous, 64), unsigned("number", number, 15)))


def extend_u16(previous: int, number: int) -> int:
    """The number nearest to the previous one, modulo 2^64, that ends in these 16 bits."""
    return int(_library.extend_u16(unsigned("previous", previous, 64), unsigned("number", number, 16)))


def extend_u32(previous: int, number: int) -> int:
    """The number nearest to the previous one, modulo 2^64, that ends in these 32 bits."""
    return int(_library.extend_u32(unsigned("previous", previous, 64), unsigned("number", number, 32)))
