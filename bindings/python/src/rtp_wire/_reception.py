"""What a receiver reports of the packets that came from a source."""

from __future__ import annotations

from typing import NamedTuple, Optional, Tuple

from . import _library
from ._errors import Status, stored, unsigned, within
from ._standard import written


class ReceptionReport(NamedTuple):
    """What a report block says of a source, but for its SSRC and the times of the last sender report (RFC 3550,
    6.4.1)."""

    fraction_lost: int
    """The fraction of the packets expected since the last report that is lost, in 256ths, rounded down; 0 where the
    loss is negative."""
    cumulative_lost: int
    """The packets expected less those received, since the first one: -8,388,608 to 8,388,607, and one of these two
    where it is beyond them."""
    extended_highest: int
    """The highest sequence number, and in the high 16 bits how often they rolled over since the first packet."""
    jitter: int
    """The interarrival jitter, in ticks of the timestamp's clock."""

    def block(self, ssrc: int, last_report: int = 0, delay: int = 0) -> bytes:
        """The 24 bytes of the report block on this source (6.4.1). `last_report` is LSR, the middle 32 bits of the NTP
        time of the last sender report, and `delay` is DLSR, the time since it came in units of 1/65,536 s: both 0 where
        none came yet. BadField where a field or an argument doesn't fit.

        >>> ReceptionReport(64, -2, 65544, 1).block(44, 0x12345678, 65536).hex(" ", 4)
        '0000002c 40fffffe 00010008 00000001 12345678 00010000'
        """
        raw = _library.RawReport(
            unsigned("fraction_lost", self.fraction_lost, 8),
            within("cumulative_lost", self.cumulative_lost, -0x800000, 0x7FFFFF),
            unsigned("extended_highest", self.extended_highest, 32),
            unsigned("jitter", self.jitter, 32),
        )
        times = unsigned("last_report", last_report, 32), unsigned("delay", delay, 32)
        return written(_library.write_report, raw, unsigned("ssrc", ssrc, 32), *times)


class ReceptionStatistics:
    """Statistics of the packets that came from one source, by which its receiver reports what it got (RFC 3550, 6.4.1,
    A.3 and A.8).

    Record each packet of the source, those that are late and duplicates too, whether the receiver then takes it or
    refuses it: they count as received, so that the loss may be negative. Its number is that of `Receiver.number_of`.
    With SRTP record it once it is authentic. A packet that is outside of the stream, after which `in_row` of
    `RestartingReceiver` isn't 0, isn't recorded; where the sender has started again, begin anew with the packet that
    says so. Packets are expected from the first one's number on, even where one with a lower number comes later.

    >>> statistics = ReceptionStatistics()
    >>> statistics.record(65541, timestamp=0, arrival=1000)
    >>> statistics.record(65542, timestamp=3000, arrival=4016)
    >>> statistics.record(65544, timestamp=9000, arrival=10000)
    >>> statistics.report()
    ReceptionReport(fraction_lost=64, cumulative_lost=1, extended_highest=8, jitter=1)
    """

    __slots__ = ("_raw",)

    def __init__(self) -> None:
        self._raw = _library.RawReception()

    @property
    def received(self) -> int:
        """How many packets came."""
        return int(self._raw.received)

    @property
    def expected(self) -> int:
        """How many packets were expected, from the first one's number to the highest; 0 where none came."""
        raw = self._raw
        return int(min(raw.highest - raw.first + 1, (1 << 64) - 1)) if raw.received else 0

    def record(self, number: int, timestamp: int, arrival: int) -> None:
        """Records a packet that came, by its extended sequence number, its timestamp and the time of its arrival: in
        ticks of the timestamp's clock, from any moment on, modulo 2^32. BadField where one doesn't fit."""
        times = unsigned("timestamp", timestamp, 32), unsigned("arrival", arrival, 32)
        _library.reception_record(self._raw, unsigned("number", number, 64), *times)

    def report(self) -> Optional[ReceptionReport]:
        """Reports on the packets that were recorded, and begins the interval of the next report. None where none was
        recorded since the last report, since no report on the source is owed then (6.4)."""
        report = _library.RawReport()
        if _library.reception_report(self._raw, report) == Status.NONE:
            return None
        return ReceptionReport(report.fraction_lost, report.cumulative_lost, report.extended_highest, report.jitter)

    def __repr__(self) -> str:
        return f"ReceptionStatistics(received={self.received})"

    def _state(self) -> Tuple[int, ...]:
        raw = self._raw
        before = raw.received_before, raw.expected_before
        return (raw.first, raw.highest, raw.received, *before, raw.scaled_jitter, raw.transit)

    def __eq__(self, other: object) -> bool:
        return isinstance(other, ReceptionStatistics) and self._state() == other._state()

    __hash__ = None  # type: ignore[assignment]

    def __getstate__(self) -> Tuple[int, ...]:
        return self._state()

    def __setstate__(self, state: Tuple[int, ...]) -> None:
        """BadField where what was stored is no state."""
        self._raw = _library.RawReception(*stored(state, 64, 64, 64, 64, 64, 64, 32))
