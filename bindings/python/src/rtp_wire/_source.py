"""One source of a capture, and what a receiver of it would say of each packet."""

from __future__ import annotations

from typing import Dict, List, NamedTuple, Optional, Tuple

from ._described import DESCRIBED
from ._receiver import RestartingReceiver, Standing
from ._reception import ReceptionStatistics

SECOND = 10**9
# The clocks of payload types that are assigned once for all (RFC 3551, 6).
STATIC = {it: int(clock) for clock, types in DESCRIBED["static_types"].items() for it in types}
# Of these clocks one is guessed where neither an SDP nor the payload type tells it.
CLOCKS: List[int] = DESCRIBED["usual_clocks"]
# The timestamps of so many nanoseconds tell it.
TOLD_BY = SECOND // 2
# A packet that is so many numbers ahead is outside of the stream, by the bounds of `RestartingReceiver`.
MOST_AHEAD = 3000
# What is said of a packet, by its place in `verdicts` of tables.json.
TAKEN, DUPLICATE, LATE, OUTSIDE, RESTART, NONE = range(6)


class Judged(NamedTuple):
    """What is said of a packet."""

    verdict: int
    number: int  # extended; 0 where it isn't taken
    jitter: Optional[int]  # in ticks


class Gap(NamedTuple):
    """Numbers in a row that are lost."""

    time: int  # when the next higher one came
    lost: int


class Source:
    """An SSRC of a flow."""

    def __init__(self, ssrc: int, flow: int) -> None:
        self.ssrc, self.flow = ssrc, flow
        self.packets = self.bytes = 0
        self.is_probable = False  # whether two packets came one behind the other whose numbers are of one stream
        self._number: Optional[int] = None  # the one before
        self.types: List[int] = []
        self.texts: Dict[str, List[str]] = {"mid": [], "rid": [], "repaired_rid": []}
        self.first = self.last = 0  # the earliest and the latest time, in nanoseconds
        self.clock: Optional[int] = None
        self.clock_by = ""  # a name of `clocks` in tables.json
        self._began: Optional[Tuple[int, int]] = None  # the first packet's time and timestamp
        self._told: Optional[Tuple[int, int]] = None  # and a later one's
        self.repairs: Optional[Source] = None
        self.counts = [0] * 6  # by verdict
        self.reordered = 0
        self.jitter: Optional[int] = None
        self.jitter_highest: Optional[int] = None
        self.epochs: List[List[Tuple[int, int]]] = []  # the numbers taken, and their times
        self._receiver, self._statistics = RestartingReceiver(), ReceptionStatistics()
        self._highest = 0
        self._base = 0  # what the numbers of the receiver are less than those of the source
        self._top = 0, 0, 0  # of the highest one taken the number, the time and the timestamp

    def see(self, time: int, payload_type: int, number: int, timestamp: int, size: int) -> None:
        """Counts a packet, and looks at its number and timestamp."""
        if self._number not in (None, number):
            apart = (number - (self._number or 0)) % 2**16
            self.is_probable |= min(apart, 2**16 - apart) < MOST_AHEAD
        self._number = number
        if self._began is None:
            self.first = self.last = time
            self._began = time, timestamp
        elif self._told is None or self._told[0] - self._began[0] < TOLD_BY:
            self._told = time, timestamp
        self.first, self.last = min(self.first, time), max(self.last, time)
        self.packets += 1
        self.bytes += size
        if payload_type not in self.types:
            self.types.append(payload_type)

    def name(self, kind: str, text: Optional[str]) -> None:
        """Keeps a text of an element: a mid, a rid or a repaired rid."""
        if text is not None and text not in self.texts[kind]:
            self.texts[kind].append(text)

    def tell_clock(self, clocks: Dict[int, int]) -> None:
        """The clock by the payload types that the SDP names, or by those that have always the same one, or the usual one
        that is nearest to the timestamps."""
        told = [(clocks[it], "sdp") for it in self.types if clocks.get(it)]
        told += [(STATIC[it], "static") for it in self.types if it in STATIC]
        if told:
            self.clock, self.clock_by = told[0]
        elif self._began and self._told and self._told[0] > self._began[0]:
            ticks = (self._told[1] - self._began[1]) % 2**32
            ran = ticks * SECOND / (self._told[0] - self._began[0])
            # 48,000 Hz is likelier, and near where packets are late: it has 120 ticks in 2.5 ms, of which Opus has some.
            usual = [it for it in CLOCKS if it != 44100 or ticks % 120]
            self.clock = min(usual, key=lambda it: max(it / ran, ran / it)) if ran else CLOCKS[-1]
            self.clock_by = "guess"

    def judge(self, sequence_number: int, timestamp: int, time: int, following: int) -> Judged:
        """Has the receiver judge a packet, behind which the packet of the number `following` came, or none where that is
        -1. `see` was called with all packets before."""
        is_followed = following == (sequence_number + 1) % 2**16
        if is_followed and self._ends_outage(sequence_number, timestamp, time):
            # All that the window told of is far behind: a new receiver says the same of what comes now.
            number = self._top[0] + (sequence_number - self._top[0]) % 2**16
            self._receiver, self._base = RestartingReceiver(), number - 2**16 - sequence_number
        verdict, number = self._verdict(sequence_number)
        self.counts[verdict] += 1
        if verdict in (TAKEN, RESTART):
            if verdict == RESTART or not self.epochs:
                self.epochs.append([])
            self.epochs[-1].append((number, time))
            self.reordered += number < self._highest
            if number > self._highest:
                self._top = number, time, timestamp
            self._highest = max(self._highest, number)
        if verdict == OUTSIDE or self.clock is None:
            return Judged(verdict, number, None)
        if verdict == RESTART:
            self._statistics = ReceptionStatistics()
        arrival = time * self.clock // SECOND
        of_stream = number or self._base + self._receiver.number_of(sequence_number)
        self._statistics.record(of_stream, timestamp, arrival % 2**32)
        report = self._statistics.report()
        self.jitter = report.jitter if report else None
        self.jitter_highest = max(self.jitter_highest or 0, self.jitter or 0)
        return Judged(verdict, number, self.jitter)

    def _verdict(self, sequence_number: int) -> Tuple[int, int]:
        taken = self._receiver.receive(sequence_number)
        if taken:
            return (RESTART if taken.restarted else TAKEN), self._base + taken.number
        if self._receiver.in_row:
            return OUTSIDE, 0
        standing = self._receiver.standing_of(self._receiver.number_of(sequence_number))
        return (DUPLICATE if standing == Standing.TAKEN else LATE), 0

    def _ends_outage(self, sequence_number: int, timestamp: int, time: int) -> bool:
        """Whether a packet from outside of the stream, behind which the next number came, goes on with it after an outage:
        its timestamp went on by as much as the time, within a second or a tenth of it, and the numbers went on forwards,
        at most four times as fast as they did before. Where they may have rolled over nothing is known."""
        highest, before, stamp = self._top
        passed, ahead = time - before, (sequence_number - highest) % 2**16
        if self.clock is None or not highest or passed <= 0 or not MOST_AHEAD <= ahead < 2**15:
            return False
        first, began = self.epochs[-1][0]
        at_that_rate, took = (highest - first) * passed, before - began  # over the time that it took so many numbers
        if took <= 0 or at_that_rate >= 2**15 * took or ahead * took > 4 * at_that_rate:
            return False
        ticks = passed * self.clock // SECOND
        off = (timestamp - stamp - ticks + 2**31) % 2**32 - 2**31
        return abs(off) <= max(self.clock, ticks // 10)

    @property
    def expected(self) -> int:
        """The numbers from the lowest to the highest that was taken, of each epoch."""
        return sum(max(it)[0] - min(it)[0] + 1 for it in self.epochs)

    def gaps(self) -> List[Gap]:
        """The numbers that are lost, in their order: those between two that were taken in one epoch."""
        found = []
        for epoch in self.epochs:
            taken = sorted(epoch)
            pairs = zip(taken, taken[1:])
            found += [Gap(time, number - before - 1) for (before, _), (number, time) in pairs if number > before + 1]
        return found

    def lost_by_second(self) -> Dict[int, int]:
        """How many packets are missed in each second, where some are."""
        lost: Dict[int, int] = {}
        for gap in self.gaps():
            lost[gap.time // SECOND] = lost.get(gap.time // SECOND, 0) + gap.lost
        return lost
