"""What a capture says: its datagrams by kind, and its sources."""

from __future__ import annotations

from array import array
from typing import Dict, List, NamedTuple, Optional, Tuple

from ._capture import Capture
from ._columns import Columns
from ._errors import NotAPacket
from ._frames import SECOND
from ._guess import LOOKED_AT, Guess
from ._kind import OwnUris
from ._map import Map
from ._packet import Packet, is_rtcp
from ._sdp import Sdp
from ._source import NONE, Judged, Source

# So many sources are told; of others packets are only counted.
MOST_SOURCES = 4096
# The bytes of a header before CSRCs and the block.
FIXED = 12
VALUES = ("audio_level", "voice_activity", "transport_number", "mid", "rid", "repaired_rid")
TEXTS = ("mid", "rid", "repaired_rid")
# Kinds of datagrams by the first byte (RFC 7983, 7): each with the first one and the last one of its range.
FIRST_BYTES = {"stun": (0, 3), "zrtp": (16, 19), "dtls": (20, 63), "turn": (64, 79)}
KINDS = ("rtp", "rtcp", "unreadable", *FIRST_BYTES, "other")


class Stretch(NamedTuple):
    """The seconds in which most packets were missed."""

    begin: int
    end: int
    lost: int
    expected: int


class Analysis:
    """What a capture says. The SDP, where there is one, tells what ids and payload types mean."""

    def __init__(self, capture: Capture, sdp: Optional[Sdp] = None) -> None:
        self.capture, self.sdp = capture, sdp or Sdp()
        self.map, self.origins = self._find_map(sdp is not None)
        self.columns = Columns.parse(capture.data, capture.at, capture.lengths, self.map, VALUES)
        self._take_cut()
        self.counts = {it: [0, 0] for it in KINDS}
        self.sources: List[Source] = []
        self.source_of = array("i", [-1]) * len(capture)
        self.judged: Dict[int, Judged] = {}  # by the datagram's place
        self._count()
        self._see()
        self._drop_doubtful()
        for source in self.sources:
            source.tell_clock(self.sdp.clocks)
        self._judge()
        self._pair()

    def _find_map(self, has_sdp: bool) -> Tuple[Map, Dict[int, str]]:
        """The map, and of each id that occurs what tells its meaning."""
        guess = self._look()
        for uris, origin in ((self.sdp.uris, "sdp"), (self.capture.map_lines, "lines")):
            if uris:
                return Map.from_uris(uris, OwnUris()), {it: origin if it in uris else "unknown" for it in guess.ids}
        if len(self.capture):
            self.capture.say("sdp" if has_sdp else "guessed")
        return guess.map()

    def _look(self) -> Guess:
        """Looks at the elements of the first packets."""
        guess, capture, looked = Guess(), self.capture, 0
        for row, (at, length) in enumerate(zip(capture.at, capture.lengths)):
            if looked == LOOKED_AT:
                break
            datagram = memoryview(capture.data)[at : at + length]
            if not length or datagram[0] >> 6 != 2 or is_rtcp(datagram):
                continue
            try:
                packet = Packet.parse(datagram)
            except NotAPacket:
                continue
            found = [(it.id, bytes(it.data)) for it in packet.elements()]
            guess.look(capture.flow_of[row], packet.ssrc, capture.times[row], found)
            looked += 1
        return guess

    def _take_cut(self) -> None:
        """Takes packets of whose header the capture has the fixed part alone, which says all that counts of losses."""
        capture, columns, cut = self.capture, self.columns, []
        for row, (at, length, size) in enumerate(zip(capture.at, capture.lengths, capture.sizes)):
            is_told = columns.is_rtp[row] or columns.is_rtcp[row]
            if FIXED <= length < size and not is_told and capture.data[at] >> 6 == 2:
                cut.append(row)
        if not cut:
            return
        # without X and CSRCs it is a whole header
        headers = b"".join(b"\x80" + capture.data[capture.at[it] + 1 : capture.at[it] + FIXED] for it in cut)
        read = Columns.parse(headers, range(0, len(headers), FIXED), [FIXED] * len(cut))
        for name in ("is_rtp", "sequence_number", "timestamp", "ssrc", "payload_type", "marker"):
            column, of_fixed = getattr(columns, name), getattr(read, name)
            for place, row in enumerate(cut):
                column[row] = of_fixed[place]
        capture.say("cut_headers", count=len(cut))

    def kind_of(self, row: int) -> str:
        """What kind of datagram it is: a name of `kinds` in tables.json."""
        columns, capture = self.columns, self.capture
        first = capture.data[capture.at[row]] if capture.lengths[row] else 255
        if 128 <= first <= 191:
            return "rtcp" if columns.is_rtcp[row] else "rtp" if columns.is_rtp[row] else "unreadable"
        return next((it for it, (low, high) in FIRST_BYTES.items() if low <= first <= high), "other")

    def _count(self) -> None:
        for row, size in enumerate(self.capture.sizes):
            count = self.counts[self.kind_of(row)]
            count[0] += 1
            count[1] += size

    def _see(self) -> None:
        """Finds the sources, and looks at each packet once."""
        capture, columns = self.capture, self.columns
        index_of: Dict[Tuple[int, int], int] = {}
        left_out = 0
        rows = zip(columns.is_rtp, capture.flow_of, columns.ssrc, capture.times, columns.payload_type)
        for row, (is_rtp, flow, ssrc, time, payload_type) in enumerate(rows):
            if not is_rtp:
                continue
            index = index_of.setdefault((flow, ssrc), len(index_of))
            if index >= MOST_SOURCES:
                left_out += 1
                continue
            if index == len(self.sources):
                self.sources.append(Source(ssrc, flow))
            self.source_of[row] = index
            number, timestamp = columns.sequence_number[row], columns.timestamp[row]
            self.sources[index].see(time, payload_type, number, timestamp, capture.sizes[row])
            for it in TEXTS:
                if columns.texts[it].there[row]:
                    self.sources[index].name(it, columns.texts[it][row])
        if left_out:
            capture.say("sources", count=len(index_of), most=MOST_SOURCES, packets=left_out)

    def _drop_doubtful(self) -> None:
        """Leaves out what is hardly a source: RFC 3550, A.1, has two packets in a row tell one. Here two numbers of one
        stream do, since packets may be lost, and the SDP or a mid or rid."""
        kept = [it for it, source in enumerate(self.sources) if self._is_source(source)]
        if len(kept) == len(self.sources):
            return
        place_of = {index: place for place, index in enumerate(kept)}
        packets = sum(it.packets for it in self.sources) - sum(self.sources[it].packets for it in kept)
        self.capture.say("doubtful", count=len(self.sources) - len(kept), packets=packets)
        self.sources = [self.sources[it] for it in kept]
        self.source_of = array("i", (place_of.get(it, -1) for it in self.source_of))

    def _is_source(self, source: Source) -> bool:
        sdp = self.sdp
        told = any(it in sdp.names for it in source.types) or source.ssrc in (*sdp.repaired, *sdp.repaired.values())
        return source.is_probable or told or any(source.texts.values())

    def _judge(self) -> None:
        columns, times = self.columns, self.capture.times
        if not self.capture.is_timed:
            for source in self.sources:
                source.clock, source.clock_by = None, ""
        following, next_of = array("i", [-1]) * len(times), [-1] * len(self.sources)
        for row in range(len(times) - 1, -1, -1):
            index = self.source_of[row]
            if index >= 0:
                following[row], next_of[index] = next_of[index], columns.sequence_number[row]
        for row, index in enumerate(self.source_of):
            if index >= 0:
                number, timestamp = columns.sequence_number[row], columns.timestamp[row]
                self.judged[row] = self.sources[index].judge(number, timestamp, times[row], following[row])

    def judged_of(self, row: int) -> Judged:
        return self.judged.get(row, Judged(NONE, 0, None))

    def _pair(self) -> None:
        """Finds what each source of retransmissions repairs: by the SDP's groups, by its repaired rid, or by the
        payload type and the mid."""
        by_ssrc = {(it.flow, it.ssrc): it for it in self.sources}
        for source in self.sources:
            repaired = by_ssrc.get((source.flow, self.sdp.repaired.get(source.ssrc, -1)))
            if not repaired and (source.texts["repaired_rid"] or source.types[0] in self.sdp.repaired_types):
                others = (it for it in self.sources if it is not source and it.flow == source.flow)
                repaired = next((it for it in others if self._repairs(source, it)), None)
            source.repairs = repaired

    def _repairs(self, source: Source, other: Source) -> bool:
        texts, others = source.texts, other.texts
        if texts["mid"] and others["mid"] and texts["mid"][-1] != others["mid"][-1]:
            return False
        if texts["repaired_rid"]:
            return texts["repaired_rid"][-1:] == others["rid"][-1:]
        if not texts["mid"] or not others["mid"] or others["rid"]:
            return False
        return self.sdp.repaired_types.get(source.types[0], -1) in other.types

    def in_order(self) -> List[Source]:
        """The sources, those with most packets first, and each of retransmissions behind what it repairs."""
        behind: Dict[Tuple[int, int], List[Source]] = {}
        for source in (order := sorted(self.sources, key=lambda it: -it.packets)):
            of = source.repairs if source.repairs and not source.repairs.repairs else source
            behind.setdefault((of.flow, of.ssrc), []).append(source)
        heads = (it for it in order if not it.repairs or it.repairs.repairs)
        return [it for head in heads for it in sorted(behind[head.flow, head.ssrc], key=lambda it: it is not head)]

    def worst(self) -> Optional[Stretch]:
        """The seconds around the one in which most packets were missed, over all sources, for as long as a tenth as
        many are missed; None where none is or there are no times."""
        lost: Dict[int, int] = {}
        for source in self.sources:
            for second, count in source.lost_by_second().items():
                lost[second] = lost.get(second, 0) + count
        if not lost or not self.capture.is_timed:
            return None
        worst = min(lost, key=lambda it: (-lost[it], it))
        begin = end = worst
        while 10 * lost.get(begin - 1, 0) >= lost[worst]:
            begin -= 1
        while 10 * lost.get(end + 1, 0) >= lost[worst]:
            end += 1
        missed = sum(lost.get(it, 0) for it in range(begin, end + 1))
        taken = sum(
            begin <= time // SECOND <= end for it in self.sources for epoch in it.epochs for _, time in epoch
        )
        return Stretch(begin, end + 1, missed, missed + taken)
