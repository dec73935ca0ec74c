"""The tables of what a capture says, as tables.json describes them, for a terminal and as CSV."""

from __future__ import annotations

import csv
import io
from typing import Any, Dict, Iterable, Iterator, List, Optional, Tuple, Union

from ._analysis import Analysis
from ._capture import Sentence
from ._described import DESCRIBED
from ._frames import SECOND
from ._links import ends_of
from ._source import DUPLICATE, LATE, OUTSIDE, RESTART, TAKEN, Source

Cell = Union[int, str, None]
"""A number in units of the column's last decimal, a text, or None where there is nothing."""
Table = List[List[Cell]]


def shown(cell: Cell, column: Dict[str, Any]) -> str:
    """What stands in the table for a cell."""
    if cell is None or isinstance(cell, str):
        return cell or ""
    decimals = column.get("decimals", 0)
    digits = f"{abs(cell):0{decimals + 1}}"
    sign = "-" if cell < 0 else ""
    return sign + (f"{digits[:-decimals]}.{digits[-decimals:]}" if decimals else digits)


def heading_of(column: Dict[str, Any]) -> str:
    return f"{column['heading']} ({column['unit']})" if "unit" in column else str(column["heading"])


def as_text(name: str, rows: Table) -> str:
    """A table for a terminal. Columns in which nothing stands are left out, where there are rows."""
    columns = DESCRIBED["tables"][name]["columns"]
    lines = [[heading_of(it) for it in columns], *([shown(*it) for it in zip(row, columns)] for row in rows)]
    kept = [place for place in range(len(columns)) if not rows or any(line[place] for line in lines[1:])]
    widths = {place: max(len(line[place]) for line in lines) for place in kept}

    def aligned(line: List[str]) -> str:
        cells = (
            line[it].ljust(widths[it]) if columns[it].get("text") else line[it].rjust(widths[it]) for it in kept
        )
        return "  ".join(cells).rstrip()

    return "\n".join(map(aligned, lines)) + "\n"


def as_csv(name: str, rows: Table) -> str:
    """A table as CSV (RFC 4180), whose first line has the headings."""
    columns = DESCRIBED["tables"][name]["columns"]
    made = io.StringIO()
    writer = csv.writer(made)
    writer.writerow(map(heading_of, columns))
    writer.writerows([shown(*it) for it in zip(row, columns)] for row in rows)
    return made.getvalue()


def sentence_of(sentence: Sentence) -> str:
    words = {name: _causes(it) if isinstance(it, list) else it for name, it in sentence.words.items()}
    return str(DESCRIBED["sentences"][sentence.name]).format(**words)


def _causes(causes: List[Tuple[str, int, int]]) -> str:
    """How many frames were left out for each cause: "95 of TCP, 3 of the Ethernet type 0x0806"."""
    texts = []
    for cause, number, count in causes:
        of = f"0x{number:04x}" if cause == "type" else DESCRIBED["protocols"].get(str(number), f"the IP protocol {number}")
        texts.append(f"{count} {DESCRIBED['left'][cause].format(of=of)}")
    return ", ".join(texts)


def datagram_rows(analysis: Analysis) -> Table:
    counts = analysis.counts.items()
    return [[DESCRIBED["kinds"][kind], count, size] for kind, (count, size) in counts if count]


def extension_rows(analysis: Analysis) -> Table:
    uris, origins = analysis.map.uris, DESCRIBED["origins"]
    return [[id, uris.get(id, ""), origins[origin]] for id, origin in analysis.origins.items()]


def source_rows(analysis: Analysis) -> Table:
    return [_source_row(analysis, it, list(analysis.capture.flows)) for it in analysis.in_order()]


def _ssrc(source: Optional[Source]) -> str:
    return f"0x{source.ssrc:08x}" if source else ""


def _ratio(number: Optional[int], factor: int, divisor: Optional[int]) -> Optional[int]:
    """The number times the factor over the divisor, rounded down; None where one isn't there, or nothing is divided
    by."""
    return number * factor // divisor if number is not None and divisor else None


def _source_row(analysis: Analysis, source: Source, flows: List[bytes]) -> List[Cell]:
    is_timed, names, texts = analysis.capture.is_timed, analysis.sdp.names, source.texts
    expected, gaps, seconds = source.expected, source.gaps(), source.lost_by_second()
    lost = sum(it.lost for it in gaps)
    worst = min(seconds, key=lambda it: (-seconds[it], it)) if seconds and is_timed else None
    took = source.last - source.first
    return [
        _ssrc(source),
        _ssrc(source.repairs),
        *ends_of(flows[source.flow]),
        ", ".join(f"{it} {names[it]}" if it in names else str(it) for it in sorted(source.types)),
        ", ".join(texts["mid"]),
        ", ".join(texts["rid"] or texts["repaired_rid"]),
        source.packets,
        expected,
        lost,
        _ratio(lost, 1000, expected),
        max((it.lost for it in gaps), default=0),
        source.counts[DUPLICATE],
        source.counts[LATE],
        source.reordered,
        source.counts[OUTSIDE],
        source.counts[RESTART],
        _ratio(source.jitter, 10_000, source.clock),
        _ratio(source.jitter_highest, 10_000, source.clock),
        _ratio(source.bytes, 8 * SECOND // 1000, took) if is_timed else None,
        source.clock,
        DESCRIBED["clocks"].get(source.clock_by, ""),
        source.first // 1_000_000 if is_timed else None,
        took // 1_000_000 if is_timed else None,
        worst,
        None if worst is None else seconds[worst],
    ]


def packet_rows(analysis: Analysis, rows: Iterable[int]) -> Table:
    """The packets among the datagrams of these places."""
    return [_packet_row(analysis, row) for row in rows if analysis.columns.is_rtp[row]]


def _packet_row(analysis: Analysis, row: int) -> List[Cell]:
    columns, judged, index = analysis.columns, analysis.judged_of(row), analysis.source_of[row]
    clock = analysis.sources[index].clock if index >= 0 else None
    voice = columns.values["voice_activity"][row]
    is_taken = judged.verdict in (TAKEN, RESTART)
    return [
        row + 1,
        analysis.capture.times[row] // 1000 if analysis.capture.is_timed else None,
        f"0x{columns.ssrc[row]:08x}",
        columns.payload_type[row],
        columns.sequence_number[row],
        judged.number if is_taken else None,
        columns.timestamp[row],
        columns.marker[row],
        analysis.capture.sizes[row],
        DESCRIBED["verdicts"][judged.verdict],
        _ratio(judged.jitter, 10_000, clock),
        columns.values["audio_level"][row],
        None if voice is None else "yes" if voice else "no",
        columns.values["transport_number"][row],
    ]


def sentences_of(analysis: Analysis) -> Iterator[str]:
    """What is told of a capture in words."""
    capture, counts = analysis.capture, analysis.counts
    if len(capture):
        total, rtp, rtcp = len(capture), counts["rtp"][0], counts["rtcp"][0]
        words = {"datagrams": total, "rtp": rtp, "rtcp": rtcp, "other": total - rtp - rtcp}
        milliseconds = {"name": "seconds", "decimals": 3}
        seconds = shown(max(capture.times) // 1_000_000, milliseconds)
        name = "read" if capture.is_timed else "untimed"
        yield sentence_of(Sentence(name, {**words, "seconds": seconds, "sources": len(analysis.sources)}))
        worst, restarts = analysis.worst(), sum(it.counts[RESTART] for it in analysis.sources)
        if worst:
            yield sentence_of(Sentence("worst", worst._asdict()))
        elif analysis.sources and not restarts and not any(it.gaps() for it in analysis.sources):
            yield sentence_of(Sentence("none_lost", {}))
        if restarts:
            yield sentence_of(Sentence("restarts", {"count": restarts}))
    yield from map(sentence_of, capture.sentences)
