"""Tells what the RTP packets of a capture say: of each source how many packets came, were lost, came twice or too late,
the jitter and the rate.

    python -m rtp_wire FILE

The file is one of pcap or pcapng (Ethernet, Linux cooked, raw IP, loopback), or has lines of hexadecimal digits, one for
each datagram. Nothing is sent anywhere.
"""

from __future__ import annotations

import argparse
import os
import sys
from pathlib import Path
from typing import Iterator, List, Optional

from ._analysis import Analysis
from ._capture import read_capture
from ._described import DESCRIBED
from ._errors import NotAPacket
from ._fields import fields_of
from ._sdp import Sdp
from ._tables import (
    Table,
    as_csv,
    as_text,
    datagram_rows,
    extension_rows,
    heading_of,
    packet_rows,
    sentence_of,
    sentences_of,
    source_rows,
)

# Sentences by which a file is no capture, and those that tell nothing wrong of one.
NO_CAPTURE, NO_FAULT = ("empty", "compressed", "no_capture"), ("guessed", "sdp")
TABLES = ("datagrams", "extensions", "sources", "packets")


def _arguments(given: Optional[List[str]]) -> argparse.Namespace:
    described, raw = __doc__ or "", argparse.RawDescriptionHelpFormatter
    parser = argparse.ArgumentParser("python -m rtp_wire", description=described, formatter_class=raw, epilog=_meanings())
    parser.add_argument("file", type=Path, metavar="FILE")
    parser.add_argument("--sdp", type=Path, help="a file with the call's SDP, which says what ids and types mean")
    parser.add_argument("--table", choices=TABLES, help="this table alone")
    parser.add_argument("--packet", type=int, metavar="N", help="the header of the Nth datagram, field by field")
    parser.add_argument("--csv", action="store_true", help="tables as CSV")
    return parser.parse_args(given)


def _meanings() -> str:
    """What each column of the sources means."""
    columns = DESCRIBED["tables"]["sources"]["columns"]
    return "columns of the sources:\n" + "\n".join(f"  {heading_of(it)}: {it['meaning']}" for it in columns)


def _rows_of(analysis: Analysis, name: str) -> Table:
    if name == "packets":
        return packet_rows(analysis, range(len(analysis.capture)))
    return {"datagrams": datagram_rows, "extensions": extension_rows, "sources": source_rows}[name](analysis)


def _header_rows(analysis: Analysis, place: int) -> Table:
    """The fields of a datagram. ValueError where there is no such packet."""
    capture = analysis.capture
    if not 1 <= place <= len(capture):
        raise ValueError(f"there is no datagram {place}, but 1 to {len(capture)}")
    at, length = capture.at[place - 1], capture.lengths[place - 1]
    try:
        return [list(it) for it in fields_of(memoryview(capture.data)[at : at + length], analysis.map)]
    except NotAPacket as error:
        raise ValueError(f"datagram {place} is no packet: {error}") from error


def _told(analysis: Analysis, given: argparse.Namespace) -> Iterator[str]:
    told = as_csv if given.csv else as_text
    if given.packet is not None:
        yield told("fields", _header_rows(analysis, given.packet))
        return
    if given.table:
        yield told(given.table, _rows_of(analysis, given.table))
        return
    yield "".join(f"{it}\n" for it in sentences_of(analysis))
    for name in ("datagrams", "extensions", "sources") if len(analysis.capture) else ():
        yield f"\n{DESCRIBED['tables'][name]['title']}\n{told(name, _rows_of(analysis, name))}"


def _analysed(given: argparse.Namespace) -> Analysis:
    """What the files say. ValueError where the first one is no capture. What is wrong with it is told beside a table."""
    data = given.file.read_bytes()
    sdp = Sdp(given.sdp.read_text("utf-8", "replace")) if given.sdp else None
    analysis = Analysis(read_capture(data), sdp)
    for it in analysis.capture.sentences:
        if it.name in NO_CAPTURE:
            raise ValueError(sentence_of(it))
        if (given.table or given.packet is not None) and it.name not in NO_FAULT:
            print(f"rtp_wire: {sentence_of(it)}", file=sys.stderr)
    return analysis


def main(given: Optional[List[str]] = None) -> int:
    arguments = _arguments(given)
    try:
        for text in _told(_analysed(arguments), arguments):
            sys.stdout.write(text)
        sys.stdout.flush()
    except BrokenPipeError:
        os.dup2(os.open(os.devnull, os.O_WRONLY), sys.stdout.fileno())  # whoever reads has seen enough
    except (OSError, ValueError) as error:
        print(f"rtp_wire: {error}", file=sys.stderr)
        return 2
    return 0


if __name__ == "__main__":
    sys.exit(main())
