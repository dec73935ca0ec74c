"""Reads datagrams from standard input, one a line in hexadecimal, and prints of each its header, the values of its
extensions, and whether a receiver takes it. Each SSRC has a receiver of its own. Lines `map ID URI` before the first
datagram say which extension an id means. It prints what the program rtp_lines does: a mid and a stream id with an
underscore for each character that isn't a letter or a digit, as `cam_1` for a mid `cam-1`, and the first 16 characters
of a mid and 8 of a stream id. To compare one with that of an SDP take `Packet.token`, the text as it lies."""

import re
import sys
from collections import defaultdict
from typing import DefaultDict, Iterable, Iterator, Optional

from rtp_wire import Form, Kind, Map, NotAPacket, Packet, Receiver, Values


def is_map_line(line: str, map: Map) -> bool:
    """Whether the line maps an id, which is done."""
    words = re.fullmatch(r"map ([0-9]{1,3}) (.+)", line)
    if not words or not 1 <= int(words[1]) <= 255:
        return False
    id, kind = int(words[1]), Kind.from_uri(words[2])
    if kind:
        map[id] = kind
    else:
        map.pop(id, None)  # of the last line of an id, whose URI isn't known
    return True


def yes_or_no(flag: bool) -> str:
    return "yes" if flag else "no"


def header_of(packet: Packet) -> str:
    return (
        f"pt {packet.payload_type} seq {packet.sequence_number} ts {packet.timestamp} ssrc {packet.ssrc}"
        f" marker {yes_or_no(packet.marker)} padding {yes_or_no(packet.has_padding)}"
        f" extension {yes_or_no(packet.form != 0)} csrc {len(packet.csrc)} header {packet.header_len}"
    )


def told_of(values: Values) -> Iterator[str]:
    told = {
        "mid": values.mid,
        "rid": values.rid,
        "repaired": values.repaired_rid,
        "level": values.audio_level,
        "voice": None if values.voice_activity is None else yes_or_no(values.voice_activity),
        "send": values.send_time,
        "transport": values.transport_number,
    }
    return (f" {name} {value}" for name, value in told.items() if value is not None)


def packet_of(datagram: bytes, map: Map) -> Optional[Packet]:
    """The packet, where the datagram is one with a header that is read."""
    try:
        packet = Packet.parse(datagram, map)
    except NotAPacket:
        return None
    return None if packet.form == Form.OTHER else packet


def lines_of(datagram: bytes, map: Map, receivers: DefaultDict[int, Receiver], count: int) -> Iterator[str]:
    """The two lines of a datagram."""
    packet = packet_of(datagram, map)
    if packet is None:
        yield f"packet {count}: unreadable"
        yield f"verdict {count}: unreadable"
        return
    yield f"packet {count}: {header_of(packet)}{''.join(told_of(packet.values))}"
    number = receivers[packet.ssrc].receive(packet.sequence_number)
    yield f"verdict {count}: refused" if number is None else f"verdict {count}: taken {number}"


def main(lines: Iterable[str]) -> int:
    map = Map()
    # From the rollover count 0, as the program rtp_lines has it. Receiver(1) also has a number for a packet from before
    # the first one.
    receivers: DefaultDict[int, Receiver] = defaultdict(lambda: Receiver(0))
    count = 0
    for place, line in enumerate(lines, 1):
        line = re.sub(r"\r?\n\Z", "", line)
        if count == 0 and is_map_line(line, map):
            continue
        if not re.fullmatch("([0-9a-fA-F]{2})*", line):
            print(f"line {place}: neither a map line nor hex")
            return 2
        count += 1
        for it in lines_of(bytes.fromhex(line), map, receivers, count):
            print(it)
    return 0


if __name__ == "__main__":
    with open(sys.stdin.fileno(), encoding="utf-8", newline="\n") as lines:  # no carriage return ends a line by itself
        sys.exit(main(lines))
