"""Prints what reading a packet takes: nanoseconds of processor time, the least of many short runs; and what one of many
takes that are read at once."""

from array import array
from time import process_time
from timeit import repeat

from rtp_wire import Columns, Header, Map, Packet, Receiver

HEADER = bytes.fromhex("8021B798 00002710 0000002C")
# audio level, send time, transport number and mid, and seven bytes of payload
DATAGRAM = bytes.fromhex(
    "90E00005 000000A0 00000007 BEDE0004 108A2201 02033100 0C403000 00000000 7061796C6F6164"
)
MAP = Map.standard()
RUNS, CALLS = 400, 250
# All packets of one buffer, and what is read of each.
MANY, MANY_RUNS = 100_000, 10
BUFFER, LENGTHS = DATAGRAM * MANY, array("Q", [len(DATAGRAM)]) * MANY
AT = array("Q", range(0, len(BUFFER), len(DATAGRAM)))
VALUES = ["audio_level", "send_time", "transport_number", "mid"]

ROWS = {
    "a header alone": "Packet.parse(HEADER, MAP)",
    "four elements": "Packet.parse(DATAGRAM, MAP)",
    "four elements, and their values": "Packet.parse(DATAGRAM, MAP).values",
    "the same of a bytearray": "Packet.parse(WRITABLE, MAP).values",
    "the same as a header": "Header.parse(DATAGRAM, MAP)",
    "a number taken": "receiver.receive(1)",
}
MANY_ROWS = {
    "a header, one of 100,000": "Columns.parse(BUFFER, AT, LENGTHS)",
    "four values, one of 100,000": "Columns.parse(BUFFER, AT, LENGTHS, MAP, VALUES)",
    "the same, and a verdict": "Columns.parse(BUFFER, AT, LENGTHS, MAP, VALUES).receive({})",
}


def nanoseconds(call: str, runs: int = RUNS, calls: int = CALLS, packets: int = 1) -> int:
    names = {"WRITABLE": bytearray(DATAGRAM), "receiver": Receiver(1), **globals()}
    times = repeat(call, timer=process_time, globals=names, repeat=runs, number=calls)
    return round(min(times) / calls / packets * 1e9)


if __name__ == "__main__":
    for name, call in ROWS.items():
        print(f"{nanoseconds(call):6} ns  {name}: {call}")
    for name, call in MANY_ROWS.items():
        print(f"{nanoseconds(call, MANY_RUNS, 1, MANY):6} ns  {name}: {call}")
