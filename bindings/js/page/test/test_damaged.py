"""Captures that are damaged at random: the page's code in Node tells of each what Python does."""

import random
import subprocess
import tempfile
import unittest
from pathlib import Path

from files import damaged, forms, streams
from rtp_wire._analysis import Analysis
from rtp_wire._capture import read_capture
from rtp_wire._tables import as_csv, datagram_rows, extension_rows, packet_rows, sentences_of, source_rows

HERE = Path(__file__).resolve().parent
FILES = 300


def changed(data, chance):
    """The data with some bytes changed, taken out or put in."""
    data = bytearray(data[: chance.choice([300, 2000, 9000, 30000])])
    for _ in range(chance.choice([1, 3, 20])):
        if not data:
            break
        place = chance.randrange(min(len(data), chance.choice([64, 400, 30000])))
        kind = chance.randrange(5)
        if kind == 0:
            data[place] ^= 1 << chance.randrange(8)
        elif kind == 1:
            data[place] = chance.choice([0, 1, 127, 128, 255])
        elif kind == 2:
            del data[place : place + chance.randrange(1, 9)]
        elif kind == 3:
            data[place:place] = bytes(chance.randrange(256) for _ in range(chance.randrange(1, 9)))
        else:
            del data[-chance.randrange(1, 50) :]
    return bytes(data)


def told(name, data):
    """What Python tells of a file, in the form in which told.mjs prints it."""
    analysis = Analysis(read_capture(data))
    rows = {"datagrams": datagram_rows(analysis), "extensions": extension_rows(analysis), "sources": source_rows(analysis)}
    rows["packets"] = packet_rows(analysis, range(len(analysis.capture)))
    return "\n".join([name, *sentences_of(analysis), *(as_csv(*it) for it in rows.items())])


class Damaged(unittest.TestCase):
    def test_what_is_told(self):
        chance = random.Random(3550)
        whole = [it[1] for it in [*streams(), *forms(), *damaged()] if 40 < len(it[1]) < 200_000]
        with tempfile.TemporaryDirectory(prefix="page-") as folder:
            for place in range(FILES):
                Path(folder, f"{place:03}").write_bytes(changed(chance.choice(whole), chance))
            command = ["node", str(HERE / "told.mjs"), folder]
            said = subprocess.run(command, stdout=subprocess.PIPE, check=True).stdout.decode()
            wanted = [told(it.name, it.read_bytes()) for it in sorted(Path(folder).iterdir())]
        self.assertEqual(said.split("\r\n"), "".join(wanted).split("\r\n"))


if __name__ == "__main__":
    unittest.main()
