"""A network that isn't one to rely on: takes datagrams at a UDP port of 127.0.0.1 and sends them to another one,
where some are lost, come twice, come in another order, or come too late, with garbage between them.

What happens to a packet hangs on its stream and its place in it, by a fixed seed, and not on the time: what has to
wait does so until enough later packets of the stream have gone. RTCP goes as it comes.

usage: call_loss.py PORT
    `port N` is printed; where standard input ends, what has come and what waits is still sent, and a line of JSON is
    printed: for `lost`, `late` and `doubled` the packets, as [SSRC, sequence number], and how many datagrams were
    `sent`, of `rtcp` and of `garbage`.
"""

import json
import random
import select
import socket
import sys

SPARED = 20  # the first packets of a stream, until a receiver has seen that there is one
LATE = 150  # places, more than a replay window has
GARBAGE = [b"", b"\x80", b"\x00" * 40, b"\xff" * 20, b"\x9f\x60" + b"\x00" * 30]


class Stream:
    def __init__(self, ssrc):
        self.ssrc = ssrc
        self.random = random.Random(ssrc)
        self.place = 0
        self.waiting = []  # (the place at which it goes, packet), by that place
        self.late = []

    def wait(self, places, packet):
        self.waiting.append((self.place + places, packet))
        self.waiting.sort(key=lambda it: it[0])

    def due(self):
        while self.waiting and self.waiting[0][0] <= self.place:
            yield self.waiting.pop(0)[1]

    def due_late(self):
        while self.late and self.late[0][0] <= self.place:
            yield self.late.pop(0)[1:]


class Network:
    def __init__(self, port):
        self.to = ("127.0.0.1", port)
        self.socket = socket.socket(socket.AF_INET, socket.SOCK_DGRAM)
        self.socket.setsockopt(socket.SOL_SOCKET, socket.SO_RCVBUF, 4 << 20)
        self.socket.bind(("127.0.0.1", 0))
        self.streams = {}
        self.told = {"lost": [], "late": [], "doubled": [], "sent": 0, "rtcp": 0, "garbage": 0}

    def send(self, datagram):
        self.socket.sendto(datagram, self.to)
        self.told["sent"] += 1

    def take(self, datagram):
        if 192 <= datagram[1] <= 223:
            self.told["rtcp"] += 1
            self.send(datagram)
            return
        ssrc = int.from_bytes(datagram[8:12], "big")
        stream = self.streams.setdefault(ssrc, Stream(ssrc))
        stream.place += 1
        self.pass_on(stream, datagram)
        for packet in stream.due():
            self.send(packet)
        for name, packet in stream.due_late():
            self.told["late"].append(name)
            self.send(packet)

    def pass_on(self, stream, packet):
        name = [stream.ssrc, int.from_bytes(packet[2:4], "big")]
        draw, wait = stream.random.random(), stream.random.randint(1, 12)
        if stream.place <= SPARED or draw > 0.22:
            self.send(packet)
        elif draw < 0.04:
            self.told["lost"].append(name)
        elif draw < 0.05:
            stream.late.append((stream.place + LATE, name, packet))
        elif draw < 0.12:
            self.told["doubled"].append(name)
            self.send(packet)
            stream.wait(wait, packet)
        else:
            stream.wait(wait, packet)
        if draw < 0.02:
            self.told["garbage"] += 1
            self.send(GARBAGE[self.told["garbage"] % len(GARBAGE)])

    def run(self):
        print("port", self.socket.getsockname()[1], flush=True)
        ready = []
        while sys.stdin not in ready:
            ready, _, _ = select.select([self.socket, sys.stdin], [], [])
            if self.socket in ready:
                self.take(self.socket.recv(65536))
        self.socket.setblocking(False)
        try:
            while True:
                self.take(self.socket.recv(65536))
        except BlockingIOError:
            pass
        for stream in self.streams.values():
            for _, packet in stream.waiting:
                self.send(packet)
            self.told["lost"] += [name for _, name, _ in stream.late]
        print(json.dumps(self.told))


Network(int(sys.argv[1])).run()
