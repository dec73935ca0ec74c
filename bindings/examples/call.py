"""A call: GStreamer sends VP8 and Opus with header extensions, through a network that loses, doubles, reorders and
delays packets, and through the SFU, to three receivers with other ids, forms and mids. Each receiver is a GStreamer
of its own, with its own jitter buffer.

usage: call.py SFU_SOCKETS
       call.py --missing    prints which elements of GStreamer it wants and aren't there

Compared, byte for byte: each VP8 frame and Opus packet that a receiver's depayloader puts out with those that the
sender's encoders put out, but for the frames and packets of which something was lost; and the pictures that each
receiver's decoder makes of them with those that a decoder makes of the same frames here. In each packet as it comes:
the form, the mid, the transport-wide number, which counts on by one, the send time and the audio level, as GStreamer
reads them. And what the SFU says that it took and refused with what the network says that it did.
"""

import json
import pathlib
import subprocess
import sys
import threading
import time

import gi

gi.require_version("Gst", "1.0")
gi.require_version("GstRtp", "1.0")
from gi.repository import Gio, Gst, GstRtp  # noqa: E402

MID = "urn:ietf:params:rtp-hdrext:sdes:mid"
LEVEL = "urn:ietf:params:rtp-hdrext:ssrc-audio-level"
NUMBER = "http://www.ietf.org/id/draft-holmer-rmcat-transport-wide-cc-extensions-01"

VIDEO, AUDIO = 96, 111
SECONDS = 6
LATENCY = 3000  # of a receiver's jitter buffer, in milliseconds: a stall of the machine is no loss
SENDER = f"""
    rtpbin name=bin
    videotestsrc pattern=snow num-buffers={30 * SECONDS} ! video/x-raw,width=160,height=120,framerate=30/1
        ! vp8enc name=video deadline=1 threads=1 keyframe-max-dist=15 target-bitrate=300000
        ! rtpvp8pay name=videopay pt={VIDEO} mtu=500 ssrc=7001 seqnum-offset=65400 timestamp-offset=4294900000
        ! bin.send_rtp_sink_0
    audiotestsrc wave=ticks num-buffers={50 * SECONDS} samplesperbuffer=960 ! audio/x-raw,rate=48000,channels=1
        ! level audio-level-meta=true ! opusenc name=audio
        ! rtpopuspay name=audiopay pt={AUDIO} ssrc=7002 seqnum-offset=65500 timestamp-offset=1000
        ! bin.send_rtp_sink_1
    bin.send_rtp_src_0 ! udpsink name=videosink host=127.0.0.1 port=PORT
    bin.send_rtp_src_1 ! udpsink name=audiosink host=127.0.0.1 port=PORT
    bin.send_rtcp_src_0 ! udpsink host=127.0.0.1 port=PORT sync=false async=false
    bin.send_rtcp_src_1 ! udpsink host=127.0.0.1 port=PORT sync=false async=false
"""

# What each receiver agreed to, and under what it gets the streams, as in sfu_peers.h.
PEERS = [
    {"two_byte": False, "mid": 2, "number": 5, "time": 7, "level": 9, "mids": "m", "ssrc": 1000, "offset": 0},
    {"two_byte": True, "mid": 20, "number": 200, "time": 255, "level": 1, "mids": "second_floor_camera_", "ssrc": 2000,
     "offset": 40000},
    {"two_byte": False, "mid": 14, "number": 1, "time": 3, "level": None, "mids": "camera_of_alice", "ssrc": 3000,
     "offset": 65535},
]  # fmt: skip
CAPS = {
    VIDEO: "application/x-rtp,media=video,clock-rate=90000,encoding-name=VP8,payload=96",
    AUDIO: "application/x-rtp,media=audio,clock-rate=48000,encoding-name=OPUS,payload=111",
}


class Failed(Exception):
    pass


def check(holds, what):
    if not holds:
        raise Failed(what)


def bytes_of(buffer):
    return buffer.extract_dup(0, buffer.get_size())


def buffers_of(info):
    """The buffers that a probe sees, which may come in a list."""
    if info.type & Gst.PadProbeType.BUFFER_LIST:
        buffers = info.get_buffer_list()
        return [buffers.get(i) for i in range(buffers.length())]
    return [info.get_buffer()]


def watch(pad, each):
    """Calls `each` with every buffer that passes the pad."""

    def probe(_, info):
        for buffer in buffers_of(info):
            each(buffer)
        return Gst.PadProbeReturn.OK

    pad.add_probe(Gst.PadProbeType.BUFFER | Gst.PadProbeType.BUFFER_LIST, probe)


def packet_of(buffer, ids, two_byte):
    """What GStreamer reads of a packet, and the data of the elements of these ids."""
    mapped, rtp = GstRtp.RTPBuffer.map(buffer, Gst.MapFlags.READ)
    check(mapped, "no RTP packet")
    packet = {"ssrc": rtp.get_ssrc(), "seq": rtp.get_seq(), "ts": rtp.get_timestamp(), "type": rtp.get_payload_type()}
    packet["payload"] = rtp.get_payload_buffer().extract_dup(0, rtp.get_payload_len())
    for name, at in ids.items():
        if two_byte:
            there, _, data = rtp.get_extension_twobytes_header(at, 0)
        else:
            there, data = rtp.get_extension_onebyte_header(at, 0)
        packet[name] = bytes(data) if there else None
    rtp.unmap()
    return packet


class Sender:
    def __init__(self, port):
        self.pipeline = Gst.parse_launch(SENDER.replace("PORT", str(port)))
        self.frames = {VIDEO: [], AUDIO: []}  # what the encoders put out
        self.packets = []  # and what goes
        self.ends = threading.Semaphore(0)
        for name, payload_type in (("video", VIDEO), ("audio", AUDIO)):
            encoder, payloader = self.pipeline.get_by_name(name), self.pipeline.get_by_name(name + "pay")
            frames = self.frames[payload_type]
            watch(encoder.get_static_pad("src"), lambda it, frames=frames: frames.append(bytes_of(it)))
            watch(payloader.get_static_pad("src"), self.keep)
            sink = self.pipeline.get_by_name(name + "sink").get_static_pad("sink")
            sink.add_probe(Gst.PadProbeType.EVENT_DOWNSTREAM, self.look_for_end)
            self.add(payloader, "rtphdrextmid", 1, mid=name)
            self.add(payloader, "rtphdrexttwcc", 2)
        self.add(self.pipeline.get_by_name("audiopay"), "rtphdrextclientaudiolevel", 3)

    def add(self, payloader, element, id_, **properties):
        extension = Gst.ElementFactory.make(element)
        for name, value in properties.items():
            extension.set_property(name, value)
        extension.set_id(id_)
        payloader.emit("add-extension", extension)

    def keep(self, buffer):
        self.packets.append(packet_of(buffer, {"mid": 1, "number": 2, "level": 3}, False))

    def look_for_end(self, _, info):
        if info.get_event().type == Gst.EventType.EOS:
            self.ends.release()
        return Gst.PadProbeReturn.OK

    def run(self):
        self.pipeline.set_state(Gst.State.PLAYING)
        for session in (0, 1):
            internal = self.pipeline.get_by_name("bin").emit("get-internal-session", session)
            internal.set_property("rtcp-min-interval", 500 * Gst.MSECOND)
        try:
            for _ in range(2):
                check(self.ends.acquire(timeout=4 * SECONDS), "the sender doesn't end")
        finally:
            self.pipeline.set_state(Gst.State.NULL)


class Receiver:
    def __init__(self, peer):
        self.peer = peer
        self.packets = []
        self.frames = {VIDEO: [], AUDIO: []}
        self.pictures = []
        self.faults = []
        self.socket = Gio.Socket.new(Gio.SocketFamily.IPV4, Gio.SocketType.DATAGRAM, Gio.SocketProtocol.UDP)
        self.socket.bind(Gio.InetSocketAddress.new_from_string("127.0.0.1", 0), False)
        self.port = self.socket.get_local_address().get_port()
        self.pipeline = Gst.parse_launch(
            f"udpsrc name=source buffer-size=4000000 caps=application/x-rtp rtpbin name=bin latency={LATENCY}"
        )
        source, bin_ = self.pipeline.get_by_name("source"), self.pipeline.get_by_name("bin")
        source.set_property("socket", self.socket)
        watch(source.get_static_pad("src"), self.keep)
        bin_.connect("request-pt-map", lambda _, session, type_: Gst.Caps.from_string(CAPS[type_]))
        bin_.connect("pad-added", self.link)
        source.link_pads("src", bin_, "recv_rtp_sink_0")
        self.pipeline.set_state(Gst.State.PLAYING)
        state = self.pipeline.get_state(5 * Gst.SECOND)[0]
        check(state in (Gst.StateChangeReturn.SUCCESS, Gst.StateChangeReturn.NO_PREROLL), "a receiver doesn't start")

    def keep(self, buffer):
        ids = {name: self.peer[name] for name in ("mid", "number", "time", "level") if self.peer[name] is not None}
        self.packets.append(packet_of(buffer, ids, self.peer["two_byte"]))

    def link(self, _, pad):
        payload_type = int(pad.get_name().split("_")[-1]) if pad.get_name().startswith("recv_rtp_src") else None
        if payload_type == VIDEO:
            text = "rtpvp8depay name=depay ! vp8dec name=decode threads=1 ! fakesink sync=false"
        elif payload_type == AUDIO:
            text = "rtpopusdepay name=depay ! fakesink sync=false"
        else:
            return
        bin_ = Gst.parse_bin_from_description(text, False)
        depayloader = bin_.get_by_name("depay")
        frames = self.frames[payload_type]
        watch(depayloader.get_static_pad("src"), lambda it: frames.append(bytes_of(it)))
        if payload_type == VIDEO:
            watch(bin_.get_by_name("decode").get_static_pad("src"), lambda it: self.pictures.append(bytes_of(it)))
        bin_.add_pad(Gst.GhostPad.new("sink", depayloader.get_static_pad("sink")))
        self.pipeline.add(bin_)
        bin_.sync_state_with_parent()
        pad.link(bin_.get_static_pad("sink"))

    def stop(self):
        self.pipeline.set_state(Gst.State.NULL)


def decoded(frames):
    """The pictures that a decoder makes of these frames."""
    pictures = []
    pipeline = Gst.parse_launch(
        "appsrc name=source format=time caps=video/x-vp8,width=160,height=120,framerate=30/1"
        " ! vp8dec name=decode threads=1 ! fakesink sync=false"
    )
    watch(pipeline.get_by_name("decode").get_static_pad("src"), lambda it: pictures.append(bytes_of(it)))
    source = pipeline.get_by_name("source")
    pipeline.set_state(Gst.State.PLAYING)
    for i, frame in enumerate(frames):
        buffer = Gst.Buffer.new_wrapped(frame)
        buffer.pts = i * Gst.SECOND // 30
        source.emit("push-buffer", buffer)
    source.emit("end-of-stream")
    pipeline.get_bus().timed_pop_filtered(20 * Gst.SECOND, Gst.MessageType.EOS | Gst.MessageType.ERROR)
    pipeline.set_state(Gst.State.NULL)
    return pictures


def kept_frames(sender, gone, payload_type):
    """The sender's frames of which no packet is gone."""
    packets = [it for it in sender.packets if it["type"] == payload_type]
    times = list(dict.fromkeys(it["ts"] for it in packets))
    frames = sender.frames[payload_type][-len(times) :]  # Opus: without its two headers
    check(len(frames) == len(times), "not one time for each frame")
    lost = {it["ts"] for it in packets if (it["ssrc"], it["seq"]) in gone}
    kept = [frame for time_, frame in zip(times, frames) if time_ not in lost]
    while payload_type == VIDEO and kept and kept[0][0] & 1:
        del kept[0]  # a depayloader begins with a key frame (RFC 6386, 9.1)
    return kept


def check_packets(receiver, sender):
    """Each packet that came says what the receiver agreed to."""
    peer, mids, last_time = receiver.peer, {}, None
    sent = {(it["type"], it["seq"]): it for it in sender.packets}
    for count, packet in enumerate(receiver.packets):
        source = sent[packet["type"], (packet["seq"] - peer["offset"]) % 65536]
        check(packet["payload"] == source["payload"] and packet["ts"] == source["ts"], "another payload or time")
        stream = packet["ssrc"] - peer["ssrc"]
        check(stream in (0, 1), "another SSRC")
        check(packet["mid"] == f"{peer['mids']}{stream}".encode(), f"the mid {packet['mid']}")
        mids.setdefault(packet["mid"], packet["type"])
        check(mids[packet["mid"]] == packet["type"], "two media of one mid")
        check(packet["number"] == (count % 65536).to_bytes(2, "big"), f"the transport number {packet['number']}")
        time_ = int.from_bytes(packet["time"], "big")
        check(last_time is None or (time_ - last_time) % 2**24 < 2**23, "a send time that goes back")
        last_time = time_
        if peer["level"] is not None:
            check((source["level"] is not None) == (packet["type"] == AUDIO), "audio levels of the sender")
            check(packet["level"] == source["level"], f"the audio level {packet['level']}")
    check(len(mids) == 2, "not two mids")


def started(*command):
    return subprocess.Popen(command, stdin=subprocess.PIPE, stdout=subprocess.PIPE, text=True)


def port_of(process):
    word, port = process.stdout.readline().split()
    check(word == "port", "no port")
    return int(port)


def ended(process):
    """The last line of a program that ends where its input does."""
    process.stdin.close()
    line = process.stdout.read().splitlines()[-1]
    check(process.wait(10) == 0, f"status {process.returncode} of {process.args}")
    return line


def call(sfu_program, processes):
    receivers = [Receiver(peer) for peer in PEERS]
    sfu = started(sfu_program, *(str(it.port) for it in receivers))
    processes.append(sfu)
    sfu.stdin.write(f"map 1 {MID}\nmap 2 {NUMBER}\nmap 3 {LEVEL}\n\n")
    sfu.stdin.flush()
    network = started(sys.executable, str(pathlib.Path(__file__).with_name("call_loss.py")), str(port_of(sfu)))
    processes.append(network)
    sender = Sender(port_of(network))
    sender.run()
    told = json.loads(ended(network))
    words = ended(sfu).split()
    counts = {name: int(count) for name, count in zip(words[::2], words[1::2])}
    time.sleep(LATENCY / 1000 + 1)
    for receiver in receivers:
        receiver.stop()

    packets = len(sender.packets)
    gone = {tuple(it) for it in told["lost"] + told["late"]}
    wanted = {
        "taken": packets - len(gone),
        "replays": len(told["doubled"]),
        "late": len(told["late"]),
        "rtcp": told["rtcp"],
        "unreadable": told["garbage"],
        "strangers": 0,
        "sent": 3 * (packets - len(gone)),
        "unsent": 0,
    }
    check(counts == wanted, f"the SFU says {counts}, and the network {wanted}")
    check(told["rtcp"] > 0 and told["late"] and told["doubled"] and told["lost"], "the network did nothing")
    video, audio = (kept_frames(sender, gone, it) for it in (VIDEO, AUDIO))
    pictures = decoded(video)
    print(
        f"sent {packets} packets: {len(told['lost'])} lost, {len(told['late'])} late, {len(told['doubled'])} doubled;"
        f" the SFU says {' '.join(words)}"
    )
    for count, receiver in enumerate(receivers, 1):
        check(len(receiver.packets) == counts["taken"], f"receiver {count} got {len(receiver.packets)} packets")
        check_packets(receiver, sender)
        for name, got, due in (
            ("VP8 frames", receiver.frames[VIDEO], video),
            ("Opus packets", receiver.frames[AUDIO], audio),
            ("pictures", receiver.pictures, pictures),
        ):
            check(got == due, f"receiver {count}: {len(got)} {name}, and due are {len(due)}, or others")
        print(
            f"receiver {count}: {len(video)} of {len(sender.frames[VIDEO])} VP8 frames, {len(audio)} Opus packets and"
            f" {len(pictures)} pictures, byte for byte those that were sent and not lost"
        )


def missing():
    """The elements of GStreamer that aren't there."""
    names = (
        "videotestsrc audiotestsrc vp8enc vp8dec opusenc level rtpvp8pay rtpvp8depay rtpopuspay rtpopusdepay rtpbin"
        " udpsrc udpsink appsrc fakesink rtphdrextmid rtphdrexttwcc rtphdrextclientaudiolevel"
    )
    return [name for name in names.split() if Gst.ElementFactory.find(name) is None]


def main():
    Gst.init(None)
    if sys.argv[1] == "--missing":
        print(*missing())
        return 0
    processes = []
    try:
        call(sys.argv[1], processes)
    except Failed as cause:
        print("call.py:", cause, file=sys.stderr)
        return 1
    finally:
        for process in processes:
            process.kill()
    return 0


sys.exit(main())
