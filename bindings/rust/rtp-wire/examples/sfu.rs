//! The core of an SFU, without sockets: the packets of a sender go on to each of three receivers under SSRCs,
//! numbers, ids of extensions and mids of their own. A packet is never written anew: a header is made of its own once
//! for all receivers that have the same ids, each of them gets a copy with what it has of its own, and the payload stays
//! where it lies.
//!
//! Reads the datagrams of the sender from standard input, one a line in hexadecimal, the second one 20
//! milliseconds after the first and so on, and prints what each receiver gets: its number, 1 to 3, and the
//! packet. At last it prints what became of the datagrams. Lines `map ID URI` before the first datagram are the
//! sender's ids of extensions.

use std::fmt;
use std::io::{self, BufRead, Write};
use std::process::ExitCode;

use rtp_wire::{
    change_form, is_rtcp, Fields, Form, Group, HeaderTemplate, Kind, Map, NewIds, OwnUris, Packet,
    Place, RoutedSlot, Standing, WideRestartingReceiver,
};

/// Of the window of a stream: so many times 64 numbers up to the highest one.
const WORDS: usize = 2;
/// So many SSRCs of the sender at most.
const STREAMS: usize = 16;
/// A header that is sent on has at most so many bytes.
const HEADER: usize = 2048;
/// What each receiver gets of its own, where it has an id for it.
const KINDS: [Kind; 3] = [Kind::Mid, Kind::TransportNumber, Kind::AbsSendTime];

/// What a receiver agreed to, and under what it gets the streams.
#[derive(Clone, Copy)]
struct Peer {
    /// Its ids of extensions.
    map: Map,
    /// Its mids begin so, and end in the stream's number, a hexadecimal digit.
    mid: &'static str,
    /// Of the stream 0; each other stream has the next one.
    first_ssrc: u32,
    /// What is added to each sequence number.
    number_offset: u16,
}

/// The way to a receiver.
struct Route {
    /// Which of the receivers it is.
    at: usize,
    peer: Peer,
    /// Of the next packet.
    transport_number: u16,
}

/// The ways to receivers that have the same ids, and mids of one length.
struct Party {
    /// From the sender's ids to theirs.
    ids: NewIds,
    /// The elements that they get, in what each has of its own.
    elements: Vec<Place>,
    /// Whether these ids or mids need the two-byte form.
    wide: bool,
    routes: Vec<Route>,
}

struct Stream {
    ssrc: u32,
    receiver: WideRestartingReceiver<WORDS>, // not for SRTP: there `WideReceiver` takes what is authentic
}

/// What became of the datagrams: each one is counted in one of the first six.
#[derive(Default)]
struct Counts {
    taken: u64,
    replays: u64,
    late: u64,
    rtcp: u64,
    unreadable: u64,
    strangers: u64,
    sent: u64,
    unsent: u64,
}

impl fmt::Display for Counts {
    fn fmt(&self, f: &mut fmt::Formatter<'_>) -> fmt::Result {
        write!(
            f,
            "taken {} replays {} late {} rtcp {} unreadable {} strangers {} sent {} unsent {}",
            self.taken,
            self.replays,
            self.late,
            self.rtcp,
            self.unreadable,
            self.strangers,
            self.sent,
            self.unsent
        )
    }
}

#[derive(Default)]
struct Sfu {
    parties: Vec<Party>,
    streams: Vec<Stream>,
    counts: Counts,
}

impl Route {
    /// The fields that the receiver gets of a packet of this stream.
    fn fields(&self, packet: &Packet, stream: usize) -> Fields {
        let number = packet.sequence_number();
        Fields {
            ssrc: Some(self.peer.first_ssrc.wrapping_add(stream as u32)),
            sequence_number: Some(number.wrapping_add(self.peer.number_offset)),
            ..Fields::default()
        }
    }

    /// Adds the data of the elements that the receiver agreed to, in the order of [`KINDS`].
    fn put_data(&mut self, data: &mut Vec<u8>, stream: usize, microseconds: u64) {
        let mid = [
            self.peer.mid.as_bytes(),
            &b"0123456789ABCDEF"[stream..=stream],
        ]
        .concat();
        let number = self.transport_number;
        self.transport_number = number.wrapping_add(1);
        let time = microseconds % 64_000_000 * 262_144 / 1_000_000; // 24 bits, in units of 2^-18 seconds
        let all: [&[u8]; 3] = [&mid, &number.to_be_bytes(), &time.to_be_bytes()[5..]];
        for (kind, its_data) in KINDS.into_iter().zip(all) {
            if self.peer.map.id_of(kind).is_some() {
                data.extend_from_slice(its_data);
            }
        }
    }
}

impl Party {
    /// The receivers that are like this first one.
    fn of(sender: &Map, first: Route) -> Party {
        let peer = &first.peer;
        let (mut elements, mut at) = (Vec::new(), 0);
        for (kind, len) in KINDS.into_iter().zip([peer.mid.len() + 1, 2, 3]) {
            if let Some(id) = peer.map.id_of(kind) {
                elements.push(Place::new(id, at..at + len));
                at += len;
            }
        }
        let has_long_mid = elements.iter().any(|it| it.data().len() > 16);
        Party {
            ids: NewIds::between(sender, &peer.map),
            wide: has_long_mid || peer.map.iter().any(|(id, _)| id > 14),
            elements,
            routes: vec![first],
        }
    }

    fn is_of(&self, peer: &Peer) -> bool {
        let other = &self.routes[0].peer;
        other.map == peer.map && other.mid.len() == peer.mid.len()
    }

    /// The packet, or its header in this buffer, with a block that can carry the receivers' ids: a one-byte block can't
    /// carry those above 14, and becomes a two-byte one. `None` where it has no room.
    fn widened<'a>(&self, packet: Packet<'a>, room: &'a mut [u8; HEADER]) -> Option<Packet<'a>> {
        if !self.wide || packet.form() != Some(Form::OneByte) {
            return Some(packet);
        }
        let header = &packet.datagram()[..packet.header_len()];
        room.get_mut(..header.len())?.copy_from_slice(header);
        let len = change_form(room, header.len(), Form::TwoByte).ok()?;
        Packet::parse(&room[..len]).ok()
    }

    /// Sends the packet, which is of this stream, without its padding to the receivers, and returns to how many; `None`
    /// where its header has no room.
    fn send(
        &mut self,
        (packet, payload): (Packet, &[u8]),
        stream: usize,
        microseconds: u64,
        send: &mut impl FnMut(usize, &[u8], &[u8]),
    ) -> Option<u64> {
        // A block of another form has no elements, and stays.
        let has_elements = packet.form().is_some() || packet.block_profile().is_none();
        let mut data = Vec::new();
        for route in self.routes.iter_mut().filter(|_| has_elements) {
            route.put_data(&mut data, stream, microseconds);
        }
        let is_wide = self.wide || packet.form() == Some(Form::TwoByte);
        let group = Group {
            ids: &self.ids,
            data: &data,
            elements: if has_elements { &self.elements } else { &[] },
            allowed: if is_wide { None } else { Some(Form::OneByte) },
        };
        let (mut room, mut made) = ([0; HEADER], [0; HEADER]);
        let widened = self.widened(packet, &mut room)?;
        let template = HeaderTemplate::new(&widened, &group, &mut made).ok()?;
        let slot = |(n, it): (usize, &Route)| {
            RoutedSlot::new(&it.fields(&packet, stream), n * template.data_len()).without_padding()
        };
        let mut slots: Vec<_> = self.routes.iter().enumerate().map(slot).collect();
        let mut buf = vec![0; slots.len() * template.header_len()];
        let mut sent = 0;
        let headers = template.write_headers(&data, &mut slots, &mut buf);
        for (route, header) in self.routes.iter().zip(headers) {
            if let Ok(header) = header {
                send(route.at, header, payload);
                sent += 1;
            }
        }
        Some(sent)
    }
}

impl Sfu {
    /// The stream's place; `None` where there is no room for one more.
    fn stream_of(&mut self, ssrc: u32) -> Option<usize> {
        let at = self.streams.iter().position(|it| it.ssrc == ssrc);
        if at.is_some() || self.streams.len() == STREAMS {
            return at;
        }
        let receiver = WideRestartingReceiver::new();
        self.streams.push(Stream { ssrc, receiver });
        Some(self.streams.len() - 1)
    }

    /// Takes a datagram that came at this moment; `send` gets each receiver's place, header and payload.
    fn receive(
        &mut self,
        datagram: &[u8],
        microseconds: u64,
        mut send: impl FnMut(usize, &[u8], &[u8]),
    ) {
        if is_rtcp(datagram) {
            self.counts.rtcp += 1;
            return;
        }
        let packet = Packet::parse(datagram).ok();
        let Some((packet, payload)) = packet.and_then(|it| Some((it, it.unpadded_payload()?)))
        else {
            self.counts.unreadable += 1; // also where the padding is malformed
            return;
        };
        let Some(stream) = self.stream_of(packet.ssrc()) else {
            self.counts.strangers += 1;
            return;
        };
        let receiver = &mut self.streams[stream].receiver;
        let number = packet.sequence_number();
        if receiver.receive(number).number().is_none() {
            match receiver.standing_of(receiver.number_of(number)) {
                Standing::Taken => self.counts.replays += 1,
                _ => self.counts.late += 1, // too old to tell, or far from the stream
            }
            return;
        }
        self.counts.taken += 1; // also the second packet of a sender that has started again
        for party in &mut self.parties {
            let all = party.routes.len() as u64;
            let sent = party.send((packet, payload), stream, microseconds, &mut send);
            self.counts.sent += sent.unwrap_or(0);
            self.counts.unsent += all - sent.unwrap_or(0);
        }
    }

    fn add(&mut self, sender: &Map, peer: &Peer) {
        let route = Route {
            at: self.parties.iter().map(|it| it.routes.len()).sum(),
            peer: *peer,
            transport_number: 0,
        };
        if let Some(party) = self.parties.iter_mut().find(|it| it.is_of(peer)) {
            party.routes.push(route);
        } else {
            self.parties.push(Party::of(sender, route));
        }
    }
}

/// The three receivers: low ids and short mids; ids and mids of the two-byte form; and one that agreed to no audio
/// level.
const PEERS: [Peer; 3] = [
    Peer {
        map: Map::new()
            .with(2, Kind::Mid)
            .with(5, Kind::TransportNumber)
            .with(7, Kind::AbsSendTime)
            .with(9, Kind::AudioLevel),
        mid: "m",
        first_ssrc: 1000,
        number_offset: 0,
    },
    Peer {
        map: Map::new()
            .with(20, Kind::Mid)
            .with(200, Kind::TransportNumber)
            .with(255, Kind::AbsSendTime)
            .with(1, Kind::AudioLevel),
        mid: "second_floor_camera_",
        first_ssrc: 2000,
        number_offset: 40000,
    },
    Peer {
        map: Map::new()
            .with(14, Kind::Mid)
            .with(1, Kind::TransportNumber)
            .with(3, Kind::AbsSendTime),
        mid: "camera_of_alice",
        first_ssrc: 3000,
        number_offset: 65535,
    },
];

/// Maps the id of the line, of one to three digits, where it is a map line.
fn is_mapped(map: &mut Map, uris: &mut OwnUris<String>, line: &str) -> bool {
    let words = line.strip_prefix("map ").and_then(|it| it.split_once(' '));
    let Some((id, uri)) = words else {
        return false;
    };
    let is_number = id.len() <= 3 && id.bytes().all(|digit| digit.is_ascii_digit());
    if !is_number || uri.is_empty() {
        return false;
    }
    let (Ok(id), Some(kind)) = (id.parse(), uris.kind_of(uri)) else {
        return false;
    };
    map.set(id, Some(kind)).is_ok()
}

/// The bytes that the text spells.
fn bytes_of(text: &str) -> Option<Vec<u8>> {
    let digits: Option<Vec<u8>> = text.chars().map(|c| Some(c.to_digit(16)? as u8)).collect();
    let digits = digits?;
    let pairs = digits.chunks_exact(2);
    pairs
        .remainder()
        .is_empty()
        .then(|| pairs.map(|pair| pair[0] << 4 | pair[1]).collect())
}

/// The packet in hexadecimal.
fn text_of(header: &[u8], payload: &[u8]) -> String {
    let mut text = String::new();
    for byte in header.iter().chain(payload) {
        text.extend(
            [byte >> 4, byte & 15].map(|it| char::from(b"0123456789ABCDEF"[usize::from(it)])),
        );
    }
    text
}

fn main() -> io::Result<ExitCode> {
    let mut out = io::BufWriter::new(io::stdout().lock());
    let (mut sender, mut uris) = (Map::new(), OwnUris::default());
    let mut sfu = Sfu::default();
    let mut count = 0;
    for (index, line) in io::stdin().lock().lines().enumerate() {
        let line = line?;
        if count == 0 && is_mapped(&mut sender, &mut uris, &line) {
            continue;
        }
        let Some(datagram) = bytes_of(&line) else {
            writeln!(out, "line {}: neither a map line nor hex", index + 1)?;
            out.flush()?;
            return Ok(ExitCode::from(2));
        };
        if count == 0 {
            for peer in &PEERS {
                sfu.add(&sender, peer);
            }
        }
        let mut sent = Vec::new();
        sfu.receive(&datagram, 20_000 * count, |receiver, header, payload| {
            sent.push(format!("{} {}", receiver + 1, text_of(header, payload)));
        });
        for line in sent {
            writeln!(out, "{line}")?;
        }
        count += 1;
    }
    writeln!(out, "{}", sfu.counts)?;
    out.flush()?;
    Ok(ExitCode::SUCCESS)
}

#[cfg(test)]
mod tests {
    use super::*;

    /// What each receiver of this SFU gets of the datagram.
    fn sent(sfu: &mut Sfu, datagram: &[u8]) -> Vec<(usize, Vec<u8>)> {
        let mut all = Vec::new();
        sfu.receive(datagram, 0, |at, header, payload| {
            assert_eq!(payload, b"hi");
            all.push((at, header.to_vec()));
        });
        all
    }

    #[test]
    fn receivers_with_the_same_ids_get_one_header_with_values_of_their_own() {
        let (sender, mut sfu) = (Map::new().with(1, Kind::AudioLevel), Sfu::default());
        let [first, other, _] = PEERS;
        let alike = Peer {
            mid: "n",
            first_ssrc: 5000,
            number_offset: 7,
            ..first
        };
        let longer = Peer { mid: "mn", ..first };
        for peer in [&first, &other, &alike, &longer] {
            sfu.add(&sender, peer);
        }
        let parties = sfu.parties.iter().map(|it| it.routes.len());
        assert_eq!(parties.collect::<Vec<_>>(), [2, 1, 1]);
        // the level 10 below, of which no padding is left
        let mut datagram = *b"\x90\x60\0\x05\0\0\0\x64\0\0\0\x2C\xBE\xDE\0\x01\x10\x8A\0\0hi";
        for packet in [5, 6] {
            datagram[3] = packet;
            let number = packet - 5;
            let headers = sent(&mut sfu, &datagram);
            let places: Vec<_> = headers.iter().map(|it| it.0).collect();
            assert_eq!(places, [0, 2, 1, 3]);
            let header = |ssrc: u16, offset: u8, mid: u8| {
                let [high, low] = ssrc.to_be_bytes();
                let fixed = [0x90, 96, 0, packet + offset, 0, 0, 0, 100, 0, 0, high, low];
                let block = [
                    0xBE, 0xDE, 0, 3, 0x90, 0x8A, 0x21, mid, b'0', 0x51, 0, number, 0x72, 0, 0, 0,
                ];
                [&fixed[..], &block].concat()
            };
            assert_eq!(headers[0].1, header(1000, 0, b'm'));
            assert_eq!(headers[1].1, header(5000, 7, b'n'));
        }
        assert_eq!(
            (sfu.counts.taken, sfu.counts.sent, sfu.counts.unsent),
            (2, 8, 0)
        );
    }
}
