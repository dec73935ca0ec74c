//! Many datagrams of one buffer, and many numbers: what each alone is, and what is worked out by hand.

mod guarded;

use std::error::Error;
use std::iter::FusedIterator;

use guarded::at_end;
use rtp_wire::{
    is_rtcp, parse_headers, parse_packets, receive_many, ArrivalSlot, Header, HeaderSlot, Kind,
    Map, NotAHeader, NotAPacket, NotRead, NotTaken, Packet, PacketSlot, Receiver, Values,
};

/// V=2, P, X, CC=1; the source 9; a block of two words: 1 (AA), 2 (BB CC), 3 ("xy"); a payload of 1 byte and 2 of
/// padding.
const SAMPLE: [u8; 31] = [
    0xB1, 33, 0, 1, 0, 0, 0, 2, 0, 0, 0, 3, 0, 0, 0, 9, 0xBE, 0xDE, 0, 2, 0x10, 0xAA, 0x21, 0xBB,
    0xCC, 0x31, b'x', b'y', 0x77, 0, 2,
];
/// The level 0 under the id 1, no other value, and the payload "hi".
const LEVEL: [u8; 22] = [
    0x90, 96, 0, 5, 0, 0, 0, 160, 0, 0, 0, 7, 0xBE, 0xDE, 0, 1, 0x10, 0, 0, 0, b'h', b'i',
];
const PLAIN: [u8; 14] = [0x80, 96, 0, 6, 0, 0, 0, 161, 0, 0, 0, 8, b'y', b'o'];
/// A block of ONVIF's, of no words.
const CAMERA: [u8; 17] = [
    0x90, 96, 0, 7, 0, 0, 0, 162, 0, 0, 0, 9, 0xAB, 0xAC, 0, 0, 0x41,
];
/// A receiver report without a report block; with four bytes more it is a packet of RTP too.
const REPORT: [u8; 12] = [0x80, 201, 0, 1, 0, 0, 0, 9, 0, 0, 0, 0];

const MAP: Map = Map::new()
    .with(1, Kind::AudioLevel)
    .with(2, Kind::TransportNumber)
    .with(3, Kind::Rid);

/// The datagrams in one buffer, each behind a byte of none, and the place of each.
fn joined(datagrams: &[&[u8]]) -> (Vec<u8>, Vec<(usize, usize)>) {
    let mut buf = Vec::new();
    let mut places = Vec::new();
    for datagram in datagrams {
        buf.push(0xEE);
        places.push((buf.len(), datagram.len()));
        buf.extend_from_slice(datagram);
    }
    buf.push(0xEE);
    (buf, places)
}

/// Reads the datagrams at these places both ways, and compares each with what it alone is.
fn are_as_alone(buf: &[u8], places: &[(usize, usize)], map: &Map) {
    let mut packets: Vec<_> = places
        .iter()
        .map(|it| PacketSlot::new(it.0, it.1))
        .collect();
    let mut headers: Vec<_> = places
        .iter()
        .map(|it| HeaderSlot::new(it.0, it.1))
        .collect();
    let packets = parse_packets(buf, &mut packets);
    let headers = parse_headers(buf, map, &mut headers);
    assert_eq!((packets.len(), headers.len()), (places.len(), places.len()));
    for ((packet, header), (at, len)) in packets.zip(headers).zip(places) {
        let bytes = at.checked_add(*len).and_then(|end| buf.get(*at..end));
        assert_eq!((packet.bytes(), header.bytes()), (bytes, bytes));
        let Some(bytes) = bytes else {
            let outside = NotRead::OutsideOfTheBuffer;
            assert_eq!(
                (packet.packet(), header.header()),
                (Err(outside), Err(outside))
            );
            assert_eq!((packet.is_rtcp(), header.is_rtcp()), (false, false));
            assert_eq!((header.payload(), header.unpadded_payload()), (None, None));
            continue;
        };
        assert_eq!(
            (packet.is_rtcp(), header.is_rtcp()),
            (is_rtcp(bytes), is_rtcp(bytes))
        );
        assert_eq!(
            packet.packet(),
            Packet::parse(bytes).map_err(NotRead::NotAPacket)
        );
        let alone = Header::parse(bytes, map).map_err(|it| match it {
            NotAHeader::NotAPacket(cause) => NotRead::NotAPacket(cause),
            _ => NotRead::UnknownForm,
        });
        assert_eq!(header.header(), alone);
        let payload = alone.ok().map(|it| &bytes[it.header_len()..]);
        assert_eq!(header.payload(), payload);
        let packet = packet.packet().ok();
        let unpadded = packet.filter(|_| alone.is_ok());
        let unpadded = unpadded.and_then(|it| it.unpadded_payload());
        assert_eq!(header.unpadded_payload(), unpadded);
    }
}

#[test]
fn each_is_as_alone() {
    let other_version = [&[0x71], &SAMPLE[1..]].concat();
    let (buf, places) = joined(&[
        &SAMPLE,
        &[],
        &SAMPLE[..11],
        &LEVEL,
        &other_version,
        &SAMPLE[..15],
        &SAMPLE[..19],
        &CAMERA,
        &SAMPLE[..27],
        &PLAIN,
        &REPORT[..8],
        &REPORT,
        &SAMPLE[..29],
    ]);
    let mut slots: Vec<_> = places
        .iter()
        .map(|it| HeaderSlot::new(it.0, it.1))
        .collect();
    let found = parse_headers(&buf, &MAP, &mut slots).map(|it| it.header().err());
    let none = |cause| Some(NotRead::NotAPacket(cause));
    let wanted = [
        None,
        none(NotAPacket::CutFixedPart),
        none(NotAPacket::CutFixedPart),
        None,
        none(NotAPacket::OtherVersion),
        none(NotAPacket::CutSources),
        none(NotAPacket::CutBlockHeader),
        Some(NotRead::UnknownForm),
        none(NotAPacket::CutBlock),
        None,
        none(NotAPacket::CutFixedPart),
        None,
        None,
    ];
    assert_eq!(found.collect::<Vec<_>>(), wanted);
    are_as_alone(&buf, &places, &MAP);
    are_as_alone(&buf, &places, &Map::new());
}

#[test]
fn values_are_those_worked_out_by_hand() {
    let (buf, places) = joined(&[&SAMPLE, &LEVEL, &CAMERA]);
    let mut slots: Vec<_> = places
        .iter()
        .map(|it| HeaderSlot::new(it.0, it.1))
        .collect();
    let headers: Vec<_> = parse_headers(&buf, &MAP, &mut slots).collect();
    let [first, second] = [0, 1].map(|at| headers[at].header().unwrap());
    assert_eq!(
        (first.ssrc, first.sequence_number, first.timestamp),
        (3, 1, 2)
    );
    assert_eq!(
        (first.csrcs(), first.header_len(), first.payload_type),
        (&[9][..], 28, 33)
    );
    // 0xAA is 42 below, with voice
    assert_eq!(
        (first.values.audio_level, first.values.voice_activity),
        (Some(-42), Some(true))
    );
    assert_eq!(first.values.transport_number, Some(0xBBCC));
    assert_eq!(first.values.rid.as_deref(), Some("xy"));
    assert_eq!(headers[0].payload(), Some(&[0x77, 0, 2][..]));
    assert_eq!(headers[0].unpadded_payload(), Some(&[0x77][..]));
    assert_eq!(headers[1].unpadded_payload(), Some(&b"hi"[..]));
    // of the second a level of 0 is there, and nothing of the first
    let mut wanted = Values::default();
    (wanted.audio_level, wanted.voice_activity) = (Some(0), Some(false));
    assert_eq!((second.values, second.csrcs()), (wanted, &[][..]));
    assert_eq!((second.ssrc, headers[1].payload()), (7, Some(&b"hi"[..])));
    assert_eq!(
        (headers[2].header(), headers[2].payload()),
        (Err(NotRead::UnknownForm), None)
    );
}

#[test]
fn padding_is_no_media() {
    // of one byte, of all three, of one too many, and a last byte of 0, which takes nothing away
    let mut slots = [HeaderSlot::default(); 2];
    for (last, payload) in [(1, Some(2)), (3, Some(0)), (4, None), (0, Some(3))] {
        let padded = [&[0xA0], &PLAIN[1..], &[last]].concat();
        let (buf, places) = joined(&[&padded, &PLAIN]);
        for (slot, (at, len)) in slots.iter_mut().zip(places) {
            slot.set_place(at, len);
        }
        let lens: Vec<_> = parse_headers(&buf, &Map::new(), &mut slots)
            .map(|it| it.unpadded_payload().map(<[u8]>::len))
            .collect();
        assert_eq!(lens, [payload, Some(2)], "{last}");
    }
}

#[test]
fn places_past_the_buffer_are_told_of() {
    let most = usize::MAX;
    let places = [
        (0, 14),
        (0, 15),
        (1, 14),
        (14, 0),
        (14, 1),
        (15, 0),
        (most, 1),
        (most, 2),
        (most, most),
        (1, most),
        (0, most),
        (most - 13, 14),
        (most - 13, 28),
        (1 << 32, 14),
        (0, 14 + (1 << 32)),
        (0, 14),
    ];
    are_as_alone(&PLAIN, &places, &MAP);
    are_as_alone(&[], &places, &MAP);
    are_as_alone(&[], &[(0, 0)], &MAP);
    are_as_alone(at_end(&PLAIN), &places, &MAP);
}

#[test]
fn none_are_none() {
    assert_eq!(parse_packets(&PLAIN, &mut []).count(), 0);
    assert_eq!(parse_headers(&[], &MAP, &mut []).len(), 0);
    receive_many(&mut [], &mut []);
    receive_many(&mut [Receiver::default()], &mut []);
}

#[test]
fn datagrams_may_overlap() {
    let places: Vec<_> = (27..=31).map(|len| (0, len)).collect();
    are_as_alone(&SAMPLE, &places, &MAP);
    let mut slots: Vec<_> = places
        .iter()
        .map(|it| PacketSlot::new(it.0, it.1))
        .collect();
    let lens: Vec<_> = parse_packets(&SAMPLE, &mut slots)
        .map(|it| it.packet().ok().map(|it| it.payload().len()))
        .collect();
    assert_eq!(lens, [None, Some(0), Some(1), Some(2), Some(3)]);
}

#[test]
fn slots_are_used_again() {
    let datagrams: [&[u8]; 5] = [&SAMPLE, &LEVEL, &PLAIN, &CAMERA, &SAMPLE[..27]];
    let (buf, places) = joined(&datagrams);
    let mut packets = [PacketSlot::default(); 8];
    let mut headers = [HeaderSlot::default(); 8];
    for order in [
        &[0, 1, 2, 3, 4][..],
        &[2, 0],
        &[4, 3, 2],
        &[1],
        &[],
        &[3, 4, 0, 1, 2, 0, 1, 4],
    ] {
        for ((packet, header), at) in packets.iter_mut().zip(&mut headers).zip(order) {
            packet.set_place(places[*at].0, places[*at].1);
            header.set_place(places[*at].0, places[*at].1);
        }
        let packets = parse_packets(&buf, &mut packets[..order.len()]);
        let headers = parse_headers(&buf, &MAP, &mut headers[..order.len()]);
        assert_eq!((packets.len(), headers.len()), (order.len(), order.len()));
        for ((packet, header), at) in packets.zip(headers).zip(order) {
            assert_eq!(packet.bytes(), Some(datagrams[*at]));
            assert_eq!(packet.packet().ok(), Packet::parse(datagrams[*at]).ok());
            assert_eq!(
                header.header().ok(),
                Header::parse(datagrams[*at], &MAP).ok()
            );
        }
    }
}

#[test]
fn what_is_lent_lives_as_long_as_the_buffer() {
    let (buf, places) = joined(&[&SAMPLE, &PLAIN]);
    let packets: Vec<Packet<'_>> = {
        let mut slots: Vec<_> = places
            .iter()
            .map(|it| PacketSlot::new(it.0, it.1))
            .collect();
        parse_packets(&buf, &mut slots)
            .filter_map(|it| it.packet().ok())
            .collect()
    };
    assert_eq!(packets[0].element(3), Some(&b"xy"[..]));
    assert_eq!(packets[0].unpadded_payload(), Some(&[0x77][..]));
    assert_eq!(packets[1].payload(), b"yo");
}

#[test]
fn datagrams_are_gone_through_as_a_list() {
    fn is_a_list<T: Clone + ExactSizeIterator + DoubleEndedIterator + FusedIterator>(_: &T) {}
    let mut slots = [
        PacketSlot::new(0, 14),
        PacketSlot::new(0, 12),
        PacketSlot::new(0, 11),
    ];
    let mut datagrams = parse_packets(&PLAIN, &mut slots);
    is_a_list(&datagrams);
    let again = datagrams.clone();
    let lens = |it: Option<rtp_wire::Datagram<'_, '_, PacketSlot>>| {
        it.and_then(|it| it.bytes()).map(<[u8]>::len)
    };
    assert_eq!(
        (lens(datagrams.next_back()), datagrams.len()),
        (Some(11), 2)
    );
    assert_eq!(
        (lens(datagrams.next()), lens(datagrams.next())),
        (Some(14), Some(12))
    );
    assert!(datagrams.next().is_none() && datagrams.next_back().is_none());
    assert_eq!((again.len(), again.rev().count()), (3, 3));
}

#[test]
fn each_receiver_judges_its_own() {
    let mut receivers = [
        Receiver::default(),
        Receiver::starting_at(1).unwrap(),
        Receiver::default(),
    ];
    let rows = [
        (0, 65_535, Ok(65_535)),
        (1, 65_535, Ok(131_071)),
        (3, 7, Err(NotTaken::NoReceiver)),
        (0, 0, Ok(65_536)),
        (0, 0, Err(NotTaken::Refused)),
        (1, 65_534, Ok(131_070)),
        (usize::MAX, 7, Err(NotTaken::NoReceiver)),
        (2, 0, Ok(0)),
        (2, 0, Err(NotTaken::Refused)),
        (0, 200, Ok(65_736)),
        (0, 72, Err(NotTaken::Refused)), // 128 below
        (0, 73, Ok(65_609)),
    ];
    let mut alone = receivers;
    let mut arrivals = rows.map(|(index, low, _)| ArrivalSlot::new(index, low));
    assert_eq!(arrivals[0].number(), Err(NotTaken::NoReceiver)); // not yet
    receive_many(&mut receivers, &mut arrivals);
    for (arrival, (index, low, wanted)) in arrivals.iter().zip(rows) {
        assert_eq!(arrival.number(), wanted);
        if let Some(it) = alone.get_mut(index) {
            assert_eq!(it.receive(low), wanted.ok());
        }
    }
    assert_eq!(receivers, alone);
    // once more: all were taken, or are too old
    receive_many(&mut receivers, &mut arrivals);
    assert!(arrivals.iter().all(|it| it.number().is_err()));
    receive_many(&mut [], &mut arrivals);
    let numbers = arrivals.map(|it| it.number());
    assert_eq!(numbers, [Err(NotTaken::NoReceiver); 12]);
}

#[test]
fn random_places_and_bytes() {
    let (source, _) = joined(&[&SAMPLE, &LEVEL, &CAMERA, &PLAIN, &REPORT]);
    let mut state = 1_u32;
    let mut random = |below: usize| {
        state = state.wrapping_mul(1_664_525).wrapping_add(1_013_904_223);
        (state >> 8) as usize % below
    };
    for _ in 0..1000 {
        let mut buf = source.clone();
        for _ in 0..random(8) {
            let at = random(buf.len());
            buf[at] = random(256) as u8;
        }
        let places: Vec<_> = (0..16)
            .map(|_| (random(buf.len() + 2), random(buf.len() + 2)))
            .collect();
        are_as_alone(&buf, &places, &MAP);
    }
}

#[test]
fn errors_are_told() {
    let cut = NotRead::NotAPacket(NotAPacket::CutBlock);
    assert_eq!(cut.to_string(), "no RTP packet");
    assert_eq!(
        cut.source().map(ToString::to_string).as_deref(),
        Some("the extension block is cut short")
    );
    assert_eq!(
        NotRead::UnknownForm.to_string(),
        "a header extension of an unknown form"
    );
    assert_eq!(
        NotRead::OutsideOfTheBuffer.to_string(),
        "the datagram doesn't lie within the buffer"
    );
    assert!(
        NotRead::UnknownForm.source().is_none() && NotRead::OutsideOfTheBuffer.source().is_none()
    );
    assert_eq!(
        NotTaken::Refused.to_string(),
        "a replay, or too old to tell"
    );
    assert_eq!(NotTaken::NoReceiver.to_string(), "no such receiver");
    let mut slots = [PacketSlot::new(0, 14)];
    let told = format!("{:?}", parse_packets(&PLAIN, &mut slots).next());
    assert!(
        told.starts_with("Some(Datagram { slot: PacketSlot { at: 0, len: 14"),
        "{told}"
    );
}
