//! A header in which every field is there and differs from every other: what is written is read without the
//! library, and read back by each getter. Expected values are worked out by hand from RFC 3550, 5.1, RFC
//! 8285 and the documents of the extensions.

mod by_hand;

use std::time::Duration;

use by_hand::Fields;
use rtp_wire::{Form, Header, Kind, Map, Packet, Values, VideoTiming};

const SOURCES: [u32; 15] = [
    0xC1D1_E1F1,
    0xC2D2_E2F2,
    0xC3D3_E3F3,
    0xC4D4_E4F4,
    0xC5D5_E5F5,
    0xC6D6_E6F6,
    0xC7D7_E7F7,
    0xC8D8_E8F8,
    0xC9D9_E9F9,
    0xCADA_EAFA,
    0xCBDB_EBFB,
    0xCCDC_ECFC,
    0xCDDD_EDFD,
    0xCEDE_EEFE,
    0xCFDF_EFFF,
];

/// For each id the kind, and the data of the element that it gets. A color space is not written.
const ELEMENTS: [(u8, Kind, &[u8]); 14] = [
    (1, Kind::RepairedRid, b"fix_89ab"),
    (
        2,
        Kind::VideoTiming,
        &[
            0x51, 0x52, 0x53, 0x54, 0x55, 0x56, 0x57, 0x58, 0x59, 0, 0, 0, 0,
        ],
    ),
    (3, Kind::AudioLevel, &[0xDD]), // voice, and 93
    (4, Kind::Mid, b"mid_0123456789AB"),
    (5, Kind::TransportNumber, &[0x41, 0x42]),
    (
        6,
        Kind::AbsCaptureTime,
        &[
            0x81, 0x82, 0x83, 0x84, 0x85, 0x86, 0x87, 0x88, 0xFE, 0xFD, 0xFC, 0xFB, 0xFA, 0xF9,
            0xF8, 0xF8,
        ],
    ),
    (7, Kind::ColorSpace, &[]),
    (8, Kind::PlayoutDelay, &[0x07, 0xBC, 0x8A]), // 123 and 3,210
    (9, Kind::FrameMarking, &[0x31, 0x32, 0x33, 0x34]),
    (10, Kind::AbsSendTime, &[0x12, 0x34, 0x56]), // 1,193,046
    (11, Kind::VideoOrientation, &[3]),
    (12, Kind::TransmissionOffset, &[0x21, 0x22, 0x23, 0x24]),
    (13, Kind::Rid, b"rid_4567"),
    (14, Kind::VideoContentType, &[0x61]),
];

/// What is written.
fn given() -> Values {
    let mut values = Values::default();
    // modulo 64 seconds 4,551,110, of which 1,193,046 units of 2^-18 seconds are whole
    values.send_time = Some((64_000_000 << 38) + 4_551_110);
    values.capture_time = Some(0x8182_8384_8586_8788);
    values.capture_offset = Some(-0x0102_0304_0506_0708);
    values.playout_delay_min = Some(Duration::from_nanos(1_239_999_999));
    values.playout_delay_max = Some(Duration::from_micros(32_109_999));
    values.transmission_offset = Some(0x2122_2324);
    values.frame_marking = Some(0x3132_3334);
    values.transport_number = Some(0x4142);
    values.video_orientation = Some(90);
    values.video_timing = Some(VideoTiming {
        flags: 0x51,
        encode_start: 0x5253,
        encode_finish: 0x5455,
        packetize_complete: 0x5657,
        last_left_pacer: 0x5859,
    });
    values.video_content_type = Some(0x61);
    values.audio_level = Some(-93);
    values.voice_activity = Some(true);
    values.mid = Some("mid_0123456789AB".parse().unwrap());
    values.rid = Some("rid_4567".parse().unwrap());
    values.repaired_rid = Some("fix_89ab".parse().unwrap());
    values
}

/// What is read: 1,193,046 units are 4,551,109.3 microseconds, and delays are in whole hundredths.
fn rounded(mut values: Values) -> Values {
    values.send_time = values.send_time.and(Some(4_551_109));
    values.playout_delay_min = values
        .playout_delay_min
        .and(Some(Duration::from_millis(1_230)));
    values.playout_delay_max = values
        .playout_delay_max
        .and(Some(Duration::from_millis(32_100)));
    values
}

fn header() -> Header {
    let mut header = Header::default();
    header.marker = true;
    header.payload_type = 0x63;
    header.sequence_number = 0xABCD;
    header.timestamp = 0x1314_1516;
    header.ssrc = 0x9A9B_9C9D;
    header.has_padding = true;
    header.has_extension = true;
    header.values = given();
    assert_eq!(header.set_csrcs(&SOURCES), Ok(()));
    header
}

/// The map in which the ids of the table are this many times higher.
fn map(times: u8) -> Map {
    ELEMENTS
        .iter()
        .fold(Map::new(), |map, (id, kind, _)| map.with(id * times, *kind))
}

/// The elements of the table whose kind is among these.
fn elements(times: u8, is_there: impl Fn(Kind) -> bool) -> Vec<(u8, Vec<u8>)> {
    let them = ELEMENTS
        .iter()
        .filter(|(_, kind, _)| *kind != Kind::ColorSpace && is_there(*kind));
    them.map(|(id, _, data)| (id * times, data.to_vec()))
        .collect()
}

#[test]
fn every_field_is_written_and_read() {
    // 80 bytes of data and 13 headers take 93 bytes in the one-byte form, and 106 in the two-byte form
    let forms = [
        (Form::OneByte, 0xBEDE, map(1), 1, 12 + 60 + 4 + 96),
        (
            Form::TwoByte,
            0x1000,
            map(17).with(255, Kind::Layers),
            17,
            12 + 60 + 4 + 108,
        ),
    ];
    for (form, number, map, times, len) in forms {
        let mut buf = [0xEE; 202];
        assert_eq!(header().wire_len(&map), Ok(len));
        assert_eq!(header().write_to(&mut buf, &map), Ok(len));
        assert!(buf[len..].iter().all(|byte| *byte == 0xEE));
        let fields = Fields {
            version: 2,
            has_padding: true,
            has_extension: true,
            marker: true,
            payload_type: 0x63,
            sequence_number: 0xABCD,
            timestamp: 0x1314_1516,
            ssrc: 0x9A9B_9C9D,
            sources: SOURCES.to_vec(),
            block: Some((number, elements(times, |_| true))),
            header_len: len,
        };
        assert_eq!(by_hand::read(&buf), fields);

        buf[len + 2..len + 5].copy_from_slice(&[0, 0, 3]); // the padding of a payload of five bytes
        let datagram = &buf[..len + 5];
        is_read_as_header(datagram, &map, len);
        is_read_as_packet(datagram, &map, len, form, times);
    }
}

fn is_read_as_header(datagram: &[u8], map: &Map, len: usize) {
    let read = Header::parse(datagram, map).unwrap();
    assert_eq!(Header::parse_with_layers(datagram, map), Ok((read, None)));
    assert!(read.marker && read.has_padding && read.has_extension);
    assert_eq!(read.payload_type, 0x63);
    assert_eq!(read.sequence_number, 0xABCD);
    assert_eq!(read.timestamp, 0x1314_1516);
    assert_eq!(read.ssrc, 0x9A9B_9C9D);
    assert_eq!(read.csrcs(), SOURCES);
    assert_eq!(read.header_len(), len);
    assert_eq!(read.values, rounded(given()));
}

fn is_read_as_packet(datagram: &[u8], map: &Map, len: usize, form: Form, times: u8) {
    let packet = Packet::parse(datagram).unwrap();
    assert!(packet.marker() && packet.has_padding());
    assert_eq!(packet.payload_type(), 0x63);
    assert_eq!(packet.sequence_number(), 0xABCD);
    assert_eq!(packet.timestamp(), 0x1314_1516);
    assert_eq!(packet.ssrc(), 0x9A9B_9C9D);
    assert_eq!(packet.csrcs().collect::<Vec<_>>(), SOURCES);
    assert_eq!(packet.header_len(), len);
    assert_eq!(packet.datagram(), datagram);
    assert_eq!(packet.payload(), [0xEE, 0xEE, 0, 0, 3]);
    assert_eq!(packet.unpadded_payload(), Some(&[0xEE, 0xEE][..]));
    assert_eq!(packet.form(), Some(form));
    assert_eq!(packet.block(), Some((form, &datagram[76..len])));
    let found: Vec<_> = packet
        .elements()
        .map(|it| (it.id, it.data.to_vec()))
        .collect();
    assert_eq!(found, elements(times, |_| true));
    for (id, data) in found {
        assert_eq!(packet.element(id), Some(&data[..]));
    }
    assert_eq!(packet.values(map), rounded(given()));
}

/// The kind and its values alone: how they are copied.
type Row = (Kind, fn(&mut Values, Values));

const ALONE: [Row; 13] = [
    (Kind::AbsSendTime, |to, from| to.send_time = from.send_time),
    (Kind::AbsCaptureTime, |to, from| {
        (to.capture_time, to.capture_offset) = (from.capture_time, from.capture_offset);
    }),
    (Kind::AudioLevel, |to, from| {
        (to.audio_level, to.voice_activity) = (from.audio_level, from.voice_activity);
    }),
    (Kind::TransmissionOffset, |to, from| {
        to.transmission_offset = from.transmission_offset;
    }),
    (Kind::VideoOrientation, |to, from| {
        to.video_orientation = from.video_orientation;
    }),
    (Kind::TransportNumber, |to, from| {
        to.transport_number = from.transport_number;
    }),
    (Kind::PlayoutDelay, |to, from| {
        (to.playout_delay_min, to.playout_delay_max) =
            (from.playout_delay_min, from.playout_delay_max);
    }),
    (Kind::VideoContentType, |to, from| {
        to.video_content_type = from.video_content_type;
    }),
    (Kind::VideoTiming, |to, from| {
        to.video_timing = from.video_timing;
    }),
    (Kind::Rid, |to, from| to.rid = from.rid),
    (Kind::RepairedRid, |to, from| {
        to.repaired_rid = from.repaired_rid;
    }),
    (Kind::Mid, |to, from| to.mid = from.mid),
    (Kind::FrameMarking, |to, from| {
        to.frame_marking = from.frame_marking;
    }),
];

#[test]
fn each_value_is_there_alone() {
    for (kind, copy) in ALONE {
        let mut header = header();
        header.values = Values::default();
        copy(&mut header.values, given());
        let mut buf = [0; 200];
        let len = header.write_to(&mut buf, &map(1)).unwrap();
        let block = Some((0xBEDE, elements(1, |it| it == kind)));
        assert_eq!(by_hand::read(&buf).block, block, "{kind:?}");
        let read = Header::parse(&buf[..len], &map(1)).unwrap();
        assert_eq!(read.values, rounded(header.values), "{kind:?}");
        assert_eq!(Packet::parse(&buf).unwrap().values(&map(1)), read.values);
    }
}

#[test]
fn half_of_two_values_is_not_written() {
    let halves: [fn(&mut Values, Values); 5] = [
        |to, from| to.audio_level = from.audio_level,
        |to, from| to.voice_activity = from.voice_activity,
        |to, from| to.playout_delay_min = from.playout_delay_min,
        |to, from| to.playout_delay_max = from.playout_delay_max,
        |to, from| to.capture_offset = from.capture_offset,
    ];
    let mut buf = [0; 200];
    for copy in halves {
        let mut header = header();
        header.values = Values::default();
        copy(&mut header.values, given());
        assert_eq!(header.write_to(&mut buf, &map(1)), Ok(76));
        assert_eq!(by_hand::read(&buf).block, Some((0xBEDE, vec![])));
    }
    let mut header = header();
    header.values = Values::default();
    header.values.capture_time = given().capture_time;
    assert_eq!(header.write_to(&mut buf, &map(1)), Ok(76 + 12));
    let data = ELEMENTS[5].2[..8].to_vec();
    assert_eq!(by_hand::read(&buf).block, Some((0xBEDE, vec![(6, data)])));
    assert_eq!(Header::parse(&buf, &map(1)).unwrap().values, header.values);
}
