//! The types of the crate. Expected values are worked out by hand from RFC 3550, 5.1 and RFC 8285.

use rtp_wire::{
    compact, extend_u16, from_retransmission, is_rtcp, put_element, to_retransmission,
    BadRolloverCount, Element, Fields, Form, Kind, Map, NewIds, NotAPacket, NotChanged, NotPut,
    NotRetransmitted, NotWritten, Packet, PacketMut, Receiver, Values,
};

/// V=2, P, X, CC=2; M, PT=33; 47,000; 10,000; 44; the sources 1 and 2; a block of two words with the
/// elements 1 (AA), 2 (BB CC) and 1 (DD); a payload of 3 bytes and 2 of padding.
const SAMPLE: [u8; 37] = [
    0xB2, 0xA1, 0xB7, 0x98, 0x00, 0x00, 0x27, 0x10, 0x00, 0x00, 0x00, 0x2C, 0x00, 0x00, 0x00, 0x01,
    0x00, 0x00, 0x00, 0x02, 0xBE, 0xDE, 0x00, 0x02, 0x10, 0xAA, 0x21, 0xBB, 0xCC, 0x10, 0xDD, 0x00,
    0x01, 0x02, 0x03, 0x00, 0x02,
];

/// V=2, X; PT=0; 5; 6; 7; a block of one word in the two-byte form, with the element 200 of no bytes.
const TWO_BYTE: [u8; 20] = [
    0x90, 0x00, 0x00, 0x05, 0x00, 0x00, 0x00, 0x06, 0x00, 0x00, 0x00, 0x07, 0x10, 0x00, 0x00, 0x01,
    0x00, 200, 0x00, 0x00,
];

fn crosses_threads<T: Send + Sync + 'static>(_: &T) {}

#[test]
fn types_cross_threads() {
    static mut DATAGRAM: [u8; 12] = [0x80; 12];
    crosses_threads(&Packet::parse(&SAMPLE).unwrap());
    crosses_threads(&Receiver::default());
    crosses_threads(&NotAPacket::CutBlock);
    crosses_threads(&Map::new());
    crosses_threads(&Values::default());
    // SAFETY: no other reference to it is made.
    #[allow(static_mut_refs)]
    crosses_threads(&PacketMut::parse(unsafe { &mut DATAGRAM }).unwrap());
}

#[test]
fn a_packet_is_read() {
    let packet = Packet::parse(&SAMPLE).unwrap();
    assert!(packet.marker());
    assert_eq!(packet.payload_type(), 33);
    assert_eq!(packet.sequence_number(), 47_000);
    assert_eq!(packet.timestamp(), 10_000);
    assert_eq!(packet.ssrc(), 44);
    assert_eq!(packet.csrcs().len(), 2);
    assert_eq!(packet.csrcs().collect::<Vec<_>>(), [1, 2]);
    assert_eq!(packet.header_len(), 32);
    assert!(packet.has_padding());
    assert_eq!(packet.payload(), [1, 2, 3, 0, 2]);
    assert_eq!(packet.unpadded_payload(), Some(&[1, 2, 3][..]));
    assert_eq!(packet.form(), Some(Form::OneByte));
    assert_eq!(packet.block(), Some((Form::OneByte, &SAMPLE[24..32])));
    assert_eq!(packet.datagram(), SAMPLE);
}

#[test]
fn padding_may_be_too_long() {
    let mut bytes = SAMPLE;
    bytes[36] = 6;
    assert_eq!(Packet::parse(&bytes).unwrap().unpadded_payload(), None);
}

#[test]
fn elements_are_found() {
    let packet = Packet::parse(&SAMPLE).unwrap();
    let elements: Vec<_> = packet
        .elements()
        .map(|Element { id, data }| (id, data))
        .collect();
    assert_eq!(
        elements,
        [(1, &[0xAA][..]), (2, &[0xBB, 0xCC]), (1, &[0xDD])]
    );
    assert_eq!(packet.element(1), Some(&[0xDD][..])); // the last one
    assert_eq!(packet.element(3), None);

    let packet = Packet::parse(&TWO_BYTE).unwrap();
    assert_eq!(packet.form(), Some(Form::TwoByte));
    assert_eq!(packet.element(200), Some(&[][..]));

    let plain = Packet::parse(&[0x80; 12]).unwrap();
    assert_eq!(plain.block(), None);
    assert_eq!(plain.elements().next(), None);
    assert_eq!(plain.element(1), None);
}

#[test]
fn other_bytes_are_refused() {
    let cases = [
        (
            &SAMPLE[..0],
            NotAPacket::CutFixedPart,
            "fewer than twelve bytes",
        ),
        (
            &SAMPLE[..19],
            NotAPacket::CutSources,
            "the CSRC list is cut short",
        ),
        (
            &SAMPLE[..23],
            NotAPacket::CutBlockHeader,
            "the header of the extension block is cut short",
        ),
        (
            &SAMPLE[..31],
            NotAPacket::CutBlock,
            "the extension block is cut short",
        ),
        (
            &[0x40; 12],
            NotAPacket::OtherVersion,
            "another version than 2",
        ),
        (
            &[0x90; 16], // a block of another form, and of 0x9090 words
            NotAPacket::CutBlock,
            "the extension block is cut short",
        ),
    ];
    for (bytes, cause, text) in cases {
        assert_eq!(Packet::parse(bytes), Err(cause));
        assert_eq!(PacketMut::parse(&mut bytes.to_vec()).unwrap_err(), cause);
        assert_eq!(cause.to_string(), text);
    }
}

#[test]
fn several_fields_are_set() {
    let mut bytes = SAMPLE;
    let mut packet = PacketMut::parse(&mut bytes).unwrap();
    assert_eq!(packet.set_fields(&Fields::default()), Ok(()));
    assert_eq!(
        packet.set_fields(&Fields {
            payload_type: Some(8),
            sequence_number: Some(0x1234),
            ..Fields::default()
        }),
        Ok(())
    );
    // M stays.
    assert_eq!(packet.into_datagram()[..4], [0xB2, 0x88, 0x12, 0x34]);
    assert_eq!(bytes[4..], SAMPLE[4..]);
    let mut packet = PacketMut::parse(&mut bytes).unwrap();
    let all = Fields {
        marker: Some(false),
        payload_type: Some(127),
        sequence_number: Some(0xFFFF),
        timestamp: Some(0x5678_9ABC),
        ssrc: Some(0),
    };
    assert_eq!(packet.set_fields(&all), Ok(()));
    assert_eq!(
        packet.set_fields(&Fields {
            payload_type: Some(128),
            ssrc: Some(1),
            ..Fields::default()
        }),
        Err(NotChanged::BadPayloadType)
    );
    assert_eq!(
        packet.into_datagram()[..12],
        [0xB2, 0x7F, 0xFF, 0xFF, 0x56, 0x78, 0x9A, 0xBC, 0, 0, 0, 0]
    );
    assert_eq!(bytes[12..], SAMPLE[12..]);
}

#[test]
fn a_packet_is_changed() {
    let mut bytes = SAMPLE;
    let mut packet = PacketMut::parse(&mut bytes).unwrap();
    packet.set_marker(false);
    assert_eq!(packet.set_payload_type(96), Ok(()));
    assert_eq!(
        packet.set_payload_type(128),
        Err(NotChanged::BadPayloadType)
    );
    packet.set_sequence_number(0x1234);
    packet.set_timestamp(0x5678_9ABC);
    packet.set_ssrc(0xDEF0_1234);
    assert_eq!(packet.set_csrc(1, 0xA1B2_C3D4), Ok(()));
    assert_eq!(packet.set_csrc(2, 5), Err(NotChanged::NoSource));
    assert_eq!(
        packet.as_packet().csrcs().collect::<Vec<_>>(),
        [1, 0xA1B2_C3D4]
    );
    assert_eq!(packet.set_csrc(1, 2), Ok(()));
    assert_eq!(packet.set_element(1, &[0xEE]), Ok(()));
    assert_eq!(
        packet.set_element(1, &[0xEE, 0xFF]),
        Err(NotChanged::NoElement)
    );
    assert!(packet.remove_element(2));
    assert!(!packet.remove_element(2));
    assert_eq!(packet.as_packet().element(1), Some(&[0xEE][..]));
    assert_eq!(
        packet.into_datagram()[..32],
        [
            0xB2, 0x60, 0x12, 0x34, 0x56, 0x78, 0x9A, 0xBC, 0xDE, 0xF0, 0x12, 0x34, 0x00, 0x00,
            0x00, 0x01, 0x00, 0x00, 0x00, 0x02, 0xBE, 0xDE, 0x00, 0x02, 0x10, 0xAA, 0x00, 0x00,
            0x00, 0x10, 0xEE, 0x00,
        ]
    );
    assert_eq!(bytes[32..], SAMPLE[32..]);
}

#[test]
fn a_receiver_judges() {
    let mut receiver = Receiver::default();
    assert_eq!(receiver.highest(), None);
    assert_eq!(receiver.receive(65_500), Some(65_500));
    assert_eq!(receiver.number_of(10), 65_546);
    assert!(receiver.accepts(65_546));
    receiver.record(65_546);
    assert!(!receiver.accepts(65_546));
    assert_eq!(receiver.highest(), Some(65_546));
    assert_eq!(receiver.receive(65_500), None); // taken
    assert_eq!(receiver.receive(65_419), Some(65_419)); // 127 below the highest
    assert_eq!(receiver.receive(65_418), None); // 128 below it

    let mut receiver = Receiver::starting_at(3).unwrap();
    assert_eq!(receiver.receive(9), Some(3 * 65_536 + 9));
    assert_eq!(Receiver::starting_at(1 << 48), Err(BadRolloverCount));
    assert_eq!(extend_u16(70_000, 0), 65_536);
}

#[test]
fn values_are_read() {
    const MAP: Map = Map::new()
        .with(0, Kind::Mid)
        .with(1, Kind::VideoOrientation)
        .with(2, Kind::TransportNumber);
    assert_eq!(MAP.get(0), None);
    assert_eq!(MAP.get(1), Some(Kind::VideoOrientation));
    assert_eq!(MAP.get(3), None);
    assert_eq!(
        format!("{MAP:?}"),
        "{1: VideoOrientation, 2: TransportNumber}"
    );
    let values = Packet::parse(&SAMPLE).unwrap().values(&MAP);
    assert_eq!(values.video_orientation, Some(270)); // DD ends in 01
    assert_eq!(values.transport_number, Some(0xBBCC));
    assert_eq!(values.audio_level, None);
    assert_eq!(
        Packet::parse(&[0x80; 12]).unwrap().values(&MAP),
        Values::default()
    );
}

#[test]
fn elements_are_put() {
    let mut bytes = [0; 64];
    bytes[..37].copy_from_slice(&SAMPLE);
    // In place; longer by a word; in the two-byte form; and with too little room.
    assert_eq!(put_element(&mut bytes, 37, 2, &[1, 2], None), Ok(37));
    assert_eq!(bytes[24..32], [0x10, 0xAA, 0x21, 1, 2, 0x10, 0xDD, 0]);
    assert_eq!(put_element(&mut bytes, 37, 2, &[3; 5], None), Ok(41));
    assert_eq!(
        bytes[22..36],
        [0, 3, 0x10, 0xAA, 0x24, 3, 3, 3, 3, 3, 0x10, 0xDD, 0, 0]
    );
    assert_eq!(bytes[36..41], SAMPLE[32..]);
    let one = Some(Form::OneByte);
    let put = put_element(&mut bytes, 41, 15, &[4], one);
    assert_eq!(put, Err(NotPut::LongId));
    let put = put_element(&mut bytes, 41, 14, &[], one);
    assert_eq!(put, Err(NotPut::FormNotAllowed));
    let put = put_element(&mut bytes[..44], 41, 15, &[4], None);
    assert_eq!(put, Err(NotPut::ShortBuffer));
    assert_eq!(put_element(&mut bytes, 41, 15, &[4], None), Ok(45));
    let packet = Packet::parse(&bytes[..45]).unwrap();
    assert_eq!(packet.form(), Some(Form::TwoByte));
    assert_eq!(packet.element(15), Some(&[4][..]));
    assert_eq!(packet.element(2), Some(&[3; 5][..]));
    let put = put_element(&mut bytes, 11, 1, &[], None);
    assert_eq!(put, Err(NotPut::NotAPacket(NotAPacket::CutFixedPart)));
    assert!(PacketMut::parse(&mut bytes[..45])
        .unwrap()
        .remove_element(2));
    assert_eq!(compact(&mut bytes[..45]), Ok(41));
    assert_eq!(bytes[36..41], SAMPLE[32..]);
    assert_eq!(compact(&mut bytes[..11]), Err(NotAPacket::CutFixedPart));
    assert_eq!(NotPut::ShortBuffer.to_string(), "a buffer is too short");
}

/// What is put, with which form, and the block and the payload that are then there.
type Put<'a> = (u8, &'a [u8], Option<Form>, &'a [u8]);

#[test]
fn a_block_has_the_form_that_alone_is_allowed() {
    // V=2, X; a block of one word: 1 (AA); the payload 1
    let packet = *b"\x90\x60\0\x05\0\0\0\x64\0\0\0\x2C\xBE\xDE\0\x01\x10\xAA\0\0\x01";
    let rows: [Put; 6] = [
        (2, &[7], None, b"\xBE\xDE\0\x01\x10\xAA\x20\x07\x01"),
        (
            2,
            &[7],
            Some(Form::OneByte),
            b"\xBE\xDE\0\x01\x10\xAA\x20\x07\x01",
        ),
        (
            2,
            &[7],
            Some(Form::TwoByte),
            b"\x10\0\0\x02\x01\x01\xAA\x02\x01\x07\0\0\x01",
        ),
        (
            1,
            &[7],
            Some(Form::TwoByte),
            b"\x10\0\0\x01\x01\x01\x07\0\x01",
        ),
        (
            1,
            &[7, 8],
            Some(Form::TwoByte),
            b"\x10\0\0\x01\x01\x02\x07\x08\x01",
        ),
        (
            15,
            &[],
            Some(Form::TwoByte),
            b"\x10\0\0\x02\x01\x01\xAA\x0F\0\0\0\0\x01",
        ),
    ];
    for (id, data, allowed, due) in rows {
        let mut buf = [0xEE; 40];
        buf[..21].copy_from_slice(&packet);
        let len = 12 + due.len();
        assert_eq!(put_element(&mut buf, 21, id, data, allowed), Ok(len));
        assert_eq!(
            (&buf[..12], &buf[12..len]),
            (&packet[..12], due),
            "{id} {allowed:?}"
        );
    }
    // a packet without a block gets one
    for (allowed, due) in [
        (None, b"\xBE\xDE\0\x01\x10\x07\0\0"),
        (Some(Form::OneByte), b"\xBE\xDE\0\x01\x10\x07\0\0"),
        (Some(Form::TwoByte), b"\x10\0\0\x01\x01\x01\x07\0"),
    ] {
        let mut buf = [0x80; 20];
        assert_eq!(put_element(&mut buf, 12, 1, &[7], allowed), Ok(20));
        assert_eq!((buf[0], &buf[12..]), (0x90, &due[..]), "{allowed:?}");
    }
}

#[test]
fn padding_is_taken_off() {
    let mut bytes = SAMPLE;
    let mut packet = PacketMut::parse(&mut bytes).unwrap();
    assert_eq!(packet.remove_padding(), Ok(35));
    assert!(!packet.as_packet().has_padding());
    assert_eq!(packet.remove_padding(), Ok(37));
    packet.set_padding(true);
    packet.set_padding(true);
    assert_eq!(packet.into_datagram(), SAMPLE);
    bytes[36] = 6;
    let mut packet = PacketMut::parse(&mut bytes).unwrap();
    assert_eq!(packet.remove_padding(), Err(NotChanged::BadPadding));
    assert!(packet.as_packet().has_padding());
    packet.set_padding(false);
    assert_eq!(packet.into_datagram()[0], 0x92);
    bytes = SAMPLE;
    let len = PacketMut::parse(&mut bytes)
        .unwrap()
        .remove_padding()
        .unwrap();
    let packet = Packet::parse(&bytes[..len]).unwrap();
    assert_eq!(packet.payload(), [1, 2, 3]);
    assert_eq!(packet.unpadded_payload(), Some(&[1, 2, 3][..]));
}

#[test]
fn rtcp_is_told_apart() {
    // RFC 5761, 4: packet types 192 to 223; as RTP they have M and a payload type of 64 to 95
    for second in 0..=255 {
        let expected = (192..=223).contains(&second);
        assert_eq!(is_rtcp(&[0x80, second]), expected, "{second}");
        assert_eq!(is_rtcp(&[0xBF, second, 0, 1]), expected, "{second}");
        for first in [0, 0x16, 0x40, 0x7F, 0xC0, 0xFF] {
            assert!(!is_rtcp(&[first, second, 0, 1]));
        }
    }
    assert!(!is_rtcp(&[]) && !is_rtcp(&[0x80]));
    let mut report = [0; 28];
    report[..2].copy_from_slice(&[0x80, 200]);
    assert!(is_rtcp(&report));
    let packet = Packet::parse(&report).unwrap();
    assert_eq!((packet.marker(), packet.payload_type()), (true, 72));
}

#[test]
fn padding_and_originals_have_limits() {
    let mut buf = [0x80; 251];
    assert_eq!(
        rtp_wire::pad(&mut buf, 12, 255, 16),
        Err(NotWritten::ShortBuffer)
    );
    assert_eq!(
        rtp_wire::pad(&mut buf[..15], 12, 3, 4),
        Err(NotWritten::ShortBuffer)
    );
    assert_eq!(rtp_wire::pad(&mut buf, 11, 3, 0), Err(NotWritten::BadField));
    assert_eq!(buf, [0x80; 251]);
    assert_eq!(rtp_wire::pad(&mut buf[..16], 12, 3, 4), Ok(4));
    assert_eq!(buf[12..17], [0, 0, 0, 4, 0x80]);
    assert_eq!(rtp_wire::pad(&mut buf, 11, 255, 16), Ok(240));
    assert_eq!(rtp_wire::read_original(&[1]), None);
    assert_eq!(rtp_wire::read_original(&[0, 0]), Some((0, &[][..])));
    assert_eq!(
        rtp_wire::read_original(&[0xFF, 0, 9, 8]),
        Some((0xFF00, &[9, 8][..]))
    );
    assert_eq!(
        rtp_wire::write_original(&mut [1], 2),
        Err(NotWritten::ShortBuffer)
    );
    assert_eq!(rtp_wire::version(), 65_792); // 1.1.0
}

/// The stream id 10 becomes the repaired one, 11; one that was there goes. The padding is room enough.
#[test]
fn retransmissions_are_made_and_come_back() {
    const PACKET: [u8; 31] = [
        0xB0, 0xE0, 0xFF, 0xFE, 1, 2, 3, 4, 5, 6, 7, 8, 0xBE, 0xDE, 0, 2, 0x40, 0x61, 0xA1, 0x68,
        0x69, 0xB0, 0x78, 0, 0xCC, 0xDD, 0xEE, 0, 2, 0x77, 0x77,
    ];
    const SENT: [u8; 31] = [
        0x90, 0xE3, 0, 1, 1, 2, 3, 4, 9, 10, 11, 12, 0xBE, 0xDE, 0, 2, 0x40, 0x61, 0xB1, 0x68,
        0x69, 0, 0, 0, 0xFF, 0xFE, 0xCC, 0xDD, 0xEE, 0x77, 0x77,
    ];
    const BACK: [u8; 27] = [
        0x90, 0xE0, 0xFF, 0xFE, 1, 2, 3, 4, 5, 6, 7, 8, 0xBE, 0xDE, 0, 2, 0x40, 0x61, 0xA1, 0x68,
        0x69, 0, 0, 0, 0xCC, 0xDD, 0xEE,
    ];
    let there = NewIds::to_retransmission(&Map::standard());
    let back = NewIds::from_retransmission(&Map::standard());
    assert_eq!(
        (there.get(10), there.get(11), there.get(4)),
        (Some(11), None, Some(4))
    );
    assert_eq!(
        (back.get(10), back.get(11), back.get(4)),
        (None, Some(10), Some(4))
    );
    let mut buf = PACKET;
    let too_high = there.with(4, 15);
    for (len, payload_type, ids, cause) in [
        (32, 99, &there, NotRetransmitted::BadLength),
        (32, 128, &there, NotRetransmitted::BadPayloadType),
        (
            11,
            99,
            &there,
            NotRetransmitted::NotAPacket(NotAPacket::CutFixedPart),
        ),
        (27, 99, &there, NotRetransmitted::BadPadding),
        (29, 99, &too_high, NotRetransmitted::BadNewId),
    ] {
        assert_eq!(
            to_retransmission(&mut buf, len, 7, payload_type, 1, ids),
            Err(cause)
        );
        assert_eq!(
            from_retransmission(&mut buf, len, 7, payload_type, ids),
            Err(cause)
        );
        assert_eq!(buf, PACKET);
    }
    assert_eq!(
        to_retransmission(&mut buf, 29, 0x090A_0B0C, 99, 1, &there),
        Ok(29)
    );
    assert_eq!(buf, SENT);
    assert_eq!(
        to_retransmission(&mut buf[..30], 29, 7, 98, 2, &there),
        Err(NotRetransmitted::ShortBuffer)
    );
    assert_eq!(buf, SENT);
    assert_eq!(
        from_retransmission(&mut buf, 29, 0x0506_0708, 96, &back),
        Ok(27)
    );
    assert_eq!(buf[..27], BACK);
    assert_eq!(
        from_retransmission(&mut buf, 25, 1, 2, &back),
        Err(NotRetransmitted::NoNumber)
    );
    // the greatest payload type, both ways
    let mut buf = PACKET;
    assert_eq!(to_retransmission(&mut buf, 29, 7, 127, 1, &there), Ok(29));
    assert_eq!(buf[1], 0xFF);
    assert_eq!(from_retransmission(&mut buf, 29, 7, 127, &back), Ok(27));
    assert_eq!(buf[1], 0xFF);
}

#[test]
fn padding_is_in_whole_blocks() {
    // the length that is wanted, the size of a block, and how many bytes are written
    let rows = [
        (1, 1, 1),
        (3, 4, 4),
        (4, 4, 4),
        (1, 16, 16),
        (17, 16, 32),
        (239, 1, 239),
        (240, 16, 240),
        (255, 1, 240),
        (7, 239, 239),
        (7, 300, 240),
        (1, 1 << 32, 240),
        (1, usize::MAX, 240),
    ];
    for (pad_len, block_size, count) in rows {
        let mut buf = [0x95; 20 + 240];
        let written = rtp_wire::pad(&mut buf, 20, pad_len, block_size);
        assert_eq!(written, Ok(usize::from(count)), "{pad_len} {block_size}");
        let end = 20 + usize::from(count);
        assert_eq!((buf[0], &buf[1..20]), (0xB5, &[0x95; 19][..]));
        assert!(buf[20..end - 1].iter().all(|byte| *byte == 0));
        assert_eq!(buf[end - 1], count);
        assert!(buf[end..].iter().all(|byte| *byte == 0x95));
    }
    let mut buf = [0x95; 20 + 240];
    assert_eq!(rtp_wire::pad(&mut buf, 20, 0, 4), Ok(0));
    assert_eq!(rtp_wire::pad(&mut buf, 261, 0, 4), Ok(0));
    for (header_len, pad_len, block_size, cause) in [
        (20, 0, 0, NotWritten::BadField),
        (20, 1, 0, NotWritten::BadField),
        (usize::MAX, 1, 0, NotWritten::BadField),
        (257, 1, 4, NotWritten::ShortBuffer),
        (1 << 32, 1, 4, NotWritten::ShortBuffer),
        (usize::MAX, 1, 4, NotWritten::ShortBuffer),
        (usize::MAX - 3, 1, 4, NotWritten::ShortBuffer),
    ] {
        assert_eq!(
            rtp_wire::pad(&mut buf, header_len, pad_len, block_size),
            Err(cause)
        );
    }
    assert_eq!(buf, [0x95; 20 + 240]);
}

#[test]
fn in_the_one_byte_form_an_id_may_be_0() {
    // 0 of three bytes, which isn't padding, and 1
    let datagram = [
        0x90, 0, 0, 1, 0, 0, 0, 2, 0, 0, 0, 3, 0xBE, 0xDE, 0, 2, 2, 7, 8, 9, 0x10, 0xAA, 0, 0,
    ];
    let packet = Packet::parse(&datagram).unwrap();
    let found: Vec<_> = packet.elements().map(|it| (it.id, it.data)).collect();
    assert_eq!(found, [(0, &[7, 8, 9][..]), (1, &[0xAA])]);
    assert_eq!(packet.element(0), Some(&[7, 8, 9][..]));
}

/// V=2, X; a block of one word: 1 (AA); no payload.
#[test]
fn a_packet_without_a_payload_is_sent_again() {
    let mut buf = [0; 22];
    buf[..20].copy_from_slice(&[
        0x90, 0x60, 0, 5, 0, 0, 0, 1, 0, 0, 0, 2, 0xBE, 0xDE, 0, 1, 0x10, 0xAA, 0, 0,
    ]);
    let before = buf;
    let too_high = NewIds::new().with(1, 15);
    let sent = to_retransmission(&mut buf, 20, 7, 99, 9, &too_high);
    assert_eq!(sent, Err(NotRetransmitted::BadNewId));
    assert_eq!(buf, before);
    let ids = NewIds::new().with(1, 3);
    let sent = to_retransmission(&mut buf, 20, 7, 99, 9, &ids);
    assert_eq!((sent, &buf[..4]), (Ok(22), &[0x90, 0x63, 0, 9][..]));
    assert_eq!(buf[16..], [0x30, 0xAA, 0, 0, 0, 5]);
    let back = from_retransmission(&mut buf, 22, 2, 96, &NewIds::new().with(3, 1));
    assert_eq!((back, &buf[..20]), (Ok(20), &before[..20]));
}
