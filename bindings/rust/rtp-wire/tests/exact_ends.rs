//! Each slice that the library is given ends at a page that may not be touched, and what stands there is
//! such that one byte more, or one less, would be another answer.

mod guarded;

use guarded::at_end;
use rtp_wire::{
    pad, read_original, write_elements, write_original, Form, Header, Kind, Layers, Map, NewIds,
    NotAHeader, NotAPacket, NotChanged, NotWritten, Packet, PacketMut, Place,
};

/// V=2, P, X, CC=1; the source 9; a block of two words: 1 (AA), 2 (BB CC), 3 ("xy"); a payload of 1 byte
/// and 2 of padding.
const SAMPLE: [u8; 31] = [
    0xB1, 33, 0, 1, 0, 0, 0, 2, 0, 0, 0, 3, 0, 0, 0, 9, 0xBE, 0xDE, 0, 2, 0x10, 0xAA, 0x21, 0xBB,
    0xCC, 0x31, b'x', b'y', 0x77, 0, 2,
];

const MAP: Map = Map::new()
    .with(1, Kind::AudioLevel)
    .with(2, Kind::TransportNumber)
    .with(3, Kind::Rid)
    .with(14, Kind::Layers);

/// How many bytes of the sample a packet needs at least: up to the end of its block.
const LEAST: usize = 28;

/// A packet whose last element has one byte more than the block: the payload's first would be it.
fn running_out() -> Vec<u8> {
    let mut bytes = SAMPLE.to_vec();
    bytes[25] = 0x32;
    bytes
}

#[test]
fn a_packet_ends_with_its_datagram() {
    for len in [LEAST, SAMPLE.len()] {
        let packet = Packet::parse(at_end(&SAMPLE[..len])).unwrap();
        assert_eq!(packet.payload().len(), len - LEAST);
        assert_eq!(packet.elements().count(), 3);
        assert_eq!(packet.element(3), Some(&b"xy"[..]));
        assert_eq!(packet.values(&MAP).rid.unwrap(), "xy");
        let header = Header::parse(at_end(&SAMPLE[..len]), &MAP).unwrap();
        assert_eq!(
            Header::parse_with_layers(at_end(&SAMPLE[..len]), &MAP),
            Ok((header, None))
        );
        assert_eq!(header.values.transport_number, Some(0xBBCC));
    }
    assert_eq!(
        Packet::parse(at_end(&SAMPLE)).unwrap().unpadded_payload(),
        Some(&[0x77][..])
    );
}

#[test]
fn a_packet_may_not_be_shorter() {
    let causes = [
        (0, NotAPacket::CutFixedPart),
        (11, NotAPacket::CutFixedPart),
        (12, NotAPacket::CutSources),
        (15, NotAPacket::CutSources),
        (16, NotAPacket::CutBlockHeader),
        (19, NotAPacket::CutBlockHeader),
        (20, NotAPacket::CutBlock),
        (27, NotAPacket::CutBlock),
    ];
    for (len, cause) in causes {
        let datagram = &SAMPLE[..len];
        assert_eq!(Packet::parse(at_end(datagram)), Err(cause));
        assert_eq!(Packet::try_from(&*at_end(datagram)), Err(cause));
        assert_eq!(PacketMut::parse(at_end(datagram)).unwrap_err(), cause);
        let cause = NotAHeader::NotAPacket(cause);
        assert_eq!(Header::parse(at_end(datagram), &MAP), Err(cause));
        assert_eq!(
            Header::parse_with_layers(at_end(datagram), &MAP),
            Err(cause)
        );
    }
}

#[test]
fn an_element_ends_with_its_block() {
    for len in [LEAST, SAMPLE.len()] {
        let bytes = at_end(&running_out()[..len]);
        let packet = Packet::parse(bytes).unwrap();
        assert_eq!(
            packet.elements().map(|it| it.id).collect::<Vec<_>>(),
            [1, 2]
        );
        assert_eq!(packet.element(3), None);
        assert_eq!(packet.values(&MAP).rid, None);
        assert_eq!(Header::parse(bytes, &MAP).unwrap().values.rid, None);
        let mut packet = PacketMut::parse(bytes).unwrap();
        assert_eq!(
            packet.set_element(3, at_end(&[1, 2, 3])),
            Err(NotChanged::NoElement)
        );
        assert!(!packet.remove_element(3));
        assert_eq!(
            packet.renumber(&NewIds::new().with(1, 7).with(2, 8).with(3, 99)),
            Ok(())
        );
        assert_eq!(
            packet.into_datagram()[20..],
            [&[0x70, 0xAA, 0x81], &running_out()[23..len]].concat()
        );
    }
}

#[test]
fn a_packet_is_changed_within_its_datagram() {
    for len in [LEAST, SAMPLE.len()] {
        let mut packet = PacketMut::parse(at_end(&SAMPLE[..len])).unwrap();
        packet.set_marker(true);
        assert_eq!(packet.set_payload_type(0x62), Ok(()));
        packet.set_sequence_number(0x0304);
        packet.set_timestamp(0x0506_0708);
        packet.set_ssrc(0x090A_0B0C);
        assert_eq!(packet.set_csrc(0, 0x0D0E_0F10), Ok(()));
        for index in [1, 1 << 32, usize::MAX] {
            assert_eq!(packet.set_csrc(index, 7), Err(NotChanged::NoSource));
        }
        assert_eq!(packet.set_element(3, at_end(&[0x1A, 0x1B])), Ok(()));
        assert_eq!(
            packet.set_element(3, at_end(&[0x1A])),
            Err(NotChanged::NoElement)
        );
        assert_eq!(
            packet.set_element(2, at_end(&[7, 7, 7])),
            Err(NotChanged::NoElement)
        );
        assert_eq!(
            packet.set_element(2, at_end(&[7; 258])),
            Err(NotChanged::NoElement)
        );
        assert!(packet.remove_element(1));
        assert_eq!(
            packet.renumber(&NewIds::new().with(2, 4).with(3, 5)),
            Ok(())
        );
        assert_eq!(
            packet.into_datagram()[..LEAST],
            [
                0xB1, 0xE2, 3, 4, 5, 6, 7, 8, 9, 10, 11, 12, 13, 14, 15, 16, 0xBE, 0xDE, 0, 2, 0,
                0, 0x41, 0xBB, 0xCC, 0x51, 0x1A, 0x1B,
            ]
        );
    }
}

#[test]
fn a_header_is_written_up_to_the_end() {
    let mut header = Header::default();
    header.has_extension = true;
    header.values.transport_number = Some(0x0102);
    header.values.rid = Some("abc".parse().unwrap());
    let map = Map::new().with(2, Kind::TransportNumber).with(3, Kind::Rid);
    let block = [0xBE, 0xDE, 0, 2, 0x21, 1, 2, 0x32, b'a', b'b', b'c', 0];
    let place = |id, from, to| Place::new(id, from..to);
    let data = at_end(&[0x01, 0x02, b'a', b'b', b'c']);
    let places = at_end(&[place(2, 0, 2), place(3, 2, 5)]);
    for room in [0, 11, 12, 23, 24] {
        let all = at_end(&[0xEE; 24][..room]);
        let written = header.write_to(all, &map);
        assert_eq!(
            written,
            if room < 24 {
                Err(NotWritten::ShortBuffer)
            } else {
                Ok(24)
            }
        );
        let with = at_end(&[0xEE; 24][..room]);
        assert_eq!(header.write_with(with, data, places, None), written);
        assert_eq!(all, with);
        let layers = at_end(&[Layers::default()]);
        let with = at_end(&[0xEE; 24][..room]);
        assert_eq!(header.write_with_layers(with, &map, &layers[0]), written);
        assert_eq!(all, with);
        match written {
            Ok(_) => assert_eq!(all[12..], block),
            Err(_) => assert!(all.iter().all(|byte| *byte == 0xEE)),
        }
    }
    for room in [0, 6, 7] {
        let buf = at_end(&[0xEE; 7][..room]);
        let written = write_elements(buf, Form::OneByte, data, places);
        assert_eq!(
            written,
            if room < 7 {
                Err(NotWritten::ShortBuffer)
            } else {
                Ok(7)
            }
        );
        assert_eq!(
            *buf,
            if room < 7 {
                [0xEE; 7]
            } else {
                [0x21, 1, 2, 0x32, b'a', b'b', b'c']
            }[..room]
        );
    }
}

#[test]
fn what_is_written_lies_in_the_data() {
    let data = at_end(&[0xA1, 0xA2, 0xA3]);
    let outside = [
        0..4,
        1..4,
        2..4,
        3..4,
        4..5,
        4..4,
        0..1 << 32,
        usize::MAX - 1..usize::MAX,
    ];
    for bytes in outside {
        let places = at_end(&[Place::new(1, bytes.clone())]);
        let mut buf = [0xEE; 40];
        let written = Header::default().write_with(&mut buf, data, places, None);
        assert_eq!(written, Err(NotWritten::BadField), "{bytes:?}");
        for form in [Form::OneByte, Form::TwoByte] {
            assert_eq!(
                write_elements(&mut buf, form, data, places),
                Err(NotWritten::BadField),
                "{bytes:?}"
            );
        }
        assert_eq!(buf, [0xEE; 40]);
    }
    let mut buf = [0xEE; 24];
    assert_eq!(
        Header::default().write_with(&mut buf, data, at_end(&[Place::new(1, 2..3)]), None),
        Ok(20)
    );
    assert_eq!(
        buf[12..],
        [0xBE, 0xDE, 0, 1, 0x10, 0xA3, 0, 0, 0xEE, 0xEE, 0xEE, 0xEE]
    );
    assert_eq!(
        Header::default().write_with(&mut buf, at_end(&[]), at_end(&[]), None),
        Ok(16)
    );
    assert_eq!(buf[12..16], [0xBE, 0xDE, 0, 0]);
    assert_eq!(
        write_elements(at_end(&[]), Form::TwoByte, at_end(&[]), at_end(&[])),
        Ok(0)
    );
}

#[test]
fn padding_and_originals_end_with_the_buffer() {
    let mut buf = at_end(&[0x80; 12 + 239]);
    assert_eq!(pad(buf, 12, 255, 16), Err(NotWritten::ShortBuffer));
    assert_eq!(*buf, [0x80; 12 + 239]);
    buf = at_end(&[0x80; 12 + 240]);
    assert_eq!(pad(buf, 12, 255, 16), Ok(240));
    assert_eq!((buf[0], &buf[1..12]), (0xA0, &[0x80; 11][..]));
    assert_eq!((&buf[12..251], buf[251]), (&[0; 239][..], 240));

    for len in [0, 1] {
        assert_eq!(read_original(at_end(&[1, 2][..len])), None);
        assert_eq!(
            write_original(at_end(&[1, 2][..len]), 7),
            Err(NotWritten::ShortBuffer)
        );
    }
    assert_eq!(
        read_original(at_end(&[0xA1, 0xB2])),
        Some((0xA1B2, &[][..]))
    );
    let payload = at_end(&[1, 2]);
    assert_eq!(write_original(payload, 0xFFFF_FFFF_FFFF_C3D4), Ok(()));
    assert_eq!(payload, [0xC3, 0xD4]);
}

#[test]
fn a_uri_is_all_of_its_bytes() {
    let uri = "urn:ietf:params:rtp-hdrext:sdes:mid";
    let at_end = |bytes: &[u8]| std::str::from_utf8(at_end(bytes)).unwrap();
    assert_eq!(Kind::from_uri(at_end(uri.as_bytes())), Some(Kind::Mid));
    for len in 0..uri.len() {
        assert_eq!(Kind::from_uri(at_end(&uri.as_bytes()[..len])), None);
    }
    for more in [1, 127, 128, 256, 65_536] {
        let longer = [uri.as_bytes(), &vec![b'x'; more]].concat();
        assert_eq!(Kind::from_uri(at_end(&longer)), None, "{more}");
    }
}

#[test]
fn a_range_that_ends_before_its_start_is_empty() {
    let (from, to) = (3, 1);
    let places = [Place::new(7, from..to)];
    let mut buf = [0xEE; 4];
    let written = write_elements(&mut buf, Form::TwoByte, &[1, 2, 3, 4], &places);
    assert_eq!(written, Ok(2));
    assert_eq!(buf, [7, 0, 0xEE, 0xEE]);
}
