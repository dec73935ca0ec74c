//! The fields that each header has, and the list of sources: each at the ends of its range, and each flag alone.

mod by_hand;

use by_hand::Fields;
use rtp_wire::{Header, Map, NotAPacket, NotChanged, NotWritten, Packet, PacketMut, Values};

const SOURCES: [u32; 15] = [
    0xF1,
    0xF200,
    0xF3_0000,
    0xF400_0000,
    0,
    1,
    0x7FFF_FFFF,
    0x8000_0000,
    0xFFFF_FFFF,
    0x0123_4567,
    0x89AB_CDEF,
    10,
    11,
    12,
    13,
];

/// The flags P, X and M; the payload type, the sequence number, the timestamp, the SSRC, and how many sources.
type Row = ([bool; 3], u8, u16, u32, u32, usize);

const ROWS: [Row; 10] = [
    ([false, false, false], 0, 0, 0, 0, 0),
    ([true, false, false], 1, 0xFF, 0xFF, 0xFF00_0000, 1),
    ([false, true, false], 2, 0xFF00, 0xFF00, 0xFF_0000, 2),
    ([false, false, true], 64, 0x0102, 0xFF_0000, 0xFF00, 3),
    ([true, true, false], 127, 0x8000, 0xFF00_0000, 0xFF, 4),
    (
        [true, false, true],
        126,
        0x7FFF,
        0x8000_0000,
        0x7FFF_FFFF,
        7,
    ),
    ([false, true, true], 63, 1, 0x7FFF_FFFF, 0x8000_0000, 8),
    (
        [true, true, true],
        127,
        0xFFFF,
        0xFFFF_FFFE,
        0xFFFF_FFFF,
        15,
    ),
    (
        [false, false, false],
        85,
        0x1234,
        0x5678_9ABC,
        0xDEF0_1235,
        14,
    ),
    ([true, true, true], 42, 0xFEDC, 0xBA98_7654, 0x3210_0123, 5),
];

fn header_of(
    ([has_padding, has_extension, marker], payload_type, number, timestamp, ssrc, count): Row,
) -> Header {
    let mut header = Header::default();
    (header.has_padding, header.has_extension, header.marker) =
        (has_padding, has_extension, marker);
    (header.payload_type, header.sequence_number) = (payload_type, number);
    (header.timestamp, header.ssrc) = (timestamp, ssrc);
    assert_eq!(header.set_csrcs(&SOURCES[..count]), Ok(()));
    header
}

fn fields_of(
    ([has_padding, has_extension, marker], payload_type, number, timestamp, ssrc, count): Row,
) -> Fields {
    Fields {
        version: 2,
        has_padding,
        has_extension,
        marker,
        payload_type,
        sequence_number: number,
        timestamp,
        ssrc,
        sources: SOURCES[..count].to_vec(),
        block: has_extension.then_some((0xBEDE, vec![])),
        header_len: 12 + 4 * count + if has_extension { 4 } else { 0 },
    }
}

#[test]
fn each_row_is_written_and_read() {
    for row in ROWS {
        let (mut buf, fields) = ([0xEE; 80], fields_of(row));
        let mut header = header_of(row);
        header.values.audio_level = Some(-3); // no id means it
        header.values.voice_activity = Some(true);
        assert_eq!(header.wire_len(&Map::new()), Ok(fields.header_len));
        assert_eq!(
            header.write_to(&mut buf, &Map::new()),
            Ok(fields.header_len)
        );
        assert_eq!(by_hand::read(&buf), fields);
        let datagram = &buf[..fields.header_len];

        let read = Header::parse(datagram, &Map::standard()).unwrap();
        assert_eq!(
            (read.values, read.header_len()),
            (Values::default(), fields.header_len)
        );
        assert_eq!(read.csrcs(), fields.sources);
        let ([has_padding, has_extension, marker], ..) = row;
        assert_eq!(
            (read.has_padding, read.has_extension, read.marker),
            (has_padding, has_extension, marker)
        );
        assert_eq!((read.payload_type, read.sequence_number), (row.1, row.2));
        assert_eq!((read.timestamp, read.ssrc), (row.3, row.4));

        let read = Packet::parse(datagram).unwrap();
        assert_eq!(
            (read.has_padding(), read.form().is_some(), read.marker()),
            (has_padding, has_extension, marker)
        );
        assert_eq!(
            (read.payload_type(), read.sequence_number()),
            (row.1, row.2)
        );
        assert_eq!((read.timestamp(), read.ssrc()), (row.3, row.4));
        assert_eq!(
            (read.csrcs().len(), read.csrcs().collect()),
            (row.5, fields.sources)
        );
        assert_eq!(
            (read.header_len(), read.payload()),
            (fields.header_len, &[][..])
        );
    }
}

#[test]
fn each_row_is_set_where_it_lies() {
    for row in ROWS {
        // the flags P and X and the number of sources stay as they are
        let mut all = [0; 80];
        let mut other = header_of((row.0, 0x55, 0x5555, 0x5555_5555, 0xAAAA_AAAA, 0));
        other.marker = !row.0[2];
        assert_eq!(other.set_csrcs(&[0x5A5A_5A5A; 15][..row.5]), Ok(()));
        let len = other.write_to(&mut all, &Map::new()).unwrap();
        let mut packet = PacketMut::parse(&mut all[..len]).unwrap();
        packet.set_marker(row.0[2]);
        assert_eq!(packet.set_payload_type(row.1), Ok(()));
        packet.set_sequence_number(row.2);
        packet.set_timestamp(row.3);
        packet.set_ssrc(row.4);
        for (index, source) in SOURCES[..row.5].iter().enumerate() {
            assert_eq!(packet.set_csrc(index, *source), Ok(()));
        }
        for payload_type in [128, 129, 255] {
            assert_eq!(
                packet.set_payload_type(payload_type),
                Err(NotChanged::BadPayloadType)
            );
        }
        for index in [row.5, 15, 16, 256, 1 << 32, usize::MAX] {
            assert_eq!(packet.set_csrc(index, 7), Err(NotChanged::NoSource));
        }
        assert_eq!(packet.as_packet().sequence_number(), row.2);
        assert_eq!(by_hand::read(packet.into_datagram()), fields_of(row));
    }
}

#[test]
fn there_are_at_most_fifteen_sources() {
    for count in 0..=15 {
        let row = ([false; 3], 0, 0, 0, 0, count);
        let (mut buf, header) = ([0xEE; 72], header_of(row));
        assert_eq!(header.csrcs(), &SOURCES[..count]);
        assert_eq!(header.write_to(&mut buf, &Map::new()), Ok(12 + 4 * count));
        assert_eq!(by_hand::read(&buf), fields_of(row));
        assert_eq!(
            Header::parse(&buf, &Map::new()).unwrap().csrcs(),
            &SOURCES[..count]
        );
        assert!(buf[12 + 4 * count..].iter().all(|byte| *byte == 0xEE));
    }
    let mut header = header_of(ROWS[7]);
    for csrcs in [&[7; 16][..], &[7; 271]] {
        assert_eq!(header.set_csrcs(csrcs), Err(NotChanged::TooManySources));
    }
    assert_eq!(header, header_of(ROWS[7]));
    assert_eq!(header.set_csrcs(&SOURCES[..7]), Ok(()));
    let mut same = header_of(ROWS[7]);
    assert_eq!(same.set_csrcs(&[]), Ok(()));
    assert!(same.csrcs().is_empty());
    assert_eq!(same.set_csrcs(&SOURCES[..7]), Ok(()));
    assert_eq!(header, same);
    let mut other = Header::default();
    assert_eq!(other.set_csrcs(&[1, 2]), Ok(()));
    assert_eq!(other.set_csrcs(&[3]), Ok(()));
    let mut same = Header::default();
    assert_eq!(same.set_csrcs(&[3]), Ok(()));
    assert_eq!(other, same); // nothing is left of the 2
}

#[test]
fn a_header_that_is_new_is_empty() {
    let header = Header::default();
    assert_eq!(
        (header.csrcs(), header.header_len(), header.values),
        (&[][..], 0, Values::default())
    );
    let mut buf = [0xEE; 13];
    assert_eq!(header.write_to(&mut buf, &Map::standard()), Ok(12));
    assert_eq!(buf, [0x80, 0, 0, 0, 0, 0, 0, 0, 0, 0, 0, 0, 0xEE]);
    for payload_type in [128, 255] {
        let mut header = header;
        header.payload_type = payload_type;
        assert_eq!(
            header.write_to(&mut buf, &Map::new()),
            Err(NotWritten::BadField)
        );
    }
    for version in [0, 1, 3] {
        buf[0] = version << 6;
        assert_eq!(Packet::parse(&buf), Err(NotAPacket::OtherVersion));
    }
}

#[test]
fn headers_are_equal_by_all_fields() {
    let header = header_of(ROWS[8]);
    assert_eq!(header, header_of(ROWS[8]));
    let changes: [fn(&mut Header); 9] = [
        |it| it.marker ^= true,
        |it| it.has_padding ^= true,
        |it| it.has_extension ^= true,
        |it| it.payload_type ^= 1,
        |it| it.sequence_number ^= 1,
        |it| it.timestamp ^= 1,
        |it| it.ssrc ^= 1,
        |it| it.values.transport_number = Some(0),
        |it| assert_eq!(it.set_csrcs(&SOURCES[..13]), Ok(())),
    ];
    for (index, change) in changes.into_iter().enumerate() {
        let mut other = header;
        change(&mut other);
        assert_ne!(header, other, "{index}");
    }
}
