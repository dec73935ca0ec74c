//! A packet of RTP and its header by one call. The expected values are worked out by hand from RFC 3550, 5.1 and 5.3.1,
//! RFC 8285, 4.2 and 4.3, and RFC 5761, 4.

use std::error::Error as _;

use rtp_wire::{
    read_packets, Form, Header, Kind, Map, NotAPacket, NotRead, NotRtp, Packet, Values, WholeSlot,
};

const MAP: Map = Map::new().with(1, Kind::AudioLevel).with(4, Kind::Mid);

/// P, X, two sources, M and payload type 33; a level of -42 with voice and the mid "ab"; a payload of three bytes and two
/// of padding.
const SAMPLE: &[u8] = b"\xB2\xA1\xB7\x98\x01\x02\x03\x04\x0A\x0B\x0C\x0D\0\0\0\x01\0\0\0\x02\xBE\xDE\0\x02\x10\xAA\x41ab\0\0\0\x07\x08\x09\0\x02";

#[test]
fn all_is_told() {
    let (packet, header) = Packet::read(SAMPLE, &MAP).unwrap();
    assert_eq!(
        (header.marker, header.payload_type, header.sequence_number),
        (true, 33, 47_000)
    );
    assert_eq!((header.timestamp, header.ssrc), (0x0102_0304, 0x0A0B_0C0D));
    assert_eq!(
        (
            header.has_padding,
            header.has_extension,
            header.header_len()
        ),
        (true, true, 32)
    );
    assert_eq!(
        (header.csrcs(), packet.csrcs().collect::<Vec<_>>()),
        (&[1, 2][..], vec![1, 2])
    );
    assert_eq!(
        (header.values.audio_level, header.values.voice_activity),
        (Some(-42), Some(true))
    );
    assert_eq!(header.values.mid.as_deref(), Some("ab"));
    assert_eq!(packet.datagram(), SAMPLE);
    assert_eq!(packet.payload(), [7, 8, 9, 0, 2]);
    assert_eq!(packet.unpadded_payload(), Some(&[7, 8, 9][..]));
    assert_eq!(
        (packet.form(), packet.block_profile()),
        (Some(Form::OneByte), Some(0xBEDE))
    );
    assert_eq!(packet.body(), Some(&b"\x10\xAA\x41ab\0\0\0"[..]));
    // As it is told by the calls for its parts.
    assert_eq!(
        (packet, header),
        (
            Packet::parse(SAMPLE).unwrap(),
            Header::parse(SAMPLE, &MAP).unwrap()
        )
    );
}

#[test]
fn padding_that_does_not_fit_is_no_media() {
    let mut datagram = *b"\xA0\x60\0\x01\x01\x02\x03\x04\x0A\x0B\x0C\x0D\x07\x07\x07\0";
    for (last, expected) in [(1, Some(3)), (4, Some(0)), (5, None), (0, Some(4))] {
        datagram[15] = last;
        let (packet, _) = Packet::read(&datagram, &MAP).unwrap();
        assert_eq!(
            packet.unpadded_payload().map(<[u8]>::len),
            expected,
            "{last}"
        );
    }
}

#[test]
fn a_block_of_another_form_has_no_values() {
    let mut datagram =
        *b"\x90\x60\0\x01\x01\x02\x03\x04\x0A\x0B\x0C\x0D\x10\0\0\x01\x01\x01\xAA\0ok";
    assert_eq!(
        Packet::read(&datagram, &MAP).unwrap().1.values.audio_level,
        Some(-42)
    );
    for profile in [0xABAC_u16, 0xC0DE, 0xC2DE, 0x1010, 0x0FFF] {
        datagram[12..14].copy_from_slice(&profile.to_be_bytes());
        let (packet, header) = Packet::read(&datagram, &MAP).unwrap();
        assert_eq!(
            (packet.form(), packet.block_profile()),
            (None, Some(profile))
        );
        assert_eq!(packet.body(), Some(&[1, 1, 0xAA, 0][..]));
        assert_eq!(
            (header.has_extension, header.values),
            (true, Values::default())
        );
        assert_eq!(packet.unpadded_payload(), Some(&b"ok"[..]));
    }
}

#[test]
fn rtcp_is_told_before_all_else() {
    let report = [0x81, 201, 0, 7, 0, 0, 0, 44, 0, 0, 0, 45, 0, 0, 0, 0];
    for len in [2, 4, 8, 12, 16] {
        assert_eq!(
            Packet::read(&report[..len], &MAP),
            Err(NotRtp::Rtcp),
            "{len}"
        );
    }
    assert_eq!(
        Packet::read(&report[..1], &MAP),
        Err(NotRtp::NotAPacket(NotAPacket::CutFixedPart))
    );
    assert_eq!(NotRtp::Rtcp.to_string(), "a packet of RTCP");
    assert!(NotRtp::Rtcp.source().is_none());
}

#[test]
fn each_cause_is_told() {
    let mut other = SAMPLE.to_vec();
    other[20] = 0xAB; // a block of another form, which is cut short
    for (datagram, cause) in [
        (&SAMPLE[..11], NotAPacket::CutFixedPart),
        (&[0x40; 40][..], NotAPacket::OtherVersion),
        (&SAMPLE[..19], NotAPacket::CutSources),
        (&SAMPLE[..23], NotAPacket::CutBlockHeader),
        (&SAMPLE[..31], NotAPacket::CutBlock),
        (&other[..31], NotAPacket::CutBlock),
    ] {
        let error = Packet::read(datagram, &MAP).unwrap_err();
        assert_eq!(error, NotRtp::from(cause));
        assert_eq!(error.source().unwrap().to_string(), cause.to_string());
    }
}

#[test]
fn many_are_told_each_alone() {
    let mut buf = SAMPLE.to_vec();
    buf.extend([0x80, 201, 0, 1, 0, 0, 0, 44]);
    let mut slots =
        [(0, 37), (37, 8), (0, 11), (38, 8), (0, 37)].map(|(at, len)| WholeSlot::new(at, len));
    let told: Vec<_> = read_packets(&buf, &MAP, &mut slots)
        .map(|it| (it.bytes().is_some(), it.packet()))
        .collect();
    let read = Ok(Packet::read(SAMPLE, &MAP).unwrap());
    assert_eq!(told[0], (true, read));
    assert_eq!(told[1], (true, Err(NotRead::Rtcp)));
    assert_eq!(
        told[2],
        (true, Err(NotRead::NotAPacket(NotAPacket::CutFixedPart)))
    );
    assert_eq!(told[3], (false, Err(NotRead::OutsideOfTheBuffer)));
    assert_eq!(told[4], told[0]);
    assert_eq!(NotRead::Rtcp.to_string(), "a packet of RTCP");
}
