//! Packets whose block is of another form than the two of RFC 8285 (RFC 3550, 5.3.1).

use rtp_wire::{
    compact, from_retransmission, put_element, to_retransmission, Fields, Form, Map, NewIds,
    NotAPacket, NotChanged, NotPut, Packet, PacketMut, Values,
};

/// What a camera sends of a recording (ONVIF, streaming specification): after 0xABAC and the length 3 the seconds
/// and the fraction of an NTP time, C, E and D in the top bits of a byte, `CSeq`, and two bytes of padding.
const CAMERA: [u8; 31] = [
    0x90, 0xE0, 0, 5, 0, 1, 0x5F, 0x90, 0, 0, 0, 0x2C, 0xAB, 0xAC, 0, 3, 0xE5, 0x8B, 0x3C, 0x40,
    0x80, 0, 0, 0, 0xE0, 7, 0, 0, 0x41, 0x42, 0x43,
];

/// The same block as Cryptex has it in place of a one-byte and of a two-byte one (RFC 9335, 5.1): before it is
/// decrypted its body may be any bytes, here such as would be elements.
fn encrypted(profile: u16) -> [u8; 31] {
    let mut bytes = CAMERA;
    bytes[12..14].copy_from_slice(&profile.to_be_bytes());
    bytes[16..20].copy_from_slice(&[0x10, 0xAA, 0x20, 0xBB]);
    bytes
}

#[test]
fn they_are_read() {
    for (bytes, profile) in [
        (CAMERA, 0xABAC),
        (encrypted(0xC0DE), 0xC0DE),
        (encrypted(0xC2DE), 0xC2DE),
    ] {
        let packet = Packet::parse(&bytes).unwrap();
        assert_eq!(packet.block_profile(), Some(profile));
        assert_eq!(packet.body(), Some(&bytes[16..28]));
        assert_eq!((packet.form(), packet.block()), (None, None));
        assert_eq!(packet.elements().next(), None);
        assert_eq!(packet.elements().places().next(), None);
        assert_eq!(packet.element(1), None);
        assert_eq!(packet.values(&Map::standard()), Values::default());
        assert_eq!((packet.header_len(), packet.ssrc()), (28, 44));
        assert_eq!(packet.payload(), [0x41, 0x42, 0x43]);
        let cut = Packet::parse(&bytes[..27]);
        assert_eq!(cut, Err(NotAPacket::CutBlock));
        let cut = Packet::parse(&bytes[..15]);
        assert_eq!(cut, Err(NotAPacket::CutBlockHeader));
    }
    let packet = Packet::parse(&[0x80; 12]).unwrap();
    assert_eq!((packet.block_profile(), packet.body()), (None, None));
}

#[test]
fn their_fields_are_changed() {
    let mut bytes = CAMERA;
    let mut packet = PacketMut::parse(&mut bytes).unwrap();
    let fields = Fields {
        marker: Some(false),
        payload_type: Some(97),
        sequence_number: Some(0x0102),
        timestamp: Some(0x0304_0506),
        ssrc: Some(0x0708_090A),
    };
    packet.set_fields(&fields).unwrap();
    assert_eq!(packet.set_csrc(0, 1), Err(NotChanged::NoSource));
    assert_eq!(packet.set_element(1, &[1]), Err(NotChanged::NoElement));
    assert!(!packet.remove_element(14));
    assert_eq!(packet.renumber(&NewIds::new()), Ok(()));
    assert_eq!(packet.remove_padding(), Ok(31));
    assert_eq!(bytes[..12], [0x90, 97, 1, 2, 3, 4, 5, 6, 7, 8, 9, 10]);
    assert_eq!(bytes[12..], CAMERA[12..]);
}

#[test]
fn they_get_no_elements() {
    let mut bytes = [0; 64];
    bytes[..31].copy_from_slice(&CAMERA);
    for allowed in [None, Some(Form::OneByte), Some(Form::TwoByte)] {
        let put = put_element(&mut bytes, 31, 1, &[7], allowed);
        assert_eq!(put, Err(NotPut::OtherForm));
    }
    let put = put_element(&mut bytes, 31, 0, &[7], None);
    assert_eq!(put, Err(NotPut::BadId));
    assert_eq!(compact(&mut bytes[..31]), Ok(31));
    assert_eq!(bytes[..31], CAMERA);
}

#[test]
fn they_are_sent_again() {
    let mut bytes = [0; 33];
    bytes[..31].copy_from_slice(&CAMERA);
    let len = to_retransmission(&mut bytes, 31, 45, 97, 9, &NewIds::new());
    assert_eq!(len, Ok(33));
    assert_eq!(bytes[..4], [0x90, 0xE1, 0, 9]);
    assert_eq!(bytes[12..28], CAMERA[12..28]);
    assert_eq!(bytes[28..], [0, 5, 0x41, 0x42, 0x43]);
    let len = from_retransmission(&mut bytes, 33, 44, 96, &NewIds::new());
    assert_eq!(len, Ok(31));
    assert_eq!(bytes[..31], CAMERA);
}
