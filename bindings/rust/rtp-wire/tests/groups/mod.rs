//! A packet, and the header that is made of it for a group of receivers, in memory that ends at a page that may not be
//! touched.

use rtp_wire::{Fields, Form, Group, HeaderTemplate, NotRouted, Packet, Place};

use super::guarded::at_end;

/// 96, 5, 100, 44 and what follows them: the element 1 (AA), and two bytes of padding. The payload is no part of it.
pub const SAMPLE: [u8; 22] = [
    0x90, 96, 0, 5, 0, 0, 0, 100, 0, 0, 0, 44, 0xBE, 0xDE, 0, 1, 0x10, 0xAA, 0, 0, b'h', b'i',
];
pub const NUMBERS: [u8; 4] = [0, 7, 0, 8];
pub const NO_FIELDS: Fields = Fields {
    marker: None,
    payload_type: None,
    sequence_number: None,
    timestamp: None,
    ssrc: None,
};
pub const ONE: Option<Form> = Some(Form::OneByte);

/// The sample's fixed part with this first byte, and what is written in hexadecimal behind it.
pub fn written(first: u8, rest: &str) -> Vec<u8> {
    let digits: Vec<u8> = rest.bytes().filter(|it| *it != b' ').collect();
    let pair = |it: &[u8]| u8::from_str_radix(std::str::from_utf8(it).unwrap(), 16).unwrap();
    let rest: Vec<u8> = digits.chunks(2).map(pair).collect();
    [&[first], &SAMPLE[1..12], &rest].concat()
}

pub fn place(id: u8, at: usize, len: usize) -> Place {
    Place::new(id, at..at + len)
}

/// The template that is made in so many bytes, or why not.
pub fn made(
    packet: &[u8],
    group: &Group,
    room: usize,
) -> Result<HeaderTemplate<'static>, NotRouted> {
    let packet = Packet::parse(at_end(packet)).unwrap();
    let (data, elements) = (at_end(group.data), at_end(group.elements));
    let group = Group {
        data,
        elements,
        ..*group
    };
    HeaderTemplate::new(&packet, &group, at_end(&vec![0xEE; room]))
}
