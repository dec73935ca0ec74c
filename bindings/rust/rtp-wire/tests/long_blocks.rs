//! The longest block that a packet can have: 65,535 words, which are 1,020 elements of 255 bytes in the two-byte
//! form; and long buffers.

use rtp_wire::{
    is_rtcp, pad, read_original, write_elements, write_original, Element, Fields, Form, Header,
    Kind, Layers, Map, NewIds, NotChanged, NotWritten, Packet, PacketMut, Place, Values,
};

const LEN: usize = 12 + 60 + 4 + 262_140;

/// The id and the first byte of the element at this place; the other bytes are 7.
fn element(index: usize) -> (u8, u8) {
    ((index % 255) as u8 + 1, (index / 255) as u8 + 0xA0)
}

/// V=2, X, CC=15; the elements; the payload 1, 2, 3.
fn datagram() -> Vec<u8> {
    let mut bytes = vec![0x9F, 0, 0, 1, 0, 0, 0, 2, 0, 0, 0, 3];
    bytes.resize(12 + 60, 9);
    bytes.extend([0x10, 0x0F, 0xFF, 0xFF]);
    for (id, first) in (0..1020).map(element) {
        bytes.extend([id, 255, first]);
        bytes.resize(bytes.len() + 254, 7);
    }
    assert_eq!(bytes.len(), LEN);
    bytes.extend([1, 2, 3]);
    bytes
}

/// Where they lie, and one more at the most, lest a wrong iteration never end.
fn places(packet: Packet) -> Vec<Place> {
    packet.elements().places().take(1021).collect()
}

#[test]
fn all_elements_are_read() {
    let datagram = datagram();
    let packet = Packet::parse(&datagram).unwrap();
    assert_eq!(
        (packet.header_len(), packet.payload()),
        (LEN, &[1, 2, 3][..])
    );
    assert_eq!(packet.block(), Some((Form::TwoByte, &datagram[76..LEN])));
    assert_eq!(packet.elements().size_hint(), (0, Some(131_070)));
    assert_eq!(
        (places(packet).len(), packet.elements().take(1021).count()),
        (1020, 1020)
    );
    let (_, body) = packet.block().unwrap();
    for (index, (Element { id, data }, place)) in packet
        .elements()
        .zip(packet.elements().places())
        .enumerate()
    {
        assert_eq!((id, data[0]), element(index));
        assert_eq!((data.len(), &data[1..]), (255, &[7; 254][..]));
        assert_eq!(place, Place::new(id, 257 * index + 2..257 * index + 257));
        assert_eq!(&body[place.data()], data);
    }
    for id in 1..=255 {
        assert_eq!(packet.element(id).unwrap()[..2], [0xA3, 7]); // the last of four
    }
    let map = Map::new()
        .with(255, Kind::VideoContentType)
        .with(1, Kind::TransportNumber);
    let header = Header::parse(&datagram, &map).unwrap();
    assert_eq!(
        (header.header_len(), header.csrcs()),
        (LEN, &[0x0909_0909; 15][..])
    );
    assert_eq!(
        (
            header.values.video_content_type,
            header.values.transport_number
        ),
        (Some(0xA3), Some(0xA307))
    );
    assert_eq!(packet.values(&map), header.values);
    assert_eq!(
        Header::parse_with_layers(&datagram, &map),
        Ok((header, None))
    );
    assert!(Packet::parse(&datagram[..LEN - 1]).is_err());
}

#[test]
fn all_elements_are_written() {
    let datagram = datagram();
    let packet = Packet::parse(&datagram).unwrap();
    let (_, body) = packet.block().unwrap();
    let mut places = places(packet);
    let header = Header::parse(&datagram, &Map::new()).unwrap();
    let mut buf = vec![0xEE; LEN];
    assert_eq!(
        header.write_with(&mut buf[1..], body, &places, None),
        Err(NotWritten::ShortBuffer)
    );
    assert!(buf.iter().all(|byte| *byte == 0xEE));
    assert_eq!(header.write_with(&mut buf, body, &places, None), Ok(LEN));
    buf[73] = 0x0F; // the application bits, which are written as 0
    assert_eq!(buf, datagram[..LEN]);
    let mut block = vec![0xEE; 262_140];
    assert_eq!(
        write_elements(&mut block, Form::TwoByte, body, &places),
        Ok(262_140)
    );
    assert_eq!(block, body);
    places.push(Place::new(1, 0..0));
    assert_eq!(
        header.write_with(&mut buf, body, &places, None),
        Err(NotWritten::BadField)
    );
}

#[test]
fn the_last_elements_are_changed() {
    let mut expected = datagram();
    let mut bytes = datagram();
    let mut packet = PacketMut::parse(&mut bytes).unwrap();
    let last = LEN - 257; // the last element has the id 255, as each of the four at the same place of their 255
    assert_eq!(places(packet.as_packet())[1019].id(), 255);
    assert_eq!(packet.set_element(255, &[5; 255]), Ok(()));
    assert_eq!(
        packet.set_element(255, &[5; 254]),
        Err(NotChanged::NoElement)
    );
    expected[last + 2..LEN].fill(5);
    // 1 to 255 become 255 to 1
    let ids = (1..=255).fold(NewIds::new(), |ids, id: u8| ids.with(id, id.wrapping_neg()));
    assert_eq!(packet.renumber(&ids), Ok(()));
    for (index, at) in (76..LEN).step_by(257).enumerate() {
        expected[at] = element(index).0.wrapping_neg();
    }
    assert_eq!(packet.as_packet().datagram(), expected);
    assert!(packet.remove_element(1)); // it was 255
    for index in [254, 509, 764, 1019] {
        expected[76 + 257 * index..][..257].fill(0);
    }
    assert_eq!(packet.into_datagram(), expected);
}

#[test]
fn the_fixed_part_is_changed() {
    let mut bytes = datagram();
    let mut packet = PacketMut::parse(&mut bytes).unwrap();
    packet.set_marker(true);
    assert_eq!(packet.set_payload_type(0x21), Ok(()));
    packet.set_sequence_number(0x2223);
    packet.set_timestamp(0x2425_2627);
    packet.set_ssrc(0x2829_2A2B);
    assert_eq!(packet.set_csrc(14, 0x2C2D_2E2F), Ok(()));
    assert_eq!(packet.set_csrc(15, 7), Err(NotChanged::NoSource));
    let mut expected = datagram();
    expected[1..12].copy_from_slice(&[
        0xA1, 0x22, 0x23, 0x24, 0x25, 0x26, 0x27, 0x28, 0x29, 0x2A, 0x2B,
    ]);
    expected[68..72].copy_from_slice(&[0x2C, 0x2D, 0x2E, 0x2F]);
    assert_eq!(packet.into_datagram(), expected);
}

#[test]
fn long_buffers_are_used_whole() {
    for len in [256, 512, 65_536, 131_072] {
        let mut buf = vec![0x90; len];
        assert_eq!(pad(&mut buf, len - 240, 239, 2), Ok(240));
        assert_eq!(
            (buf[len - 241], &buf[len - 240..len - 1], buf[len - 1]),
            (0x90, &[0; 239][..], 240)
        );
        assert_eq!(write_original(&mut buf, 0x0102), Ok(()));
        assert_eq!(buf[..3], [1, 2, 0x90]);
        assert_eq!(read_original(&buf), Some((0x0102, &buf[2..])));
        assert_eq!(Header::default().write_to(&mut buf, &Map::new()), Ok(12));
        assert_eq!(buf[..13], [0x80, 0, 0, 0, 0, 0, 0, 0, 0, 0, 0, 0, buf[12]]);
        assert_eq!(Packet::parse(&buf).unwrap().payload(), &buf[12..]);
        assert_eq!(
            Header::default().write_with(&mut buf, &[7; 300], &[Place::new(1, 0..1)], None),
            Ok(20)
        );
        assert_eq!(
            write_elements(
                &mut buf,
                Form::OneByte,
                &vec![7; len],
                &[Place::new(1, len - 1..len)]
            ),
            Ok(2)
        );
        assert_eq!(buf[..3], [0x10, 7, 0]);
    }
}

#[test]
fn long_datagrams_are_looked_at_whole() {
    for len in [256, 257, 65_536, 65_541, 131_072] {
        let mut bytes = vec![0; len];
        bytes[..2].copy_from_slice(&[0x80, 201]);
        bytes[len - 1] = 7;
        assert!(is_rtcp(&bytes));
        let mut packet = PacketMut::parse(&mut bytes).unwrap();
        packet.set_padding(true);
        let fields = Fields {
            payload_type: Some(33),
            ssrc: Some(0x0102_0304),
            ..Fields::default()
        };
        assert_eq!(packet.set_fields(&fields), Ok(()));
        let first = [0xA0, 0xA1, 0, 0, 0, 0, 0, 0, 1, 2, 3, 4];
        assert_eq!(packet.as_packet().datagram()[..12], first);
        assert_eq!(packet.remove_padding(), Ok(len - 7));
        assert_eq!(bytes[..2], [0x80, 0xA1]);

        let mut values = Values::default();
        values.transport_number = Some(0x0506);
        assert_eq!(
            values.data_of(Kind::TransportNumber, &mut bytes),
            Ok(Some(2))
        );
        assert_eq!(bytes[..3], [5, 6, 0]);
        let (header, layers) = (Header::default(), Layers::default());
        let written = header.write_with_layers(&mut bytes, &Map::new(), &layers);
        assert_eq!((written, bytes[0]), (Ok(12), 0x80));
    }
}
