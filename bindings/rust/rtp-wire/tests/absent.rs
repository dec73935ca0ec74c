//! What is 0, false or empty beside what is absent; arguments past 2^32; what an error is, and what it wraps; and
//! defaults. Expected values are worked out by hand from RFC 3550, 5.1 and RFC 8285, 4.2 and 4.3.

use std::collections::HashSet;
use std::error::Error;
use std::time::Duration;

use rtp_wire::{
    compact, from_retransmission, pad, put_element, read_original, to_retransmission,
    write_elements, write_original, Fields, Form, Header, Kind, Layer, Layers, Map, NewIds,
    NotAHeader, NotAPacket, NotChanged, NotPut, NotRetransmitted, NotWritten, Packet, PacketMut,
    Place, Resolution, Stream, Values, VideoTiming,
};

/// V=2, P, X, CC=2; M, PT=33; 47,000; 10,000; 44; the sources 1 and 2; a block of two words in the one-byte form: 1 (AA),
/// 2 (BB CC), 1 (DD), and padding; a payload of 3 bytes and 2 of padding.
const SAMPLE: [u8; 37] = [
    0xB2, 0xA1, 0xB7, 0x98, 0, 0, 0x27, 0x10, 0, 0, 0, 0x2C, 0, 0, 0, 1, 0, 0, 0, 2, 0xBE, 0xDE, 0,
    2, 0x10, 0xAA, 0x21, 0xBB, 0xCC, 0x10, 0xDD, 0, 1, 2, 3, 0, 2,
];
const FAR: usize = 1 << 32;

fn every_kind() -> Map {
    let uris = [
        (1, Kind::AbsSendTime),
        (2, Kind::AbsCaptureTime),
        (3, Kind::AudioLevel),
        (4, Kind::TransmissionOffset),
        (5, Kind::VideoOrientation),
        (6, Kind::TransportNumber),
        (7, Kind::PlayoutDelay),
        (8, Kind::VideoContentType),
        (9, Kind::VideoTiming),
        (10, Kind::Rid),
        (11, Kind::RepairedRid),
        (12, Kind::Mid),
        (13, Kind::FrameMarking),
    ];
    uris.into_iter()
        .fold(Map::new(), |map, (id, kind)| map.with(id, kind))
}

#[test]
fn zeros_are_values() {
    let mut values = Values::default();
    values.send_time = Some(0);
    values.capture_time = Some(0);
    values.capture_offset = Some(0);
    values.playout_delay_min = Some(Duration::ZERO);
    values.playout_delay_max = Some(Duration::ZERO);
    values.transmission_offset = Some(0);
    values.frame_marking = Some(0);
    values.transport_number = Some(0);
    values.video_orientation = Some(0);
    values.video_timing = Some(VideoTiming::default());
    values.video_content_type = Some(0);
    values.audio_level = Some(0);
    values.voice_activity = Some(false);
    values.mid = Some("".parse().unwrap());
    values.rid = Some("".parse().unwrap());
    values.repaired_rid = Some("".parse().unwrap());
    let mut header = Header::default();
    header.has_extension = true;
    header.values = values;
    let mut buf = [0xEE; 100];
    // The two-byte form, for the texts: 13 elements of 2 bytes and 48 of data are 74, and 2 of padding.
    assert_eq!(header.write_to(&mut buf, &every_kind()), Ok(16 + 76));
    assert_eq!(buf[12..16], [0x10, 0, 0, 19]);
    assert_eq!(
        Packet::parse(&buf[..92]).unwrap().values(&every_kind()),
        values
    );
    assert_eq!(
        Header::parse(&buf[..92], &every_kind()).unwrap().values,
        values
    );
    for (_, kind) in every_kind().iter() {
        let mut data = [0xEE; 16];
        let len = values.data_of(kind, &mut data).unwrap();
        assert!(
            data[..len.unwrap()].iter().all(|byte| *byte == 0),
            "{kind:?}"
        );
        assert_eq!(Values::default().data_of(kind, &mut data), Ok(None));
    }
}

#[test]
fn fields_of_zero_are_set() {
    let set = |fields: Fields| {
        let mut datagram = SAMPLE;
        let mut packet = PacketMut::parse(&mut datagram).unwrap();
        assert_eq!(packet.set_fields(&fields), Ok(()));
        assert_eq!(datagram[12..], SAMPLE[12..]);
        datagram[..12].to_vec()
    };
    let none = Fields::default();
    let header = |places: &[(usize, u8)]| {
        let mut bytes = SAMPLE[..12].to_vec();
        for (at, byte) in places {
            bytes[*at] = *byte;
        }
        bytes
    };
    assert_eq!(set(none), header(&[]));
    assert_eq!(
        set(Fields {
            timestamp: Some(0),
            ..none
        }),
        header(&[(6, 0), (7, 0)])
    );
    assert_eq!(
        set(Fields {
            ssrc: Some(0),
            ..none
        }),
        header(&[(11, 0)])
    );
    assert_eq!(
        set(Fields {
            sequence_number: Some(0),
            ..none
        }),
        header(&[(2, 0), (3, 0)])
    );
    assert_eq!(
        set(Fields {
            payload_type: Some(0),
            ..none
        }),
        header(&[(1, 0x80)])
    );
    assert_eq!(
        set(Fields {
            marker: Some(false),
            ..none
        }),
        header(&[(1, 0x21)])
    );
    assert_eq!(
        set(Fields {
            marker: Some(true),
            ..none
        }),
        header(&[])
    );
}

#[test]
fn elements_and_bodies_may_have_no_bytes() {
    let datagram = [
        0x90, 0, 0, 1, 0, 0, 0, 2, 0, 0, 0, 3, 0x10, 0, 0, 2, 1, 0, 2, 1, 9, 0, 0, 0,
    ];
    let packet = Packet::parse(&datagram).unwrap();
    assert_eq!(
        (packet.element(1), packet.element(3)),
        (Some(&[][..]), None)
    );
    let found: Vec<_> = packet.elements().map(|it| (it.id, it.data)).collect();
    assert_eq!(found, [(1, &[][..]), (2, &[9])]);
    let mut changed = datagram;
    let mut packet = PacketMut::parse(&mut changed).unwrap();
    assert_eq!(packet.set_element(1, &[]), Ok(()));
    assert_eq!(packet.set_element(2, &[]), Err(NotChanged::NoElement));
    assert!(packet.remove_element(1) && !packet.remove_element(1));

    let datagram = [0x90, 0, 0, 1, 0, 0, 0, 2, 0, 0, 0, 3, 0xBE, 0xDE, 0, 0, 7];
    let packet = Packet::parse(&datagram).unwrap();
    assert_eq!(packet.block(), Some((Form::OneByte, &[][..])));
    assert_eq!((packet.body(), packet.header_len()), (Some(&[][..]), 16));
    assert_eq!((packet.elements().count(), packet.element(1)), (0, None));
    assert_eq!(packet.values(&every_kind()), Values::default());
    let plain = Packet::parse(&SAMPLE[..12]);
    assert_eq!(plain, Err(NotAPacket::CutSources));
    let plain = [&[0x80][..], &SAMPLE[1..12]].concat();
    let packet = Packet::parse(&plain).unwrap();
    assert_eq!(
        (packet.block(), packet.body(), packet.block_profile()),
        (None, None, None)
    );
    let mut buf = [&plain[..], &[0; 8]].concat();
    assert_eq!(put_element(&mut buf, 12, 7, &[], None), Ok(20));
    assert_eq!(buf[12..], [0x10, 0, 0, 1, 7, 0, 0, 0]);
}

#[test]
fn arguments_past_32_bits_are_not_cut() {
    let mut buf = [&SAMPLE[..], &[0; 263]].concat();
    let before = buf.clone();
    let mut packet = PacketMut::parse(&mut buf).unwrap();
    for index in [2, 15, FAR, FAR + 1, usize::MAX] {
        assert_eq!(packet.set_csrc(index, 7), Err(NotChanged::NoSource));
    }
    for len in [301, FAR + 37, usize::MAX] {
        assert_eq!(
            put_element(&mut buf, len, 1, &[7], None),
            Err(NotPut::BadField)
        );
        let ids = NewIds::new();
        let sent = to_retransmission(&mut buf, len, 1, 2, 3, &ids);
        assert_eq!(sent, Err(NotRetransmitted::BadLength));
        let back = from_retransmission(&mut buf, len, 1, 2, &ids);
        assert_eq!(back, Err(NotRetransmitted::BadLength));
        assert_eq!(pad(&mut buf, len, 1, 1), Err(NotWritten::ShortBuffer));
    }
    for place in [
        Place::new(1, FAR..FAR + 1),
        Place::new(1, 0..FAR),
        Place::new(1, 3..4),
    ] {
        let written = write_elements(&mut buf, Form::TwoByte, &[1, 2, 3], &[place]);
        assert_eq!(written, Err(NotWritten::BadField));
    }
    assert_eq!(buf, before);
    // A block of 2^32 bytes is more than the 240 of the most padding.
    assert_eq!((pad(&mut buf, 37, 1, FAR), buf[276]), (Ok(240), 240));
    assert_eq!(write_original(&mut buf, (FAR as u64) << 8 | 0x1234), Ok(()));
    assert_eq!(read_original(&buf[..3]), Some((0x1234, &buf[2..3])));
    for short in 0..2 {
        assert_eq!(
            write_original(&mut buf[..short], 1),
            Err(NotWritten::ShortBuffer)
        );
        assert_eq!(read_original(&buf[..short]), None);
    }
}

#[test]
fn errors_tell_what_they_wrap() {
    let of = |error: &dyn Error| (error.to_string(), error.source().map(ToString::to_string));
    let cut = NotAPacket::CutBlock;
    let text = |text: &str| text.to_string();
    let wrapped = (
        text("no RTP packet"),
        Some(text("the extension block is cut short")),
    );
    assert_eq!(of(&NotAHeader::from(cut)), wrapped);
    assert_eq!(of(&NotPut::from(cut)), wrapped);
    assert_eq!(of(&NotRetransmitted::from(cut)), wrapped);
    for (put, said) in [
        (NotPut::BadField, "an argument is out of its range"),
        (NotPut::BadId, "the id 0, which no element has"),
        (
            NotPut::LongId,
            "an id above 14, which the one-byte form can't carry",
        ),
        (
            NotPut::FormNotAllowed,
            "a form of the extension block that isn't allowed",
        ),
        (
            NotPut::LongBlock,
            "an extension block of more than 65,535 words",
        ),
        (NotPut::OtherForm, "a header extension of an unknown form"),
        (NotPut::ShortBuffer, "a buffer is too short"),
    ] {
        assert_eq!(of(&put), (text(said), None));
    }
    for (sent, said) in [
        (
            NotRetransmitted::BadPayloadType,
            "the payload type is above 127",
        ),
        (
            NotRetransmitted::BadLength,
            "the packet is longer than the buffer",
        ),
        (
            NotRetransmitted::BadPadding,
            "the padding is longer than the payload",
        ),
        (
            NotRetransmitted::NoNumber,
            "the payload has no original sequence number",
        ),
        (
            NotRetransmitted::BadNewId,
            "the block's form can't carry a new id",
        ),
        (NotRetransmitted::ShortBuffer, "a buffer is too short"),
    ] {
        assert_eq!(of(&sent), (text(said), None));
    }
    for (cause, len) in [
        (NotAPacket::CutFixedPart, 11),
        (NotAPacket::CutSources, 19),
        (NotAPacket::CutBlockHeader, 23),
        (NotAPacket::CutBlock, 31),
    ] {
        let mut cut = SAMPLE;
        let cut = &mut cut[..len];
        assert!(cause.source().is_none());
        assert_eq!(compact(cut), Err(cause));
        assert_eq!(
            put_element(cut, len, 1, &[], None),
            Err(NotPut::NotAPacket(cause))
        );
        let sent = to_retransmission(cut, len, 1, 2, 3, &NewIds::new());
        assert_eq!(sent, Err(NotRetransmitted::NotAPacket(cause)));
        let back = from_retransmission(cut, len, 1, 2, &NewIds::new());
        assert_eq!(back, Err(NotRetransmitted::NotAPacket(cause)));
        assert_eq!(*cut, SAMPLE[..len]);
    }
}

#[test]
fn what_is_new_is_empty() {
    assert_eq!(
        (Map::new(), Map::default().iter().count()),
        (Map::default(), 0)
    );
    assert_eq!(
        (NewIds::new(), NewIds::default().get(1)),
        (NewIds::default(), None)
    );
    assert_eq!(Values::default().mid, None);
    assert_eq!(
        Fields::default(),
        Fields {
            marker: None,
            ..Fields::default()
        }
    );
    let layers = Layers::new(0, &[]).unwrap();
    assert_eq!(
        (layers, layers.streams().len(), layers.current()),
        (Layers::default(), 0, 0)
    );
    let (stream, layer) = (Stream::new(&[]).unwrap(), Layer::new(&[], None).unwrap());
    assert_eq!((stream, stream.layers().len()), (Stream::default(), 0));
    assert_eq!(
        (layer, layer.kbps().len(), layer.resolution()),
        (Layer::default(), 0, None)
    );
    // A resolution of zeros is one.
    let nothing = Resolution {
        width: 0,
        height: 0,
        framerate: 0,
    };
    assert_eq!(
        Layer::new(&[1], Some(nothing)).unwrap().resolution(),
        Some(nothing)
    );
    assert_eq!(
        Layer::new(&[1, 1 << 40], None).unwrap().kbps(),
        [1, 1 << 40]
    );
    assert_eq!(Layers::new(3, &[stream; 4]).unwrap().current(), 3);
    assert!(Layers::new(0, &[stream; 5]).is_err() && Stream::new(&[layer; 5]).is_err());
    assert!(Layer::new(&[1; 5], None).is_err());
}

#[test]
fn tables_have_each_id() {
    let mut ids = NewIds::new();
    let mut map = Map::new();
    for id in 0..=255u8 {
        ids = ids.with(id, 255 - id);
        map = map.with(id, if id % 2 == 0 { Kind::Mid } else { Kind::Rid });
    }
    for id in 1..=255u8 {
        assert_eq!(ids.get(id), Some(255 - id).filter(|new| *new != 0));
        assert_eq!(
            map.get(id),
            Some(if id % 2 == 0 { Kind::Mid } else { Kind::Rid })
        );
    }
    assert_eq!((ids.get(0), map.get(0)), (None, None));
    assert_eq!(
        (
            map.id_of(Kind::Mid),
            map.id_of(Kind::Rid),
            map.id_of(Kind::Layers)
        ),
        (Some(2), Some(1), None)
    );
    assert_eq!(map.set(0, Some(Kind::Mid)), Err(rtp_wire::BadId));
    assert_eq!(
        (map.set(2, None), map.get(2), map.id_of(Kind::Mid)),
        (Ok(()), None, Some(4))
    );
    let shown = format!(
        "{:?} {:?}",
        NewIds::new().with(3, 4),
        Map::new().with(5, Kind::Mid)
    );
    assert_eq!(shown, "{3: 4} {5: Mid}");
    // An id of a kind keeps itself where the map hasn't both kinds of stream id.
    let one = NewIds::to_retransmission(&Map::new().with(3, Kind::Rid));
    assert!((1..=255).all(|id| one.get(id) == Some(id)) && one.get(0).is_none());
    let both = Map::new()
        .with(3, Kind::Rid)
        .with(9, Kind::RepairedRid)
        .with(7, Kind::RepairedRid);
    let (there, back) = (
        NewIds::to_retransmission(&both),
        NewIds::from_retransmission(&both),
    );
    for (id, new, old) in [
        (3, Some(7), None),
        (7, None, Some(3)),
        (9, None, Some(3)),
        (4, Some(4), Some(4)),
    ] {
        assert_eq!((there.get(id), back.get(id)), (new, old), "{id}");
    }
    let different: HashSet<_> = [Map::new(), both, map].into_iter().collect();
    assert_eq!(different.len(), 3);
}

#[test]
fn a_change_that_is_refused_leaves_all() {
    let mut datagram = SAMPLE;
    let mut packet = PacketMut::parse(&mut datagram).unwrap();
    assert_eq!(
        packet.set_payload_type(128),
        Err(NotChanged::BadPayloadType)
    );
    let fields = Fields {
        ssrc: Some(1),
        payload_type: Some(128),
        ..Fields::default()
    };
    assert_eq!(packet.set_fields(&fields), Err(NotChanged::BadPayloadType));
    assert_eq!(packet.set_element(1, &[]), Err(NotChanged::NoElement));
    assert_eq!(
        packet.renumber(&NewIds::new().with(1, 15)),
        Err(NotChanged::BadNewId)
    );
    assert_eq!(packet.as_packet().datagram(), SAMPLE);
    packet.set_padding(false);
    packet.set_marker(false);
    packet.set_timestamp(0x0102_0304);
    packet.set_sequence_number(0x0506);
    assert_eq!(packet.set_csrc(1, 0x0708_090A), Ok(()));
    assert_eq!(packet.remove_padding(), Ok(37)); // which P doesn't say any more
    let wanted = [
        0x92, 0x21, 5, 6, 1, 2, 3, 4, 0, 0, 0, 0x2C, 0, 0, 0, 1, 7, 8, 9, 10,
    ];
    let datagram = packet.into_datagram();
    assert_eq!(
        (&datagram[..20], &datagram[20..]),
        (&wanted[..], &SAMPLE[20..])
    );
    datagram[36] = 6;
    datagram[0] |= 0x20;
    let mut packet = PacketMut::parse(datagram).unwrap();
    assert_eq!(packet.remove_padding(), Err(NotChanged::BadPadding));
    assert!(packet.as_packet().has_padding() && packet.as_packet().unpadded_payload().is_none());
}

#[test]
fn long_buffers_are_not_cut() {
    // 4 + 65,540 bytes of a block, and 70,000 of payload
    let mut buf = vec![0; 135_558];
    buf[..16].copy_from_slice(&[0x90, 96, 0, 5, 0, 0, 0, 1, 0, 0, 0, 7, 0xBE, 0xDE, 0x40, 1]);
    buf[65_552..65_555].copy_from_slice(&[0x61, 8, 9]);
    let packet = Packet::parse(&buf[..135_556]).unwrap();
    let lens = (packet.header_len(), packet.payload().len());
    assert_eq!(lens, (65_556, 70_000));
    assert_eq!(packet.unpadded_payload().map(<[u8]>::len), Some(70_000));
    assert_eq!(packet.element(6), Some(&[8, 9][..]));
    let mut places = packet.elements().places();
    assert_eq!(places.next().map(|it| it.data()), Some(65_537..65_539));
    assert_eq!(packet.values(&every_kind()).transport_number, Some(0x0809));
    let header = Header::parse(&buf, &every_kind()).unwrap();
    assert_eq!(header.header_len(), 65_556);
    assert_eq!(header.values.transport_number, Some(0x0809));
    let ids = NewIds::new().with(6, 3);
    let sent = to_retransmission(&mut buf, 135_556, 9, 97, 0xFFFE, &ids);
    assert_eq!((sent, &buf[2..4]), (Ok(135_558), &[0xFF, 0xFE][..]));
    let back = from_retransmission(&mut buf, 135_558, 7, 96, &NewIds::new().with(3, 2));
    assert_eq!(back, Ok(135_556));
    assert_eq!(compact(&mut buf), Ok(20 + 70_002));
    assert_eq!(
        put_element(&mut buf, 70_022, 45, &[7; 255], None),
        Ok(16 + 264 + 70_002)
    );
}

#[test]
fn a_change_leaves_what_stands_beside_it() {
    for second in 0..=255 {
        for has_padding in [false, true] {
            let mut datagram = SAMPLE;
            datagram[1] = second;
            let mut packet = PacketMut::parse(&mut datagram).unwrap();
            packet.set_padding(has_padding);
            assert_eq!(packet.as_packet().has_padding(), has_padding);
            packet.set_marker(has_padding);
            let packet = packet.as_packet();
            assert_eq!(
                (packet.marker(), packet.payload_type()),
                (has_padding, second & 127)
            );
            let shown = format!("{packet:?}");
            assert!(
                shown.contains(&format!("payload_type: {}, ", second & 127)),
                "{shown}"
            );
            assert!(
                shown.ends_with("header_len: 32, payload_len: 5, .. }"),
                "{shown}"
            );
        }
    }
}

/// Each bit of each number is written and read.
#[test]
fn no_bit_is_lost() {
    let mut packet = [&[0x80][..], &[0; 11]].concat();
    for bit in 0..32 {
        let number = 1_u32 << bit;
        let fields = Fields {
            ssrc: Some(number),
            timestamp: Some(!number),
            sequence_number: Some(number as u16),
            payload_type: Some(number as u8 & 127),
            marker: Some(bit % 2 == 0),
        };
        let mut changed = PacketMut::parse(&mut packet).unwrap();
        assert_eq!(changed.set_fields(&fields), Ok(()));
        let mut header = Header::default();
        header.ssrc = number;
        header.timestamp = !number;
        header.sequence_number = number as u16;
        header.payload_type = number as u8 & 127;
        header.marker = bit % 2 == 0;
        let mut buf = [0; 12];
        assert_eq!(header.write_to(&mut buf, &Map::new()), Ok(12));
        assert_eq!(buf, packet[..]);
        let read = Packet::parse(&buf).unwrap();
        assert_eq!((read.ssrc(), read.timestamp()), (number, !number));
        assert_eq!(read.sequence_number(), number as u16);
        let header = Header::parse(&buf, &Map::new()).unwrap();
        assert_eq!((header.ssrc, header.timestamp), (number, !number));
        for part in 0..4 {
            let mut one = PacketMut::parse(&mut packet).unwrap();
            match part {
                0 => one.set_ssrc(!number),
                1 => one.set_timestamp(number),
                2 => one.set_sequence_number(!(number as u16)),
                _ => one.set_marker(bit % 2 != 0),
            }
        }
        let read = Packet::parse(&packet).unwrap();
        assert_eq!((read.ssrc(), read.timestamp()), (!number, number));
        assert_eq!(read.sequence_number(), !(number as u16));
        assert_eq!(
            (read.marker(), read.payload_type()),
            (bit % 2 != 0, number as u8 & 127)
        );
    }
    for bit in 0..64 {
        let (word, half, number) = (
            1_u32.wrapping_shl(bit),
            1_u16.wrapping_shl(bit),
            1_u64 << bit,
        );
        let mut values = Values::default();
        values.capture_time = Some(number);
        values.capture_offset = Some(i64::from_ne_bytes((!number).to_ne_bytes()));
        values.transmission_offset = Some(word);
        values.frame_marking = Some(!word);
        values.transport_number = Some(half);
        values.video_content_type = Some(half as u8);
        values.audio_level = Some(-i8::try_from(number & 127).unwrap());
        values.voice_activity = Some(bit % 2 == 0);
        values.video_timing = Some(VideoTiming {
            flags: !(half as u8),
            encode_start: half,
            encode_finish: half.rotate_left(1),
            packetize_complete: half.rotate_left(2),
            last_left_pacer: half.rotate_left(3),
        });
        let mut header = Header::default();
        header.has_extension = true;
        header.values = values;
        let mut buf = [0; 100];
        let len = header.write_to(&mut buf, &every_kind()).unwrap();
        let read = Header::parse(&buf[..len], &every_kind()).unwrap().values;
        assert_eq!(read, values, "{bit}");
        assert_eq!(
            Packet::parse(&buf[..len]).unwrap().values(&every_kind()),
            values,
            "{bit}"
        );
    }
}
