//! Maps, and headers that are read and written. Expected values are worked out by hand from RFC 3550, 5.1,
//! RFC 8285 and the documents of the extensions.

use std::time::Duration;

use rtp_wire::{
    write_elements, BadId, Form, Header, Kind, Layers, Map, NewIds, NotAHeader, NotAPacket,
    NotChanged, NotWritten, Packet, PacketMut, Place, Resolution, Values, VideoTiming,
};

const MAP: Map = Map::new()
    .with(1, Kind::Mid)
    .with(2, Kind::PlayoutDelay)
    .with(3, Kind::VideoTiming)
    .with(4, Kind::Rid)
    .with(5, Kind::Layers);

/// V=2, X, CC=1; M, PT=33; 47,000; 10,000; 44; the source 9; a block of nine words in the two-byte form:
/// 1 "video", 2 (10 ms to 4,095 hundredths), 3 (flags 2; 1, 2, 3, 4; four bytes more), 4 ""; the payload 7.
const SAMPLE: [u8; 57] = [
    0x91, 0xA1, 0xB7, 0x98, 0, 0, 0x27, 0x10, 0, 0, 0, 0x2C, 0, 0, 0, 9, 0x10, 0, 0, 9, 1, 5, b'v',
    b'i', b'd', b'e', b'o', 2, 3, 0x00, 0x1F, 0xFF, 3, 13, 2, 0, 1, 0, 2, 0, 3, 0, 4, 0, 0, 0, 0,
    4, 0, 0, 0, 0, 0, 0, 0, 0, 7,
];

fn values() -> Values {
    let mut values = Values::default();
    values.mid = Some("video".parse().unwrap());
    values.playout_delay_min = Some(Duration::from_millis(10));
    values.playout_delay_max = Some(Duration::from_millis(40_950));
    values.video_timing = Some(VideoTiming {
        flags: 2,
        encode_start: 1,
        encode_finish: 2,
        packetize_complete: 3,
        last_left_pacer: 4,
    });
    values.rid = Some("".parse().unwrap());
    values
}

fn crosses_threads<T: Send + Sync + 'static>(_: &T) {}

#[test]
fn types_cross_threads() {
    crosses_threads(&Header::default());
    crosses_threads(&NewIds::new());
    crosses_threads(&NotAHeader::UnknownForm);
    crosses_threads(&NotWritten::BadField);
    crosses_threads(&Place::new(1, 0..0));
}

#[test]
fn a_header_is_read() {
    let (header, layers) = Header::parse_with_layers(&SAMPLE, &MAP).unwrap();
    assert_eq!(layers, None);
    assert_eq!(Header::parse(&SAMPLE, &MAP), Ok(header));
    assert!(header.marker && header.has_extension && !header.has_padding);
    assert_eq!(header.payload_type, 33);
    assert_eq!(header.sequence_number, 47_000);
    assert_eq!(header.timestamp, 10_000);
    assert_eq!(header.ssrc, 44);
    assert_eq!(header.csrcs(), [9]);
    assert_eq!(header.header_len(), 56);
    assert_eq!(header.values, values());
    assert_eq!(Packet::parse(&SAMPLE).unwrap().values(&MAP), values());

    let cause = Header::parse(&SAMPLE[..55], &MAP).unwrap_err();
    assert_eq!(cause, NotAHeader::NotAPacket(NotAPacket::CutBlock));
    assert_eq!(cause.to_string(), "no RTP packet");
}

#[test]
fn a_header_is_written() {
    let mut header = Header::default();
    assert_eq!(header.wire_len(&MAP), Ok(12));
    header.marker = true;
    header.payload_type = 33;
    header.sequence_number = 47_000;
    header.timestamp = 10_000;
    header.ssrc = 44;
    header.has_extension = true;
    header.values = values();
    assert_eq!(header.set_csrcs(&[9]), Ok(()));
    assert_eq!(header.set_csrcs(&[1; 16]), Err(NotChanged::TooManySources));

    // the mid takes 7 bytes, the delay 5, the timing 15, the rid 2 and the padding 3
    let mut buf = [0xEE; 60];
    assert_eq!(header.wire_len(&MAP), Ok(52));
    assert_eq!(header.write_to(&mut buf, &MAP), Ok(52));
    assert_eq!(buf[..18], SAMPLE[..18]);
    assert_eq!(buf[18..20], [0, 8]);
    assert_eq!(buf[20..49], SAMPLE[20..49]);
    assert_eq!(
        buf[49..],
        [0, 0, 0, 0xEE, 0xEE, 0xEE, 0xEE, 0xEE, 0xEE, 0xEE, 0xEE]
    );
    let read = Header::parse(&buf, &MAP).unwrap();
    assert_eq!((read.values, read.header_len()), (values(), 52));

    let mut same = [0xEE; 51];
    assert_eq!(
        header.write_to(&mut same, &MAP),
        Err(NotWritten::ShortBuffer)
    );
    header.values.video_orientation = Some(91);
    assert_eq!(header.write_to(&mut same, &MAP), Err(NotWritten::BadField));
    header.values.video_orientation = None;
    header.payload_type = 128;
    assert_eq!(header.wire_len(&MAP), Err(NotWritten::BadField));
    assert_eq!(same, [0xEE; 51]);
}

#[test]
fn layers_are_read() {
    // the second of two streams; both have the layer 0, of 5 and of 300 kbit/s; the first is 640 * 360, 30
    let datagram = [
        0x90, 0, 0, 1, 0, 0, 0, 2, 0, 0, 0, 3, 0x10, 0, 0, 3, 5, 10, 0x51, 0x00, 5, 0xAC, 2, 2,
        127, 1, 103, 30,
    ];
    let (header, layers) = Header::parse_with_layers(&datagram, &MAP).unwrap();
    assert_eq!(header.values, Values::default());
    let layers = layers.unwrap();
    assert_eq!(layers.current(), 1);
    assert_eq!(layers.streams().len(), 2);
    let [first] = layers.streams()[0].layers() else {
        panic!("one layer");
    };
    assert_eq!(first.kbps(), [5]);
    let resolution = Resolution {
        width: 640,
        height: 360,
        framerate: 30,
    };
    assert_eq!(first.resolution(), Some(resolution));
    let [second] = layers.streams()[1].layers() else {
        panic!("one layer");
    };
    assert_eq!((second.kbps(), second.resolution()), (&[300][..], None));
}

#[test]
fn maps_are_filled() {
    let mut map = Map::new();
    assert_eq!(map.set(0, Some(Kind::Mid)), Err(BadId));
    assert_eq!(map.set(200, Some(Kind::Mid)), Ok(()));
    assert_eq!(map.get(200), Some(Kind::Mid));
    assert_eq!(map.set(200, None), Ok(()));
    assert_eq!(map, Map::new());
    assert_eq!(BadId.to_string(), "the id 0 is padding");

    let standard = [
        (1, Kind::AudioLevel),
        (2, Kind::AbsSendTime),
        (3, Kind::TransportNumber),
        (4, Kind::Mid),
        (10, Kind::Rid),
        (11, Kind::RepairedRid),
        (13, Kind::VideoOrientation),
    ];
    let expected = standard
        .into_iter()
        .fold(Map::new(), |map, (id, kind)| map.with(id, kind));
    assert_eq!(Map::standard(), expected);

    assert_eq!(Kind::from_uri("URN:ietf:params:rtp-hdrext:toffset"), None);
    assert_eq!(Kind::from_uri(""), None);
}

#[test]
fn packets_are_renumbered() {
    let from = Map::new().with(1, Kind::Mid).with(2, Kind::AudioLevel);
    let to = Map::new().with(14, Kind::AudioLevel);
    let ids = NewIds::between(&from, &to);
    assert_eq!(format!("{ids:?}"), "{2: 14}");
    assert_eq!(ids, NewIds::new().with(2, 14).with(0, 9));
    let mut datagram = [
        0x90, 0, 0, 1, 0, 0, 0, 2, 0, 0, 0, 3, 0xBE, 0xDE, 0, 1, 0x10, b'1', 0x20, 0x8A,
    ];
    let mut packet = PacketMut::parse(&mut datagram).unwrap();
    assert_eq!(
        packet.renumber(&NewIds::new().with(1, 1).with(2, 15)),
        Err(NotChanged::BadNewId)
    );
    assert_eq!(packet.renumber(&ids), Ok(()));
    assert_eq!(packet.into_datagram()[16..], [0, 0, 0xE0, 0x8A]);
}

#[test]
fn elements_are_written_in_one_form() {
    let data = [0xAA, 0xBB, 0xCC];
    let places = [Place::new(1, 0..1), Place::new(14, 1..3)];
    let mut buf = [0xEE; 25];
    let mut write = |room, places: &[Place], allowed| {
        let written = Header::default().write_with(&mut buf[..room], &data, places, allowed);
        (written, buf)
    };
    let short = (Err(NotWritten::ShortBuffer), [0xEE; 25]);
    for form in [Form::OneByte, Form::TwoByte] {
        assert_eq!(write(23, &places, Some(form)), short);
    }
    let above = [places[0], places[1].with_id(15)];
    let empty = [places[0], Place::new(14, 1..1)];
    for places in [above, empty] {
        let refused = (Err(NotWritten::BadField), [0xEE; 25]);
        assert_eq!(write(25, &places, Some(Form::OneByte)), refused);
    }
    let (written, bytes) = write(24, &places, Some(Form::TwoByte));
    assert_eq!(written, Ok(24));
    let block = [0x10, 0, 0, 2, 1, 1, 0xAA, 14, 2, 0xBB, 0xCC, 0, 0xEE];
    assert_eq!(bytes[12..], block);
    let (written, bytes) = write(24, &places, Some(Form::OneByte));
    assert_eq!(written, Ok(24));
    let block = [
        0xBE, 0xDE, 0, 2, 0x10, 0xAA, 0xE1, 0xBB, 0xCC, 0, 0, 0, 0xEE,
    ];
    assert_eq!(bytes[12..], block);
    assert_eq!(write(25, &above, None).0, Ok(24));
}

#[test]
fn elements_are_written() {
    let packet = Packet::parse(&SAMPLE).unwrap();
    let (_, body) = packet.block().unwrap();
    let places: Vec<Place> = packet.elements().places().collect();
    assert_eq!(places.len(), 4);
    assert_eq!((places[1].id(), places[1].data()), (2, 9..12));
    assert_eq!(places[1], Place::new(2, 9..12));

    let mut buf = [0xEE; 6];
    let chosen = [places[1].with_id(14)];
    assert_eq!(
        write_elements(&mut buf, Form::OneByte, body, &chosen),
        Ok(4)
    );
    assert_eq!(buf, [0xE2, 0x00, 0x1F, 0xFF, 0xEE, 0xEE]);
    let mut write = |form, data: &[u8], place| write_elements(&mut buf, form, data, &[place]);
    let place = Place::new(1, 0..0);
    assert_eq!(write(Form::OneByte, &[], place), Err(NotWritten::BadField));
    assert_eq!(
        write(Form::TwoByte, &[], place.with_id(0)),
        Err(NotWritten::BadField)
    );
    assert_eq!(
        write(Form::TwoByte, &[1], Place::new(1, 0..2)),
        Err(NotWritten::BadField)
    );
    assert_eq!(
        write(Form::TwoByte, &[1; 9], Place::new(1, 0..9)),
        Err(NotWritten::ShortBuffer)
    );
    assert_eq!(write(Form::TwoByte, &[], place), Ok(2));
    assert_eq!(buf, [1, 0, 0x1F, 0xFF, 0xEE, 0xEE]);
    assert_eq!(NotWritten::ShortBuffer.to_string(), "a buffer is too short");
}

/// A level without voice, one of two delays, and a mid that isn't mapped.
#[test]
fn what_is_left_out_is_told_or_refused() {
    let map = Map::new()
        .with(1, Kind::AudioLevel)
        .with(2, Kind::PlayoutDelay)
        .with(200, Kind::VideoOrientation);
    let mut values = Values::default();
    values.audio_level = Some(-42);
    values.playout_delay_max = Some(Duration::from_millis(50));
    values.mid = Some("a".parse().unwrap());
    values.video_orientation = Some(90);
    let mut header = Header::with_values(values);
    assert!(header.has_extension);
    let kinds = header.left_out(&map).unwrap();
    let due = [Kind::AudioLevel, Kind::PlayoutDelay, Kind::Mid];
    assert!(kinds.iter().eq(due));
    assert!(kinds.contains(Kind::Mid) && !kinds.contains(Kind::VideoOrientation));
    assert!(!kinds.contains(Kind::own(131).unwrap()));
    assert_eq!(format!("{kinds:?}"), "{AudioLevel, PlayoutDelay, Mid}");
    let mut buf = [0xEE; 40];
    assert_eq!(
        header.write_all(&mut buf, &map),
        Err(NotWritten::LeftOut(kinds))
    );
    assert_eq!(
        header.write_all(&mut [], &map).unwrap_err().to_string(),
        "values that no element carries: {AudioLevel, PlayoutDelay, Mid}"
    );
    assert_eq!(buf, [0xEE; 40]);
    assert_eq!(header.write_to(&mut buf, &map), Ok(20)); // 200 with one byte

    header.values = Values::default();
    header.values.video_orientation = Some(90);
    assert!(header.left_out(&map).unwrap().is_empty());
    assert_eq!(header.write_all(&mut buf, &map), Ok(20));
    assert_eq!(buf[12..20], [0x10, 0, 0, 1, 200, 1, 3, 0]);
    assert_eq!(
        header.write_all(&mut [0; 19], &map),
        Err(NotWritten::ShortBuffer)
    );
    header.has_extension = false;
    assert!(header
        .left_out(&map)
        .unwrap()
        .iter()
        .eq([Kind::VideoOrientation]));
    header.payload_type = 128;
    assert_eq!(header.left_out(&map), Err(NotWritten::BadField));
    assert_eq!(header.write_all(&mut buf, &map), Err(NotWritten::BadField));
    assert!(!Header::with_values(Values::default()).has_extension);
}

#[test]
fn layers_are_left_out_without_an_id() {
    let layers = Layers::new(0, &[]).unwrap();
    let mut header = Header::default();
    header.has_extension = true;
    let left = header.left_out_with_layers(&Map::standard(), &layers);
    assert!(left.unwrap().iter().eq([Kind::Layers]));
    let mut buf = [0; 24];
    let refused = header.write_all_with_layers(&mut buf, &Map::standard(), &layers);
    assert_eq!(refused, Err(NotWritten::LeftOut(left.unwrap())));
    assert_eq!(
        header.write_all_with_layers(&mut buf, &MAP, &layers),
        Ok(20)
    );
    assert_eq!(buf[12..20], [0x10, 0, 0, 1, 5, 1, 0, 0]);
}

#[test]
fn each_kind_has_its_uri() {
    let map = Map::standard();
    for id in [1, 2, 3, 4, 10, 11, 13] {
        let kind = map.get(id).unwrap();
        assert_eq!(Kind::from_uri(&kind.uri().unwrap()), Some(kind));
    }
    let uri = Kind::TransportNumber.uri().unwrap();
    let text = "http://www.ietf.org/id/draft-holmer-rmcat-transport-wide-cc-extensions-01";
    assert_eq!((uri.as_str(), uri.len()), (text, 73));
    assert_eq!(format!("{uri} {uri:?}"), format!("{text} {text:?}"));
    assert_eq!(Kind::own(255).unwrap().uri(), None);
}
