//! Elements as their standards have them. Expected values are worked out by hand from these, and each slice that the
//! library is given ends at a page that may not be touched.

mod guarded;

use std::error::Error;

use guarded::at_end;
use rtp_wire::standard::{
    extend_ntp_56, has_dependency_structure, ntp_56_bytes, ntp_64_bytes, parse_mixer_level,
    parse_ntp_56, parse_ntp_64, parse_token, parse_transmission_offset, transmission_offset_bytes,
    write_mixer_levels, Camera, ChromaSiting, Chromaticity, ColorRange, ColorSpace,
    DependencyDescriptor, FeedbackRequest, FrameLayers, FrameMarking, HdrMetadata, Orientation,
    Timing, TransportNumber, Turn, MOST_DATA,
};
use rtp_wire::{put_element, Kind, Map, NotAValue, NotWritten, OutOfRange, Packet};

/// The value is read of these data, and written as them, into just as much room and into more; one byte fewer is too
/// short.
macro_rules! is {
    ($it:ident $fields:tt, $data:expr) => {
        let (value, data): ($it, &[u8]) = ($it $fields, &$data);
        assert_eq!($it::parse(at_end(data)), Ok(value));
        assert_eq!($it::try_from(&*at_end(data)), Ok(value));
        let buf = at_end(&vec![0xEE; data.len()]);
        assert_eq!(value.write_to(buf), Ok(data.len()));
        assert_eq!(buf, data);
        let mut buf = [0xEE; MOST_DATA + 1];
        assert_eq!(value.write_to(&mut buf), Ok(data.len()));
        assert_eq!(buf[..data.len()], *data);
        assert!(buf[data.len()..].iter().all(|byte| *byte == 0xEE));
        let short = at_end(&vec![0xEE; data.len() - 1]);
        assert_eq!(value.write_to(short), Err(NotWritten::ShortBuffer));
        assert!(short.iter().all(|byte| *byte == 0xEE));
    };
}

/// A field is out of its range, whatever the room is, and nothing is written.
fn is_refused(
    write: impl Fn(&mut [u8]) -> Result<usize, NotWritten>,
    field: &'static str,
    value: i32,
    least: i32,
    most: i32,
) {
    let wrong = OutOfRange {
        field,
        value,
        least,
        most,
    };
    for room in [0, 1, 40] {
        let buf = at_end(&vec![0xEE; room]);
        let error = write(buf).unwrap_err();
        assert_eq!(error, NotWritten::OutOfRange(wrong));
        assert_eq!(
            error.to_string(),
            format!("{field} is {value}, and not {least} to {most}")
        );
        assert_eq!(wrong.to_string(), error.to_string());
        assert!(error.source().is_none());
        assert!(buf.iter().all(|byte| *byte == 0xEE));
    }
}

/// Data of other lengths than these are none.
fn are_of<T: std::fmt::Debug + PartialEq>(
    parse: impl Fn(&[u8]) -> Result<T, NotAValue>,
    lengths: &[usize],
) {
    for len in (0..40).chain([255, 256, 1000]) {
        let read = parse(at_end(&vec![0; len]));
        assert_eq!(read.is_ok(), lengths.contains(&len), "{len}");
        if let Err(error) = read {
            assert_eq!(
                error.to_string(),
                "data that are not well-formed for the value"
            );
        }
    }
}

#[test]
fn transmission_offsets_have_a_sign() {
    // RFC 5450, 3
    for (data, ticks) in [
        ([0, 0, 0], 0),
        ([0, 0, 1], 1),
        ([0xFF, 0xFF, 0xFE], -2),
        ([1, 2, 3], 66_051),
        ([0xFE, 0xFD, 0xFD], -66_051),
        ([0x7F, 0xFF, 0xFF], 8_388_607),
        ([0x80, 0, 0], -8_388_608),
    ] {
        assert_eq!(parse_transmission_offset(at_end(&data)), Ok(ticks));
        assert_eq!(transmission_offset_bytes(ticks), Ok(data));
    }
    for value in [8_388_608, -8_388_609, i32::MAX, i32::MIN, 1 << 24] {
        let (field, least, most) = ("the transmission offset", -8_388_608, 8_388_607);
        assert_eq!(
            transmission_offset_bytes(value),
            Err(OutOfRange {
                field,
                value,
                least,
                most
            })
        );
    }
    are_of(parse_transmission_offset, &[3]);
}

#[test]
fn markings_have_one_to_three_bytes() {
    // RFC 9626, 3: S E I D B TID, then LID, then TL0PICIDX
    let flags = |start, end, independent, discardable| FrameMarking {
        start,
        end,
        independent,
        discardable,
        layers: None,
    };
    for (marking, byte) in [
        (flags(true, false, false, false), 0x80),
        (flags(false, true, false, false), 0x40),
        (flags(false, false, true, false), 0x20),
        (flags(false, false, false, true), 0x10),
        (FrameMarking::default(), 0),
    ] {
        is!(FrameMarking { ..marking }, [byte]);
        // without layers the low four bits aren't looked at
        assert_eq!(FrameMarking::parse(&[byte | 0x0F]), Ok(marking));
    }
    let layers = |base_layer_sync, temporal_id, layer_id, tl0_pic_idx| {
        Some(FrameLayers {
            base_layer_sync,
            temporal_id,
            layer_id,
            tl0_pic_idx,
        })
    };
    for (marking, layers, data) in [
        (
            flags(false, false, false, false),
            layers(true, 0, 0, None),
            &[0x08, 0][..],
        ),
        (
            flags(true, false, true, false),
            layers(true, 1, 2, Some(7)),
            &[0xA9, 2, 7],
        ),
        (
            flags(false, true, false, true),
            layers(false, 7, 254, None),
            &[0x57, 0xFE],
        ),
        (
            flags(true, true, true, true),
            layers(false, 4, 0, Some(0)),
            &[0xF4, 0, 0],
        ),
    ] {
        is!(FrameMarking { layers, ..marking }, *data);
    }
    for temporal_id in [8, 255] {
        let marking = FrameMarking {
            layers: layers(false, temporal_id, 0, None),
            ..FrameMarking::default()
        };
        is_refused(
            |buf| marking.write_to(buf),
            "temporal_id",
            temporal_id.into(),
            0,
            7,
        );
    }
    are_of(FrameMarking::parse, &[1, 2, 3]);
}

#[test]
fn orientations_have_a_camera_and_a_flip() {
    // 3GPP TS 26.114, 7.4.5: 0 0 0 0 C F R1 R0, and 01 is to be turned by 90 degrees clockwise
    for (camera, flip, degrees, byte) in [
        (Camera::Front, false, 0, 0x00),
        (Camera::Front, false, 270, 0x01),
        (Camera::Front, false, 180, 0x02),
        (Camera::Front, false, 90, 0x03),
        (Camera::Front, true, 0, 0x04),
        (Camera::Back, false, 0, 0x08),
        (Camera::Back, true, 270, 0x0D),
        (Camera::Back, false, 90, 0x0B),
    ] {
        let turn = Turn::by(degrees).unwrap();
        assert_eq!(turn.degrees(), degrees);
        is!(Orientation { camera, flip, turn }, [byte]);
        let high = Orientation::parse(&[byte | 0xF0]);
        assert_eq!(high, Ok(Orientation { camera, flip, turn }));
    }
    let turns = [Turn::Deg0, Turn::Deg90, Turn::Deg180, Turn::Deg270];
    assert_eq!(turns.map(Turn::degrees), [0, 90, 180, 270]);
    for degrees in [1, 45, 91, 269, 271, 360, 65_535] {
        assert_eq!(Turn::by(degrees), None);
    }
    assert_eq!(Orientation::default().turn, Turn::Deg0);
    are_of(Orientation::parse, &[1]);
}

#[test]
fn timings_have_flags_or_none() {
    for (flags, first) in [(Some(0x81), &[0x81][..]), (Some(0), &[0]), (None, &[])] {
        let data = [first, &[0xF1, 2, 3, 4, 5, 6, 7, 8, 9, 10, 11, 12]].concat();
        is!(
            Timing {
                flags,
                encode_start: 0xF102,
                encode_finish: 0x0304,
                packetize_complete: 0x0506,
                last_left_pacer: 0x0708,
                network: 0x090A,
                network2: 0x0B0C,
            },
            data[..]
        );
    }
    are_of(Timing::parse, &[12, 13]);
}

#[test]
fn transport_numbers_have_a_request_or_none() {
    // transport-wide-cc-02: a number, then a bit for the times and 15 bits that count packets
    for (number, request, data) in [
        (0x1234, None, &[0x12, 0x34][..]),
        (0xFEDC, Some((false, 1)), &[0xFE, 0xDC, 0, 1]),
        (0x1234, Some((true, 5)), &[0x12, 0x34, 0x80, 5]),
        (7, Some((true, 32_767)), &[0, 7, 0xFF, 0xFF]),
        (7, Some((false, 32_766)), &[0, 7, 0x7F, 0xFE]),
        // asked for on no packet, which the bits can say
        (8, Some((false, 0)), &[0, 8, 0, 0]),
        (9, Some((true, 0)), &[0, 9, 0x80, 0]),
    ] {
        let request = request.map(|(timestamps, packets)| FeedbackRequest {
            timestamps,
            packets,
        });
        is!(TransportNumber { number, request }, *data);
    }
    for packets in [32_768, 65_535] {
        let number = TransportNumber {
            number: 1,
            request: Some(FeedbackRequest {
                timestamps: false,
                packets,
            }),
        };
        is_refused(
            |buf| number.write_to(buf),
            "packets",
            packets.into(),
            0,
            32_767,
        );
    }
    are_of(TransportNumber::parse, &[2, 4]);
}

#[test]
fn a_mixer_tells_a_level_for_each_source() {
    // RFC 6465, 4: the high bit isn't looked at
    let data = [0x7F, 0x0A, 0x00, 0x8B];
    for (index, level) in [-127, -10, 0, -11].into_iter().enumerate() {
        for count in [index + 1, 15, usize::MAX] {
            assert_eq!(parse_mixer_level(at_end(&data), count, index), Ok(level));
            let cut = at_end(&data[..index]);
            assert_eq!(parse_mixer_level(cut, count, index), Err(NotAValue));
        }
        assert_eq!(parse_mixer_level(&data, index, index), Err(NotAValue));
    }
    for (count, index) in [(usize::MAX, 4), (usize::MAX, usize::MAX - 1), (0, 0)] {
        assert_eq!(parse_mixer_level(&data, count, index), Err(NotAValue));
    }
    for (levels, written) in [
        (&[][..], &[][..]),
        (&[-127, -10, 0, -11], &[0x7F, 0x0A, 0, 0x0B]),
        (&[0, -1, -2, -64, -126], &[0, 1, 2, 64, 126]),
    ] {
        let buf = at_end(&vec![0xEE; written.len()]);
        assert_eq!(write_mixer_levels(at_end(levels), buf), Ok(written.len()));
        assert_eq!(buf, written);
        let mut buf = [0xEE; 9];
        assert_eq!(write_mixer_levels(levels, &mut buf), Ok(written.len()));
        assert!(buf[written.len()..].iter().all(|byte| *byte == 0xEE));
        if let Some(room) = written.len().checked_sub(1) {
            let short = at_end(&vec![0xEE; room]);
            assert_eq!(
                write_mixer_levels(levels, short),
                Err(NotWritten::ShortBuffer)
            );
            assert!(short.iter().all(|byte| *byte == 0xEE));
        }
    }
    for level in [1, 127, -128] {
        let levels = [0, -3, level];
        is_refused(
            |buf| write_mixer_levels(&levels, buf),
            "a level",
            level.into(),
            -127,
            0,
        );
    }
}

#[test]
fn ntp_times_have_64_bits_or_the_low_56() {
    // RFC 6051, 3.3
    let whole = [0x81, 0x82, 0x83, 0x84, 0x85, 0x86, 0x87, 0x88];
    let (time, low) = (0x8182_8384_8586_8788, 0x0082_8384_8586_8788);
    assert_eq!(parse_ntp_64(at_end(&whole)), Ok(time));
    assert_eq!(parse_ntp_56(at_end(&whole[1..])), Ok(low));
    assert_eq!(ntp_64_bytes(time), whole);
    assert_eq!(ntp_56_bytes(time)[..], whole[1..]);
    assert_eq!(ntp_56_bytes(low)[..], whole[1..]);
    are_of(parse_ntp_64, &[8]);
    are_of(parse_ntp_56, &[7]);

    let (half, all) = (1 << 55, 1 << 56);
    for (near, low, time) in [
        (0x00FF_FFFF_8000_0000, 0x8000_0000, 0x0100_0000_8000_0000),
        (
            0x0100_0000_8000_0000,
            0x00FF_FFFF_8000_0000,
            0x00FF_FFFF_8000_0000,
        ),
        (5, 7, 7),
        (7, 5, 5),
        (7, 5 + 3 * all, 5), // only the low 56 bits
        (3 * all, half - 1, 3 * all + half - 1),
        (3 * all, half, 3 * all + half), // equally near: the later one
        (3 * all, half + 1, 2 * all + half + 1),
        (0, half + 1, u64::MAX - half + 2), // modulo 2^64
        (u64::MAX, 1, 1),
    ] {
        assert_eq!(extend_ntp_56(near, low), time, "{near:#x} {low:#x}");
    }
}

#[test]
fn color_spaces_have_metadata_or_none() {
    for (range, horizontal, vertical, byte) in [
        (
            ColorRange::Full,
            ChromaSiting::Collocated,
            ChromaSiting::Unspecified,
            0x24,
        ),
        (
            ColorRange::Limited,
            ChromaSiting::Half,
            ChromaSiting::Collocated,
            0x19,
        ),
        (
            ColorRange::Derived,
            ChromaSiting::Unspecified,
            ChromaSiting::Half,
            0x32,
        ),
        (
            ColorRange::Unknown,
            ChromaSiting::Unspecified,
            ChromaSiting::Unspecified,
            0x00,
        ),
    ] {
        let point = |x, y| Chromaticity { x, y };
        let metadata = HdrMetadata {
            luminance_max: 0x0102,
            luminance_min: 0x0304,
            red: point(0x0506, 0x0708),
            green: point(0x090A, 0x0B0C),
            blue: point(0x0D0E, 0x0F10),
            white: point(0x1112, 0x1314),
            max_content_light_level: 0x1516,
            max_frame_average_light_level: 0x1718,
        };
        let numbers: Vec<u8> = (1..=24).collect();
        for (hdr, rest) in [(None, &[][..]), (Some(metadata), &numbers)] {
            let space = ColorSpace {
                primaries: 9,
                transfer: 16,
                matrix: 255,
                range,
                horizontal,
                vertical,
                hdr,
            };
            let mut data = [&[9, 16, 255, byte], rest].concat();
            is!(ColorSpace { ..space }, data[..]);
            data[3] |= 0xC0;
            assert_eq!(ColorSpace::parse(&data), Ok(space));
        }
    }
    for sampling in [0x03, 0x0C, 0x0F, 0x1D, 0x37] {
        for len in [4, 28] {
            let mut data = vec![0; len];
            data[3] = sampling;
            assert_eq!(ColorSpace::parse(at_end(&data)), Err(NotAValue));
        }
    }
    are_of(ColorSpace::parse, &[4, 28]);
}

#[test]
fn dependency_descriptors_begin_with_three_bytes() {
    // AV1's RTP payload format, A.8: two bits, six of the template, and 16 of the frame
    for (start_of_frame, end_of_frame, template_id, frame_number, data) in [
        (true, false, 3, 0x0102, [0x83, 1, 2]),
        (false, true, 0, 0xFFFE, [0x40, 0xFF, 0xFE]),
        (false, false, 63, 0, [0x3F, 0, 0]),
        (true, true, 32, 9, [0xE0, 0, 9]),
    ] {
        let descriptor = DependencyDescriptor {
            start_of_frame,
            end_of_frame,
            template_id,
            frame_number,
        };
        is!(DependencyDescriptor { ..descriptor }, data);
        let longer = [&data[..], &[0x80, 5, 6]].concat();
        assert_eq!(DependencyDescriptor::parse(&longer), Ok(descriptor));
    }
    for template_id in [64, 255] {
        let descriptor = DependencyDescriptor {
            template_id,
            ..DependencyDescriptor::default()
        };
        is_refused(
            |buf| descriptor.write_to(buf),
            "template_id",
            template_id.into(),
            0,
            63,
        );
    }
    for len in 0..300 {
        let data = at_end(&vec![0x80; len]);
        assert_eq!(DependencyDescriptor::parse(data).is_ok(), len >= 3);
        assert_eq!(has_dependency_structure(data), len > 3);
        let mut data = vec![0xFF; len];
        if let Some(fourth) = data.get_mut(3) {
            *fourth = 0x7F;
        }
        assert!(!has_dependency_structure(at_end(&data)));
    }
}

#[test]
fn tokens_are_some_characters() {
    // RFC 8866, 9
    let characters =
        "!#$%&'*+-.0123456789ABCDEFGHIJKLMNOPQRSTUVWXYZ^_`abcdefghijklmnopqrstuvwxyz{|}~";
    for byte in 0..=255 {
        let data = [b'a', byte, b'b'];
        let token = parse_token(at_end(&data));
        if characters.as_bytes().contains(&byte) {
            assert_eq!(token, Ok(std::str::from_utf8(&data).unwrap()));
        } else {
            assert_eq!(token, Err(NotAValue));
        }
    }
    for (len, is_one) in [(0, false), (1, true), (17, true), (255, true), (256, false)] {
        let data = vec![b'x'; len];
        assert_eq!(parse_token(at_end(&data)).is_ok(), is_one);
    }
}

/// A token is a part of the datagram, and lives as long as that.
fn token_in(datagram: &[u8], id: u8) -> Option<&str> {
    Packet::parse(datagram).ok()?.token(id)
}

#[test]
fn texts_of_a_packet_are_told_as_they_lie() {
    const MAP: Map = Map::new()
        .with(1, Kind::Mid)
        .with(2, Kind::Rid)
        .with(3, Kind::RepairedRid);
    for (id, told, token) in [
        (1, "cam_1", "cam-1"),
        (1, "cam_1", "cam.1"),
        (1, "cam_1", "cam_1"),
        (1, "abcdefghijklmnop", "abcdefghijklmnopq"),
        (1, "abcdefghijklmnop", "abcdefghijklmnop"),
        (2, "h_i", "h-i"),
        (2, "12345678", "123456789"),
        (2, "12345678", "12345678"),
        (3, "h_i", "h~i"),
        (3, "x", "x"),
    ] {
        let mut buf = [0; 100];
        buf[0] = 0x80;
        let len = put_element(&mut buf, 12, id, token.as_bytes(), None).unwrap();
        let packet = Packet::parse(&buf[..len]).unwrap();
        let values = packet.values(&MAP);
        let texts = (
            values.mid.as_deref(),
            values.rid.as_deref(),
            values.repaired_rid.as_deref(),
        );
        assert_eq!(texts.0.or(texts.1).or(texts.2), Some(told));
        assert_eq!(token_in(&buf[..len], id), Some(token));
        assert_eq!(packet.token(id + 1), None);
        assert_eq!(MAP.get(id).unwrap().keeps(token), token == told);
    }
    for text in ["a b", ""] {
        let mut buf = [0; 100];
        buf[0] = 0x80;
        let len = put_element(&mut buf, 12, 1, text.as_bytes(), None).unwrap();
        assert_eq!(Packet::parse(&buf[..len]).unwrap().token(1), None);
    }
}

#[test]
fn texts_are_kept_of_some_kinds() {
    let kinds = (1..=15).map(|number| Map::standard().get(number)).chain([
        Kind::own(200),
        Some(Kind::Layers),
        Some(Kind::FrameMarking),
    ]);
    for kind in kinds.flatten() {
        let most = match kind {
            Kind::Mid => Some(16),
            Kind::Rid | Kind::RepairedRid => Some(8),
            _ => None,
        };
        for len in 0..20 {
            let text = "Z".repeat(len);
            assert_eq!(kind.keeps(&text), most.is_some_and(|most| len <= most));
        }
        for text in ["a-b", "a b", "\u{e9}", "\u{661}", "a\0"] {
            assert!(!kind.keeps(text), "{text:?}");
        }
        assert_eq!(kind.keeps("aZ_09"), most.is_some());
    }
}
