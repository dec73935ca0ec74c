//! The ends of what the newer calls take: many slots at once, zeros beside what is absent, reports after reports, and
//! texts in a width. Expected values are worked out by hand.

use rtp_wire::standard::{
    parse_mixer_level, write_mixer_levels, Chromaticity, ColorSpace, DependencyDescriptor,
    FeedbackRequest, FrameLayers, FrameMarking, HdrMetadata, Timing, TransportNumber,
};
use rtp_wire::{
    change_form, compact, parse_headers, parse_packets, receive_many, remove_block, Arrival,
    ArrivalSlot, Form, Header, HeaderSlot, Kind, KindSet, Layers, Map, Mid, NotTaken, NotWritten,
    OutOfRange, PacketSlot, Receiver, ReceptionReport, ReceptionStatistics, Rid, Standing, Values,
    VideoTiming, WideReceiver, WideRestartingReceiver,
};
use std::time::Duration;

/// As many datagrams as a count of 16 bits can't tell: each is a header alone, with its number as timestamp.
const MANY: u32 = 65_536 + 300;

fn headers_alone() -> Vec<u8> {
    let header = |number: u32| {
        let mut bytes = [0x80, 96, 0, 0, 0, 0, 0, 0, 0, 0, 0, 7];
        bytes[2..4].copy_from_slice(&(number as u16).to_be_bytes());
        bytes[4..8].copy_from_slice(&number.to_be_bytes());
        bytes
    };
    (0..MANY).flat_map(header).collect()
}

#[test]
fn how_many_are_read_at_once_is_not_limited() {
    let buf = headers_alone();
    let places = (0..MANY as usize).map(|it| (12 * it, 12));
    let mut packets: Vec<_> = places
        .clone()
        .map(|it| PacketSlot::new(it.0, it.1))
        .collect();
    let mut headers: Vec<_> = places.map(|it| HeaderSlot::new(it.0, it.1)).collect();
    let read = parse_packets(&buf, &mut packets).map(|it| it.packet().unwrap().timestamp());
    assert!(read.eq(0..MANY));
    let read = parse_headers(&buf, &Map::new(), &mut headers);
    assert!(read.map(|it| it.header().unwrap().timestamp).eq(0..MANY));
}

#[test]
fn how_many_are_judged_at_once_is_not_limited() {
    // a receiver for each: the last one takes its first packet, and then the next one
    let mut receivers = vec![Receiver::default(); MANY as usize];
    let mut arrivals: Vec<_> = (0..MANY as usize)
        .map(|it| ArrivalSlot::new(it, 5))
        .collect();
    arrivals.push(ArrivalSlot::new(MANY as usize - 1, 6));
    arrivals.push(ArrivalSlot::new(MANY as usize, 6));
    arrivals.push(ArrivalSlot::new(MANY as usize - 1, 6));
    receive_many(&mut receivers, &mut arrivals);
    let (each, last) = arrivals.split_at(MANY as usize);
    assert!(each.iter().all(|it| it.number() == Ok(5)));
    let last: Vec<_> = last.iter().map(ArrivalSlot::number).collect();
    assert_eq!(
        last,
        [Ok(6), Err(NotTaken::NoReceiver), Err(NotTaken::Refused)]
    );
    assert_eq!(receivers[MANY as usize - 1].highest(), Some(6));
    assert_eq!(receivers[MANY as usize - 2].highest(), Some(5));
}

#[test]
fn received_is_of_all_reports() {
    let mut statistics = ReceptionStatistics::new();
    for number in 10..13 {
        statistics.record(number, 0, 0);
    }
    assert_eq!(statistics.report().unwrap().extended_highest, 12);
    assert_eq!(statistics.received(), 3);
    statistics.record(13, 0, 0);
    assert_eq!(statistics.received(), 4);
    assert_eq!(statistics.report().unwrap().cumulative_lost, 0);
    assert_eq!(statistics.received(), 4);
}

#[test]
fn what_is_known_of_a_number_hangs_on_64_bits() {
    const FIRST: u64 = 1 << 63 | 1 << 40 | 5;
    let mut narrow = Receiver::starting_at(FIRST >> 16).unwrap();
    let mut wide = WideReceiver::<2>::starting_at(FIRST >> 16).unwrap();
    assert_eq!(
        (narrow.receive(5), wide.receive(5)),
        (Some(FIRST), Some(FIRST))
    );
    assert_eq!(
        (narrow.number_of(4), wide.number_of(4)),
        (FIRST - 1, FIRST - 1)
    );
    for (number, standing) in [
        (FIRST, Standing::Taken),
        (FIRST - 1, Standing::New),
        (FIRST - 127, Standing::New),
        (FIRST - 128, Standing::TooOld),
        (FIRST + 1, Standing::New),
        (FIRST ^ 1 << 63, Standing::TooOld),
        (FIRST ^ 1 << 40, Standing::TooOld),
        (5, Standing::TooOld),
        (u64::MAX, Standing::New),
    ] {
        let told = (narrow.standing_of(number), wide.standing_of(number));
        assert_eq!(told, (standing, standing), "{number:#x}");
        let is_new = standing == Standing::New;
        assert_eq!(
            (narrow.accepts(number), wide.accepts(number)),
            (is_new, is_new)
        );
    }
    let mut restarting = WideRestartingReceiver::<2>::new();
    assert_eq!(restarting.receive(5), Arrival::Taken(65_541));
    for (number, standing) in [
        (65_541, Standing::Taken),
        (0x1_0005 | 1 << 32, Standing::New),
        (0x1_0005 | 1 << 63, Standing::New),
        (1 << 32, Standing::New),
        (5, Standing::TooOld),
    ] {
        assert_eq!(restarting.standing_of(number), standing, "{number:#x}");
    }
}

#[test]
fn each_zero_alone_makes_a_block() {
    let mut all = [Values::default(); 14];
    all[0].send_time = Some(0);
    all[1].capture_time = Some(0);
    all[2].capture_offset = Some(0);
    all[3].playout_delay_min = Some(Duration::ZERO);
    all[4].transmission_offset = Some(0);
    all[5].frame_marking = Some(0);
    all[6].transport_number = Some(0);
    all[7].video_orientation = Some(0);
    all[8].video_timing = Some(VideoTiming::default());
    all[9].video_content_type = Some(0);
    all[10].audio_level = Some(0);
    all[11].voice_activity = Some(false);
    all[12].mid = Some("".parse::<Mid>().unwrap());
    all[13].repaired_rid = Some("".parse::<Rid>().unwrap());
    for values in all {
        let header = Header::with_values(values);
        assert!(header.has_extension);
        assert_eq!(
            header.left_out(&Map::new()).unwrap().iter().count(),
            1,
            "{values:?}"
        );
    }
}

#[test]
fn zeros_are_no_absence() {
    let mut data = [0xEE; 28];
    let space = ColorSpace {
        hdr: Some(HdrMetadata::default()),
        ..ColorSpace::default()
    };
    assert_eq!(space.write_to(&mut data), Ok(28));
    assert_eq!(data, [0; 28]);
    assert_eq!(ColorSpace::parse(&data), Ok(space));
    assert_eq!(ColorSpace::parse(&data[..4]), Ok(ColorSpace::default()));

    let layers = FrameLayers {
        tl0_pic_idx: Some(0),
        ..FrameLayers::default()
    };
    let marking = |layers| FrameMarking {
        layers,
        ..FrameMarking::default()
    };
    for (value, len) in [
        (marking(Some(layers)), 3),
        (marking(Some(FrameLayers::default())), 2),
        (marking(None), 1),
    ] {
        data = [0xEE; 28];
        assert_eq!(value.write_to(&mut data), Ok(len));
        assert_eq!((&data[..len], data[len]), (&[0; 3][..len], 0xEE));
        assert_eq!(FrameMarking::parse(&data[..len]), Ok(value));
    }

    let older = Timing::default();
    let newer = Timing {
        flags: Some(0),
        ..older
    };
    for (value, len) in [(newer, 13), (older, 12)] {
        data = [0xEE; 28];
        assert_eq!(value.write_to(&mut data), Ok(len));
        assert_eq!((&data[..len], data[len]), (&[0; 13][..len], 0xEE));
        assert_eq!(Timing::parse(&data[..len]), Ok(value));
    }
}

#[test]
fn each_field_has_its_own_bytes() {
    let point = |x| Chromaticity { x, y: x + 1 };
    let hdr = HdrMetadata {
        luminance_max: 1,
        luminance_min: 2,
        red: point(3),
        green: point(5),
        blue: point(7),
        white: point(9),
        max_content_light_level: 11,
        max_frame_average_light_level: 12,
    };
    let space = ColorSpace {
        primaries: 13,
        transfer: 14,
        matrix: 15,
        hdr: Some(hdr),
        ..ColorSpace::default()
    };
    let mut data = [0; 28];
    assert_eq!(space.write_to(&mut data), Ok(28));
    assert_eq!(data[..4], [13, 14, 15, 0]);
    let numbers: Vec<_> = data[4..]
        .chunks(2)
        .map(|it| u16::from_be_bytes([it[0], it[1]]))
        .collect();
    assert!(numbers.into_iter().eq(1..=12));
    assert_eq!(ColorSpace::parse(&data), Ok(space));

    for (start, end) in [(true, false), (false, true), (true, true), (false, false)] {
        let descriptor = DependencyDescriptor {
            start_of_frame: start,
            end_of_frame: end,
            template_id: 63,
            frame_number: 0xFFFE,
        };
        assert_eq!(descriptor.write_to(&mut data), Ok(3));
        let first = u8::from(start) << 7 | u8::from(end) << 6 | 63;
        assert_eq!(data[..3], [first, 0xFF, 0xFE]);
        assert_eq!(DependencyDescriptor::parse(&data[..3]), Ok(descriptor));
    }
    for timestamps in [true, false] {
        let request = Some(FeedbackRequest {
            timestamps,
            packets: 0x7FFF,
        });
        let number = TransportNumber {
            number: 0xFFFE,
            request,
        };
        assert_eq!(number.write_to(&mut data), Ok(4));
        assert_eq!(
            data[..4],
            [0xFF, 0xFE, 0x7F | u8::from(timestamps) << 7, 0xFF]
        );
        assert_eq!(TransportNumber::parse(&data[..4]), Ok(number));
    }
}

#[test]
fn what_is_refused_writes_nothing() {
    let level = OutOfRange {
        field: "a level",
        value: 1,
        least: -127,
        most: 0,
    };
    let mut data = [0xEE; 3];
    assert_eq!(
        write_mixer_levels(&[-1, 1], &mut data),
        Err(NotWritten::OutOfRange(level))
    );
    for count in [1, 14, 15] {
        let mut levels = vec![-1; count];
        assert_eq!(write_mixer_levels(&levels, &mut vec![0; count]), Ok(count));
        levels[count - 1] = 1;
        assert_eq!(
            write_mixer_levels(&levels, &mut []),
            Err(NotWritten::OutOfRange(level))
        );
    }
    // a packet has at most 15 sources, whatever their levels are
    for count in [16, 255, 300, 1000] {
        let many = OutOfRange {
            field: "the number of levels",
            value: count,
            least: 0,
            most: 15,
        };
        let levels = vec![1; count as usize];
        assert_eq!(
            write_mixer_levels(&levels, &mut [0; 1000]),
            Err(NotWritten::OutOfRange(many))
        );
    }
    assert_eq!(
        write_mixer_levels(&[-1; 4], &mut data),
        Err(NotWritten::ShortBuffer)
    );
    assert_eq!(level.to_string(), "a level is 1, and not -127 to 0");
    assert_eq!(NotWritten::OutOfRange(level).to_string(), level.to_string());
    assert_eq!(
        Timing::default().write_to(&mut data),
        Err(NotWritten::ShortBuffer)
    );
    assert_eq!(
        ColorSpace::default().write_to(&mut data),
        Err(NotWritten::ShortBuffer)
    );
    assert_eq!(
        DependencyDescriptor::default().write_to(&mut data[..2]),
        Err(NotWritten::ShortBuffer)
    );
    assert_eq!(data, [0xEE; 3]);
}

#[test]
fn what_is_left_out_is_refused_before_a_short_buffer() {
    let mut header = Header::default();
    header.has_extension = true;
    let layers = Layers::new(0, &[]).unwrap();
    let mut buf = [0xEE; 24];
    for room in [0, 24] {
        let refused = header.write_all_with_layers(&mut buf[..room], &Map::new(), &layers);
        let Err(NotWritten::LeftOut(kinds)) = refused else {
            panic!("{refused:?}");
        };
        assert!(kinds.iter().eq([Kind::Layers]));
    }
    header.values.mid = Some("a".parse().unwrap());
    for room in [0, 24] {
        let refused = header.write_all(&mut buf[..room], &Map::new());
        let Err(NotWritten::LeftOut(kinds)) = refused else {
            panic!("{refused:?}");
        };
        assert!(kinds.iter().eq([Kind::Mid]));
    }
    assert_eq!(buf, [0xEE; 24]);
}

#[test]
fn texts_keep_their_width() {
    let uri = Kind::VideoOrientation.uri().unwrap();
    assert_eq!(format!("{uri:>28}|"), "  urn:3gpp:video-orientation|");
    assert_eq!(format!("{uri:-<28}|"), "urn:3gpp:video-orientation--|");
    assert_eq!(format!("{uri:.8}|"), "urn:3gpp|");
    assert_eq!(format!("{uri:?}"), "\"urn:3gpp:video-orientation\"");
    assert_eq!(
        (uri.as_str(), uri.len()),
        ("urn:3gpp:video-orientation", 26)
    );
    let none = KindSet::default();
    assert!(none.is_empty() && none.iter().next().is_none() && !none.contains(Kind::Layers));
    assert_eq!(format!("{none:?}"), "{}");
}

#[test]
fn no_bit_of_a_report_is_lost() {
    let report = ReceptionReport {
        fraction_lost: 0x81,
        cumulative_lost: -0x80_0000,
        extended_highest: 0x8283_8485,
        jitter: 0x9293_9495,
    };
    let block = report.to_block(0xA2A3_A4A5, 0xB2B3_B4B5, 0xC2C3_C4C5);
    let words = block
        .chunks(4)
        .map(|it| u32::from_be_bytes(it.try_into().unwrap()));
    let wanted = [
        0xA2A3_A4A5,
        0x8180_0000,
        0x8283_8485,
        0x9293_9495,
        0xB2B3_B4B5,
        0xC2C3_C4C5,
    ];
    assert!(words.eq(wanted));
    // three were due and two came, whatever the rollovers; transit times of 2^31 and 2^31 + 32 ticks
    for first in [0, (1 << 32) - 1, (1 << 48) - 1, (1 << 63) - 1] {
        let mut statistics = ReceptionStatistics::new();
        statistics.record(first, 1 << 31, 0);
        statistics.record(first + 2, 1 << 31 | 1 << 16, 1 << 16 | 32);
        let report = statistics.report().unwrap();
        let told = (report.cumulative_lost, report.fraction_lost, report.jitter);
        assert_eq!(told, (1, 85, 2), "{first:#x}");
    }
    for index in [2, 256, 1 << 16, 1 << 32] {
        assert!(parse_mixer_level(&[1, 2], 2, index).is_err());
        assert_eq!(parse_mixer_level(&[1, 2], index, 1), Ok(-2));
    }
}

#[test]
fn the_shortest_packets_are_as_long_as_they_are() {
    // a header alone and with a payload, without a block, with one of no words, and with one of padding
    for len in 12..18 {
        let mut plain = [0; 18];
        plain[0] = 0x80;
        let before = plain;
        assert_eq!(compact(&mut plain[..len]), Ok(len));
        assert_eq!(remove_block(&mut plain[..len]), Ok(len));
        assert_eq!(change_form(&mut plain, len, Form::TwoByte), Ok(len));
        assert_eq!(plain, before);
    }
    for words in 0..3 {
        for payload in 0..4 {
            let mut packet = vec![0; 16 + 4 * words];
            packet[0] = 0x90;
            packet[12..16].copy_from_slice(&[0xBE, 0xDE, 0, words as u8]);
            packet.extend(vec![7; payload]);
            let mut copy = packet.clone();
            assert_eq!(compact(&mut copy), Ok(16 + payload));
            assert_eq!(
                (&copy[14..16], &copy[16..16 + payload]),
                (&[0, 0][..], &[7; 3][..payload])
            );
            copy.clone_from(&packet);
            assert_eq!(remove_block(&mut copy), Ok(12 + payload));
            assert_eq!(
                (copy[0], &copy[12..12 + payload]),
                (0x80, &[7; 3][..payload])
            );
        }
    }
}
