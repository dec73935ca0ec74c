//! What each value is in bytes, at the ends of its range. Expected values are worked out by hand from the
//! documents of the extensions.

use std::time::Duration;

use rtp_wire::{Header, Kind, Layers, Map, NotWritten, Packet, Values};

/// The data of the one element that is written of these values.
fn written(kind: Kind, set: impl FnOnce(&mut Values)) -> Result<Vec<u8>, NotWritten> {
    let mut header = Header::default();
    header.has_extension = true;
    set(&mut header.values);
    let mut buf = [0; 100];
    let len = header.write_to(&mut buf, &Map::new().with(14, kind))?;
    let packet = Packet::parse(&buf[..len]).unwrap();
    Ok(packet.element(14).unwrap().to_vec())
}

/// What these data of an element say, by both of the calls that tell it.
fn read(kind: Kind, data: &[u8]) -> Values {
    let mut datagram = vec![0x90, 0, 0, 1, 0, 0, 0, 2, 0, 0, 0, 3, 0x10, 0, 0, 64, 200];
    datagram.push(data.len() as u8);
    datagram.extend_from_slice(data);
    datagram.resize(16 + 256, 0);
    let map = Map::new().with(200, kind);
    let values = Header::parse(&datagram, &map).unwrap().values;
    assert_eq!(Packet::parse(&datagram).unwrap().values(&map), values);
    values
}

#[test]
fn levels_have_a_magnitude() {
    let rows = [
        (-127, true, 0xFF),
        (-126, false, 0x7E),
        (-64, false, 0x40),
        (-1, true, 0x81),
        (0, false, 0x00),
        (0, true, 0x80),
    ];
    for (level, voice, byte) in rows {
        let data = written(Kind::AudioLevel, |it| {
            (it.audio_level, it.voice_activity) = (Some(level), Some(voice));
        });
        assert_eq!(data, Ok(vec![byte]), "{level}");
        let values = read(Kind::AudioLevel, &[byte]);
        assert_eq!(
            (values.audio_level, values.voice_activity),
            (Some(level), Some(voice))
        );
    }
    // no element can carry any other, and it is told also where none is written
    for level in [-128, 1, 5, 30, 127] {
        for voice in [None, Some(false), Some(true)] {
            let mut values = Values::default();
            (values.audio_level, values.voice_activity) = (Some(level), voice);
            let header = Header::with_values(values);
            let mut buf = [0xEE; 40];
            for map in [Map::new(), Map::new().with(3, Kind::AudioLevel)] {
                let bad = Err(NotWritten::BadField);
                assert_eq!(header.write_to(&mut buf, &map), bad);
                assert_eq!(header.write_all(&mut buf, &map), bad);
                assert_eq!(header.wire_len(&map), bad);
                let layers = Layers::default();
                assert_eq!(header.write_with_layers(&mut buf, &map, &layers), bad);
                assert_eq!(header.left_out(&map).err(), bad.err());
            }
            for kind in [Kind::AudioLevel, Kind::Mid] {
                assert_eq!(values.data_of(kind, &mut buf), Err(NotWritten::BadField));
            }
            assert_eq!(buf, [0xEE; 40]);
        }
    }
}

#[test]
fn orientations_are_four() {
    for (degrees, byte) in [(0, 0), (270, 1), (180, 2), (90, 3)] {
        let data = written(Kind::VideoOrientation, |it| {
            it.video_orientation = Some(degrees);
        });
        assert_eq!(data, Ok(vec![byte]));
        assert_eq!(
            read(Kind::VideoOrientation, &[byte]).video_orientation,
            Some(degrees)
        );
        assert_eq!(
            read(Kind::VideoOrientation, &[byte | 0xFC]).video_orientation,
            Some(degrees)
        );
    }
    for degrees in [1, 45, 91, 256, 360, 65_535] {
        let data = written(Kind::VideoOrientation, |it| {
            it.video_orientation = Some(degrees);
        });
        assert_eq!(data, Err(NotWritten::BadField));
        let mut header = Header::default(); // also where it isn't written
        header.values.video_orientation = Some(degrees);
        assert_eq!(
            header.write_to(&mut [0; 100], &Map::new()),
            Err(NotWritten::BadField)
        );
        assert_eq!(header.wire_len(&Map::new()), Err(NotWritten::BadField));
    }
}

#[test]
fn send_times_are_modulo_64_seconds() {
    // units of 2^-18 seconds: 3.81 microseconds each
    let rows = [
        (0, [0, 0, 0]),
        (3, [0, 0, 0]),
        (4, [0, 0, 1]),
        (1_000_000, [4, 0, 0]),
        (63_999_999, [0xFF, 0xFF, 0xFF]),
        (64_000_000, [0, 0, 0]),
        ((1 << 32) + 4, [0x1B, 0xDE, 0x83]), // 67 times 64 seconds, and 6,967,300 microseconds
        (u64::MAX, [0xB6, 0x34, 0xDA]),
    ];
    for (time, bytes) in rows {
        let data = written(Kind::AbsSendTime, |it| it.send_time = Some(time));
        assert_eq!(data, Ok(bytes.to_vec()), "{time}");
    }
    for (bytes, time) in [
        ([0, 0, 1], 3),
        ([4, 0, 0], 1_000_000),
        ([0xFF, 0xFF, 0xFF], 63_999_996),
    ] {
        assert_eq!(read(Kind::AbsSendTime, &bytes).send_time, Some(time));
    }
}

#[test]
fn delays_are_whole_hundredths() {
    let hundredths = |count| Duration::from_millis(10 * count);
    for count in 0..4096_u64 {
        let other = 4095 - count;
        let bits = (count << 12 | other) as u32;
        let data = bits.to_be_bytes()[1..].to_vec();
        let (min, max) = (Some(hundredths(count)), Some(hundredths(other)));
        let values = read(Kind::PlayoutDelay, &data);
        assert_eq!(
            (values.playout_delay_min, values.playout_delay_max),
            (min, max)
        );
        let again = written(Kind::PlayoutDelay, |it| {
            (it.playout_delay_min, it.playout_delay_max) = (min, max);
        });
        assert_eq!(again, Ok(data));
    }
    // modulo 4,096; 2^64 - 1 nanoseconds are 1,844,674,407,370 hundredths, 450,359,962 times 4,096 and 3,018
    let rows = [
        (Duration::from_nanos(9_999_999), 0),
        (Duration::from_millis(10), 1),
        (Duration::from_nanos(40_959_999_999), 4095),
        (Duration::from_millis(40_960), 0),
        (Duration::from_secs(1 << 32), 0), // 100 times 2^32 hundredths
        (Duration::from_nanos(u64::MAX), 3018),
        (Duration::from_secs(20_000_000_000), 3018), // after 584 years the greatest that there is
        (Duration::MAX, 3018),
    ];
    for (delay, count) in rows {
        let least = written(Kind::PlayoutDelay, |it| {
            (it.playout_delay_min, it.playout_delay_max) = (Some(delay), Some(hundredths(0x123)));
        });
        assert_eq!(
            least,
            Ok(vec![(count >> 4) as u8, (count << 4) as u8 | 1, 0x23]),
            "{delay:?}"
        );
        let most = written(Kind::PlayoutDelay, |it| {
            (it.playout_delay_min, it.playout_delay_max) = (Some(hundredths(0x123)), Some(delay));
        });
        assert_eq!(
            most,
            Ok(vec![0x12, 0x30 | (count >> 8) as u8, count as u8]),
            "{delay:?}"
        );
    }
}

#[test]
fn capture_times_have_64_bits() {
    let rows = [
        (0, 1 << 32, [0, 0, 0, 1, 0, 0, 0, 0]),
        (1 << 32, i64::MIN, [0x80, 0, 0, 0, 0, 0, 0, 0]),
        ((1 << 32) - 1, -1, [0xFF; 8]),
        (
            1 << 63,
            i64::MAX,
            [0x7F, 0xFF, 0xFF, 0xFF, 0xFF, 0xFF, 0xFF, 0xFF],
        ),
        (u64::MAX, 0, [0; 8]),
    ];
    for (time, offset, bytes) in rows {
        let mut data = time.to_be_bytes().to_vec();
        let alone = read(Kind::AbsCaptureTime, &data);
        assert_eq!(
            (alone.capture_time, alone.capture_offset),
            (Some(time), None)
        );
        data.extend_from_slice(&bytes);
        let both = read(Kind::AbsCaptureTime, &data);
        assert_eq!(
            (both.capture_time, both.capture_offset),
            (Some(time), Some(offset))
        );
        let again = written(Kind::AbsCaptureTime, |it| {
            (it.capture_time, it.capture_offset) = (Some(time), Some(offset));
        });
        assert_eq!(again, Ok(data));
    }
}

#[test]
fn timings_have_five_numbers() {
    let data = [2, 0, 10, 0, 20, 0, 30, 0, 40, 0, 0, 0, 0];
    let values = read(Kind::VideoTiming, &data);
    let timing = values.video_timing.unwrap();
    assert_eq!(
        written(Kind::VideoTiming, |it| it.video_timing = Some(timing)),
        Ok(data.to_vec())
    );
    for at in 0..data.len() {
        let mut other = data;
        other[at] ^= 0x81;
        let other = read(Kind::VideoTiming, &other);
        assert_eq!(other.video_timing == Some(timing), at > 8, "{at}"); // the last four are passed over
        assert_eq!(other == values, at > 8);
    }
}

#[test]
fn texts_have_each_length() {
    let letters = "0123456789abcdefghij";
    for len in 0..=20 {
        let text = &letters[..len];
        let mid = read(Kind::Mid, text.as_bytes()).mid.unwrap();
        assert_eq!(mid.as_str(), &letters[..len.min(16)]);
        let rid = read(Kind::Rid, text.as_bytes()).rid.unwrap();
        assert_eq!(rid.as_str(), &letters[..len.min(8)]);
        let repaired = read(Kind::RepairedRid, text.as_bytes())
            .repaired_rid
            .unwrap();
        assert_eq!(repaired, rid);
        assert_eq!(
            written(Kind::Mid, |it| it.mid = Some(mid)),
            Ok(mid.as_bytes().to_vec())
        );
        assert_eq!(
            written(Kind::Rid, |it| it.rid = Some(rid)),
            Ok(rid.as_bytes().to_vec())
        );
        let data = written(Kind::RepairedRid, |it| it.repaired_rid = Some(rid));
        assert_eq!(data, Ok(rid.as_bytes().to_vec()));
    }
    assert_eq!(read(Kind::Mid, b"a-b\0c").mid.unwrap(), "a_b_c");
    assert_eq!(read(Kind::Mid, b"\xFF").mid, None); // no UTF-8
}

#[test]
fn short_elements_say_nothing() {
    let least = [
        (Kind::AbsSendTime, 3),
        (Kind::AbsCaptureTime, 8),
        (Kind::AudioLevel, 1),
        (Kind::TransmissionOffset, 4),
        (Kind::VideoOrientation, 1),
        (Kind::TransportNumber, 2),
        (Kind::PlayoutDelay, 3),
        (Kind::VideoContentType, 1),
        (Kind::VideoTiming, 9),
        (Kind::FrameMarking, 4),
    ];
    for (kind, len) in least {
        assert_eq!(
            read(kind, &[7; 16][..len - 1]),
            Values::default(),
            "{kind:?}"
        );
        assert_ne!(read(kind, &[7; 16][..len]), Values::default(), "{kind:?}");
    }
    assert_eq!(read(Kind::ColorSpace, &[7; 28]), Values::default());
}
