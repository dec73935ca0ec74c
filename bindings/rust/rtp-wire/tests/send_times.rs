//! Send times as they lie (abs-send-time): 24 bits, in units of 2^-18 seconds.

mod guarded;

use guarded::at_end;
use rtp_wire::standard::{extend_send_time, parse_send_time, send_time_bytes};
use rtp_wire::{put_element, Kind, Map, NotAValue, OutOfRange, Packet};

#[test]
fn each_is_exact_both_ways() {
    for units in (0..1 << 24).step_by(251).chain([1, (1 << 24) - 1]) {
        let [0, data @ ..] = u32::to_be_bytes(units) else {
            panic!("{units}")
        };
        assert_eq!(parse_send_time(&data), Ok(units));
        assert_eq!(send_time_bytes(units), Ok(data));
    }
    // the values have microseconds: of 7 units the 26 whole ones, which are written as 6 units
    let map = Map::new().with(2, Kind::AbsSendTime);
    let packet = Packet::parse(b"\x90\0\0\0\0\0\0\0\0\0\0\0\xBE\xDE\0\x01\x22\0\0\x07").unwrap();
    assert_eq!(packet.values(&map).send_time, Some(26));
    let data = packet.element(2).unwrap();
    assert_eq!(
        send_time_bytes(parse_send_time(data).unwrap()).unwrap(),
        data
    );
}

#[test]
fn other_lengths_and_more_than_24_bits_are_none() {
    assert_eq!(parse_send_time(at_end(&[1, 2, 3])), Ok(0x01_0203));
    for len in [0, 1, 2, 4, 5, 255] {
        assert_eq!(parse_send_time(at_end(&vec![1; len])), Err(NotAValue));
    }
    for (units, value) in [
        (1 << 24, 1 << 24),
        ((1 << 24) + 7, (1 << 24) + 7),
        (i32::MAX as u32, i32::MAX),
        (1 << 31, i32::MAX),
        (u32::MAX, i32::MAX),
    ] {
        let wrong = OutOfRange {
            field: "the send time",
            value,
            least: 0,
            most: 0xFF_FFFF,
        };
        assert_eq!(send_time_bytes(units), Err(wrong));
    }
}

#[test]
fn the_time_nearest_to_the_arrival() {
    const SECOND: u64 = 1 << 32;
    for (near, units, sent) in [
        (SECOND, 1 << 18, SECOND),
        (SECOND, 1 << 24 | 1 << 18, SECOND), // the low 24 bits count
        (0xE000_0000_C000_0000, 0xFF_FFFF, 0xDFFF_FFFF_FFFF_C000),
        // 64 seconds roll over between the sending and the arrival, and the other way round
        (64 * SECOND + 5, 0xFF_FFFF, 64 * SECOND - 0x4000),
        (64 * SECOND - 5, 2, 64 * SECOND + 0x8000),
        // 32 seconds off: of two that are equally near the later one
        (1 << 37, 0, 1 << 38),
        ((1 << 37) - 1, 0, 0),
        ((1 << 37) + 1, 0, 1 << 38),
        (0, 1 << 23, 1 << 37),
        // modulo 2^64
        (0, 0xFF_FFFF, 0xFFFF_FFFF_FFFF_C000),
        (u64::MAX, 0, 0),
        (u64::MAX, 1, 0x4000),
        (u64::MAX - (1 << 37), 0, u64::MAX - (1 << 38) + 1),
    ] {
        assert_eq!(extend_send_time(near, units), sent, "{near:X} {units:X}");
    }
    // two packets in a row, 20 milliseconds apart: 5,242.88 units
    let sent = [100_000_u32, 105_242].map(|it| extend_send_time(9 * 64 * SECOND, it));
    assert_eq!(sent[1] - sent[0], 5_242 << 14);
}

#[test]
fn one_is_put_into_a_packet() {
    let mut buf = [0; 24];
    (buf[0], buf[12], buf[13]) = (0xA0, 7, 1); // a payload of one byte, and one of padding
    let len = put_element(&mut buf, 14, 3, &send_time_bytes(0x01_0203).unwrap(), None).unwrap();
    assert_eq!(buf[12..len], [0xBE, 0xDE, 0, 1, 0x32, 1, 2, 3, 7, 1]);
    let packet = Packet::parse(&buf[..len]).unwrap();
    assert_eq!(packet.unpadded_payload(), Some(&[7][..]));
    assert_eq!(parse_send_time(packet.element(3).unwrap()), Ok(0x01_0203));
}
