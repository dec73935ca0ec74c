//! The numbers of a stream, near 2^16, 2^32, 2^48 and 2^64. Expected values are worked out by hand from RFC
//! 3711, 3.3.1 and 3.3.2.

use rtp_wire::{extend_u15, extend_u16, extend_u32, extend_u8, BadRolloverCount, Receiver};

#[test]
fn the_nearest_number_is_found() {
    const TOP: u64 = 0xFFFF_FFFF_FFFF_0000;
    let rows = [
        (0, 0, 0),
        (0, 32_768, 32_768), // equally near: with the rollover count of the previous one
        (0, 32_769, TOP + 32_769),
        (5, 65_535, u64::MAX),
        (32_767, 65_535, 65_535),
        (32_768, 0, 0),
        (32_769, 0, 65_536),
        (65_535, 0, 65_536),
        (0xFFFF_FFFF, 0, 1 << 32),
        (0xFFFF_FFFF, 0xFFFE, 0xFFFF_FFFE),
        (1 << 32, 1, (1 << 32) + 1),
        (1 << 32, 0xFFFF, 0xFFFF_FFFF),
        (0x0123_4567_89AB_CDEF, 0xCDEE, 0x0123_4567_89AB_CDEE),
        (0x0123_4567_89AB_CDEF, 0x0001, 0x0123_4567_89AC_0001),
        (TOP + 7, 6, TOP + 6),
        (u64::MAX, 0xFFFE, u64::MAX - 1),
        (u64::MAX, 0, 0),
    ];
    for (previous, number, extended) in rows {
        assert_eq!(
            extend_u16(previous, number),
            extended,
            "{previous} {number}"
        );
    }
}

#[test]
fn numbers_have_other_widths() {
    // half the modulus away, on either side, the rollover count stays
    assert_eq!((extend_u8(255, 0), extend_u8(258, 255)), (256, 255));
    assert_eq!((extend_u8(256, 128), extend_u8(256, 129)), (384, 129));
    assert_eq!((extend_u8(384, 0), extend_u8(385, 0)), (256, 512));
    assert_eq!(
        (extend_u15(32_767, 0), extend_u15(32_768, 32_767)),
        (32_768, 32_767)
    );
    assert_eq!(
        (extend_u15(0, 16_384), extend_u15(0, 16_385)),
        (16_384, u64::MAX - 16_382)
    );
    assert_eq!(extend_u15(5, 0x8006), 6); // the sixteenth bit
    assert_eq!(extend_u32(0xFFFF_FFFF, 1), (1 << 32) + 1);
    assert_eq!(extend_u32(1 << 32, 0xFFFF_FFFF), 0xFFFF_FFFF);
    assert_eq!(
        (extend_u32(0, 1 << 31), extend_u32(0, (1 << 31) + 1)),
        (1 << 31, u64::MAX - (1 << 31) + 2)
    );
}

#[test]
fn numbers_of_each_width_are_extended_to_64_bits() {
    const MAX: u64 = u64::MAX;
    let far = 0x0123_4567_89AB_CDEF;
    // one below, and the next one that ends in zeros: modulo 2^64 that is 0
    assert_eq!((extend_u8(MAX, 0xFE), extend_u8(MAX, 0)), (MAX - 1, 0));
    assert_eq!((extend_u15(MAX, 0x7FFE), extend_u15(MAX, 0)), (MAX - 1, 0));
    assert_eq!((extend_u16(MAX, 0xFFFE), extend_u16(MAX, 0)), (MAX - 1, 0));
    assert_eq!(
        (extend_u32(MAX, 0xFFFF_FFFE), extend_u32(MAX, 0)),
        (MAX - 1, 0)
    );
    assert_eq!(
        (extend_u8(far, 0xEE), extend_u15(far, 0x4DEE)),
        (far - 1, far - 1)
    );
    assert_eq!(
        (extend_u16(far, 0xCDEE), extend_u32(far, 0x89AB_CDEE)),
        (far - 1, far - 1)
    );
}

/// A receiver that has taken this number alone.
fn at(number: u64) -> Receiver {
    let mut receiver = Receiver::starting_at(number >> 16).unwrap();
    assert_eq!(receiver.highest(), None);
    assert_eq!(receiver.number_of(number as u16), number);
    assert!(receiver.accepts(number));
    receiver.record(number);
    assert_eq!(receiver.highest(), Some(number));
    receiver
}

#[test]
fn a_window_has_128_numbers() {
    for highest in [
        127,
        65_536,
        1 << 32,
        (1 << 32) + 64,
        1 << 48,
        0x0123_4567_89AB_CDEF,
        u64::MAX - 1,
    ] {
        for below in 0..=200 {
            let mut receiver = at(highest);
            let Some(number) = highest.checked_sub(below) else {
                break;
            };
            let is_new = 0 < below && below < 128;
            assert_eq!(receiver.accepts(number), is_new, "{highest} {below}");
            let mut other = receiver;
            assert_eq!(
                other.receive(number as u16),
                is_new.then_some(number),
                "{highest} {below}"
            );
            receiver.record(number);
            for other in 1..128 {
                assert_eq!(
                    receiver.accepts(highest - other),
                    other != below,
                    "{highest} {below} {other}"
                );
            }
            assert!(!receiver.accepts(number));
            assert_eq!(
                (receiver.highest(), other.highest()),
                (Some(highest), Some(highest))
            );
        }
    }
}

#[test]
fn a_window_moves_on() {
    // the highest; by how many it rises; what is taken of the old one: one below it is looked at
    for highest in [1_000, (1 << 32) - 1, (1 << 48) - 2, 0xFFFF_FFFF_0000_0000] {
        for step in [1, 2, 63, 64, 65, 126, 127, 128, 1_000, 32_767] {
            let mut receiver = at(highest);
            receiver.record(highest - 1);
            let next = highest + step;
            assert_eq!(receiver.number_of(next as u16), next);
            assert_eq!(
                receiver.receive(next as u16),
                Some(next),
                "{highest} {step}"
            );
            assert_eq!(receiver.highest(), Some(next));
            for below in 1..128 {
                let is_taken = below == step || below == step + 1;
                assert_eq!(
                    receiver.accepts(next - below),
                    !is_taken,
                    "{highest} {step} {below}"
                );
            }
            assert!(!receiver.accepts(next) && !receiver.accepts(next - 128));
            assert!(receiver.accepts(next + 1) && receiver.accepts(u64::MAX));
        }
    }
}

#[test]
fn a_receiver_starts_at_each_rollover_count() {
    for count in [
        0,
        1,
        7,
        65_535,
        65_536,
        (1 << 32) - 1,
        1 << 32,
        (1 << 48) - 1,
    ] {
        let mut receiver = Receiver::starting_at(count).unwrap();
        assert_eq!(receiver.highest(), None);
        assert_eq!(receiver.number_of(0xABCD), count << 16 | 0xABCD);
        assert!(receiver.accepts(0) && receiver.accepts(u64::MAX));
        assert_eq!(receiver.receive(0xABCD), Some(count << 16 | 0xABCD));
        assert_eq!(receiver.receive(0xABCD), None);
    }
    for count in [1 << 48, (1 << 48) + 1, 1 << 63, u64::MAX] {
        assert_eq!(
            Receiver::starting_at(count),
            Err(BadRolloverCount),
            "{count}"
        );
    }
    for mut receiver in [Receiver::default(), Receiver::starting_at(0).unwrap()] {
        assert_eq!(
            (receiver.highest(), receiver.number_of(65_535)),
            (None, 65_535)
        );
        assert_eq!(receiver.receive(65_535), Some(65_535));
        assert_eq!(
            (receiver.receive(0), receiver.highest()),
            (Some(65_536), Some(65_536))
        );
    }
    // what is recorded first may be any number, 0 too
    let mut receiver = Receiver::default();
    receiver.record(0);
    assert_eq!(
        (receiver.highest(), receiver.accepts(0), receiver.accepts(1)),
        (Some(0), false, true)
    );
}

#[test]
fn any_number_may_be_recorded() {
    for number in [
        0,
        101,
        227,
        32_869,
        65_536,
        70_000,
        (1 << 32) + 5,
        1 << 48,
        1 << 63,
        u64::MAX,
    ] {
        for mut receiver in [Receiver::default(), Receiver::starting_at(3).unwrap()] {
            receiver.record(number);
            assert_eq!(
                (receiver.highest(), receiver.accepts(number)),
                (Some(number), false)
            );
        }
        let mut receiver = at(100);
        receiver.record(number);
        assert_eq!(receiver.highest(), Some(number.max(100)));
        assert!(!receiver.accepts(number) && !receiver.accepts(100));
        assert_eq!(receiver.accepts(99), number < 227, "{number}"); // 227 is 128 above it
    }
}
