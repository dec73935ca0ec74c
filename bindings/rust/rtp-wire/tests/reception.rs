//! What a receiver reports. The expected values are worked out by hand from RFC 3550, 6.4.1, A.3 and A.8.

use rtp_wire::{ReceptionReport, ReceptionStatistics};

fn report(fraction: u8, lost: i32, highest: u32, jitter: u32) -> ReceptionReport {
    ReceptionReport {
        fraction_lost: fraction,
        cumulative_lost: lost,
        extended_highest: highest,
        jitter,
    }
}

// Four were due at first, and seven then; a number below the first one's changes nothing of that.
#[test]
fn late_ones_and_duplicates() {
    let mut statistics = ReceptionStatistics::new();
    assert_eq!(statistics.report(), None);
    for number in [10, 11, 13, 13, 9] {
        statistics.record(number, 0, 0);
    }
    assert_eq!(statistics.received(), 5);
    assert_eq!(statistics.report(), Some(report(0, -1, 13, 0)));
    assert_eq!(statistics.report(), None);
    statistics.record(20, 0, 0);
    assert_eq!(statistics.report(), Some(report(219, 5, 20, 0)));
}

// The rollovers are those since the first packet.
#[test]
fn cycles() {
    let mut statistics = ReceptionStatistics::new();
    statistics.record(196_613, 0, 0);
    statistics.record(196_615, 0, 0);
    assert_eq!(statistics.report(), Some(report(85, 1, 7, 0)));
    statistics.record(262_144, 0, 0);
    assert_eq!(statistics.report(), Some(report(255, 65_529, 65_536, 0)));
}

// Transit times of 100, 130 and 110 ticks, while the timestamps roll over: 30, and then 30 + 20 - 2 sixteenths.
#[test]
fn jitter() {
    let mut statistics = ReceptionStatistics::new();
    statistics.record(1, 4_294_967_040, 4_294_967_140);
    statistics.record(2, 4_294_967_200, 34);
    statistics.record(3, 64, 174);
    assert_eq!(statistics.report(), Some(report(0, 0, 3, 3)));
}

#[test]
fn blocks() {
    let block = report(64, -2, 65_544, 1).to_block(44, 0x1234_5678, 65_536);
    assert_eq!(
        &block[..16],
        b"\0\0\0\x2C\x40\xFF\xFF\xFE\0\x01\0\x08\0\0\0\x01"
    );
    assert_eq!(&block[16..], b"\x12\x34\x56\x78\0\x01\0\0");
    let far = report(1, 8_388_608, 2, 3).to_block(44, 0, 0);
    assert_eq!(far[5..8], [0x7F, 0xFF, 0xFF]);
}
