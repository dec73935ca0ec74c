//! Receive states of each kind: their windows, what a refused packet leaves, copies, and numbers past 2^32. Expected
//! values are worked out by hand from RFC 3711, 3.3.1 and 3.3.2, and RFC 3550, A.1.

use rtp_wire::{
    extend_u15, extend_u16, extend_u32, extend_u8, Arrival, BadRolloverCount, Receiver,
    ReceptionStatistics, RestartingReceiver, Standing, WideReceiver, WideRestartingReceiver,
};

const FAR: u64 = 1 << 40; // past 2^32
const COUNT: u64 = FAR >> 16;

/// What a receiver and a wide one both do.
trait Stateful: Copy {
    fn receive(&mut self, low: u16) -> Option<u64>;
    fn record(&mut self, number: u64) -> Option<bool>;
    fn accepts(&self, number: u64) -> bool;
    fn number_of(&self, low: u16) -> u64;
    fn highest(&self) -> Option<u64>;
}

impl Stateful for Receiver {
    fn receive(&mut self, low: u16) -> Option<u64> {
        Receiver::receive(self, low)
    }
    fn record(&mut self, number: u64) -> Option<bool> {
        Receiver::record(self, number);
        None
    }
    fn accepts(&self, number: u64) -> bool {
        Receiver::accepts(self, number)
    }
    fn number_of(&self, low: u16) -> u64 {
        Receiver::number_of(self, low)
    }
    fn highest(&self) -> Option<u64> {
        Receiver::highest(self)
    }
}

impl<const WORDS: usize> Stateful for WideReceiver<WORDS> {
    fn receive(&mut self, low: u16) -> Option<u64> {
        WideReceiver::receive(self, low)
    }
    fn record(&mut self, number: u64) -> Option<bool> {
        Some(WideReceiver::record(self, number))
    }
    fn accepts(&self, number: u64) -> bool {
        WideReceiver::accepts(self, number)
    }
    fn number_of(&self, low: u16) -> u64 {
        WideReceiver::number_of(self, low)
    }
    fn highest(&self) -> Option<u64> {
        WideReceiver::highest(self)
    }
}

/// The numbers that are taken are told from the others in the whole window, and only there.
fn has_a_window(mut receiver: impl Stateful, size: u64) {
    let fresh = receiver;
    assert_eq!((receiver.highest(), receiver.number_of(9)), (None, FAR + 9));
    assert!(receiver.accepts(0) && receiver.accepts(FAR) && receiver.accepts(u64::MAX));
    let highest = FAR + 40_000;
    assert_eq!(receiver.receive(40_000), Some(highest));
    assert_eq!((receiver.highest(), fresh.highest()), (Some(highest), None));
    for below in (1..size).step_by(3) {
        let number = highest - below;
        assert!(receiver.accepts(number));
        if below % 2 == 0 {
            assert!(receiver.record(number).unwrap_or(true));
            assert!(!receiver.record(number).unwrap_or(false)); // which changes nothing
        } else {
            assert_eq!(receiver.receive(number as u16), Some(number));
        }
        assert_eq!(receiver.receive(number as u16), None);
    }
    let copy = receiver;
    assert!(!receiver.record(highest - size).unwrap_or(false));
    for receiver in [receiver, copy] {
        for below in 0..size + 200 {
            let is_new = below < size && below % 3 != 1 && below != 0;
            assert_eq!(receiver.accepts(highest - below), is_new, "{size} {below}");
        }
        assert_eq!(receiver.number_of(39_999), FAR + 39_999);
        assert_eq!(receiver.number_of(7), FAR + 65_536 + 7);
    }
    // It moves on, and the copy doesn't.
    assert!(receiver.record(highest + size).unwrap_or(true));
    assert_eq!(receiver.receive((highest + 1) as u16), Some(highest + 1));
    assert!(!receiver.accepts(highest) && !receiver.accepts(highest + size));
    assert_eq!(receiver.highest(), Some(highest + size));
    assert_eq!(copy.highest(), Some(highest));
    assert!(copy.accepts(highest + 1));
}

#[test]
fn windows_have_their_size() {
    has_a_window(Receiver::starting_at(COUNT).unwrap(), 128);
    has_a_window(WideReceiver::<1>::starting_at(COUNT).unwrap(), 64);
    has_a_window(WideReceiver::<3>::starting_at(COUNT).unwrap(), 192);
    has_a_window(WideReceiver::<16>::starting_at(COUNT).unwrap(), 1024);
    has_a_window(WideReceiver::<512>::starting_at(COUNT).unwrap(), 32_768);
}

#[test]
fn the_number_0_is_taken() {
    fn takes_it(mut receiver: impl Stateful) {
        assert_eq!(
            (receiver.highest(), receiver.number_of(65_535)),
            (None, 65_535)
        );
        assert_eq!((receiver.receive(0), receiver.receive(0)), (Some(0), None));
        assert_eq!((receiver.highest(), receiver.accepts(0)), (Some(0), false));
        assert_eq!(receiver.number_of(65_535), u64::MAX);
    }
    takes_it(Receiver::default());
    takes_it(WideReceiver::<2>::default());
    takes_it(WideReceiver::<2>::starting_at(0).unwrap());
}

#[test]
fn a_packet_from_before_the_first_has_a_number_from_the_rollover_count_1_on() {
    fn takes_it(mut receiver: impl Stateful) {
        let numbers = [5, 65_533, 6, 7].map(|it| receiver.receive(it));
        assert_eq!(numbers, [65_541, 65_533, 65_542, 65_543].map(Some));
    }
    takes_it(Receiver::starting_at(1).unwrap());
    takes_it(WideReceiver::<16>::starting_at(1).unwrap());
    // and with 0 it doesn't
    let mut receiver = Receiver::starting_at(0).unwrap();
    let numbers = [5, 65_533, 6, 7].map(|it| receiver.receive(it));
    assert_eq!(numbers, [Some(5), Some(u64::MAX - 2), None, None]);
}

#[test]
fn wide_receivers_start_at_each_rollover_count() {
    for count in [1, 7, 65_536, 1 << 32, (1 << 48) - 1] {
        let mut receiver = WideReceiver::<4>::starting_at(count).unwrap();
        assert_eq!(receiver.number_of(0xABCD), count << 16 | 0xABCD);
        assert_eq!(receiver.receive(0xABCD), Some(count << 16 | 0xABCD));
        assert_eq!(receiver.receive(0xABCC), Some(count << 16 | 0xABCC));
    }
    for count in [1 << 48, u64::MAX] {
        assert_eq!(
            WideReceiver::<4>::starting_at(count).err(),
            Some(BadRolloverCount)
        );
    }
}

fn judges<const WORDS: usize>(
    receiver: &mut WideRestartingReceiver<WORDS>,
    rows: &[(u16, Arrival)],
) {
    for (low, arrival) in rows {
        let judged = receiver.receive(*low);
        assert_eq!(judged, *arrival, "{low}");
        // what is taken has a number, the first one of an epoch too
        let is_taken = judged != Arrival::Refused;
        let number = judged.number().map(|it| it as u16);
        assert_eq!(number, is_taken.then_some(*low));
    }
}

#[test]
fn senders_start_again() {
    use Arrival::{Refused, Restarted, Taken};
    // 2,999 ahead is of the stream, and 3,000 isn't; 127 below is in the window, and 128 isn't.
    for mut receiver in [
        WideRestartingReceiver::<2>::new(),
        WideRestartingReceiver::default(),
        WideRestartingReceiver::with_bounds(0, 0),
        WideRestartingReceiver::with_bounds(3000, 1).with_max_misorder(3000),
    ] {
        assert_eq!(receiver.highest(), None);
        judges(
            &mut receiver,
            &[(1000, Taken(66_536)), (873, Taken(66_409)), (872, Refused)],
        );
        judges(
            &mut receiver,
            &[(3999, Taken(69_535)), (3999, Refused), (6999, Refused)],
        );
        assert_eq!(receiver.highest(), Some(69_535));
        let mut copy = receiver;
        judges(
            &mut receiver,
            &[(7001, Refused), (7000, Refused), (7001, Restarted(203_609))],
        );
        judges(
            &mut receiver,
            &[
                (7001, Refused),
                (7000, Taken(203_608)),
                (7002, Taken(203_610)),
            ],
        );
        assert_eq!(
            (receiver.highest(), copy.highest()),
            (Some(203_610), Some(69_535))
        );
        judges(&mut copy, &[(7000, Restarted(203_608))]);
    }
}

#[test]
fn bounds_are_those_that_are_given() {
    use Arrival::{Refused, Restarted, Taken};
    let mut receiver = RestartingReceiver::with_bounds(100, 3);
    judges(
        &mut receiver,
        &[
            (500, Refused),
            (501, Refused),
            (503, Refused),
            (504, Refused),
        ],
    );
    judges(
        &mut receiver,
        &[(505, Taken(66_041)), (605, Refused), (604, Taken(66_140))],
    );
    judges(
        &mut receiver,
        &[(704, Refused), (705, Restarted(196_608 + 705))],
    );
    let mut receiver = RestartingReceiver::with_bounds(65_535, 1);
    judges(
        &mut receiver,
        &[(0, Taken(65_536)), (0, Refused), (32_767, Taken(98_303))],
    );
}

#[test]
fn late_packets_are_no_restart() {
    use Arrival::{Refused, Restarted, Taken};
    // 1,023 below is in the window, and 2,999 below is of the stream
    let mut receiver = RestartingReceiver::new();
    judges(
        &mut receiver,
        &[
            (5000, Taken(70_536)),
            (4800, Taken(70_336)),
            (4801, Taken(70_337)),
            (4801, Refused),
            (3977, Taken(69_513)),
            (3976, Refused),
            (2001, Refused),
            (2002, Refused),
            (2000, Refused),
            (2001, Refused),
            (1999, Refused),
            (2000, Restarted(198_608)),
        ],
    );
    // by RFC 3550's bounds 99 below is of the stream, and 100 isn't
    let mut receiver = WideRestartingReceiver::<2>::with_bounds(3000, 2).with_max_misorder(100);
    judges(
        &mut receiver,
        &[
            (999, Refused),
            (1000, Taken(66_536)),
            (901, Taken(66_437)),
            (899, Refused),
            (900, Restarted(197_508)),
        ],
    );
    // a window of 32,768 numbers is the bound
    let mut receiver = WideRestartingReceiver::<512>::new();
    judges(
        &mut receiver,
        &[(40_000, Taken(105_536)), (7233, Taken(72_769))],
    );
}

/// A sender that starts again at 4,999 after 5,000 and 5,002: what was taken is refused, and all else is late.
#[test]
fn a_restart_that_is_not_seen() {
    use Arrival::{Refused, Taken};
    let mut receiver = RestartingReceiver::new();
    for (low, arrival) in [
        (5_000, Taken(70_536)),
        (5_002, Taken(70_538)),
        (4_999, Taken(70_535)),
        (5_000, Refused),
        (5_001, Taken(70_537)),
        (5_002, Refused),
        (5_003, Taken(70_539)),
    ] {
        assert_eq!(receiver.receive(low), arrival);
    }
}

#[test]
fn refused_packets_are_of_the_stream_or_not() {
    use Arrival::{Refused, Restarted, Taken};
    // the window has 1,024 numbers, and 3,000 below is outside
    let (taken, old, new) = (Standing::Taken, Standing::TooOld, Standing::New);
    let mut receiver = RestartingReceiver::new();
    assert_eq!(receiver.in_row(), 0);
    assert_eq!(receiver.number_of(0), 65_536);
    assert_eq!(receiver.number_of(65_535), 131_071);
    assert_eq!(receiver.standing_of(5), new);
    for (low, arrival, in_row, number, standing) in [
        (60_000, Taken(125_536), 0, 125_536, taken),
        (60_000, Refused, 0, 125_536, taken),
        (58_977, Taken(124_513), 0, 124_513, taken),
        (58_976, Refused, 0, 124_512, old),
        (57_001, Refused, 0, 122_537, old),
        (57_000, Refused, 1, 122_536, old),
        (7, Refused, 1, 131_079, new),
        (60_000, Refused, 0, 125_536, taken),
        (8, Refused, 1, 131_080, new),
        (9, Restarted(196_617), 0, 196_617, taken),
        (9, Refused, 0, 196_617, taken),
        (8, Taken(196_616), 0, 196_616, taken),
    ] {
        assert_eq!(receiver.receive(low), arrival);
        assert_eq!(
            (receiver.in_row(), receiver.number_of(low)),
            (in_row, number)
        );
        assert_eq!(receiver.standing_of(number), standing, "{low}");
    }
    assert_eq!(receiver.standing_of(196_618), new);
    assert_eq!(receiver.standing_of(125_536), old);
}

// The packets of the stream are received, those that are refused too, and no others.
#[test]
fn packets_of_the_stream_are_reported() {
    let (mut receiver, mut statistics) = (RestartingReceiver::new(), ReceptionStatistics::new());
    for low in [5, 6, 6, 40_000, 5] {
        let _ = receiver.receive(low);
        if receiver.in_row() == 0 {
            statistics.record(receiver.number_of(low), 0, 0);
        }
    }
    assert_eq!(statistics.received(), 4);
    assert_eq!(statistics.report().unwrap().cumulative_lost, -2);
}

#[test]
fn numbers_are_told_apart() {
    let mut receiver = Receiver::starting_at(1).unwrap();
    assert_eq!(receiver.standing_of(0), Standing::New);
    receiver.record(66_536);
    let told = [66_537, 66_536, 66_409, 66_408].map(|it| receiver.standing_of(it));
    let wanted = [
        Standing::New,
        Standing::Taken,
        Standing::New,
        Standing::TooOld,
    ];
    assert_eq!(told, wanted);
    let mut receiver = WideReceiver::<16>::starting_at(1).unwrap();
    assert_eq!(receiver.standing_of(0), Standing::New);
    receiver.record(66_536);
    let told = [66_537, 66_536, 65_513, 65_512].map(|it| receiver.standing_of(it));
    assert_eq!(told, wanted);
}

#[test]
fn numbers_are_extended_past_32_bits() {
    assert_eq!(
        (extend_u8(FAR + 255, 0), extend_u8(FAR, 255)),
        (FAR + 256, FAR - 1)
    );
    assert_eq!(
        (extend_u15(FAR + 32_767, 0), extend_u15(FAR, 32_767)),
        (FAR + 32_768, FAR - 1)
    );
    assert_eq!(
        (extend_u16(FAR + 65_535, 0), extend_u16(FAR, 65_535)),
        (FAR + 65_536, FAR - 1)
    );
    assert_eq!(
        (extend_u32(FAR - 1, 0), extend_u32(FAR, u32::MAX)),
        (FAR, FAR - 1)
    );
}

#[test]
fn the_highest_number_has_64_bits() {
    // The last rollover count is 2^48 - 1: with 16 bits behind it the number has 64.
    const LAST: u64 = (1 << 48) - 1;
    fn tells_it(mut receiver: impl Stateful) {
        let number = 0xFFFF_FFFF_FFFF_ABCD;
        assert_eq!(receiver.receive(0xABCD), Some(number));
        assert_eq!(receiver.highest(), Some(number));
    }
    tells_it(Receiver::starting_at(LAST).unwrap());
    tells_it(WideReceiver::<2>::starting_at(LAST).unwrap());
}

#[test]
fn many_packets_in_a_row_may_be_asked_for() {
    for count in [2, 16, 17, 127, 128, 255_u8] {
        let mut receiver = RestartingReceiver::with_bounds(3000, count);
        for low in 1..count {
            assert_eq!(receiver.receive(low.into()), Arrival::Refused, "{count}");
            assert_eq!(receiver.in_row(), low);
            assert_eq!(receiver.number_of(low.into()), 65_536 + u64::from(low));
            assert_eq!(receiver.standing_of(65_536), Standing::New);
        }
        let number = 65_536 + u64::from(count);
        assert_eq!(receiver.receive(count.into()), Arrival::Taken(number));
    }
}
