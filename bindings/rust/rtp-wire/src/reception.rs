use crate::sys;
use crate::views::ReceptionState;

/// Statistics of the packets that came from one source, by which its receiver reports what it got (RFC 3550,
/// 6.4.1, A.3 and A.8). They are plain memory of 56 bytes, and may be copied and stored.
///
/// Record each packet of the source, those that are late and duplicates too, whether the receiver then takes it
/// or refuses it: they count as received, so that the loss may be negative. Its number is that of
/// [`Receiver::number_of`](crate::Receiver::number_of). With SRTP record it once it is authentic. Packets are
/// expected from the first one's number on, even where one with a lower number comes later.
///
/// A packet that is outside of the stream, after which
/// [`in_row`](crate::WideRestartingReceiver::in_row) of a `RestartingReceiver` isn't 0, isn't recorded; where the
/// sender has started again, begin anew with the packet that says so.
///
/// ```
/// use rtp_wire::{ReceptionReport, ReceptionStatistics};
///
/// let mut statistics = ReceptionStatistics::new();
/// statistics.record(65_541, 0, 1000);
/// statistics.record(65_542, 3000, 4016);
/// statistics.record(65_544, 9000, 10_000);
/// let report = ReceptionReport {
///     fraction_lost: 64, // a quarter
///     cumulative_lost: 1,
///     extended_highest: 8,
///     jitter: 1,
/// };
/// assert_eq!(statistics.report(), Some(report));
/// assert_eq!(statistics.report(), None); // nothing came since
/// ```
#[repr(transparent)]
#[derive(Clone, Copy, Debug, Default, PartialEq, Eq, Hash)]
pub struct ReceptionStatistics {
    state: ReceptionState,
}

impl ReceptionStatistics {
    /// Statistics of no packets.
    #[must_use]
    pub fn new() -> ReceptionStatistics {
        ReceptionStatistics::default()
    }

    /// How many packets came.
    #[must_use]
    pub fn received(&self) -> u64 {
        self.state.received
    }

    /// How many packets were expected, from the first one's number to the highest; 0 where none came.
    #[must_use]
    pub fn expected(&self) -> u64 {
        match self.state.received {
            0 => 0,
            _ => (self.state.highest - self.state.first).saturating_add(1),
        }
    }

    /// Records a packet that came, by its extended sequence number, its timestamp and the time of its arrival: in
    /// ticks of the timestamp's clock, from any moment on, modulo 2^32.
    pub fn record(&mut self, number: u64, timestamp: u32, arrival: u32) {
        sys::reception_record(&mut self.state, number, timestamp, arrival);
    }

    /// Reports on the packets that were recorded, and begins the interval of the next report. `None` where none was
    /// recorded since the last report, since no report on the source is owed then (6.4).
    pub fn report(&mut self) -> Option<ReceptionReport> {
        sys::reception_report(&mut self.state)
    }
}

/// What a report block says of a source, but for its SSRC and the times of the last sender report (RFC 3550, 6.4.1).
#[repr(C)]
#[derive(Clone, Copy, Debug, Default, PartialEq, Eq, Hash)]
pub struct ReceptionReport {
    /// The fraction of the packets expected since the last report that is lost, in 256ths, rounded down; 0 where the
    /// loss is negative.
    pub fraction_lost: u8,
    /// The packets expected less those received, since the first one: -8,388,608 to 8,388,607, and one of these two
    /// where it is beyond them.
    pub cumulative_lost: i32,
    /// The highest sequence number, and in the high 16 bits how often they rolled over since the first packet.
    pub extended_highest: u32,
    /// The interarrival jitter, in ticks of the timestamp's clock.
    pub jitter: u32,
}

impl ReceptionReport {
    /// The report block on this source. `last_report` is LSR, the middle 32 bits of the NTP time of the last sender
    /// report, and `delay` is DLSR, the time since it came in units of 1/65,536 s: both 0 where none came yet. A
    /// `cumulative_lost` that 24 bits can't carry is written as the nearest that they can.
    ///
    /// ```
    /// # let report = rtp_wire::ReceptionReport::default();
    /// assert_eq!(report.to_block(44, 0, 0)[..4], [0, 0, 0, 44]);
    /// ```
    #[must_use]
    pub fn to_block(&self, ssrc: u32, last_report: u32, delay: u32) -> [u8; 24] {
        let mut block = [0; 24];
        sys::write_report(self, ssrc, last_report, delay, &mut block, &mut 0);
        block
    }
}
