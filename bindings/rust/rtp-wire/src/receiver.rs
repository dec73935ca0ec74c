use crate::error::BadRolloverCount;
use crate::sys;
use crate::views::ReceiverState;

/// The receive state of one stream: a replay window of 128 numbers, and the rollover count (RFC 3711,
/// 3.3.1 and 3.3.2). It is plain memory of 32 bytes, and may be copied and stored.
///
/// A packet is taken where its number is above the highest taken, or less than 128 below it and not
/// taken. With SRTP, ask [`number_of`](Receiver::number_of) and [`accepts`](Receiver::accepts),
/// authenticate the packet, and [`record`](Receiver::record): a forged packet then changes nothing.
///
/// It is made by [`starting_at`](Receiver::starting_at), at the rollover count 1 where nothing is
/// authenticated: a packet from before the first one then has a number too.
///
/// ```
/// let mut receiver = rtp_wire::Receiver::starting_at(1)?;
/// assert_eq!(receiver.receive(5), Some(65_541));
/// assert_eq!(receiver.receive(65_533), Some(65_533)); // from before a rollover
/// assert_eq!(receiver.receive(6), Some(65_542));
/// assert_eq!(receiver.receive(5), None); // a replay
/// # Ok::<(), rtp_wire::BadRolloverCount>(())
/// ```
///
/// The default one, of zeros, has taken nothing yet either, and its first packet has the rollover
/// count 0: it is for SRTP, where a stream's packet indices begin there (RFC 3711, 3.3.1). Without
/// authentication a packet from before the first one gets a number near 2^64, and once that is taken
/// nearly all later ones are refused.
#[repr(transparent)]
#[derive(Clone, Copy, Debug, Default, PartialEq, Eq, Hash)]
pub struct Receiver {
    state: ReceiverState,
}

/// What a receiver knows of a number: why it isn't accepted.
#[derive(Clone, Copy, Debug, PartialEq, Eq, Hash)]
pub enum Standing {
    /// It may be taken.
    New,
    /// It is in the window and was taken: the packet is a replay.
    Taken,
    /// It is behind the window, which doesn't tell any more whether it was taken.
    TooOld,
}

impl Standing {
    pub(crate) fn told(standing: u8) -> Standing {
        match standing {
            0 => Standing::New,
            1 => Standing::Taken,
            _ => Standing::TooOld,
        }
    }
}

impl Receiver {
    /// A receiver that has taken nothing yet, whose first packet has this rollover count: 1 where nothing
    /// is authenticated, so that a packet from before the first one has a number too, and with SRTP the
    /// count that was signalled, or 0.
    ///
    /// # Errors
    ///
    /// [`BadRolloverCount`] where it is 2^48 or more.
    pub fn starting_at(rollover_count: u64) -> Result<Receiver, BadRolloverCount> {
        let mut receiver = Receiver::default();
        match sys::receiver_start(&mut receiver.state, rollover_count) {
            sys::OK => Ok(receiver),
            _ => Err(BadRolloverCount),
        }
    }

    /// The highest number taken; `None` where nothing is taken yet.
    #[must_use]
    pub fn highest(&self) -> Option<u64> {
        (self.state.started != 0).then_some(self.state.highest)
    }

    /// The extended sequence number of a packet: the nearest to the highest taken that ends in these 16
    /// bits. Its low 48 bits are SRTP's packet index.
    #[must_use]
    pub fn number_of(&self, sequence_number: u16) -> u64 {
        sys::receiver_number_of(&self.state, sequence_number)
    }

    /// Whether the number may be taken.
    #[must_use]
    pub fn accepts(&self, number: u64) -> bool {
        sys::receiver_accepts(&self.state, number)
    }

    /// What is known of the number. A packet that was refused changed nothing, so it can be asked
    /// afterwards.
    ///
    /// ```
    /// use rtp_wire::{Receiver, Standing};
    ///
    /// let mut receiver = Receiver::starting_at(1)?;
    /// assert_eq!(receiver.receive(1000), Some(66_536));
    /// assert_eq!(receiver.receive(872), None);
    /// assert_eq!(receiver.standing_of(receiver.number_of(872)), Standing::TooOld);
    /// assert_eq!(receiver.standing_of(66_536), Standing::Taken);
    /// # Ok::<(), rtp_wire::BadRolloverCount>(())
    /// ```
    #[must_use]
    pub fn standing_of(&self, number: u64) -> Standing {
        Standing::told(sys::receiver_standing_of(&self.state, number))
    }

    /// Records that the number is taken. One that isn't accepted changes nothing of what is held.
    pub fn record(&mut self, number: u64) {
        sys::receiver_record(&mut self.state, number);
    }

    /// Takes a packet that needn't be authenticated, and returns its extended number; `None`, and
    /// nothing changes, where it is a replay or too old to tell.
    #[must_use]
    pub fn receive(&mut self, sequence_number: u16) -> Option<u64> {
        sys::receiver_receive(&mut self.state, sequence_number)
    }
}

/// The number nearest to the previous one, modulo 2^64, that ends in these 8 bits. Where two are equally
/// near it is the one with the rollover count of the previous one.
///
/// ```
/// assert_eq!(rtp_wire::extend_u8(255, 0), 256);
/// ```
#[must_use]
pub fn extend_u8(previous: u64, number: u8) -> u64 {
    sys::extend_u8(previous, number)
}

/// [`extend_u8`] of 15 bits, as a picture id has: the sixteenth bit of `number` isn't looked at.
///
/// ```
/// assert_eq!(rtp_wire::extend_u15(32_767, 0), 32_768);
/// ```
#[must_use]
pub fn extend_u15(previous: u64, number: u16) -> u64 {
    sys::extend_u15(previous, number)
}

/// [`extend_u8`] of 32 bits, as a timestamp has.
///
/// ```
/// assert_eq!(rtp_wire::extend_u32(u64::from(u32::MAX), 0), 1 << 32);
/// ```
#[must_use]
pub fn extend_u32(previous: u64, number: u32) -> u64 {
    sys::extend_u32(previous, number)
}

/// The number nearest to the previous one, modulo 2^64, that ends in these 16 bits. Where two are
/// equally near it is the one with the rollover count of the previous one.
///
/// ```
/// assert_eq!(rtp_wire::extend_u16(65_530, 4), 65_540);
/// ```
#[must_use]
pub fn extend_u16(previous: u64, number: u16) -> u64 {
    sys::extend_u16(previous, number)
}
