use crate::receiver::Standing;
use crate::sys;
use crate::views::{RestartingState, WideState};

/// What a [`RestartingReceiver`] says of a packet. The low 16 bits of a number are those of the header.
#[derive(Clone, Copy, Debug, PartialEq, Eq)]
#[must_use]
pub enum Arrival {
    /// It has this extended number, and is taken.
    Taken(u64),
    /// The sender has started again, and the packet is taken as the first one of a new epoch, with this
    /// extended number: what hangs on numbers begins anew.
    Restarted(u64),
    /// It is of the stream and a replay, or too old to tell; or it is outside of the stream.
    /// [`in_row`](WideRestartingReceiver::in_row) tells these two apart.
    Refused,
}

impl Arrival {
    /// The extended number of a packet that is taken, be it the first one of a new epoch or not. Who looks at
    /// [`Arrival::Taken`] alone drops that first one.
    #[must_use]
    pub fn number(self) -> Option<u64> {
        match self {
            Arrival::Taken(number) | Arrival::Restarted(number) => Some(number),
            Arrival::Refused => None,
        }
    }
}

/// The receive state of one stream that isn't authenticated and whose sender may start again under the
/// same SSRC (RFC 3550, appendix A.1), with a replay window of 64 * WORDS numbers: of 1 to 512 words, which
/// is tested as the program is compiled. [`RestartingReceiver`] has 16.
///
/// A packet is of the stream where its number is less than `max_dropout` above the highest one taken, or
/// less than `max_misorder` below it: it is judged as by [`WideReceiver`](crate::WideReceiver). Any other is
/// refused; but where the very next packet has the number after it and is outside of the stream too, the
/// sender has started again, and that second packet is taken.
///
/// The bounds are safe where packets are sent again under the stream's own SSRC: `max_misorder` is 3,000,
/// or the size of the window where that is more, so late packets are no restart, and copies are refused.
/// A sender that starts again less than that below the highest number, or less than `max_dropout` above it,
/// isn't seen: until its packets pass the highest number they are judged as late ones, and refused where
/// their numbers were taken or are too old to tell.
///
/// Don't use it for SRTP: there a packet that isn't authentic must change nothing, and a sender that
/// starts again would use the numbers of its key anew.
///
/// The first number has the rollover count 1, and the first one of each later epoch 2 more than the
/// highest before it: all numbers of an epoch are above those of the epochs before it.
///
/// ```
/// use rtp_wire::{Arrival, RestartingReceiver};
///
/// let mut receiver = RestartingReceiver::new();
/// assert_eq!(receiver.receive(60_000), Arrival::Taken(125_536));
/// assert_eq!(receiver.receive(59_800), Arrival::Taken(125_336)); // a late one
/// assert_eq!(receiver.receive(7), Arrival::Refused);
/// assert_eq!(receiver.receive(8), Arrival::Restarted(196_616));
/// assert_eq!(receiver.receive(9), Arrival::Taken(196_617));
/// ```
///
/// In a loop a restart is told, and its packet goes the way of all that are taken:
///
/// ```
/// use rtp_wire::{Arrival, RestartingReceiver};
///
/// let mut receiver = RestartingReceiver::new();
/// let (mut restarts, mut taken) = (0, Vec::new());
/// for sequence_number in [60_000, 7, 8, 8, 9] {
///     let arrival = receiver.receive(sequence_number);
///     if let Arrival::Restarted(_) = arrival {
///         restarts += 1; // what hangs on numbers begins anew
///     }
///     let Some(number) = arrival.number() else { continue }; // it is dropped
///     taken.push(number);
/// }
/// assert_eq!((restarts, taken), (1, vec![125_536, 196_616, 196_617]));
/// ```
///
/// ```compile_fail
/// rtp_wire::WideRestartingReceiver::<0>::new();
/// ```
///
/// ```compile_fail
/// rtp_wire::WideRestartingReceiver::<513>::new();
/// ```
#[derive(Clone, Copy, Debug)]
pub struct WideRestartingReceiver<const WORDS: usize> {
    state: RestartingState,
    words: [u64; WORDS],
}

/// A [`WideRestartingReceiver`] with a window of 1,024 numbers, as libwebrtc has it.
pub type RestartingReceiver = WideRestartingReceiver<16>;

impl<const WORDS: usize> Default for WideRestartingReceiver<WORDS> {
    fn default() -> Self {
        Self::new()
    }
}

impl<const WORDS: usize> WideRestartingReceiver<WORDS> {
    const HAS_WINDOW: () = assert!(WORDS >= 1 && WORDS <= 512, "a window has 1 to 512 words");

    /// A receiver that has taken nothing yet, with RFC 3550's `MAX_DROPOUT` of 3,000, that takes the
    /// first packet of a source.
    #[must_use]
    pub fn new() -> Self {
        let () = Self::HAS_WINDOW;
        WideRestartingReceiver {
            state: RestartingState::default(),
            words: [0; WORDS],
        }
    }

    /// A receiver that has taken nothing yet, with other bounds. A packet of the stream is less than
    /// `max_dropout` above the highest number taken; 0 stands for 3,000. The first packet of a source that is
    /// taken is the last of `min_sequential` packets in a row, each with the number after that of the one
    /// before; those before it are refused. 0 is the same as 1, and RFC 3550's `MIN_SEQUENTIAL` is 2.
    #[must_use]
    pub fn with_bounds(max_dropout: u16, min_sequential: u8) -> Self {
        let mut receiver = Self::new();
        receiver.state.max_dropout = max_dropout;
        receiver.state.min_sequential = min_sequential;
        receiver
    }

    /// The same receiver with this bound for late packets: one of the stream is less than `max_misorder`
    /// below the highest number taken. 0 stands for 3,000, or for the size of the window where that is
    /// more; RFC 3550's `MAX_MISORDER` is 100.
    ///
    /// ```
    /// use rtp_wire::{Arrival, RestartingReceiver};
    ///
    /// let mut receiver = RestartingReceiver::with_bounds(3000, 1).with_max_misorder(100);
    /// assert_eq!(receiver.receive(1999), Arrival::Taken(67_535));
    /// assert_eq!(receiver.receive(1800), Arrival::Refused);
    /// assert_eq!(receiver.receive(1801), Arrival::Restarted(198_409));
    /// ```
    #[must_use]
    pub fn with_max_misorder(mut self, max_misorder: u16) -> Self {
        self.state.max_misorder = max_misorder;
        self
    }

    /// The highest number taken in the epoch; `None` where nothing is taken yet.
    #[must_use]
    pub fn highest(&self) -> Option<u64> {
        (self.state.started != 0).then_some(self.state.highest)
    }

    /// How many packets outside of the stream came last in a row, each with the number after that of the one
    /// before, up to 255, and 0 where the last packet was of the stream or taken.
    ///
    /// So it tells why a packet was refused just now: where it is 0 the packet is of the stream, and a replay or
    /// too old ([`standing_of`](Self::standing_of)), and counts in
    /// [`ReceptionStatistics`](crate::ReceptionStatistics); else the packet is far from the stream, and remembered
    /// as what may lead up to a new epoch.
    ///
    /// ```
    /// use rtp_wire::{Arrival, RestartingReceiver, Standing};
    ///
    /// let mut receiver = RestartingReceiver::new();
    /// assert_eq!(receiver.receive(60_000), Arrival::Taken(125_536));
    /// assert_eq!(receiver.receive(58_000), Arrival::Refused);
    /// assert_eq!(receiver.in_row(), 0); // it is of the stream
    /// assert_eq!(receiver.standing_of(receiver.number_of(58_000)), Standing::TooOld);
    /// assert_eq!(receiver.receive(7), Arrival::Refused);
    /// assert_eq!(receiver.in_row(), 1); // it is far from it
    /// assert_eq!(receiver.receive(8), Arrival::Restarted(196_616));
    /// assert_eq!(receiver.in_row(), 0);
    /// ```
    #[must_use]
    pub fn in_row(&self) -> u8 {
        self.state.in_row
    }

    /// The extended sequence number of a packet of the stream, taken or refused: the nearest to the highest taken
    /// that ends in these 16 bits; where nothing is taken yet the one with the rollover count 1.
    #[must_use]
    pub fn number_of(&self, sequence_number: u16) -> u64 {
        sys::wide_receiver_number_of(&self.epoch(), sequence_number)
    }

    /// What is known of the number in the epoch, as [`Receiver::standing_of`](crate::Receiver::standing_of) tells
    /// it. Of a packet that was refused and is of the stream it says why.
    #[must_use]
    pub fn standing_of(&self, number: u64) -> Standing {
        Standing::told(sys::wide_receiver_standing_of(
            &self.epoch(),
            &self.words,
            number,
        ))
    }

    /// The epoch, whose window is that of a `WideReceiver`.
    fn epoch(&self) -> WideState {
        WideState {
            highest: self.highest().unwrap_or(1 << 16),
            started: self.state.started,
        }
    }

    /// The verdict on the next packet of the source.
    pub fn receive(&mut self, sequence_number: u16) -> Arrival {
        match sys::wide_restarting_receive(&mut self.state, &mut self.words, sequence_number) {
            (sys::OK, number) => Arrival::Taken(number),
            (sys::RESTARTED, number) => Arrival::Restarted(number),
            _ => Arrival::Refused,
        }
    }
}
