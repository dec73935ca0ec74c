use crate::error::BadRolloverCount;
use crate::receiver::Standing;
use crate::sys;
use crate::views::WideState;

/// The receive state of one stream, as [`Receiver`](crate::Receiver), with a replay window of
/// 64 * WORDS numbers in place of 128: of 1 to 512 words, which is tested as the program is compiled.
///
/// Choose it so that the window is longer than a packet can be late: at 30 Mbit/s 128 numbers are 43 ms.
/// libwebrtc has 1,024, which are 16 words.
///
/// ```
/// let mut receiver = rtp_wire::WideReceiver::<16>::starting_at(1)?;
/// assert_eq!(receiver.receive(5000), Some(70_536));
/// assert_eq!(receiver.receive(3977), Some(69_513)); // 1,023 below
/// assert_eq!(receiver.receive(3977), None); // a replay
/// assert_eq!(receiver.receive(3976), None); // too old to tell
/// # Ok::<(), rtp_wire::BadRolloverCount>(())
/// ```
///
/// The default one, of zeros, is as that of [`Receiver`](crate::Receiver).
///
/// ```compile_fail
/// let _ = rtp_wire::WideReceiver::<0>::default();
/// ```
///
/// ```compile_fail
/// let _ = rtp_wire::WideReceiver::<513>::default();
/// ```
///
/// ```compile_fail
/// let _ = rtp_wire::WideReceiver::<0>::starting_at(1);
/// ```
///
/// ```compile_fail
/// let _ = rtp_wire::WideReceiver::<513>::starting_at(1);
/// ```
#[derive(Clone, Copy, Debug)]
pub struct WideReceiver<const WORDS: usize> {
    state: WideState,
    words: [u64; WORDS],
}

impl<const WORDS: usize> Default for WideReceiver<WORDS> {
    fn default() -> Self {
        let () = Self::HAS_WINDOW;
        WideReceiver {
            state: WideState::default(),
            words: [0; WORDS],
        }
    }
}

impl<const WORDS: usize> WideReceiver<WORDS> {
    const HAS_WINDOW: () = assert!(WORDS >= 1 && WORDS <= 512, "a window has 1 to 512 words");

    /// A receiver that has taken nothing yet, whose first packet has this rollover count, as
    /// [`Receiver::starting_at`](crate::Receiver::starting_at) says: 1 where nothing is authenticated.
    ///
    /// # Errors
    ///
    /// [`BadRolloverCount`] where it is 2^48 or more.
    pub fn starting_at(rollover_count: u64) -> Result<Self, BadRolloverCount> {
        let mut receiver = Self::default();
        match sys::wide_receiver_start(&mut receiver.state, rollover_count) {
            sys::OK => Ok(receiver),
            _ => Err(BadRolloverCount),
        }
    }

    /// The highest number taken; `None` where nothing is taken yet.
    #[must_use]
    pub fn highest(&self) -> Option<u64> {
        (self.state.started != 0).then_some(self.state.highest)
    }

    /// The extended sequence number of a packet: the nearest to the highest taken that ends in these 16
    /// bits. Its low 48 bits are SRTP's packet index.
    #[must_use]
    pub fn number_of(&self, sequence_number: u16) -> u64 {
        sys::wide_receiver_number_of(&self.state, sequence_number)
    }

    /// Whether the number may be taken.
    #[must_use]
    pub fn accepts(&self, number: u64) -> bool {
        sys::wide_receiver_accepts(&self.state, &self.words, number)
    }

    /// What is known of the number, as [`Receiver::standing_of`](crate::Receiver::standing_of) tells it.
    #[must_use]
    pub fn standing_of(&self, number: u64) -> Standing {
        Standing::told(sys::wide_receiver_standing_of(
            &self.state,
            &self.words,
            number,
        ))
    }

    /// Records that the number is taken, and returns whether it was accepted. Where it wasn't nothing
    /// changes.
    pub fn record(&mut self, number: u64) -> bool {
        sys::wide_receiver_record(&mut self.state, &mut self.words, number) == sys::OK
    }

    /// Takes a packet that needn't be authenticated, and returns its extended number; `None`, and
    /// nothing changes, where it is a replay or too old to tell.
    #[must_use]
    pub fn receive(&mut self, sequence_number: u16) -> Option<u64> {
        sys::wide_receiver_receive(&mut self.state, &mut self.words, sequence_number)
    }
}
