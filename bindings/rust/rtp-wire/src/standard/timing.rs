use super::{read_of_data, written};
use crate::error::{NotAValue, NotWritten};
use crate::sys;
use crate::views::TimingView;

/// When a frame passed each step on its way, in milliseconds after its capture (WebRTC's `video-timing`): 13 bytes,
/// or 12 in the older form. [`Values`](crate::Values) read 12 bytes askew, and have neither network time.
///
/// ```
/// use rtp_wire::standard::Timing;
///
/// let timing = Timing::parse(&[0, 10, 0, 20, 0, 30, 0, 40, 0, 50, 0, 60])?;
/// assert_eq!((timing.flags, timing.encode_start, timing.network2), (None, 10, 60));
/// let mut data = [0; 13];
/// let with_flags = Timing { flags: Some(1), ..timing };
/// assert_eq!(with_flags.write_to(&mut data)?, 13);
/// assert_eq!(data, [1, 0, 10, 0, 20, 0, 30, 0, 40, 0, 50, 0, 60]);
/// # Ok::<(), Box<dyn std::error::Error>>(())
/// ```
#[derive(Clone, Copy, Debug, Default, PartialEq, Eq, Hash)]
pub struct Timing {
    /// Why the times were sent: bit 0 a timer, bit 1 a large frame; of 255, which libwebrtc has for times that aren't
    /// valid, the times mean nothing. `None` in the older form, which has no flags.
    pub flags: Option<u8>,
    /// When its encoding began.
    pub encode_start: u16,
    /// When its encoding ended.
    pub encode_finish: u16,
    /// When its last packet was made.
    pub packetize_complete: u16,
    /// When its last packet left the pacer.
    pub last_left_pacer: u16,
    /// A time that a server on the way fills in; what it means is the application's.
    pub network: u16,
    /// Another such time.
    pub network2: u16,
}

impl Timing {
    /// Reads a timing.
    ///
    /// # Errors
    ///
    /// [`NotAValue`] where there are neither 12 nor 13 bytes.
    pub fn parse(data: &[u8]) -> Result<Timing, NotAValue> {
        let view = sys::read_timing(data).ok_or(NotAValue)?;
        Ok(Timing {
            flags: (view.has_flags != 0).then_some(view.flags),
            encode_start: view.encode_start,
            encode_finish: view.encode_finish,
            packetize_complete: view.packetize_complete,
            last_left_pacer: view.last_left_pacer,
            network: view.network,
            network2: view.network2,
        })
    }

    /// Writes the data to the front of the buffer, and returns how many bytes they are: 13, or 12 without flags.
    /// Those after them stay.
    ///
    /// # Errors
    ///
    /// [`NotWritten::ShortBuffer`]; nothing is written then.
    pub fn write_to(&self, buf: &mut [u8]) -> Result<usize, NotWritten> {
        let view = TimingView {
            encode_start: self.encode_start,
            encode_finish: self.encode_finish,
            packetize_complete: self.packetize_complete,
            last_left_pacer: self.last_left_pacer,
            network: self.network,
            network2: self.network2,
            flags: self.flags.unwrap_or(0),
            has_flags: u8::from(self.flags.is_some()),
        };
        written(|len| sys::write_timing(&view, buf, len))
    }
}

read_of_data!(Timing);
