use crate::error::{NotAValue, OutOfRange};
use crate::sys;

/// Reads a send time (<http://www.webrtc.org/experiments/rtp-hdrext/abs-send-time>) as it lies: 24 bits, in units of
/// 2^-18 seconds, modulo 64 seconds. [`Values`](crate::Values) have whole microseconds, by which nearly all of these
/// times lose one unit where they are read and written: who sends a time on as it came, or reckons with it, takes this.
///
/// # Errors
///
/// [`NotAValue`] where there are not three bytes.
///
/// ```
/// use rtp_wire::standard::{parse_send_time, send_time_bytes};
///
/// let units = parse_send_time(&[0x04, 0x00, 0x01])?;
/// assert_eq!(units, (1 << 18) + 1); // a second and 3.8 microseconds
/// assert_eq!(send_time_bytes(units), Ok([0x04, 0x00, 0x01]));
/// # Ok::<(), rtp_wire::NotAValue>(())
/// ```
pub fn parse_send_time(data: &[u8]) -> Result<u32, NotAValue> {
    sys::read_send_time(data).ok_or(NotAValue)
}

/// The data of a send time.
///
/// # Errors
///
/// [`OutOfRange`] where it is 2^24 units or more.
///
/// ```
/// use rtp_wire::standard::send_time_bytes;
///
/// let ntp: u64 = 0xE8B1_0C47_4000_0000; // the time now, in units of 2^-32 seconds
/// assert_eq!(send_time_bytes((ntp >> 14) as u32 & 0xFF_FFFF), Ok([0x1D, 0x00, 0x00])); // 7.25 seconds
/// assert!(send_time_bytes(1 << 24).is_err());
/// ```
pub fn send_time_bytes(units: u32) -> Result<[u8; 3], OutOfRange> {
    let value = i32::try_from(units).unwrap_or(i32::MAX);
    OutOfRange::check("the send time", value, 0..=0xFF_FFFF)?;
    let mut data = [0; 3];
    sys::write_send_time(units, &mut data, &mut 0);
    Ok(data)
}

/// The time in units of 2^-32 seconds, as of an NTP timestamp, that ends in the low 24 bits of `units` and then 14 zeros,
/// and is nearest to `near`, modulo 2^64; of two that are equally near the later one. Where `near` is the time at which
/// the packet arrived, by a clock that is less than 32 seconds off the sender's, it is the time at which that sent it.
///
/// ```
/// use rtp_wire::standard::extend_send_time;
///
/// assert_eq!(extend_send_time(0xE000_0000_C000_0000, 0xFF_FFFF), 0xDFFF_FFFF_FFFF_C000);
/// ```
#[must_use]
pub fn extend_send_time(near: u64, units: u32) -> u64 {
    sys::extend_send_time(near, units)
}
