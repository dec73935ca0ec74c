use super::written;
use crate::error::{NotAValue, NotWritten, OutOfRange};
use crate::sys::{self, range};

/// Reads a transmission time offset, in three bytes with a sign: how long after the time of its timestamp the packet
/// was sent, in ticks of the stream's clock, -8,388,608 to 8,388,607 (RFC 5450, 3). [`Values`](crate::Values) have
/// str0m's, which are four bytes.
///
/// # Errors
///
/// [`NotAValue`] where there are not three bytes.
///
/// ```
/// use rtp_wire::standard::parse_transmission_offset;
///
/// assert_eq!(parse_transmission_offset(&[0xFF, 0xFF, 0xFE]), Ok(-2));
/// ```
pub fn parse_transmission_offset(data: &[u8]) -> Result<i32, NotAValue> {
    sys::read_transmission_offset(data).ok_or(NotAValue)
}

/// The data of a transmission time offset in ticks (RFC 5450, 3).
///
/// # Errors
///
/// [`OutOfRange`] where it is none of -8,388,608 to 8,388,607.
///
/// ```
/// use rtp_wire::standard::transmission_offset_bytes;
///
/// assert_eq!(transmission_offset_bytes(-2), Ok([0xFF, 0xFF, 0xFE]));
/// assert!(transmission_offset_bytes(8_388_608).is_err());
/// ```
pub fn transmission_offset_bytes(ticks: i32) -> Result<[u8; 3], OutOfRange> {
    OutOfRange::check("the transmission offset", ticks, -0x80_0000..=0x7F_FFFF)?;
    let mut data = [0; 3];
    sys::write_transmission_offset(ticks, &mut data, &mut 0);
    Ok(data)
}

/// Reads the audio level of the contributing source at this index of the `csrc_count` that the packet has
/// ([`Kind::MixerLevels`](crate::Kind::MixerLevels); RFC 6465, 4), in decibels relative to the overload point, -127
/// (silence) to 0.
///
/// # Errors
///
/// [`NotAValue`] where the packet doesn't have that source, or the data no byte for it. What stands behind the last
/// source's isn't looked at, and a `csrc_count` above 15, which no packet has, is taken.
///
/// ```
/// use rtp_wire::standard::parse_mixer_level;
///
/// assert_eq!(parse_mixer_level(&[0x7F, 0x0A], 2, 1), Ok(-10));
/// ```
pub fn parse_mixer_level(data: &[u8], csrc_count: usize, index: usize) -> Result<i8, NotAValue> {
    sys::read_mixer_level(data, csrc_count, index).ok_or(NotAValue)
}

/// Writes the levels of a packet's contributing sources, in their order, a byte for each, to the front of the buffer,
/// and returns how many they are (RFC 6465, 4); the bytes after them stay.
///
/// # Errors
///
/// [`NotWritten::OutOfRange`] where they are more than 15, which no packet has, or one is none of -127 to 0, and else
/// [`NotWritten::ShortBuffer`]; nothing is written then.
///
/// ```
/// use rtp_wire::standard::write_mixer_levels;
///
/// let mut data = [0; 15];
/// assert_eq!(write_mixer_levels(&[-127, -10], &mut data), Ok(2));
/// assert_eq!(data[..2], [0x7F, 0x0A]);
/// ```
pub fn write_mixer_levels(levels: &[i8], buf: &mut [u8]) -> Result<usize, NotWritten> {
    let count = i32::try_from(levels.len()).unwrap_or(i32::MAX);
    OutOfRange::check("the number of levels", count, range::HEADER_CSRC_COUNT)?;
    for level in levels {
        OutOfRange::check("a level", (*level).into(), range::VALUES_AUDIO_LEVEL)?;
    }
    written(|len| sys::write_mixer_levels(levels, buf, len))
}

/// Reads an NTP timestamp of eight bytes ([`Kind::Ntp64`](crate::Kind::Ntp64); RFC 6051, 3.3), in units of 2^-32 seconds
/// since 1900.
///
/// # Errors
///
/// [`NotAValue`] where there are not eight bytes.
pub fn parse_ntp_64(data: &[u8]) -> Result<u64, NotAValue> {
    sys::read_ntp_64(data).ok_or(NotAValue)
}

/// The data of an NTP timestamp of eight bytes.
///
/// ```
/// use rtp_wire::standard::ntp_64_bytes;
///
/// assert_eq!(ntp_64_bytes(3 << 31), [0, 0, 0, 1, 0x80, 0, 0, 0]); // 1.5 seconds
/// ```
#[must_use]
pub fn ntp_64_bytes(time: u64) -> [u8; 8] {
    let mut data = [0; 8];
    sys::write_ntp_64(time, &mut data, &mut 0);
    data
}

/// Reads the low 56 bits of an NTP timestamp, in seven bytes ([`Kind::Ntp56`](crate::Kind::Ntp56); RFC 6051, 3.3):
/// [`extend_ntp_56`] finds the others.
///
/// # Errors
///
/// [`NotAValue`] where there are not seven bytes.
pub fn parse_ntp_56(data: &[u8]) -> Result<u64, NotAValue> {
    sys::read_ntp_56(data).ok_or(NotAValue)
}

/// The data of the low 56 bits of an NTP timestamp.
#[must_use]
pub fn ntp_56_bytes(time: u64) -> [u8; 7] {
    let mut data = [0; 7];
    sys::write_ntp_56(time, &mut data, &mut 0);
    data
}

/// The NTP timestamp that ends in the low 56 bits of `low` and is nearest to `near`, modulo 2^64; of two that are
/// equally near the later one. Where `near` is less than 97 days off, as the time at which the packet arrived, it is
/// the time that the sender meant.
///
/// ```
/// use rtp_wire::standard::extend_ntp_56;
///
/// // half a second before the 24 bits of the seconds begin again, and half a second after
/// assert_eq!(extend_ntp_56(0x00FF_FFFF_8000_0000, 0x8000_0000), 0x0100_0000_8000_0000);
/// ```
#[must_use]
pub fn extend_ntp_56(near: u64, low: u64) -> u64 {
    sys::extend_ntp_56(near, low)
}
