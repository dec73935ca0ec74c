use crate::error::{NotAPacket, NotRetransmitted, NotWritten};
use crate::new_ids::NewIds;
use crate::sys;

/// Makes a packet of padding alone after its header: sets P, and writes the padding from `header_len`
/// on, zeros and in the last byte their count, which is returned. It is `pad_len` in whole blocks, but
/// at most 240 bytes; with a `pad_len` of 0 nothing changes, and no room is wanted. To pad a packet with
/// a payload, pass the end of the payload as `header_len`.
///
/// # Errors
///
/// [`NotWritten::BadField`] where `block_size` is 0, and else [`NotWritten::ShortBuffer`] where there is no
/// room for the padding after the header; nothing changes then.
///
/// ```
/// let mut buf = [0x80; 12 + 4];
/// assert_eq!(rtp_wire::pad(&mut buf, 12, 3, 4), Ok(4));
/// assert_eq!(buf[..1], [0xA0]);
/// assert_eq!(buf[12..16], [0, 0, 0, 4]);
/// ```
pub fn pad(
    datagram: &mut [u8],
    header_len: usize,
    pad_len: u8,
    block_size: usize,
) -> Result<usize, NotWritten> {
    let mut count = 0;
    let status = sys::pad(datagram, header_len, pad_len, block_size, &mut count);
    NotWritten::of_status(status)?;
    Ok(count)
}

/// The original sequence number that the payload of a retransmission packet begins with (RFC 4588, 4),
/// and the original payload behind it; `None` where there are fewer than two bytes.
///
/// ```
/// assert_eq!(rtp_wire::read_original(&[1, 2, 3]), Some((258, &[3][..])));
/// ```
#[must_use]
pub fn read_original(payload: &[u8]) -> Option<(u16, &[u8])> {
    Some((sys::read_original(payload)?, &payload[2..]))
}

/// Writes the low 16 bits of the original sequence number to the front of the payload of a
/// retransmission packet.
///
/// # Errors
///
/// [`NotWritten::ShortBuffer`] where there are fewer than two bytes; nothing changes then.
///
/// ```
/// let mut payload = [0xFF; 3];
/// rtp_wire::write_original(&mut payload, 65_538)?;
/// assert_eq!(payload, [0, 2, 0xFF]);
/// # Ok::<(), rtp_wire::NotWritten>(())
/// ```
pub fn write_original(payload: &mut [u8], number: u64) -> Result<(), NotWritten> {
    NotWritten::of_status(sys::write_original(payload, number))
}

/// Makes the packet in the first `len` bytes of the buffer a retransmission, in place, and returns the length
/// of that (RFC 4588, 4): it has this SSRC, payload type and number of its own, the elements under their new ids
/// ([`NewIds::to_retransmission`]), and as payload the original number in two bytes and the original payload
/// without its padding. P becomes clear, and all else stays, M and the timestamp too, and so do the bytes behind
/// it.
///
/// # Errors
///
/// The first that applies; nothing changes then.
///
/// ```
/// use rtp_wire::{to_retransmission, Map, NewIds};
///
/// let ids = NewIds::to_retransmission(&Map::standard());
/// let mut buf = *b"\x80\x60\0\x05\0\0\0\x0A\0\0\0\x2C\xAA\xBB\0\0";
/// assert_eq!(to_retransmission(&mut buf, 14, 45, 97, 7, &ids), Ok(16));
/// assert_eq!(buf, *b"\x80\x61\0\x07\0\0\0\x0A\0\0\0\x2D\0\x05\xAA\xBB");
/// ```
pub fn to_retransmission(
    buf: &mut [u8],
    len: usize,
    ssrc: u32,
    payload_type: u8,
    number: u16,
    ids: &NewIds,
) -> Result<usize, NotRetransmitted> {
    in_range(buf, len, payload_type)?;
    let mut end = len;
    let status = sys::to_retransmission(buf, &mut end, ssrc, payload_type, number, &ids.ids);
    retransmitted(status)?;
    Ok(end)
}

/// Makes the retransmission in the first `len` bytes of the buffer the packet that it repeats, in place, and
/// returns the length of that: it has this SSRC and payload type, the original number, the elements under their
/// new ids ([`NewIds::from_retransmission`]), and as payload what follows that number, without padding. P
/// becomes clear, and all else stays, and so do the bytes behind it.
///
/// # Errors
///
/// The first that applies; nothing changes then.
///
/// ```
/// use rtp_wire::{from_retransmission, Map, NewIds};
///
/// let ids = NewIds::from_retransmission(&Map::standard()); // an id that has none here loses its elements
/// let mut buf = *b"\x80\x61\0\x07\0\0\0\x0A\0\0\0\x2D\0\x05\xAA\xBB";
/// assert_eq!(from_retransmission(&mut buf, 16, 44, 96, &ids), Ok(14));
/// assert_eq!(buf[..14], *b"\x80\x60\0\x05\0\0\0\x0A\0\0\0\x2C\xAA\xBB");
/// ```
pub fn from_retransmission(
    buf: &mut [u8],
    len: usize,
    ssrc: u32,
    payload_type: u8,
    ids: &NewIds,
) -> Result<usize, NotRetransmitted> {
    in_range(buf, len, payload_type)?;
    let mut end = len;
    let status = sys::from_retransmission(buf, &mut end, ssrc, payload_type, &ids.ids);
    retransmitted(status)?;
    Ok(end)
}

/// What is asked of the arguments alone.
fn in_range(buf: &[u8], len: usize, payload_type: u8) -> Result<(), NotRetransmitted> {
    if payload_type > 127 {
        return Err(NotRetransmitted::BadPayloadType);
    }
    if len > buf.len() {
        return Err(NotRetransmitted::BadLength);
    }
    Ok(())
}

/// What the status says. A field that is out of its range is the packet's padding then.
fn retransmitted(status: i32) -> Result<(), NotRetransmitted> {
    match status {
        sys::BAD_FIELD => Err(NotRetransmitted::BadPadding),
        sys::NONE => Err(NotRetransmitted::NoNumber),
        sys::LONG_ID => Err(NotRetransmitted::BadNewId),
        sys::SHORT_BUFFER => Err(NotRetransmitted::ShortBuffer),
        other => Ok(NotAPacket::of_status(other)?),
    }
}

/// The version of the library that is linked: 65,536 times its major number, 256 times the minor one,
/// and the patch.
#[must_use]
pub fn version() -> u32 {
    sys::version()
}
