use core::str;

use crate::error::NotAValue;
use crate::sys;

/// The text of a mid or of a stream id as it lies, to be compared with the SDP's: a token of 1 to 255 characters
/// (RFC 8866, 9), as a mid is (RFC 5888, 4). What is written of a text are its bytes; a stream id that is written has to
/// be more than a token: [`is_stream_id`].
///
/// # Errors
///
/// [`NotAValue`] where the data are no token.
///
/// ```
/// use rtp_wire::standard::parse_token;
///
/// assert_eq!(parse_token(b"cam-1")?, "cam-1");
/// assert!(parse_token(b"cam 1").is_err());
/// # Ok::<(), rtp_wire::NotAValue>(())
/// ```
pub fn parse_token(data: &[u8]) -> Result<&str, NotAValue> {
    if !sys::is_token(data) {
        return Err(NotAValue);
    }
    str::from_utf8(data).map_err(|_| NotAValue) // it is ASCII
}

/// Whether the text is 1 to 255 ASCII letters and digits, as a stream id and a repaired one have to be where they are
/// sent (RFC 8852, 3). In SDP `a=rid` also allows `-` and `_` (RFC 8851, 10): a stream whose id has one can't be told by
/// it, so choose one without.
///
/// ```
/// use rtp_wire::standard::is_stream_id;
///
/// assert!(is_stream_id("hi2"));
/// assert!(!is_stream_id("hi-2") && !is_stream_id(""));
/// ```
#[must_use]
pub fn is_stream_id(text: &str) -> bool {
    sys::is_stream_id(text.as_bytes())
}
