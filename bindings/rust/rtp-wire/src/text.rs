use core::borrow::Borrow;
use core::error::Error;
use core::fmt;
use core::hash::{Hash, Hasher};
use core::ops::Deref;
use core::str::{self, FromStr};

/// A text of ASCII letters, digits and underscores, of fewer characters than `ROOM`: a [`Mid`] or a
/// [`Rid`]. It is copied, and takes no memory. It is compared and hashed as the `str` that it is: a map
/// whose keys are `Mid`s is asked for a `str` too.
///
/// ```
/// use rtp_wire::Mid;
///
/// let mid: Mid = "audio_0".parse()?;
/// assert_eq!(mid.as_str(), "audio_0");
/// assert!("audio 0".parse::<Mid>().is_err());
/// # Ok::<(), rtp_wire::NotAText>(())
/// ```
#[derive(Clone, Copy, PartialEq, Eq, PartialOrd, Ord)]
pub struct Text<const ROOM: usize> {
    /// The characters, and zeros after them, of which there is one.
    bytes: [u8; ROOM],
}

/// A media section's identification tag (RFC 9143), of at most 16 characters.
pub type Mid = Text<17>;

/// A stream's id (RFC 8852), of at most 8 characters, where the RFC has up to 255.
pub type Rid = Text<9>;

impl<const ROOM: usize> Text<ROOM> {
    /// The text of bytes that the library told.
    pub(crate) fn of(bytes: [u8; ROOM]) -> Text<ROOM> {
        Text { bytes }
    }

    pub(crate) fn bytes(&self) -> [u8; ROOM] {
        self.bytes
    }

    /// The text.
    #[must_use]
    #[expect(clippy::missing_panics_doc, reason = "the characters are ASCII")]
    pub fn as_str(&self) -> &str {
        let len = self.bytes.iter().position(|byte| *byte == 0);
        let text = &self.bytes[..len.unwrap_or(ROOM)];
        str::from_utf8(text).expect("the characters are ASCII")
    }
}

/// Why it is no [`Text`]: it has another character than ASCII letters, digits and underscores, or too
/// many.
#[derive(Clone, Copy, Debug, PartialEq, Eq, Hash)]
pub struct NotAText;

impl fmt::Display for NotAText {
    fn fmt(&self, f: &mut fmt::Formatter<'_>) -> fmt::Result {
        f.write_str("another character than a letter, a digit or an underscore, or too many")
    }
}

impl Error for NotAText {}

impl<const ROOM: usize> FromStr for Text<ROOM> {
    type Err = NotAText;

    fn from_str(text: &str) -> Result<Text<ROOM>, NotAText> {
        let is_plain = |byte: &u8| byte.is_ascii_alphanumeric() || *byte == b'_';
        if text.len() >= ROOM || !text.as_bytes().iter().all(is_plain) {
            return Err(NotAText);
        }
        let mut bytes = [0; ROOM];
        bytes[..text.len()].copy_from_slice(text.as_bytes());
        Ok(Text { bytes })
    }
}

impl<const ROOM: usize> TryFrom<&str> for Text<ROOM> {
    type Error = NotAText;

    fn try_from(text: &str) -> Result<Text<ROOM>, NotAText> {
        text.parse()
    }
}

impl<const ROOM: usize> Deref for Text<ROOM> {
    type Target = str;

    fn deref(&self) -> &str {
        self.as_str()
    }
}

impl<const ROOM: usize> Borrow<str> for Text<ROOM> {
    fn borrow(&self) -> &str {
        self.as_str()
    }
}

impl<const ROOM: usize> Hash for Text<ROOM> {
    fn hash<H: Hasher>(&self, state: &mut H) {
        self.as_str().hash(state);
    }
}

impl<const ROOM: usize> AsRef<str> for Text<ROOM> {
    fn as_ref(&self) -> &str {
        self.as_str()
    }
}

impl<const ROOM: usize> PartialEq<str> for Text<ROOM> {
    fn eq(&self, other: &str) -> bool {
        self.as_str() == other
    }
}

impl<const ROOM: usize> PartialEq<&str> for Text<ROOM> {
    fn eq(&self, other: &&str) -> bool {
        self.as_str() == *other
    }
}

impl<const ROOM: usize> PartialEq<Text<ROOM>> for str {
    fn eq(&self, other: &Text<ROOM>) -> bool {
        self == other.as_str()
    }
}

impl<const ROOM: usize> PartialEq<Text<ROOM>> for &str {
    fn eq(&self, other: &Text<ROOM>) -> bool {
        *self == other.as_str()
    }
}

impl<const ROOM: usize> fmt::Debug for Text<ROOM> {
    fn fmt(&self, f: &mut fmt::Formatter<'_>) -> fmt::Result {
        fmt::Debug::fmt(self.as_str(), f)
    }
}

impl<const ROOM: usize> fmt::Display for Text<ROOM> {
    fn fmt(&self, f: &mut fmt::Formatter<'_>) -> fmt::Result {
        f.pad(self.as_str())
    }
}
