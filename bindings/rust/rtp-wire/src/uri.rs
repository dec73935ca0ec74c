use core::fmt;
use core::ops::Deref;
use core::str;

/// The most bytes that a URI has.
const ROOM: usize = 87;

/// The URI that names a kind in SDP ([`Kind::uri`](crate::Kind::uri)). It is copied, and takes no memory.
#[derive(Clone, Copy, PartialEq, Eq, Hash)]
pub struct Uri {
    bytes: [u8; ROOM],
    len: usize,
}

impl Uri {
    /// What is written to a buffer with room for each URI, where that is done.
    pub(crate) fn written(write: impl FnOnce(&mut [u8], &mut usize) -> bool) -> Option<Uri> {
        let mut uri = Uri {
            bytes: [0; ROOM],
            len: 0,
        };
        write(&mut uri.bytes, &mut uri.len).then_some(uri)
    }

    /// The URI.
    #[must_use]
    #[expect(clippy::missing_panics_doc, reason = "the characters are ASCII")]
    pub fn as_str(&self) -> &str {
        str::from_utf8(&self.bytes[..self.len]).expect("the characters are ASCII")
    }
}

impl Deref for Uri {
    type Target = str;

    fn deref(&self) -> &str {
        self.as_str()
    }
}

impl fmt::Display for Uri {
    fn fmt(&self, f: &mut fmt::Formatter<'_>) -> fmt::Result {
        f.pad(self)
    }
}

impl fmt::Debug for Uri {
    fn fmt(&self, f: &mut fmt::Formatter<'_>) -> fmt::Result {
        fmt::Debug::fmt(self.as_str(), f)
    }
}
