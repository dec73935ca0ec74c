use core::fmt;

use crate::map::Kind;

/// A set of the kinds that have a value here, as [`Header::left_out`](crate::Header::left_out) tells it.
#[derive(Clone, Copy, Default, PartialEq, Eq, Hash)]
pub struct KindSet {
    /// The bit `1 << number` of each kind.
    pub(crate) bits: u32,
}

impl KindSet {
    /// Whether the kind is in the set. None of the caller's own is.
    #[must_use]
    pub fn contains(self, kind: Kind) -> bool {
        let above = self.bits.checked_shr(kind.number().into());
        above.is_some_and(|it| it & 1 == 1)
    }

    /// Whether no kind is in the set.
    #[must_use]
    pub fn is_empty(self) -> bool {
        self.bits == 0
    }

    /// The kinds, by rising number.
    pub fn iter(self) -> impl Iterator<Item = Kind> {
        Kind::ALL
            .into_iter()
            .filter(move |kind| self.contains(*kind))
    }
}

/// The kinds, by rising number.
impl fmt::Debug for KindSet {
    fn fmt(&self, f: &mut fmt::Formatter<'_>) -> fmt::Result {
        f.debug_set().entries(self.iter()).finish()
    }
}
