use core::fmt;

use crate::map::Map;
use crate::sys;
use crate::views::StoredNewIds;

/// Which ids elements get where a packet goes from one map to another: 256 bytes, made once for the two
/// maps. [`PacketMut::renumber`](crate::PacketMut::renumber) takes it.
///
/// ```
/// use rtp_wire::{Kind, Map, NewIds};
///
/// let from = Map::new().with(1, Kind::AudioLevel).with(2, Kind::Mid);
/// let to = Map::new().with(5, Kind::AudioLevel);
/// let ids = NewIds::between(&from, &to);
/// assert_eq!((ids.get(1), ids.get(2)), (Some(5), None));
/// ```
#[derive(Clone, Copy, PartialEq, Eq, Hash)]
pub struct NewIds {
    pub(crate) ids: StoredNewIds,
}

impl NewIds {
    /// No id has a new one.
    #[must_use]
    pub const fn new() -> NewIds {
        NewIds {
            ids: StoredNewIds { id: [0; 256] },
        }
    }

    /// For each id that means a kind in `from`, one of the caller's own too, the lowest id that means it in
    /// `to`. Kinds of the caller's own that two [`OwnUris`](crate::OwnUris) gave are no common ones: of such maps their ids
    /// have no new one.
    #[must_use]
    pub fn between(from: &Map, to: &Map) -> NewIds {
        let mut new = NewIds::new();
        if from.table != 0 && to.table != 0 && from.table != to.table {
            sys::new_ids_between(&from.without_own().kinds, &to.kinds, &mut new.ids);
        } else {
            sys::new_ids_between(&from.kinds, &to.kinds, &mut new.ids);
        }
        new
    }

    /// The new ids where packets become retransmissions ([`to_retransmission`](crate::to_retransmission); RFC
    /// 8852, 3): where the map has both [`Kind::Rid`](crate::Kind::Rid) and
    /// [`Kind::RepairedRid`](crate::Kind::RepairedRid), an id of the first becomes the lowest id of the second, and
    /// the ids of the second have no new one. Every other id keeps itself, and so does each where the map hasn't
    /// both.
    ///
    /// ```
    /// let ids = rtp_wire::NewIds::to_retransmission(&rtp_wire::Map::standard());
    /// assert_eq!((ids.get(10), ids.get(11), ids.get(4)), (Some(11), None, Some(4)));
    /// ```
    #[must_use]
    pub fn to_retransmission(map: &Map) -> NewIds {
        let mut new = NewIds::new();
        sys::new_ids_to_retransmission(&map.kinds, &mut new.ids);
        new
    }

    /// The same on the way back ([`from_retransmission`](crate::from_retransmission)): an id of
    /// [`Kind::RepairedRid`](crate::Kind::RepairedRid) becomes the lowest id of [`Kind::Rid`](crate::Kind::Rid), and
    /// the ids of that have no new one.
    #[must_use]
    pub fn from_retransmission(map: &Map) -> NewIds {
        let mut new = NewIds::new();
        sys::new_ids_from_retransmission(&map.kinds, &mut new.ids);
        new
    }

    /// The ids in which this id has this new one too. The id 0, which is padding, has none, and is none.
    #[must_use]
    pub const fn with(mut self, id: u8, new: u8) -> NewIds {
        if id != 0 {
            self.ids.id[id as usize] = new;
        }
        self
    }

    /// The new id of an id.
    #[must_use]
    pub fn get(&self, id: u8) -> Option<u8> {
        Some(self.ids.id[usize::from(id)]).filter(|new| id != 0 && *new != 0)
    }
}

impl Default for NewIds {
    fn default() -> NewIds {
        NewIds::new()
    }
}

impl fmt::Debug for NewIds {
    fn fmt(&self, f: &mut fmt::Formatter<'_>) -> fmt::Result {
        let changes = (1..=255).filter_map(|id| Some((id, self.get(id)?)));
        f.debug_map().entries(changes).finish()
    }
}
