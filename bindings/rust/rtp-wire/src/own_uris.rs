use core::error::Error;
use core::fmt;
use core::sync::atomic::{AtomicU64, Ordering};

use crate::error::BadId;
use crate::map::{Kind, Map};
use crate::sys;

/// How many numbers of the caller's own there are.
const NUMBERS: usize = 256 - sys::KIND_OWN as usize;

/// How many tables have made maps.
static TABLES: AtomicU64 = AtomicU64::new(0);

/// The maps of the peers of one call, made of the lines `a=extmap:ID URI` of their SDPs (RFC 8285, 5). A URI that names
/// no [`Kind`] of this library gets a number of its own, from [`Kind::own`]`(128)` on, and in the map of each peer the
/// same: so [`NewIds::between`](crate::NewIds::between) two of these maps carries all that both peers agreed on, and a
/// forwarder passes on what it doesn't know itself. So the maps of a call are made by one `OwnUris`: between those of two,
/// where one number may be that of two URIs, the elements of known kinds alone go on. A clone is another one.
///
/// ```
/// use rtp_wire::{Kind, NewIds, OwnUris};
///
/// const MID: &str = "urn:ietf:params:rtp-hdrext:sdes:mid";
/// let mut uris = OwnUris::new(); // kept for the call
/// let publisher = uris.map([(1, MID), (2, "urn:example:subtitles"), (3, "urn:example:weather")])?;
/// let subscriber = uris.map([(5, "urn:example:weather"), (6, MID)])?;
///
/// let ids = NewIds::between(&publisher, &subscriber);
/// assert_eq!([1, 2, 3].map(|id| ids.get(id)), [Some(6), None, Some(5)]);
/// assert!(uris.unknown().map(|(_, uri)| uri).eq(["urn:example:subtitles", "urn:example:weather"]));
/// # Ok::<(), rtp_wire::NotMapped>(())
/// ```
///
/// `OwnUris::new` borrows the URIs. Where the SDPs don't live as long as the call, `OwnUris::<String>::default()` has
/// copies of those that aren't known, and so has one of `Box<str>` or `Arc<str>`:
///
/// ```
/// let mut uris = rtp_wire::OwnUris::<String>::default();
/// let line = String::from("a=extmap:7 urn:example:weather");
/// let (id, uri) = line["a=extmap:".len()..].split_once(' ').expect("it is a line");
/// let map = uris.map([(id.parse()?, uri)])?;
/// drop(line);
/// let (kind, uri) = uris.unknown().next().expect("this library doesn't know it");
/// assert_eq!((map.id_of(kind), uri), (Some(7), "urn:example:weather"));
/// # Ok::<(), Box<dyn std::error::Error>>(())
/// ```
#[derive(Debug)]
pub struct OwnUris<S> {
    /// By number, without gaps.
    uris: [Option<S>; NUMBERS],
    /// What its maps are told from those of others by; 0 before the first one.
    table: u64,
}

impl<'a> OwnUris<&'a str> {
    /// No URI has a number yet.
    #[must_use]
    pub const fn new() -> OwnUris<&'a str> {
        OwnUris {
            uris: [None; NUMBERS],
            table: 0,
        }
    }
}

impl<S> Default for OwnUris<S> {
    fn default() -> OwnUris<S> {
        OwnUris {
            uris: [const { None }; NUMBERS],
            table: 0,
        }
    }
}

impl<S: Clone> Clone for OwnUris<S> {
    fn clone(&self) -> OwnUris<S> {
        OwnUris {
            uris: self.uris.clone(),
            table: 0, // the URIs that come may be others
        }
    }
}

/// They are equal where the same URIs have the same numbers.
impl<S: PartialEq> PartialEq for OwnUris<S> {
    fn eq(&self, other: &OwnUris<S>) -> bool {
        self.uris == other.uris
    }
}

impl<S: Eq> Eq for OwnUris<S> {}

impl<S: AsRef<str>> OwnUris<S> {
    /// The kind of this URI: the library's own or, as in the maps that were made here, one by a number of the caller's;
    /// `None` where all 128 of these are taken by others.
    ///
    /// ```
    /// use rtp_wire::{Kind, OwnUris};
    ///
    /// let mut uris = OwnUris::new();
    /// assert_eq!(uris.kind_of("urn:ietf:params:rtp-hdrext:sdes:mid"), Some(Kind::Mid));
    /// assert_eq!(uris.kind_of("urn:example:weather"), Kind::own(128));
    /// assert_eq!(uris.kind_of("urn:example:weather"), Kind::own(128));
    /// ```
    pub fn kind_of<'u>(&mut self, uri: &'u str) -> Option<Kind>
    where
        S: From<&'u str>,
    {
        Kind::from_uri(uri).or_else(|| self.own_kind_of(uri))
    }

    fn own_kind_of<'u>(&mut self, uri: &'u str) -> Option<Kind>
    where
        S: From<&'u str>,
    {
        let is_its_place = |it: &Option<S>| it.as_ref().map_or(true, |it| it.as_ref() == uri);
        let index = self.uris.iter().position(is_its_place)?;
        self.uris[index].get_or_insert_with(|| uri.into());
        own(index)
    }

    /// The map of the lines `a=extmap:ID URI` of a peer's SDP, each the id and the URI; of two lines of one id the later
    /// one counts.
    ///
    /// # Errors
    ///
    /// [`NotMapped`] where an id is 0, or a URI that isn't known the 129th. Those of the lines before it have numbers
    /// then.
    ///
    /// ```
    /// use rtp_wire::{NotMapped, OwnUris};
    ///
    /// let error = OwnUris::new().map([(0, "urn:example:weather")]).unwrap_err();
    /// assert_eq!(error, NotMapped::BadId);
    /// ```
    pub fn map<'u>(
        &mut self,
        lines: impl IntoIterator<Item = (u8, &'u str)>,
    ) -> Result<Map, NotMapped>
    where
        S: From<&'u str>,
    {
        let mut map = Map::new();
        for (id, uri) in lines {
            let kind = self.kind_of(uri).ok_or(NotMapped::TooManyUris { id })?;
            map.set(id, Some(kind))?;
        }
        if map.iter().any(|(_, kind)| matches!(kind, Kind::Own(_))) {
            map.table = self.table();
        }
        Ok(map)
    }

    /// What its maps are told from those of others by.
    fn table(&mut self) -> u64 {
        if self.table == 0 {
            self.table = 1 + TABLES.fetch_add(1, Ordering::Relaxed);
        }
        self.table
    }

    /// The URIs that this library doesn't know, in the order in which they came, and the kind that each has got. Of those
    /// that are misspelled it tells too.
    pub fn unknown(&self) -> impl Iterator<Item = (Kind, &str)> {
        let taken = self.uris.iter().map_while(Option::as_ref);
        taken
            .enumerate()
            .filter_map(|(index, uri)| Some((own(index)?, uri.as_ref())))
    }
}

/// Why the lines of an SDP are no map ([`OwnUris::map`]).
#[derive(Clone, Copy, Debug, PartialEq, Eq, Hash)]
#[non_exhaustive]
pub enum NotMapped {
    /// The id of a line is 0, which is padding.
    BadId,
    /// The URI of the line with this id isn't known, and 128 others that aren't known have the numbers.
    TooManyUris {
        /// The id of the line.
        id: u8,
    },
}

impl fmt::Display for NotMapped {
    fn fmt(&self, f: &mut fmt::Formatter<'_>) -> fmt::Result {
        match self {
            NotMapped::BadId => BadId.fmt(f),
            NotMapped::TooManyUris { id } => write!(
                f,
                "the URI of the id {id} isn't known, and neither are {NUMBERS} others"
            ),
        }
    }
}

impl Error for NotMapped {}

impl From<BadId> for NotMapped {
    fn from(_: BadId) -> NotMapped {
        NotMapped::BadId
    }
}

/// The kind of the caller's own by its place.
fn own(index: usize) -> Option<Kind> {
    Kind::own(sys::KIND_OWN + index as u8) // below 128
}
