use core::fmt;

use crate::error::BadId;
use crate::sys;
use crate::text::{Mid, Rid};
use crate::uri::Uri;
use crate::views::StoredMap;

/// The number of an extension of the caller's own, 128 to 255.
#[derive(Clone, Copy, Debug, PartialEq, Eq, PartialOrd, Ord, Hash)]
pub struct OwnKind(u8);

impl OwnKind {
    /// The number.
    #[must_use]
    pub const fn number(self) -> u8 {
        self.0
    }
}

/// What a header extension says of its packet. [`Values`](crate::Values) have a field, or some, for each of the first
/// ones, up to [`FrameMarking`](Kind::FrameMarking); of the others what is documented here reads and writes the data.
#[derive(Clone, Copy, Debug, PartialEq, Eq, PartialOrd, Ord, Hash)]
#[non_exhaustive]
#[expect(missing_docs, reason = "the names are those of the extensions")]
pub enum Kind {
    AbsSendTime,
    AbsCaptureTime,
    AudioLevel,
    TransmissionOffset,
    VideoOrientation,
    TransportNumber,
    PlayoutDelay,
    VideoContentType,
    VideoTiming,
    Rid,
    RepairedRid,
    Mid,
    /// The draft's, of four bytes. That of RFC 9626, `urn:ietf:params:rtp-hdrext:framemarking`, has no kind but one of
    /// the caller's own: [`standard::FrameMarking`](crate::standard::FrameMarking).
    FrameMarking,
    /// [`standard::ColorSpace`](crate::standard::ColorSpace).
    ColorSpace,
    /// [`Header::parse_with_layers`](crate::Header::parse_with_layers) and
    /// [`Header::write_with_layers`](crate::Header::write_with_layers).
    Layers,
    /// The audio levels of the contributing sources (RFC 6465):
    /// [`standard::parse_mixer_level`](crate::standard::parse_mixer_level) and
    /// [`standard::write_mixer_levels`](crate::standard::write_mixer_levels).
    MixerLevels,
    /// `transport-wide-cc-02`, the number with what feedback it asks for:
    /// [`standard::TransportNumber`](crate::standard::TransportNumber).
    TransportNumber2,
    /// AV1's: [`standard::DependencyDescriptor`](crate::standard::DependencyDescriptor).
    DependencyDescriptor,
    /// RFC 6051's NTP timestamp of eight bytes: [`standard::parse_ntp_64`](crate::standard::parse_ntp_64) and
    /// [`standard::ntp_64_bytes`](crate::standard::ntp_64_bytes).
    Ntp64,
    /// Its low seven bytes: [`standard::parse_ntp_56`](crate::standard::parse_ntp_56) and
    /// [`standard::ntp_56_bytes`](crate::standard::ntp_56_bytes).
    Ntp56,
    /// One of the caller's own, by the number that it gave it ([`Kind::own`]), or that [`OwnUris`](crate::OwnUris) gave
    /// a URI: an extension that this library doesn't know. What reads and writes values passes over its ids.
    Own(OwnKind),
}

impl Kind {
    pub(crate) const ALL: [Kind; 20] = [
        Kind::AbsSendTime,
        Kind::AbsCaptureTime,
        Kind::AudioLevel,
        Kind::TransmissionOffset,
        Kind::VideoOrientation,
        Kind::TransportNumber,
        Kind::PlayoutDelay,
        Kind::VideoContentType,
        Kind::VideoTiming,
        Kind::Rid,
        Kind::RepairedRid,
        Kind::Mid,
        Kind::FrameMarking,
        Kind::ColorSpace,
        Kind::Layers,
        Kind::MixerLevels,
        Kind::TransportNumber2,
        Kind::DependencyDescriptor,
        Kind::Ntp64,
        Kind::Ntp56,
    ];

    /// The extension of the caller's own that it gives this number, 128 to 255; `None` of other numbers.
    /// Elements keep it where two maps have the same number ([`NewIds::between`](crate::NewIds::between));
    /// [`OwnUris`](crate::OwnUris) sees to that.
    ///
    /// ```
    /// use rtp_wire::{Kind, Map, NewIds};
    ///
    /// let kind = Kind::own(128).unwrap();
    /// let (from, to) = (Map::new().with(9, kind), Map::new().with(12, kind));
    /// assert_eq!(NewIds::between(&from, &to).get(9), Some(12));
    /// assert_eq!(Kind::own(127), None);
    /// ```
    #[must_use]
    pub const fn own(number: u8) -> Option<Kind> {
        if number >= sys::KIND_OWN {
            Some(Kind::Own(OwnKind(number)))
        } else {
            None
        }
    }

    /// The kind that this URI names in SDP (RFC 8285, 5), letter for letter; `None` where it names none of these.
    /// [`OwnUris::kind_of`](crate::OwnUris::kind_of) gives any other a number of the caller's own.
    ///
    /// ```
    /// use rtp_wire::Kind;
    ///
    /// assert_eq!(Kind::from_uri("urn:ietf:params:rtp-hdrext:sdes:mid"), Some(Kind::Mid));
    /// assert_eq!(Kind::from_uri("urn:ietf:params:rtp-hdrext:sdes"), None);
    /// ```
    #[must_use]
    pub fn from_uri(uri: &str) -> Option<Kind> {
        Kind::of_number(sys::kind_of_uri(uri.as_bytes()))
    }

    /// The URI that names the kind in SDP (RFC 8285, 5), as an answer says it; `None` of the caller's own.
    ///
    /// ```
    /// use rtp_wire::Kind;
    ///
    /// let uri = Kind::Mid.uri().unwrap();
    /// assert_eq!(format!("a=extmap:4 {uri}"), "a=extmap:4 urn:ietf:params:rtp-hdrext:sdes:mid");
    /// assert_eq!(Kind::own(128).unwrap().uri(), None);
    /// ```
    #[must_use]
    pub fn uri(self) -> Option<Uri> {
        Uri::written(|buf, len| sys::uri_of_kind(self.number(), buf, len) == sys::OK)
    }

    /// Whether [`Values`](crate::Values) have this text of an element of the kind as it is: [`Kind::Mid`] up to
    /// 16 ASCII letters, digits and underscores, and [`Kind::Rid`] and [`Kind::RepairedRid`] up to 8. They have
    /// `cam_1` of `cam_1`, `cam-1` and `cam.1`, and the first 16 of 17 letters. A peer whose SDP has texts that
    /// aren't kept is understood by [`Packet::token`](crate::Packet::token).
    ///
    /// ```
    /// use rtp_wire::Kind;
    ///
    /// assert!(Kind::Mid.keeps("cam_1") && !Kind::Mid.keeps("cam-1"));
    /// assert!(Kind::Mid.keeps("123456789") && !Kind::Rid.keeps("123456789"));
    /// ```
    #[must_use]
    pub fn keeps(self, text: &str) -> bool {
        match self {
            Kind::Mid => text.parse::<Mid>().is_ok(),
            Kind::Rid | Kind::RepairedRid => text.parse::<Rid>().is_ok(),
            _ => false,
        }
    }

    fn of_number(number: u8) -> Option<Kind> {
        let index = usize::from(number).checked_sub(1)?;
        Kind::ALL.get(index).copied().or(Kind::own(number))
    }

    /// Its number in the header file for C.
    #[must_use]
    pub const fn number(self) -> u8 {
        match self {
            Kind::AbsSendTime => 1,
            Kind::AbsCaptureTime => 2,
            Kind::AudioLevel => 3,
            Kind::TransmissionOffset => 4,
            Kind::VideoOrientation => 5,
            Kind::TransportNumber => 6,
            Kind::PlayoutDelay => 7,
            Kind::VideoContentType => 8,
            Kind::VideoTiming => 9,
            Kind::Rid => 10,
            Kind::RepairedRid => 11,
            Kind::Mid => 12,
            Kind::FrameMarking => 13,
            Kind::ColorSpace => 14,
            Kind::Layers => 15,
            Kind::MixerLevels => 16,
            Kind::TransportNumber2 => 17,
            Kind::DependencyDescriptor => 18,
            Kind::Ntp64 => 19,
            Kind::Ntp56 => 20,
            Kind::Own(own) => own.number(),
        }
    }
}

/// Which extension each id means, as the two peers agreed (RFC 8285, 5): made of the lines of an SDP by
/// [`OwnUris::map`](crate::OwnUris::map), or by hand. It may be a `const` or a `static`. Two that mean the same are equal,
/// unless two [`OwnUris`](crate::OwnUris) gave the numbers of their URIs, or one did and the other's were chosen by hand.
///
/// ```
/// use rtp_wire::{Kind, Map, OwnUris};
///
/// const MAP: Map = Map::new().with(3, Kind::AudioLevel);
/// let map = OwnUris::new().map([(3, "urn:ietf:params:rtp-hdrext:ssrc-audio-level")])?;
/// assert_eq!(map, MAP);
/// # Ok::<(), rtp_wire::NotMapped>(())
/// ```
#[derive(Clone, Copy, PartialEq, Eq, Hash)]
pub struct Map {
    pub(crate) kinds: StoredMap,
    /// That of the `OwnUris` that gave kinds of the caller's own, and else 0.
    pub(crate) table: u64,
}

impl Map {
    /// A map in which no id means anything.
    #[must_use]
    pub const fn new() -> Map {
        Map {
            kinds: StoredMap { kind: [0; 256] },
            table: 0,
        }
    }

    /// The usual ids: 1 audio level, 2 send time, 3 transport number, 4 mid, 10 rid, 11 repaired rid, 13
    /// video orientation.
    #[must_use]
    pub fn standard() -> Map {
        let mut map = Map::new();
        sys::map_standard(&mut map.kinds);
        map
    }

    /// The map of the lines `a=extmap:ID URI` of an SDP. One whose URI names no [`Kind`] is passed over, and where a
    /// packet goes on its elements are then lost ([`PacketMut::renumber`](crate::PacketMut::renumber)).
    ///
    /// # Errors
    ///
    /// [`BadId`] where the id of a kind is 0.
    #[deprecated(
        since = "1.1.0",
        note = "it drops each URI that this library doesn't know, and NewIds::between then its elements, though both \
                peers agreed on them: use OwnUris::map"
    )]
    pub fn from_uris<'a>(lines: impl IntoIterator<Item = (u8, &'a str)>) -> Result<Map, BadId> {
        let mut map = Map::new();
        for (id, uri) in lines {
            if let Some(kind) = Kind::from_uri(uri) {
                map.set(id, Some(kind))?;
            }
        }
        Ok(map)
    }

    /// The map in which this id means this kind too, or another kind than before. The id 0, which is
    /// padding, never means anything.
    #[must_use]
    pub const fn with(mut self, id: u8, kind: Kind) -> Map {
        if id != 0 {
            self.kinds.kind[id as usize] = kind.number();
        }
        self.settled()
    }

    /// The same map, which is none of an `OwnUris` where no id means a kind of the caller's own.
    const fn settled(mut self) -> Map {
        let mut id = 1;
        while id < 256 && self.kinds.kind[id] < sys::KIND_OWN {
            id += 1;
        }
        if id == 256 {
            self.table = 0;
        }
        self
    }

    /// The id means this kind from now on, or nothing where it is `None`, as [`Kind::from_uri`] says of a URI that isn't
    /// known or is misspelled: [`OwnUris::kind_of`](crate::OwnUris::kind_of) has a kind for each.
    ///
    /// # Errors
    ///
    /// [`BadId`], and nothing changes, where the id is 0.
    pub fn set(&mut self, id: u8, kind: Option<Kind>) -> Result<(), BadId> {
        if id == 0 {
            return Err(BadId);
        }
        let Some(kind) = kind else {
            sys::map_remove(&mut self.kinds, id);
            *self = self.settled();
            return Ok(());
        };
        match sys::map_set(&mut self.kinds, id, kind.number()) {
            sys::OK => {
                *self = self.settled();
                Ok(())
            }
            _ => Err(BadId),
        }
    }

    /// The kind that the id means.
    #[must_use]
    pub fn get(&self, id: u8) -> Option<Kind> {
        Kind::of_number(sys::map_get(&self.kinds, id))
    }

    /// The lowest id that means the kind: that of the element to set
    /// ([`PacketMut::set_element`](crate::PacketMut::set_element)), say.
    #[must_use]
    pub fn id_of(&self, kind: Kind) -> Option<u8> {
        Some(sys::id_of(&self.kinds, kind.number())).filter(|id| *id != 0)
    }

    /// The map in which no id means a kind of the caller's own.
    pub(crate) fn without_own(&self) -> Map {
        let mut known = Map::new();
        known.kinds.kind = self.kinds.kind.map(|number| match Kind::own(number) {
            Some(_) => 0,
            None => number,
        });
        known
    }

    /// The ids that mean something, by rising id, and what each of them means.
    ///
    /// ```
    /// use rtp_wire::{Kind, Map};
    ///
    /// let map = Map::new().with(5, Kind::Mid).with(3, Kind::AudioLevel).with(7, Kind::Mid);
    /// assert!(map.iter().eq([(3, Kind::AudioLevel), (5, Kind::Mid), (7, Kind::Mid)]));
    /// assert_eq!(map.id_of(Kind::Mid), Some(5));
    /// ```
    pub fn iter(&self) -> impl Iterator<Item = (u8, Kind)> + '_ {
        (1..=255).filter_map(|id| Some((id, self.get(id)?)))
    }
}

impl Default for Map {
    fn default() -> Map {
        Map::new()
    }
}

impl fmt::Debug for Map {
    fn fmt(&self, f: &mut fmt::Formatter<'_>) -> fmt::Result {
        f.debug_map().entries(self.iter()).finish()
    }
}
