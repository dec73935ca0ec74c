//! What the crate promises to the compiler of a program: the traits of each type, how long what is lent lives, what may
//! be a `const`, the name of each type and function, and which enums may grow. Most of it fails by not compiling.

use std::borrow::Borrow;
use std::error::Error;
use std::fmt::{Debug, Display};
use std::hash::Hash;
use std::iter::FusedIterator;
use std::mem::size_of;
use std::ops::Deref;
use std::panic::{RefUnwindSafe, UnwindSafe};
use std::str::FromStr;

use rtp_wire::{
    add_element, change_form, compact, extend_u15, extend_u16, extend_u32, extend_u8,
    from_retransmission, is_rtcp, pad, parse_headers, parse_packets, put_block, put_element,
    read_original, receive_many, remove_block, to_retransmission, version, write_elements,
    write_original, Arrival, ArrivalSlot, BadId, BadRolloverCount, Csrcs, Datagram, Datagrams,
    Element, Elements, Fields, Form, Header, HeaderSlot, Kind, Layer, Layers, Map, Mid, NewIds,
    NotAHeader, NotAPacket, NotAText, NotChanged, NotMapped, NotPut, NotRead, NotRetransmitted,
    NotTaken, NotWritten, OwnKind, OwnUris, Packet, PacketMut, PacketSlot, Place, Places, Receiver,
    ReceptionReport, ReceptionStatistics, Resolution, RestartingReceiver, Rid, Stream, Text,
    TooManyLayers, Values, VideoTiming, WideReceiver,
};

/// What every type has: it goes to another thread, and may be moved and logged.
trait Logged: Debug + Send + Sync + Unpin + RefUnwindSafe {}
impl<T: Debug + Send + Sync + Unpin + RefUnwindSafe> Logged for T {}

/// And every one that isn't changed through an exclusive reference.
trait Plain: Logged + UnwindSafe {}
impl<T: Logged + UnwindSafe> Plain for T {}

trait Copied: Plain + Copy + Clone {}
impl<T: Plain + Copy + Clone> Copied for T {}

/// A value that is compared and looked up.
trait Value: Copied + PartialEq + Eq + Hash {}
impl<T: Copied + PartialEq + Eq + Hash> Value for T {}

/// An iterator that is over once, and may be gone through again.
trait Listed: Plain + Clone + Iterator + FusedIterator {}
impl<T: Plain + Clone + Iterator + FusedIterator> Listed for T {}

trait Failure: Value + Display + Error + 'static {}
impl<T: Value + Display + Error + 'static> Failure for T {}

#[allow(dead_code)] // where each type has its traits
trait Otherwise {
    const HAS: bool = false;
}

/// The types that don't have the trait, by name: of a type that has it the constant `HAS` is that of `Of` itself, and else
/// that of `Otherwise`.
macro_rules! lack {
    ($($bound:path: $($it:ty),+;)+) => {{
        let mut lacking: Vec<&str> = Vec::new();
        $({
            struct Of<T>(std::marker::PhantomData<T>);
            impl<T> Otherwise for Of<T> {}
            #[allow(dead_code)] // where no type has the trait
            impl<T: $bound> Of<T> {
                const HAS: bool = true;
            }
            $(if !<Of<$it>>::HAS {
                lacking.push(concat!(stringify!($it), ": ", stringify!($bound)));
            })+
        })+
        lacking
    }};
}

#[test]
fn each_type_has_its_traits() {
    let lacking = lack! {
        Value: Element<'_>, Place, Form, Header, Resolution, Layer, Stream, Layers, Kind, OwnKind, Map, NewIds,
            Fields, Receiver, ReceptionReport, ReceptionStatistics, Values, VideoTiming, Mid, Rid, Text<3>;
        Copied: PacketSlot, HeaderSlot, ArrivalSlot, Datagram<'_, '_, PacketSlot>, Datagram<'_, '_, HeaderSlot>;
        Copied: Packet<'_>, Arrival, RestartingReceiver, WideReceiver<1>, WideReceiver<512>;
        Plain: OwnUris<&str>, OwnUris<String>;
        Clone: OwnUris<&str>, OwnUris<String>;
        Eq: Packet<'_>, Arrival, OwnUris<&str>, OwnUris<String>;
        Default: OwnUris<&str>, OwnUris<String>, PacketSlot, HeaderSlot, Place, Header, Layer, Stream, Layers, Map, NewIds, Fields, Receiver, RestartingReceiver,
            ReceptionReport, ReceptionStatistics, WideReceiver<3>, Values, VideoTiming;
        Ord: Kind, OwnKind, Mid, Rid, Text<3>;
        Failure: NotAPacket, NotAHeader, NotWritten, NotChanged, NotPut, NotRetransmitted, NotAText, BadId,
            BadRolloverCount, TooManyLayers, NotRead, NotTaken, NotMapped;
        Listed: Csrcs<'_>, Elements<'_>, Places<'_>, Datagrams<'_, '_, PacketSlot>, Datagrams<'_, '_, HeaderSlot>;
        DoubleEndedIterator: Csrcs<'_>, Datagrams<'_, '_, PacketSlot>, Datagrams<'_, '_, HeaderSlot>;
        ExactSizeIterator: Csrcs<'_>, Datagrams<'_, '_, PacketSlot>, Datagrams<'_, '_, HeaderSlot>;
        Display: Mid, Rid, Text<3>;
        Logged: PacketMut<'_>;
    };
    assert_eq!(lacking, [""; 0]);
}

#[test]
fn each_type_is_made_of_others() {
    fn from<T, Source: Into<T>>() {}
    fn try_from<Source: TryInto<T, Error = Cause>, T, Cause>() {}
    fn is_a_text<T>()
    where
        T: FromStr<Err = NotAText> + Deref<Target = str> + Borrow<str> + AsRef<str>,
        T: PartialEq + PartialEq<str> + for<'a> PartialEq<&'a str>,
        str: PartialEq<T>,
        for<'a> &'a str: PartialEq<T>,
    {
    }
    from::<NotAHeader, NotAPacket>();
    from::<NotPut, NotAPacket>();
    from::<NotRetransmitted, NotAPacket>();
    from::<NotMapped, BadId>();
    from::<Box<dyn Error + Send + Sync>, NotPut>();
    try_from::<&[u8], Packet<'_>, NotAPacket>();
    try_from::<&mut [u8], PacketMut<'_>, NotAPacket>();
    try_from::<&str, Mid, NotAText>();
    try_from::<&str, Rid, NotAText>();

    is_a_text::<Mid>();
    is_a_text::<Rid>();
    is_a_text::<Text<3>>();
}

/// Each lends of the datagram, and not of the packet, which is gone when the function returns.
mod lent {
    use super::*;

    type Lent<'a> = Option<&'a [u8]>;
    type Lends = fn(&[u8]) -> Lent<'_>;

    pub const OF_A_PACKET: [(&str, Lends); 7] = [
        ("datagram", |it| Some(Packet::parse(it).ok()?.datagram())),
        ("payload", |it| Some(Packet::parse(it).ok()?.payload())),
        ("unpadded", |it| Packet::parse(it).ok()?.unpadded_payload()),
        ("body", |it| Packet::parse(it).ok()?.body()),
        ("block", |it| Some(Packet::parse(it).ok()?.block()?.1)),
        ("element", |it| Packet::parse(it).ok()?.element(2)),
        ("try_from", |it| Some(Packet::try_from(it).ok()?.payload())),
    ];

    pub fn first(datagram: &[u8]) -> Option<Element<'_>> {
        Packet::parse(datagram).ok()?.elements().next()
    }

    pub fn elements(datagram: &[u8]) -> Option<Elements<'_>> {
        Some(Packet::parse(datagram).ok()?.elements())
    }

    pub fn places(datagram: &[u8]) -> Option<Places<'_>> {
        Some(Packet::parse(datagram).ok()?.elements().places())
    }

    pub fn sources(datagram: &[u8]) -> Option<Csrcs<'_>> {
        Some(Packet::parse(datagram).ok()?.csrcs())
    }

    pub fn changed(datagram: &mut [u8]) -> Option<&mut [u8]> {
        let mut packet = PacketMut::parse(datagram).ok()?;
        packet.set_marker(true);
        Some(packet.into_datagram())
    }

    pub fn original(datagram: &[u8]) -> Lent<'_> {
        Some(read_original(Packet::parse(datagram).ok()?.payload())?.1)
    }
}

#[test]
fn what_is_lent_lives_as_long_as_the_datagram() {
    // V=2, P, X, CC=1; the source 9; a block of one word: 2 (AA BB); a payload of 3 bytes and one of padding
    let mut datagram =
        *b"\xB1\0\0\x01\0\0\0\x02\0\0\0\x03\0\0\0\x09\xBE\xDE\0\x01\x21\xAA\xBB\0\x01\x02\x03\x01";
    let whole = datagram;
    let parts = [0..28, 24..28, 24..27, 20..24, 20..24, 21..23, 24..28];
    for ((name, lend), part) in lent::OF_A_PACKET.into_iter().zip(parts) {
        assert_eq!(lend(&datagram), Some(&whole[part]), "{name}");
    }
    let data = lent::first(&datagram).map(|it| (it.id, it.data));
    assert_eq!(data, Some((2, &whole[21..23])));
    assert_eq!(lent::elements(&datagram).map(Iterator::count), Some(1));
    let place = lent::places(&datagram).and_then(|mut it| it.next());
    assert_eq!(place, Some(Place::new(2, 1..3)));
    let sources = lent::sources(&datagram).map(Iterator::collect);
    assert_eq!(sources, Some(vec![9]));
    assert_eq!(lent::original(&datagram), Some(&whole[26..28]));
    assert_eq!(lent::changed(&mut datagram).map(|it| it[1]), Some(0x80));
}

#[test]
fn texts_and_uris_are_borrowed_for_the_call_alone() {
    let uri = String::from("urn:ietf:params:rtp-hdrext:sdes:mid");
    let map = OwnUris::<String>::default().map([(3, &uri[..])]);
    assert_eq!(Kind::from_uri(&uri), Some(Kind::Mid));
    drop(uri);
    assert_eq!(map, Ok(Map::new().with(3, Kind::Mid)));
    // from whatever has pairs
    let (ids, uris) = (vec![3_u8], vec!["urn:ietf:params:rtp-hdrext:sdes:mid"]);
    assert_eq!(OwnUris::new().map(ids.into_iter().zip(uris)), map);
    let mid = Mid::try_from(&*String::from("ab"));
    assert_eq!(mid, Ok("ab".parse().unwrap()));
}

#[test]
fn headers_layers_and_maps_lend_what_they_have() {
    fn sources(header: &Header) -> &[u32] {
        header.csrcs()
    }
    fn streams(layers: &Layers) -> (&[Stream], &[Layer], &[u64]) {
        let layers = layers.streams();
        (layers, layers[0].layers(), layers[0].layers()[0].kbps())
    }
    fn mapped(map: &Map) -> impl Iterator<Item = (u8, Kind)> + Send + '_ {
        map.iter()
    }
    assert!(sources(&Header::default()).is_empty());
    let layer = Layer::new(&[7], None).unwrap();
    let layers = Layers::new(0, &[Stream::new(&[layer]).unwrap()]).unwrap();
    assert_eq!(streams(&layers).2, [7]);
    assert_eq!(mapped(&Map::standard()).count(), 7);
}

#[test]
fn maps_and_kinds_may_be_constants() {
    const MAP: Map = Map::new().with(3, Kind::Mid).with(0, Kind::Rid);
    static IDS: NewIds = NewIds::new().with(3, 200).with(0, 7);
    const OWN: Option<Kind> = Kind::own(200);
    const NUMBERS: [u8; 2] = [
        Kind::Mid.number(),
        match OWN {
            Some(Kind::Own(own)) => own.number(),
            _ => 0,
        },
    ];
    assert_eq!((MAP.get(3), MAP.iter().count()), (Some(Kind::Mid), 1));
    assert_eq!((IDS.get(3), IDS.get(0)), (Some(200), None));
    assert_eq!(NUMBERS, [12, 200]); // as in the header file for C
}

#[test]
fn kinds_are_ordered_by_their_numbers() {
    let numbers = (0..=255).filter_map(Kind::own);
    let first = [
        Kind::AbsSendTime,
        Kind::AbsCaptureTime,
        Kind::AudioLevel,
        Kind::TransmissionOffset,
        Kind::VideoOrientation,
        Kind::TransportNumber,
        Kind::PlayoutDelay,
        Kind::VideoContentType,
        Kind::VideoTiming,
        Kind::Rid,
        Kind::RepairedRid,
        Kind::Mid,
        Kind::FrameMarking,
        Kind::ColorSpace,
        Kind::Layers,
        Kind::MixerLevels,
        Kind::TransportNumber2,
        Kind::DependencyDescriptor,
        Kind::Ntp64,
        Kind::Ntp56,
    ];
    let kinds: Vec<Kind> = first.into_iter().chain(numbers).collect();
    assert_eq!(kinds.len(), 20 + 128);
    for pair in kinds.windows(2) {
        assert!(
            pair[0] < pair[1] && pair[0].number() < pair[1].number(),
            "{pair:?}"
        );
    }
}

/// These may get more variants: without the last arm a program that has all of today's isn't compiled, and the last arm
/// is one that may be reached.
#[deny(unreachable_patterns)]
#[expect(
    clippy::match_like_matches_macro,
    reason = "the last arm is what is looked at"
)]
mod may_grow {
    use super::*;

    pub fn a_packet(it: NotAPacket) -> bool {
        match it {
            NotAPacket::CutFixedPart
            | NotAPacket::OtherVersion
            | NotAPacket::CutSources
            | NotAPacket::CutBlockHeader
            | NotAPacket::CutBlock => true,
            _ => false,
        }
    }

    pub fn a_header(it: NotAHeader) -> bool {
        match it {
            NotAHeader::NotAPacket(cause) => a_packet(cause),
            NotAHeader::UnknownForm => true,
            _ => false,
        }
    }

    pub fn read(it: NotRead) -> bool {
        match it {
            NotRead::NotAPacket(cause) => a_packet(cause),
            NotRead::UnknownForm | NotRead::OutsideOfTheBuffer => true,
            _ => false,
        }
    }

    pub fn taken(it: NotTaken) -> bool {
        match it {
            NotTaken::Refused | NotTaken::NoReceiver => true,
            _ => false,
        }
    }

    pub fn written(it: NotWritten) -> bool {
        match it {
            NotWritten::BadField | NotWritten::ShortBuffer => true,
            _ => false,
        }
    }

    pub fn put(it: NotPut) -> bool {
        match it {
            NotPut::NotAPacket(cause) => a_packet(cause),
            NotPut::BadField
            | NotPut::BadId
            | NotPut::LongId
            | NotPut::FormNotAllowed
            | NotPut::LongBlock
            | NotPut::OtherForm
            | NotPut::ShortBuffer => true,
            _ => false,
        }
    }

    pub fn changed(it: NotChanged) -> bool {
        match it {
            NotChanged::BadPayloadType
            | NotChanged::TooManySources
            | NotChanged::NoSource
            | NotChanged::NoElement
            | NotChanged::BadNewId
            | NotChanged::BadPadding => true,
            _ => false,
        }
    }

    pub fn retransmitted(it: NotRetransmitted) -> bool {
        match it {
            NotRetransmitted::NotAPacket(cause) => a_packet(cause),
            NotRetransmitted::BadPayloadType
            | NotRetransmitted::BadLength
            | NotRetransmitted::BadPadding
            | NotRetransmitted::NoNumber
            | NotRetransmitted::BadNewId
            | NotRetransmitted::ShortBuffer => true,
            _ => false,
        }
    }

    pub fn a_kind(it: Kind) -> bool {
        match it {
            Kind::AbsSendTime
            | Kind::AbsCaptureTime
            | Kind::AudioLevel
            | Kind::TransmissionOffset
            | Kind::VideoOrientation
            | Kind::TransportNumber
            | Kind::PlayoutDelay
            | Kind::VideoContentType
            | Kind::VideoTiming
            | Kind::Rid
            | Kind::RepairedRid
            | Kind::Mid
            | Kind::FrameMarking
            | Kind::ColorSpace
            | Kind::Layers
            | Kind::MixerLevels
            | Kind::TransportNumber2
            | Kind::DependencyDescriptor
            | Kind::Ntp64
            | Kind::Ntp56
            | Kind::Own(_) => true,
            _ => false,
        }
    }
}

#[test]
fn some_enums_may_grow_and_others_do_not() {
    let cut = NotAPacket::CutBlock;
    assert!(may_grow::a_packet(cut) && may_grow::a_header(cut.into()));
    assert!(may_grow::written(NotWritten::BadField) && may_grow::put(cut.into()));
    assert!(may_grow::changed(NotChanged::NoSource) && may_grow::retransmitted(cut.into()));
    assert!(may_grow::a_kind(Kind::Mid));
    assert!(may_grow::read(NotRead::NotAPacket(cut)) && may_grow::taken(NotTaken::Refused));
    // a program that has an arm for each of these is compiled
    let bits = |it| match it {
        Form::OneByte => 4,
        Form::TwoByte => 8,
    };
    assert_eq!((bits(Form::OneByte), bits(Form::TwoByte)), (4, 8));
    let number = |it| match it {
        Arrival::Taken(_) | Arrival::Restarted(_) => it.number(),
        Arrival::Refused => None,
    };
    assert_eq!(number(RestartingReceiver::new().receive(7)), Some(65_543));
    assert_eq!(number(Arrival::Refused), None);
}

type Written = Result<usize, NotWritten>;
type Put = Result<usize, NotPut>;
type Sent = Result<usize, NotRetransmitted>;

#[test]
#[expect(clippy::type_complexity, reason = "the types are what is looked at")]
fn each_function_has_its_type() {
    let _: fn(&mut [u8]) -> Result<usize, NotAPacket> = compact;
    let _: fn(u64, u8) -> u64 = extend_u8;
    let _: [fn(u64, u16) -> u64; 2] = [extend_u15, extend_u16];
    let _: fn(u64, u32) -> u64 = extend_u32;
    let _: fn(&[u8]) -> bool = is_rtcp;
    let _: for<'s, 'a> fn(&'a [u8], &'s mut [PacketSlot]) -> Datagrams<'s, 'a, PacketSlot> =
        parse_packets;
    let _: for<'s, 'a> fn(&'a [u8], &Map, &'s mut [HeaderSlot]) -> Datagrams<'s, 'a, HeaderSlot> =
        parse_headers;
    let _: fn(&mut [Receiver], &mut [ArrivalSlot]) = receive_many;
    let _: fn(&mut [u8], usize, u8, usize) -> Written = pad;
    let _: [fn(&mut [u8], usize, u8, &[u8], Option<Form>) -> Put; 2] = [put_element, add_element];
    let _: fn(&mut [u8], usize, Form) -> Put = change_form;
    let _: fn(&mut [u8], usize, u16, &[u8]) -> Put = put_block;
    let _: fn(&mut [u8]) -> Result<usize, NotAPacket> = remove_block;
    let _: fn(&[u8]) -> Option<(u16, &[u8])> = read_original;
    let _: fn(&mut [u8], u64) -> Result<(), NotWritten> = write_original;
    let _: fn(&mut [u8], Form, &[u8], &[Place]) -> Written = write_elements;
    let _: fn() -> u32 = version;
    let _: fn(&mut [u8], usize, u32, u8, u16, &NewIds) -> Sent = to_retransmission;
    let _: fn(&mut [u8], usize, u32, u8, &NewIds) -> Sent = from_retransmission;
}

#[test]
fn states_and_tables_are_plain_memory() {
    // as the documentation says; a map has a byte for each id and the number of a table, and a wide receiver 64 numbers
    // a word
    assert_eq!((size_of::<Receiver>(), size_of::<NewIds>()), (32, 256));
    assert_eq!(
        (size_of::<Map>(), size_of::<RestartingReceiver>()),
        (256 + 8, 24 + 8 * 16)
    );
    assert_eq!(size_of::<WideReceiver<16>>(), 16 + 8 * 16);
    assert_eq!(
        (size_of::<PacketSlot>(), size_of::<HeaderSlot>()),
        (88, 248)
    );
    assert_eq!(size_of::<ArrivalSlot>(), 24);
    assert_eq!(size_of::<ReceptionStatistics>(), 56);
    assert_eq!((size_of::<Mid>(), size_of::<Rid>()), (17, 9));
}

#[test]
fn the_crate_needs_no_operating_system() {
    let crate_root = include_str!("../src/lib.rs");
    for line in ["#![no_std]", "#![deny(unsafe_code)]"] {
        assert!(crate_root.lines().any(|it| it == line), "{line}");
    }
    assert!(!crate_root.contains("extern crate"));
}

#[test]
fn values_may_get_more_fields() {
    // That a program can't have a literal of all of them is seen in the text alone: it would have to be refused.
    let text = include_str!("../src/values.rs");
    assert!(text.contains("#[non_exhaustive]\npub struct Values {"));
}
