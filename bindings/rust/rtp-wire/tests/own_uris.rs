//! The maps of the peers of a call: what both agreed on goes on, known here or not.

use std::sync::Arc;

use rtp_wire::{BadId, Kind, Map, NewIds, NotMapped, OwnUris, Packet, PacketMut};

const LEVEL: &str = "urn:ietf:params:rtp-hdrext:ssrc-audio-level";
const MID: &str = "urn:ietf:params:rtp-hdrext:sdes:mid";
const DESCRIPTOR: &str =
    "https://aomediacodec.github.io/av1-rtp-spec/#dependency-descriptor-rtp-header-extension";
const MARKING: &str = "urn:ietf:params:rtp-hdrext:framemarking"; // RFC 9626's, which has no kind

fn own(number: u8) -> Kind {
    Kind::own(number).unwrap()
}

/// What the ids of a map mean.
fn entries(map: &Map) -> Vec<(u8, Kind)> {
    map.iter().collect()
}

/// So many URIs that aren't known.
fn many(count: usize) -> Vec<String> {
    (0..count).map(|n| format!("urn:example:{n}")).collect()
}

#[test]
fn what_both_peers_agreed_on_goes_on() {
    let mut uris = OwnUris::new();
    let from = uris.map([
        (1, LEVEL),
        (2, "urn:x"),
        (3, MARKING),
        (4, "urn:y"),
        (5, DESCRIPTOR),
    ]);
    let to = uris.map([(7, DESCRIPTOR), (8, "urn:y"), (9, MARKING), (10, MID)]);
    let ids = NewIds::between(&from.unwrap(), &to.unwrap());
    // each element with data of its own: of one byte each, and two padding bytes at the end
    let mut datagram = *b"\x90\x60\0\x05\0\0\0\x64\0\0\0\x2C\xBE\xDE\0\x03\
                          \x10\x8A\x20\xA2\x30\xA3\x40\xA4\x50\xA5\0\0hi";
    for number in [5, 6] {
        datagram[3] = number;
        let mut sent = datagram;
        PacketMut::parse(&mut sent).unwrap().renumber(&ids).unwrap();
        assert_eq!(sent[..16], datagram[..16]);
        assert_eq!(sent[16..], *b"\0\0\0\0\x90\xA3\x80\xA4\x70\xA5\0\0hi");
    }
}

#[test]
fn each_uri_has_one_kind() {
    let mut uris = OwnUris::new();
    let lines = [
        (1, "urn:x"),
        (2, LEVEL),
        (3, "urn:y"),
        (4, "urn:x"),
        (255, MID),
    ];
    let due = Map::new()
        .with(1, own(128))
        .with(2, Kind::AudioLevel)
        .with(3, own(129))
        .with(4, own(128))
        .with(255, Kind::Mid);
    let first = uris.map(lines).unwrap();
    assert_eq!(entries(&first), entries(&due));
    assert_eq!(uris.map(lines), Ok(first));
    let later = uris
        .map([(9, "urn:z"), (8, "urn:y"), (8, "urn:x"), (7, "")])
        .unwrap();
    let due = Map::new()
        .with(7, own(131))
        .with(8, own(128)) // the later line counts
        .with(9, own(130));
    assert_eq!(entries(&later), entries(&due));
    assert_eq!(uris.kind_of("urn:y"), Some(own(129)));
    assert_eq!(uris.kind_of(MID), Some(Kind::Mid));
    let unknown = [
        (own(128), "urn:x"),
        (own(129), "urn:y"),
        (own(130), "urn:z"),
        (own(131), ""),
    ];
    assert!(uris.unknown().eq(unknown));
    assert_eq!(uris.clone(), uris);
    // letter for letter
    let cases = OwnUris::new().map([(1, "urn:x"), (2, "urn:X")]).unwrap();
    assert_eq!(entries(&cases), [(1, own(128)), (2, own(129))]);
    // a typo, and another case, are told
    let mut uris = OwnUris::new();
    let typos = [
        &MID[..MID.len() - 1],
        "URN:ietf:params:rtp-hdrext:sdes:mid",
        "urn:ietf:params:rtp-hdrext:sdes:mid ",
    ];
    uris.map([(1, typos[0]), (2, MID), (3, typos[1]), (4, typos[2])])
        .unwrap();
    assert!(uris.unknown().map(|(_, uri)| uri).eq(typos));
    assert_eq!(OwnUris::new().unknown().next(), None);
}

#[test]
fn at_most_128_are_not_known() {
    let names = many(130);
    let mut uris = OwnUris::new();
    let all = (1..=128).zip(names.iter().map(String::as_str));
    let map = uris.map(all).unwrap();
    assert!(map.iter().eq((1..=128).map(|id| (id, own(127 + id)))));
    let refused = uris.map([(3, LEVEL), (200, &names[128])]);
    assert_eq!(refused, Err(NotMapped::TooManyUris { id: 200 }));
    assert_eq!(
        NotMapped::TooManyUris { id: 200 }.to_string(),
        "the URI of the id 200 isn't known, and neither are 128 others"
    );
    assert_eq!(uris.kind_of(&names[129]), None);
    // what has a number keeps it, and what is known needs none
    let due = Map::new()
        .with(1, own(255))
        .with(2, own(128))
        .with(3, Kind::AudioLevel);
    let lines = [(1, &names[127][..]), (2, &names[0]), (3, LEVEL)];
    assert_eq!(entries(&uris.map(lines).unwrap()), entries(&due));
    assert_eq!(uris.unknown().count(), 128);
}

#[test]
fn numbers_of_two_tables_are_no_common_ones() {
    let (mut one, mut other) = (OwnUris::new(), OwnUris::new());
    let from = one.map([(1, "urn:a"), (2, MID), (3, "urn:b")]).unwrap();
    let to = other.map([(4, "urn:b"), (5, MID)]).unwrap();
    // urn:a of the one has the number of urn:b of the other
    assert_eq!((from.get(1), to.get(4)), (Some(own(128)), Some(own(128))));
    let new = |from: &Map, to: &Map| [1, 2, 3, 4].map(|id| NewIds::between(from, to).get(id));
    assert_eq!(new(&from, &to), [None, Some(5), None, None]);
    assert_eq!(new(&to, &from), [None; 4]);
    assert_eq!(new(&from, &from), [Some(1), Some(2), Some(3), None]);
    let mut moved = other;
    let again = moved.map([(7, "urn:b")]).unwrap();
    assert_eq!(new(&to, &again), [None, None, None, Some(7)]);
    // a clone is another table, and what is known is every table's
    let copied = one.clone().map([(6, "urn:a"), (9, MID)]).unwrap();
    assert_eq!(new(&from, &copied), [None, Some(9), None, None]);
    assert_eq!(one.map([(1, MID)]), Ok(Map::new().with(1, Kind::Mid)));
    let known = OwnUris::new().map([(6, MID), (7, LEVEL)]).unwrap();
    assert_eq!(new(&from, &known), [None, Some(6), None, None]);
    // numbers that were chosen by hand are those of any
    let by_hand = Map::new().with(8, own(128));
    assert_eq!(new(&from, &by_hand), [Some(8), None, None, None]);
    assert_eq!(new(&to, &by_hand), [None, None, None, Some(8)]);
    // so two maps of one number are equal where it is that of one table
    let lines = [(4, "urn:a")];
    assert_eq!(one.map(lines), one.map(lines));
    assert_ne!(one.map(lines), OwnUris::new().map(lines));
    assert_ne!(one.map(lines), Ok(Map::new().with(4, own(128))));
}

#[test]
fn the_id_0_means_nothing() {
    let mut uris = OwnUris::new();
    for uri in [MID, "urn:x"] {
        assert_eq!(uris.map([(1, LEVEL), (0, uri)]), Err(NotMapped::BadId));
    }
    assert_eq!(NotMapped::BadId.to_string(), BadId.to_string());
    // what came before has a number
    assert!(uris.unknown().eq([(own(128), "urn:x")]));
    assert_eq!(uris.map([]), Ok(Map::new()));
}

#[test]
fn copies_outlive_the_lines() {
    let mut copies = (
        OwnUris::<String>::default(),
        OwnUris::<Box<str>>::default(),
        OwnUris::<Arc<str>>::default(),
    );
    for uri in many(3) {
        copies.0.map([(1, &uri[..])]).unwrap();
        copies.1.map([(1, &uri[..])]).unwrap();
        copies.2.map([(1, &uri[..])]).unwrap();
    }
    let names = many(3);
    let due = || {
        (128..)
            .map(own)
            .zip(names.iter().map(String::as_str))
            .take(3)
    };
    assert!(copies.0.unknown().eq(due()));
    assert!(copies.1.unknown().eq(due()));
    assert!(copies.2.unknown().eq(due()));
}

#[test]
fn a_kind_of_the_callers_own_has_its_elements_alone() {
    let map = OwnUris::new().map([(1, MARKING), (2, MID)]).unwrap();
    let packet = Packet::parse(b"\x90\0\0\0\0\0\0\0\0\0\0\0\xBE\xDE\0\x01\x10\xA9\x20a").unwrap();
    assert_eq!(
        packet.values(&map),
        packet.values(&Map::new().with(2, Kind::Mid))
    );
    let id = map.id_of(own(128)).unwrap();
    assert_eq!(packet.element(id), Some(&[0xA9][..]));
}

#[test]
#[expect(deprecated, reason = "what it does stays as it was")]
fn the_call_of_1_0_drops_what_is_not_known() {
    let map = Map::from_uris([(3, MID), (3, "urn:x"), (4, LEVEL), (4, MID), (5, "urn:x")]);
    assert_eq!(map, Ok(Map::new().with(3, Kind::Mid).with(4, Kind::Mid)));
    assert_eq!(
        Map::from_uris([(3, " urn:ietf:params:rtp-hdrext:sdes:mid")]),
        Ok(Map::new())
    );
    assert_eq!(Map::from_uris([(0, MID)]), Err(BadId));
    assert_eq!(Map::from_uris([(0, "urn:x")]), Ok(Map::new()));
}

#[test]
fn a_map_without_own_kinds_is_of_no_uris() {
    let mut uris = OwnUris::new();
    let mut map = uris.map([(3, "urn:x"), (5, MID), (7, "urn:y")]).unwrap();
    let known = Map::new().with(5, Kind::Mid);
    map.set(3, None).unwrap();
    assert_ne!(
        map,
        known.with(7, own(129)),
        "the numbers are of these URIs"
    );
    assert_eq!(map.with(7, Kind::Rid), known.with(7, Kind::Rid));
    map.set(7, Some(Kind::Rid)).unwrap();
    assert_eq!(map, known.with(7, Kind::Rid));
    map.set(7, None).unwrap();
    assert_eq!(map, known);
}
