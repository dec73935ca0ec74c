//! What a packet lends: its parts, how many there are to come, and what it looks like in a log.

use std::iter::FusedIterator;

use rtp_wire::{Element, Form, Map, NotChanged, Packet, PacketMut, Place};

/// V=2, X, CC=3; M, PT=34; 0x0102; 0x03040506; 0x0708090A; three sources; a block of three words in the
/// one-byte form: 1 (AA), 2 (BB), 3 (CC DD), and padding; a payload of one byte.
const SAMPLE: [u8; 41] = [
    0x93, 0xA2, 1, 2, 3, 4, 5, 6, 7, 8, 9, 10, 0, 0, 0, 11, 0, 0, 0, 12, 0xFF, 0, 0, 13, 0xBE,
    0xDE, 0, 3, 0x10, 0xAA, 0x20, 0xBB, 0x31, 0xCC, 0xDD, 0, 0, 0, 0, 0, 0x55,
];

/// V=2, X; a block of two words in the two-byte form: 1, 2, 3 and 4 of no bytes; no payload.
const EMPTY: [u8; 24] = [
    0x90, 34, 0, 0, 0, 0, 0, 0, 0, 0, 0, 0, 0x10, 0, 0, 2, 1, 0, 2, 0, 3, 0, 4, 0,
];

/// V=2; no block, no payload.
const PLAIN: [u8; 12] = [0x80; 12];

/// Takes all, and says how many at the most were announced before each.
fn announced<I: FusedIterator + Clone>(mut it: I) -> Vec<Option<usize>> {
    let mut most = vec![it.size_hint().1];
    let mut left = it.clone().count();
    while it.next().is_some() {
        left -= 1;
        let (low, high) = it.size_hint();
        assert!(low <= left && high.is_some_and(|high| left <= high));
        most.push(high);
    }
    assert!(left == 0 && it.next().is_none() && it.next().is_none());
    assert_eq!(it.size_hint().1, Some(0));
    most
}

#[test]
fn slices_become_packets() {
    let mut bytes = SAMPLE;
    assert_eq!(Packet::try_from(&SAMPLE[..]), Packet::parse(&SAMPLE));
    let mut packet = PacketMut::try_from(&mut bytes[..]).unwrap();
    packet.set_ssrc(7);
    assert_eq!(packet.as_packet().ssrc(), 7);
    let cause = PacketMut::try_from(&mut bytes[..11]).unwrap_err();
    assert_eq!(cause, Packet::try_from(&SAMPLE[..11]).unwrap_err());
}

#[test]
fn sources_are_counted() {
    let mut sources = Packet::parse(&SAMPLE).unwrap().csrcs();
    for (left, source) in [(3, 11), (2, 12), (1, 0xFF00_000D)] {
        assert_eq!(
            (sources.len(), sources.size_hint()),
            (left, (left, Some(left)))
        );
        let back: Vec<u32> = sources.clone().rev().collect();
        assert_eq!(back, [0xFF00_000D, 12, 11][..left]);
        assert_eq!(sources.next(), Some(source));
    }
    assert_eq!(
        (sources.len(), sources.size_hint(), sources.next()),
        (0, (0, Some(0)), None)
    );
    announced(Packet::parse(&SAMPLE).unwrap().csrcs());
    assert_eq!(Packet::parse(&PLAIN).unwrap().csrcs().len(), 0);
}

#[test]
fn elements_are_announced() {
    // two bytes at least for each: of 12, 10, 8 and 5 bytes, and none after the last
    let elements = Packet::parse(&SAMPLE).unwrap().elements();
    assert_eq!(elements.size_hint(), (0, Some(6)));
    assert_eq!(elements.clone().places().size_hint(), (0, Some(6)));
    let most = [Some(6), Some(5), Some(4), Some(2)];
    assert_eq!(announced(elements.clone()), most);
    assert_eq!(announced(elements.places()), most);

    let elements = Packet::parse(&EMPTY).unwrap().elements();
    let most = [Some(4), Some(3), Some(2), Some(1), Some(0)];
    assert_eq!(announced(elements.clone()), most);
    assert_eq!(announced(elements.places()), most);

    let elements = Packet::parse(&PLAIN).unwrap().elements();
    assert_eq!(announced(elements.clone()), [Some(0)]);
    assert_eq!(announced(elements.places()), [Some(0)]);
}

#[test]
fn an_iteration_is_over_once() {
    let mut elements = Packet::parse(&SAMPLE).unwrap().elements();
    assert_eq!(elements.by_ref().count(), 3);
    assert_eq!(
        (elements.next(), elements.size_hint()),
        (None, (0, Some(0)))
    );
    let mut places = elements.places();
    assert_eq!((places.next(), places.size_hint()), (None, (0, Some(0))));
}

#[test]
fn places_are_where_the_data_are() {
    let packet = Packet::parse(&SAMPLE).unwrap();
    let places: Vec<_> = packet.elements().places().collect();
    assert_eq!(
        places,
        [
            Place::new(1, 1..2),
            Place::new(2, 3..4),
            Place::new(3, 5..7)
        ]
    );
    let (form, body) = packet.block().unwrap();
    assert_eq!((form, body), (Form::OneByte, &SAMPLE[28..40]));
    let elements = places.iter().map(|it| Element {
        id: it.id(),
        data: &body[it.data()],
    });
    assert!(elements.eq(packet.elements()));
    let mut rest = packet.elements();
    rest.next();
    assert_eq!(rest.places().next(), Some(places[1])); // from where the elements were

    for (from, to) in [(0, 0), (3, 7), (7, 7), (1 << 32, 1 << 33), (7, 3)] {
        let place = Place::new(9, from..to);
        assert_eq!((place.id(), place.data()), (9, from..to));
        assert_eq!(place.with_id(200), Place::new(200, from..to));
        assert_eq!(
            (place.with_id(200).id(), place.with_id(200).data()),
            (200, from..to)
        );
        assert_ne!(place.with_id(200), place);
        assert_ne!(place, Place::new(9, from..to + 1));
    }
}

#[test]
fn elements_are_equal_by_id_and_data() {
    let element = |id, data| Element { id, data };
    let data = [2, 3, 4];
    assert_eq!(element(1, &[2, 3]), element(1, &data[..2]));
    for (id, data) in [(2, &[2, 3][..]), (1, &[2]), (1, &[2, 4]), (1, &[])] {
        assert_ne!(element(1, &[2, 3]), element(id, data));
    }
}

#[test]
fn padding_is_at_the_end_where_p_is_set() {
    // the last byte of the payload 1, 2, 3, LAST, and what is left without the padding
    let rows: [(u8, Option<&[u8]>); 5] = [
        (0, Some(&[1, 2, 3, 0])),
        (1, Some(&[1, 2, 3])),
        (4, Some(&[])),
        (5, None),
        (255, None),
    ];
    for (last, left) in rows {
        let mut bytes = [&PLAIN[..], &[1, 2, 3, last]].concat();
        let packet = Packet::parse(&bytes).unwrap();
        assert_eq!(
            (packet.has_padding(), packet.unpadded_payload()),
            (false, Some(packet.payload()))
        );
        bytes[0] |= 0x20;
        let packet = Packet::parse(&bytes).unwrap();
        assert_eq!(
            (packet.has_padding(), packet.unpadded_payload()),
            (true, left)
        );
        assert_eq!(
            (packet.payload(), packet.header_len()),
            (&[1, 2, 3, last][..], 12)
        );
    }
}

#[test]
fn a_packet_is_told() {
    let text =
        "Packet { marker: true, payload_type: 34, sequence_number: 258, timestamp: 50595078, \
                ssrc: 117967114, form: Some(OneByte), block_profile: Some(48862), header_len: 40, payload_len: 1, .. }";
    let mut bytes = SAMPLE;
    assert_eq!(format!("{:?}", Packet::parse(&bytes).unwrap()), text);
    assert_eq!(format!("{:?}", PacketMut::parse(&mut bytes).unwrap()), text);
    let text =
        "Packet { marker: false, payload_type: 34, sequence_number: 0, timestamp: 0, ssrc: 0, \
                form: Some(TwoByte), block_profile: Some(4096), header_len: 24, payload_len: 0, .. }";
    assert_eq!(format!("{:?}", Packet::parse(&EMPTY).unwrap()), text);
    assert!(format!("{:#?}", Packet::parse(&PLAIN).unwrap())
        .contains("\n    form: None,\n    block_profile: None,\n"));
}

#[test]
fn packets_are_equal_by_their_bytes() {
    let packet = Packet::parse(&SAMPLE).unwrap();
    let copy = SAMPLE; // at another place
    assert_eq!(packet, Packet::parse(&copy).unwrap());
    for at in 2..SAMPLE.len() {
        let mut bytes = SAMPLE;
        bytes[at] ^= 1;
        if let Ok(other) = Packet::parse(&bytes) {
            assert_ne!(packet, other, "{at}");
        }
    }
}

#[test]
fn an_absent_element_stays_absent() {
    for datagram in [&SAMPLE[..], &EMPTY, &PLAIN] {
        let ids: Vec<u8> = Packet::parse(datagram)
            .unwrap()
            .elements()
            .map(|it| it.id)
            .collect();
        for id in (0..=255).filter(|id| !ids.contains(id)) {
            let mut bytes = datagram.to_vec();
            let mut packet = PacketMut::parse(&mut bytes).unwrap();
            assert!(!packet.remove_element(id), "{id}");
            assert_eq!(
                packet.set_element(id, &[]),
                Err(NotChanged::NoElement),
                "{id}"
            );
            assert_eq!(packet.as_packet().element(id), None);
            assert_eq!(bytes, datagram);
        }
    }
    let values = Packet::parse(&EMPTY).unwrap().values(&Map::standard());
    assert_eq!(values.mid.unwrap(), ""); // 4 is the mid
}
