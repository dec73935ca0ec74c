//! The twenty kinds: their URIs, and their numbers in the header file for C.

use rtp_wire::{BadId, Kind, KindSet, Map, NewIds, NotWritten, OwnUris, Values};

/// The kind, its number, its name in the header file, and its URI.
const KINDS: [(Kind, u8, &str, &str); 20] = [
    (
        Kind::AbsSendTime,
        1,
        "ABS_SEND_TIME",
        "http://www.webrtc.org/experiments/rtp-hdrext/abs-send-time",
    ),
    (
        Kind::AbsCaptureTime,
        2,
        "ABS_CAPTURE_TIME",
        "http://www.webrtc.org/experiments/rtp-hdrext/abs-capture-time",
    ),
    (
        Kind::AudioLevel,
        3,
        "AUDIO_LEVEL",
        "urn:ietf:params:rtp-hdrext:ssrc-audio-level",
    ),
    (
        Kind::TransmissionOffset,
        4,
        "TRANSMISSION_OFFSET",
        "urn:ietf:params:rtp-hdrext:toffset",
    ),
    (
        Kind::VideoOrientation,
        5,
        "VIDEO_ORIENTATION",
        "urn:3gpp:video-orientation",
    ),
    (
        Kind::TransportNumber,
        6,
        "TRANSPORT_NUMBER",
        "http://www.ietf.org/id/draft-holmer-rmcat-transport-wide-cc-extensions-01",
    ),
    (
        Kind::PlayoutDelay,
        7,
        "PLAYOUT_DELAY",
        "http://www.webrtc.org/experiments/rtp-hdrext/playout-delay",
    ),
    (
        Kind::VideoContentType,
        8,
        "VIDEO_CONTENT_TYPE",
        "http://www.webrtc.org/experiments/rtp-hdrext/video-content-type",
    ),
    (
        Kind::VideoTiming,
        9,
        "VIDEO_TIMING",
        "http://www.webrtc.org/experiments/rtp-hdrext/video-timing",
    ),
    (
        Kind::Rid,
        10,
        "RID",
        "urn:ietf:params:rtp-hdrext:sdes:rtp-stream-id",
    ),
    (
        Kind::RepairedRid,
        11,
        "REPAIRED_RID",
        "urn:ietf:params:rtp-hdrext:sdes:repaired-rtp-stream-id",
    ),
    (Kind::Mid, 12, "MID", "urn:ietf:params:rtp-hdrext:sdes:mid"),
    (
        Kind::FrameMarking,
        13,
        "FRAME_MARKING",
        "http://tools.ietf.org/html/draft-ietf-avtext-framemarking-07",
    ),
    (
        Kind::ColorSpace,
        14,
        "COLOR_SPACE",
        "http://www.webrtc.org/experiments/rtp-hdrext/color-space",
    ),
    (
        Kind::Layers,
        15,
        "LAYERS",
        "http://www.webrtc.org/experiments/rtp-hdrext/video-layers-allocation00",
    ),
    (
        Kind::MixerLevels,
        16,
        "MIXER_LEVELS",
        "urn:ietf:params:rtp-hdrext:csrc-audio-level",
    ),
    (
        Kind::TransportNumber2,
        17,
        "TRANSPORT_NUMBER_2",
        "http://www.webrtc.org/experiments/rtp-hdrext/transport-wide-cc-02",
    ),
    (
        Kind::DependencyDescriptor,
        18,
        "DEPENDENCY_DESCRIPTOR",
        "https://aomediacodec.github.io/av1-rtp-spec/#dependency-descriptor-rtp-header-extension",
    ),
    (
        Kind::Ntp64,
        19,
        "NTP_64",
        "urn:ietf:params:rtp-hdrext:ntp-64",
    ),
    (
        Kind::Ntp56,
        20,
        "NTP_56",
        "urn:ietf:params:rtp-hdrext:ntp-56",
    ),
];

#[test]
fn each_kind_has_its_number_and_its_uri() {
    let header_file = include_str!("rtp_wire.h");
    for (kind, number, name, uri) in KINDS {
        assert_eq!(kind.number(), number);
        assert!(
            header_file.contains(&format!("RTPW_KIND_{name} = {number}")),
            "{name}"
        );
        assert_eq!(Kind::from_uri(uri), Some(kind));
        assert_eq!(kind.uri().as_deref(), Some(uri));
        assert_eq!(Kind::from_uri(&uri[1..]), None);
        assert_eq!(Kind::from_uri(&uri[..uri.len() - 1]), None);
        for other in [
            format!("{uri}/"),
            format!("{uri} "),
            format!(" {uri}"),
            format!("{uri}\0"),
            format!("{uri}\r"),
        ] {
            assert_eq!(Kind::from_uri(&other), None, "{other:?}");
        }
        assert_eq!(Kind::from_uri(&uri.to_uppercase()), None);
    }
}

#[test]
fn each_id_takes_each_kind() {
    for (index, (kind, _, _, uri)) in KINDS.into_iter().enumerate() {
        for id in 1..=255 {
            let mut map = Map::new();
            assert_eq!(map.set(id, Some(kind)), Ok(()));
            assert_eq!(map, Map::new().with(id, kind));
            assert_eq!(OwnUris::new().map([(id, "urn:x"), (id, uri)]), Ok(map));
            let known: Vec<_> = (0..=255)
                .filter_map(|it| Some((it, map.get(it)?)))
                .collect();
            assert_eq!(known, [(id, kind)]);
            let (other, ..) = KINDS[(index + 1) % 20];
            assert_ne!(map, map.with(id, other));
            assert_eq!(map.with(id, other).get(id), Some(other));
            assert_eq!(map.set(0, Some(kind)), Err(BadId));
            assert_eq!(map.set(0, None), Err(BadId));
            assert_eq!(map.get(id), Some(kind));
            assert_eq!(map.set(id, None), Ok(()));
            assert_eq!(map, Map::default());
        }
        assert_eq!(Map::new().with(0, kind), Map::new());
        assert!(!KindSet::default().contains(kind));
    }
}

#[test]
fn each_map_is_told() {
    let all = KINDS
        .into_iter()
        .fold(Map::new(), |map, (kind, number, ..)| {
            map.with(21 - number, kind)
        });
    let text = format!("{:?}", all.with(255, Kind::Mid).with(0, Kind::Rid));
    assert_eq!(
        text,
        "{1: Ntp56, 2: Ntp64, 3: DependencyDescriptor, 4: TransportNumber2, 5: MixerLevels, 6: Layers, \
         7: ColorSpace, 8: FrameMarking, 9: Mid, 10: RepairedRid, 11: Rid, 12: VideoTiming, \
         13: VideoContentType, 14: PlayoutDelay, 15: TransportNumber, 16: VideoOrientation, \
         17: TransmissionOffset, 18: AudioLevel, 19: AbsCaptureTime, 20: AbsSendTime, 255: Mid}"
    );
    assert_eq!(format!("{:?}", Map::new()), "{}");
}

#[test]
fn own_kinds_have_numbers_from_128_on() {
    for number in 0..=255 {
        let own = Kind::own(number);
        assert_eq!(own.is_some(), number >= 128, "{number}");
        let Some(kind) = own else { continue };
        let Kind::Own(it) = kind else {
            panic!("{kind:?}")
        };
        assert_eq!(it.number(), number);
        let mut map = Map::new().with(200, kind).with(3, kind).with(2, Kind::Mid);
        assert_eq!((map.get(200), map.id_of(kind)), (Some(kind), Some(3)));
        assert!(map.iter().eq([(2, Kind::Mid), (3, kind), (200, kind)]));
        assert_eq!(map.set(0, own), Err(BadId));
        let ids = NewIds::between(&Map::new().with(1, kind).with(4, Kind::Rid), &map);
        assert_eq!((ids.get(1), ids.get(4)), (Some(3), None));
        assert_eq!((map.set(3, None), map.id_of(kind)), (Ok(()), Some(200)));
    }
    assert_eq!(Map::standard().id_of(Kind::VideoOrientation), Some(13));
    assert_eq!(Map::standard().id_of(Kind::ColorSpace), None);
}

#[test]
fn data_of_one_kind() {
    let mut data = [0xA5; 4];
    let mut values = Values::default();
    assert_eq!(values.data_of(Kind::AbsSendTime, &mut data), Ok(None));
    values.send_time = Some(40_000_000); // 2^18 * 40 of 40 seconds
    assert_eq!(values.data_of(Kind::AbsSendTime, &mut data), Ok(Some(3)));
    assert_eq!(data, [0xA0, 0, 0, 0xA5]);
    assert_eq!(
        values.data_of(Kind::AbsSendTime, &mut data[..2]),
        Err(NotWritten::ShortBuffer)
    );
    let without_a_field = KINDS[13..].iter().map(|it| it.0);
    for kind in without_a_field.chain(Kind::own(255)) {
        assert_eq!(values.data_of(kind, &mut data), Ok(None));
    }
    values.video_orientation = Some(45);
    assert_eq!(
        values.data_of(Kind::AbsSendTime, &mut data),
        Err(NotWritten::BadField)
    );
    assert_eq!(data, [0xA0, 0, 0, 0xA5]);
}

#[test]
fn new_ids_lead_from_one_map_to_the_other() {
    let from = KINDS
        .into_iter()
        .fold(Map::new(), |map, (kind, number, ..)| map.with(number, kind));
    let to = KINDS
        .into_iter()
        .fold(Map::new(), |map, (kind, number, ..)| {
            map.with(230 + number, kind)
        });
    let ids = NewIds::between(&from, &to.with(200, Kind::AudioLevel).with(242, Kind::Rid));
    for id in 0..=255 {
        let new = match id {
            3 => Some(200), // the lowest
            12 => None,     // the mid has none
            1..=20 => Some(230 + id),
            _ => None,
        };
        assert_eq!(ids.get(id), new, "{id}");
    }
    assert_ne!(NewIds::between(&to, &from), ids);
    assert_eq!(NewIds::between(&to, &from).get(231), Some(1));
    assert_eq!(NewIds::between(&Map::new(), &to), NewIds::default());

    let by_hand = NewIds::new()
        .with(1, 255)
        .with(255, 1)
        .with(9, 3)
        .with(9, 0)
        .with(0, 7);
    let known: Vec<_> = (0..=255)
        .filter_map(|id| Some((id, by_hand.get(id)?)))
        .collect();
    assert_eq!(known, [(1, 255), (255, 1)]);
    assert_eq!(format!("{by_hand:?}"), "{1: 255, 255: 1}");
    // an id that keeps itself is told too
    let kept = NewIds::new().with(4, 4).with(1, 2).with(255, 255);
    assert_eq!(format!("{kept:?}"), "{1: 2, 4: 4, 255: 255}");
    assert_eq!(format!("{:?}", NewIds::new()), "{}");
    assert_eq!(by_hand, NewIds::new().with(255, 1).with(1, 255));
    assert_ne!(by_hand, by_hand.with(255, 2));
}

#[test]
fn each_map_lists_its_ids() {
    assert_eq!(Map::new().iter().next(), None);
    // index 0 is the kind of the number 1, and so on
    for (index, (kind, ..)) in KINDS.into_iter().enumerate() {
        let map = Map::new()
            .with(255, kind)
            .with(0, kind)
            .with(index as u8 + 1, kind);
        let ids = [index as u8 + 1, 255];
        assert!(map.iter().eq(ids.map(|id| (id, kind))), "{kind:?}");
        assert_eq!(map.id_of(kind), Some(ids[0]));
        assert_eq!(map.id_of(KINDS[(index + 1) % KINDS.len()].0), None);
    }
}

#[test]
fn a_uri_is_compared_whole() {
    // RFC 8285, 5: the URI names the extension, character for character.
    for uri in [
        " urn:ietf:params:rtp-hdrext:sdes:mid",
        "urn:ietf:params:rtp-hdrext:sdes:mid ",
        "urn:ietf:params:rtp-hdrext:sdes:mid\n",
    ] {
        assert_eq!(Kind::from_uri(uri), None);
    }
}
