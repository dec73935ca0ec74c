//! Why a call didn't do what it is for: the causes and their texts. Those of bytes that are no packet, of a
//! field and of a buffer are those of the header file for C.

use std::error::Error;

use rtp_wire::{
    compact, put_element, write_elements, BadId, BadRolloverCount, Form, Header, Map, NotAHeader,
    NotAPacket, NotAText, NotChanged, NotPut, NotWritten, Packet, PacketMut, Place, TooManyLayers,
};

/// V=2, X, CC=1; the source 9; a block of one word: 1 (AA).
const SAMPLE: [u8; 24] = [
    0x91, 0, 0, 1, 0, 0, 0, 2, 0, 0, 0, 3, 0, 0, 0, 9, 0xBE, 0xDE, 0, 1, 0x10, 0xAA, 0, 0,
];

/// The cause, its number and its name in the header file, and its text.
const CAUSES: [(NotAPacket, i32, &str, &str); 5] = [
    (
        NotAPacket::CutFixedPart,
        1,
        "CUT_FIXED_PART",
        "fewer than twelve bytes",
    ),
    (
        NotAPacket::OtherVersion,
        2,
        "OTHER_VERSION",
        "another version than 2",
    ),
    (
        NotAPacket::CutSources,
        3,
        "CUT_SOURCES",
        "the CSRC list is cut short",
    ),
    (
        NotAPacket::CutBlockHeader,
        4,
        "CUT_BLOCK_HEADER",
        "the header of the extension block is cut short",
    ),
    (
        NotAPacket::CutBlock,
        6,
        "CUT_BLOCK",
        "the extension block is cut short",
    ),
];

/// The sample with one byte changed, up to this length.
fn with(at: usize, byte: u8, len: usize) -> Vec<u8> {
    let mut bytes = SAMPLE.to_vec();
    bytes[at] = byte;
    bytes.truncate(len);
    bytes
}

#[test]
fn each_cause_is_found_by_each_call() {
    let rows = [
        (NotAPacket::CutFixedPart, with(0, 0x11, 11)), // also another version
        (NotAPacket::OtherVersion, with(0, 0x51, 12)), // also without its source
        (NotAPacket::CutSources, with(0, 0x92, 19)),
        (NotAPacket::CutBlockHeader, with(16, 0xBF, 19)), // also of an unknown form
        (NotAPacket::CutBlock, with(19, 2, 24)),
    ];
    for ((cause, bytes), known) in rows.into_iter().zip(CAUSES) {
        assert_eq!(cause, known.0);
        assert_eq!(Packet::parse(&bytes), Err(cause));
        assert_eq!(Packet::try_from(&bytes[..]), Err(cause));
        assert_eq!(
            Header::parse(&bytes, &Map::new()),
            Err(NotAHeader::NotAPacket(cause))
        );
        assert_eq!(
            Header::parse_with_layers(&bytes, &Map::new()),
            Err(cause.into())
        );
        let mut same = bytes.clone();
        assert_eq!(PacketMut::parse(&mut same).unwrap_err(), cause);
        assert_eq!(same, bytes);
    }
    let packet = Packet::try_from(&SAMPLE[..]).unwrap();
    assert_eq!(
        (packet, packet.datagram()),
        (Packet::parse(&SAMPLE).unwrap(), &SAMPLE[..])
    );
}

#[test]
fn forms_are_seventeen() {
    for form in 0..=u16::MAX {
        let mut bytes = SAMPLE;
        bytes[16..18].copy_from_slice(&form.to_be_bytes());
        let known = match form {
            0xBEDE => Some(Form::OneByte),
            0x1000..=0x100F => Some(Form::TwoByte),
            _ => None,
        };
        let packet = Packet::parse(&bytes).unwrap();
        assert_eq!(packet.form(), known, "{form:X}");
        assert_eq!(packet.block_profile(), Some(form));
        assert_eq!(packet.body(), Some(&bytes[20..]));
        assert_eq!(packet.block().is_some(), known.is_some());
        let read = Header::parse(&bytes, &Map::new()).map(|header| header.header_len());
        let due = known.map_or(Err(NotAHeader::UnknownForm), |_| Ok(24));
        assert_eq!(read, due, "{form:X}");
    }
}

#[test]
fn an_unknown_form_comes_before_a_block_that_is_cut_short() {
    let bytes = with(17, 0xDF, 23);
    let unknown = NotAHeader::UnknownForm;
    assert_eq!(Header::parse(&bytes, &Map::new()), Err(unknown));
    assert_eq!(Header::parse_with_layers(&bytes, &Map::new()), Err(unknown));
    assert_eq!(Packet::parse(&bytes), Err(NotAPacket::CutBlock));
    let bytes = with(17, 0xDF, 19);
    let cut = NotAPacket::CutBlockHeader;
    assert_eq!(Header::parse(&bytes, &Map::new()), Err(cut.into()));
    assert_eq!(Packet::parse(&bytes), Err(cut));
}

#[test]
fn texts_are_those_of_the_header_file() {
    let header_file = include_str!("rtp_wire.h");
    let has = |name: &str, number: i32, text: &str| {
        assert!(
            header_file.contains(&format!("    RTPW_{name} = {number}")),
            "{name}"
        );
        assert!(
            header_file.contains(&format!("case RTPW_{name}: return \"{text}\";")),
            "{name}"
        );
    };
    let told = |cause: &dyn Error| cause.to_string();
    for (cause, number, name, text) in CAUSES {
        has(name, number, text);
        assert_eq!(told(&cause), text);
        let not_a_header = NotAHeader::from(cause);
        assert_eq!(told(&not_a_header), "no RTP packet");
        assert_eq!(not_a_header.source().map(told), Some(text.to_string()));
    }
    let text = "a header extension of an unknown form";
    has("UNKNOWN_FORM", 5, text);
    for cause in [&NotAHeader::UnknownForm as &dyn Error, &NotPut::OtherForm] {
        assert_eq!(told(cause), text);
        assert!(cause.source().is_none());
    }
    for (cause, number, name) in [
        (NotPut::BadId, 13, "BAD_ID"),
        (NotPut::FormNotAllowed, 14, "FORM_NOT_ALLOWED"),
        (NotPut::LongBlock, 15, "LONG_BLOCK"),
        (NotPut::LongId, 16, "LONG_ID"),
    ] {
        has(name, number, &told(&cause));
        assert!(cause.source().is_none());
    }
    has("SHORT_BUFFER", 8, "a buffer is too short");
    has("BAD_FIELD", 9, "an argument is out of its range");
    assert_eq!(told(&NotWritten::ShortBuffer), "a buffer is too short");
    assert_eq!(
        told(&NotWritten::BadField),
        "an argument is out of its range"
    );
    assert_eq!(told(&BadId), "the id 0 is padding");
    let text = "another character than a letter, a digit or an underscore, or too many";
    assert_eq!(told(&NotAText), text);
    assert_eq!(told(&BadRolloverCount), "a rollover count of 2^48 or more");
    let text = "more than four streams, layers or temporal layers";
    assert_eq!(told(&TooManyLayers), text);
    for (cause, text) in [
        (NotChanged::BadPayloadType, "the payload type is above 127"),
        (
            NotChanged::TooManySources,
            "more than 15 contributing sources",
        ),
        (NotChanged::NoSource, "no such place in the CSRC list"),
        (
            NotChanged::NoElement,
            "no element of the id and of this length",
        ),
        (
            NotChanged::BadNewId,
            "the block's form can't carry a new id",
        ),
        (
            NotChanged::BadPadding,
            "the padding is longer than the payload",
        ),
    ] {
        assert_eq!(told(&cause), text);
    }

    let version = env!("CARGO_PKG_VERSION");
    assert!(header_file.contains(&format!("\n#define RTPW_VERSION \"{version}\"\n")));
    let parts: Vec<u32> = version
        .trim_end_matches("-dev")
        .split('.')
        .map(|part| part.parse().unwrap())
        .collect();
    assert_eq!(
        rtp_wire::version(),
        65_536 * parts[0] + 256 * parts[1] + parts[2]
    );
    assert_eq!(rtp_wire::version(), 65_792);
}

#[test]
fn causes_become_causes() {
    fn both(bytes: &[u8]) -> Result<u16, NotAHeader> {
        let header = Header::parse(bytes, &Map::new())?;
        Ok(Packet::parse(bytes)?.sequence_number() + header.sequence_number)
    }
    for (cause, ..) in CAUSES {
        assert_eq!(NotAHeader::from(cause), NotAHeader::NotAPacket(cause));
    }
    assert_eq!(both(&SAMPLE), Ok(2));
    assert_eq!(
        both(&SAMPLE[..23]),
        Err(NotAHeader::NotAPacket(NotAPacket::CutBlock))
    );
}

#[test]
fn what_is_not_written_has_its_cause() {
    let place = |id, len| Place::new(id, 0..len);
    let data = [7; 300];
    let bad = [
        place(0, 1),
        place(1, 0),
        place(1, 17),
        place(15, 1),
        place(255, 1),
    ];
    let mut buf = [0xEE; 100];
    for (it, fits) in bad.into_iter().zip([false, true, true, true, true]) {
        let (form, refused) = (Form::OneByte, Err(NotWritten::BadField));
        assert_eq!(write_elements(&mut buf, form, &data, &[it]), refused);
        let len = it.data().len();
        let written = if fits { Ok(2 + len) } else { refused };
        assert_eq!(
            write_elements(&mut buf, Form::TwoByte, &data, &[it]),
            written,
            "{it:?}"
        );
        let written = if fits {
            Ok(16 + (2 + len).div_ceil(4) * 4)
        } else {
            refused
        };
        let header = Header::default();
        for allowed in [None, Some(Form::TwoByte)] {
            assert_eq!(
                header.write_with(&mut buf, &data, &[it], allowed),
                written,
                "{it:?}"
            );
        }
        assert_eq!(
            header.write_with(&mut buf, &data, &[it], Some(Form::OneByte)),
            refused,
            "{it:?}"
        );
    }
    let rows = [
        (255, NotWritten::ShortBuffer),
        (256, NotWritten::BadField),
        (300, NotWritten::BadField),
    ];
    for (len, cause) in rows {
        let places = [place(1, len)];
        assert_eq!(
            write_elements(&mut buf, Form::TwoByte, &data, &places),
            Err(cause)
        );
        assert_eq!(
            Header::default().write_with(&mut buf, &data, &places, None),
            Err(cause)
        );
    }
    let mut header = Header::default();
    header.payload_type = 128;
    for room in [0, 100] {
        assert_eq!(
            header.write_to(&mut buf[..room], &Map::new()),
            Err(NotWritten::BadField)
        );
        assert_eq!(
            header.write_with(&mut buf[..room], &[], &[], None),
            Err(NotWritten::BadField)
        );
    }
    assert_eq!(header.wire_len(&Map::new()), Err(NotWritten::BadField));
}

#[test]
fn without_a_block_the_rest_is_looked_at() {
    for (cause, bytes) in [
        (NotAPacket::CutFixedPart, &[0x80; 11][..]),
        (NotAPacket::OtherVersion, &[0x40; 12]),
        (NotAPacket::CutSources, &[0x81; 15]),
    ] {
        let mut same = bytes.to_vec();
        assert_eq!(compact(&mut same), Err(cause));
        let put = put_element(&mut same, bytes.len(), 1, &[], None);
        assert_eq!(put, Err(NotPut::NotAPacket(cause)));
        assert_eq!(same, bytes);
    }
}

#[test]
fn an_element_has_at_most_255_bytes() {
    let mut buf = [0xEE; 600];
    buf[..24].copy_from_slice(&SAMPLE);
    let before = buf;
    for len in [256, 257, 300, 511, 512] {
        for allowed in [None, Some(Form::TwoByte)] {
            let put = put_element(&mut buf, 24, 1, &[7; 512][..len], allowed);
            assert_eq!(put, Err(NotPut::BadField), "{len}");
        }
    }
    assert_eq!(buf, before);
    // 2 and 255 bytes, and 3 of padding
    let put = put_element(&mut buf, 24, 1, &[7; 255], None);
    assert_eq!(put, Ok(20 + 260));
}
