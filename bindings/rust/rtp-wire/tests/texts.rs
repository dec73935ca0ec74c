//! Texts: which there are (RFC 9143, RFC 8852), how they compare, and how they are shown.

use std::collections::{BTreeSet, HashMap, HashSet};

use rtp_wire::standard::{is_stream_id, parse_token};
use rtp_wire::{Mid, NotAText, Rid};

#[test]
fn texts_are_letters_digits_and_underscores() {
    for byte in 0..=127_u8 {
        let is_plain = matches!(byte, b'0'..=b'9' | b'A'..=b'Z' | b'a'..=b'z' | b'_');
        for text in [
            vec![byte],
            vec![b'a', byte],
            vec![byte, b'a'],
            vec![b'a', byte, b'a'],
        ] {
            let text = String::from_utf8(text).unwrap();
            assert_eq!(text.parse::<Mid>().is_ok(), is_plain, "{text:?}");
            assert_eq!(Rid::try_from(&text[..]).is_ok(), is_plain, "{text:?}");
        }
    }
    for text in ["ä", "aä", "\u{661}", "\u{FF21}", "é"] {
        assert_eq!(text.parse::<Mid>(), Err(NotAText));
        assert_eq!(Rid::try_from(text), Err(NotAText));
    }
}

#[test]
fn texts_have_at_most_so_many_characters() {
    let letters = "abcdefgh_1234567890";
    for len in 0..letters.len() {
        let text = &letters[..len];
        let mid = text.parse::<Mid>();
        assert_eq!(
            mid.as_ref().map(rtp_wire::Text::as_str),
            if len <= 16 { Ok(text) } else { Err(&NotAText) }
        );
        assert_eq!(Mid::try_from(text), mid);
        let rid = text.parse::<Rid>();
        assert_eq!(
            rid.as_ref().map(rtp_wire::Text::as_str),
            if len <= 8 { Ok(text) } else { Err(&NotAText) }
        );
        assert_eq!(Rid::try_from(text), rid);
    }
}

#[test]
fn texts_are_equal_by_their_characters() {
    let [ab, same, other, longer, none] =
        ["ab", "ab", "cd", "abc", ""].map(|text| Mid::try_from(text).unwrap());
    assert!(ab == same && ab != other && ab != longer && ab != none);
    for text in ["cd", "a", "abc", "AB", "", "ab\0"] {
        assert!(ab != *text && ab != text, "{text:?}");
        assert!(*text != ab && text != ab, "{text:?}");
    }
    assert!(ab == *"ab" && ab == "ab" && none == *"" && none.is_empty());
    for text in ["ab", "cd"] {
        assert_eq!((*text == ab, text == ab), (text == "ab", text == "ab"));
    }
    assert_eq!(HashSet::from([ab, same, other, longer, none]).len(), 4);
}

#[test]
fn texts_are_looked_up_and_ordered_as_str() {
    let words = ["b", "a_", "", "ab", "aB", "a", "a1", "abcdefgh"];
    let lens: HashMap<Rid, usize> = words
        .iter()
        .map(|word| (word.parse().unwrap(), word.len()))
        .collect();
    for word in words {
        assert_eq!(lens.get(word), Some(&word.len()), "{word:?}");
    }
    assert_eq!(lens.get("abc"), None);
    let ordered: BTreeSet<Rid> = lens.keys().copied().collect();
    assert!(ordered
        .iter()
        .eq(["", "a", "a1", "aB", "a_", "ab", "abcdefgh", "b"].iter()));
    assert!(ordered.contains("aB") && !ordered.contains("c"));
}

#[test]
fn texts_are_shown() {
    let rid: Rid = "hi_2".parse().unwrap();
    assert_eq!(
        (rid.as_str(), rid.as_ref(), &*rid, rid.len()),
        ("hi_2", "hi_2", "hi_2", 4)
    );
    assert_eq!(
        (rid.to_string(), format!("{rid:?}")),
        ("hi_2".into(), "\"hi_2\"".into())
    );
    assert_eq!(
        format!("{rid:>6}|{rid:*^6}|{rid:.2}|{rid:5}"),
        "  hi_2|*hi_2*|hi|hi_2 "
    );
    let mid: Mid = "abcdefgh_1234567".parse().unwrap();
    assert_eq!(
        (mid.to_string(), format!("{mid:?}")),
        ("abcdefgh_1234567".into(), "\"abcdefgh_1234567\"".into())
    );
    let none: Rid = "".parse().unwrap();
    assert_eq!(format!("{none}{none:?}"), "\"\"");
}

/// RFC 8852, 3: letters and digits alone, where a token of RFC 8866, 9, may have others too.
#[test]
fn stream_ids_have_letters_and_digits_alone() {
    for byte in 0..=127_u8 {
        for text in [vec![byte], vec![b'h', byte], vec![byte, b'1']] {
            let text = String::from_utf8(text).unwrap();
            let is_plain = matches!(byte, b'0'..=b'9' | b'A'..=b'Z' | b'a'..=b'z');
            assert_eq!(is_stream_id(&text), is_plain, "{text:?}");
        }
    }
    for (len, is_one) in [(0, false), (1, true), (9, true), (255, true), (256, false)] {
        assert_eq!(is_stream_id(&"a".repeat(len)), is_one, "{len}");
    }
    for text in ["\u{e4}", "a\u{e4}", "\u{661}", "\u{FF21}"] {
        assert!(!is_stream_id(text));
    }
    // what SDP allows in `a=rid`, and no stream may send
    for text in ["hi-2", "hi_2"] {
        assert_eq!(parse_token(text.as_bytes()), Ok(text));
        assert!(!is_stream_id(text));
    }
}
