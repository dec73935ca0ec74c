//! The header that is made of a packet for a group of receivers, worked out by hand from RFC 3550, 5.1, and RFC 8285, 4.2
//! and 4.3. Memory ends at a page that may not be touched.

mod groups;
mod guarded;

use std::error::Error;

use groups::{made, place, written, NO_FIELDS, NUMBERS, ONE, SAMPLE};
use guarded::at_end;
use rtp_wire::{Form, Group, HeaderTemplate, NewIds, NotPut, NotRouted, Place};

const TWO: Option<Form> = Some(Form::TwoByte);

fn each_its_own() -> NewIds {
    (1..=255).fold(NewIds::new(), |ids, id| ids.with(id, id))
}

/// The first byte of a packet and what follows its fixed part, what a group has in common, and the block that is made.
type Row<'a> = (u8, &'a str, &'a NewIds, &'a [Place], Option<Form>, &'a str);

#[test]
fn groups_worked_out_by_hand() {
    let own = each_its_own();
    let second_alone = NewIds::new().with(2, 3);
    let none = NewIds::new().with(9, 9);
    let fourth = NewIds::new().with(4, 6);
    // the elements 1, 2 and 1 again
    let three = "BEDE0002 1061 216263 1064 00";
    let camera = "ABAC0001 01020304";
    let rows: [Row; 9] = [
        (
            0x90,
            three,
            &second_alone,
            &[place(5, 0, 2)],
            ONE,
            "BEDE0002 316263 510007 0000",
        ),
        (0x90, three, &none, &[], ONE, "BEDE0000"),
        // an id above 14, and no data, make it the two-byte form
        (
            0x90,
            three,
            &own,
            &[place(20, 4, 0)],
            None,
            "10000003 010161 02026263 010164 1400",
        ),
        (
            0x90,
            three,
            &own,
            &[place(1, 0, 1)],
            TWO,
            "10000002 02026263 010100 00",
        ),
        (
            0x80,
            "",
            &own,
            &[place(4, 0, 2)],
            None,
            "BEDE0001 410007 00",
        ),
        (0x80, "", &own, &[], None, ""),
        (0x90, camera, &none, &[], ONE, camera),
        // the application's bits stay
        (
            0x90,
            "10070001 04010900",
            &fourth,
            &[place(4, 0, 2)],
            None,
            "10070002 060109 04020007 00",
        ),
        // in the order that they are given
        (
            0x80,
            "",
            &own,
            &[place(9, 2, 2), place(3, 1, 1)],
            None,
            "BEDE0002 910008 3007 000000",
        ),
    ];
    for (first, rest, ids, elements, allowed, wanted) in rows {
        let group = Group {
            ids,
            data: &NUMBERS,
            elements,
            allowed,
        };
        let first_wanted = if wanted.is_empty() { 0x80 } else { 0x90 };
        let template = made(&written(first, rest), &group, 800).unwrap();
        let wanted = written(first_wanted, wanted);
        assert_eq!(template.header(), wanted, "{rest}");
        let lens = elements.iter().map(|it| it.data().len());
        assert_eq!(template.data_len(), lens.sum::<usize>(), "{rest}");
    }
}

#[test]
fn data_are_those_of_the_elements_one_after_another() {
    let ids = NewIds::new();
    // the data of the second and the third overlap where the header is made
    let elements = [place(9, 1, 2), place(3, 0, 3), place(7, 2, 1)];
    let group = Group {
        ids: &ids,
        data: &NUMBERS,
        elements: &elements,
        allowed: None,
    };
    let template = made(&written(0x80, ""), &group, 900).unwrap();
    assert_eq!(
        template.header(),
        written(0x90, "BEDE0003 910700 32000700 7000 000000")
    );
    assert_eq!(template.data_len(), 6);
    let mut buf = [0; 28];
    let written_len = template.write_header(&NO_FIELDS, &[1, 2, 3, 4, 5, 6], &mut buf);
    assert_eq!(written_len, Ok(28));
    assert_eq!(
        buf.to_vec(),
        written(0x90, "BEDE0003 910102 32030405 7006 000000")
    );
    // in the two-byte form, as many as an element can have
    let data: Vec<u8> = (0..=255).collect();
    let elements = [place(255, 1, 255), place(1, 0, 0)];
    let group = Group {
        ids: &ids,
        data: &data,
        elements: &elements,
        allowed: None,
    };
    let template = made(&written(0x80, ""), &group, 900).unwrap();
    assert_eq!(
        (template.data_len(), template.header_len()),
        (255, 12 + 4 + 260)
    );
    let mut buf = [0; 276];
    assert_eq!(
        template.write_header(&NO_FIELDS, &data[..255], &mut buf),
        Ok(276)
    );
    assert_eq!(buf[16..18], [255, 255]);
    assert_eq!((&buf[18..273], &buf[273..]), (&data[..255], &[1, 0, 0][..]));
}

/// Why no header is made of the packet with these, whose data are zeros, in so many bytes.
fn cause(packet: &[u8], ids: &NewIds, elements: &[Place], room: usize) -> Option<NotRouted> {
    let group = Group {
        ids,
        data: &[0; 300],
        elements,
        allowed: None,
    };
    made(packet, &group, room).err()
}

/// The elements 20, 21 and so on, of a byte each.
fn in_a_row(count: u8) -> Vec<Place> {
    (0..count).map(|n| place(20 + n, n.into(), 1)).collect()
}

const SHORT: Option<NotRouted> = Some(NotRouted::NotPut(NotPut::ShortBuffer));
const BAD: Option<NotRouted> = Some(NotRouted::NotPut(NotPut::BadField));

#[test]
fn elements_have_ids_of_their_own_and_are_few() {
    let (ids, long_id) = (NewIds::new().with(1, 3), NewIds::new().with(1, 15));
    let all = in_a_row(17);
    assert_eq!(HeaderTemplate::MAX_ELEMENTS, 16);
    assert_eq!(cause(&SAMPLE, &ids, &all[..16], 5000), None);
    assert_eq!(
        cause(&SAMPLE, &ids, &all, 5000),
        Some(NotRouted::ManyElements)
    );
    for last in [20, 21, 22] {
        let elements = [all[0], all[1], all[2], all[3].with_id(last)];
        let repeated = cause(&SAMPLE, &ids, &elements, 5000);
        assert_eq!(repeated, Some(NotRouted::RepeatedId), "{last}");
    }
    let mut sixteen = [all[0]; 16];
    sixteen[..15].copy_from_slice(&all[..15]);
    let repeated = cause(&SAMPLE, &ids, &sixteen, 5000);
    assert_eq!(repeated, Some(NotRouted::RepeatedId));
    let of_zero = cause(&SAMPLE, &ids, &[place(0, 0, 1)], 5000);
    assert_eq!(of_zero, Some(NotRouted::NotPut(NotPut::BadId)));
    // what else may be put, where the packet's own element can't have its id
    for elements in [&[][..], &all[..16], &[place(30, 45, 255)]] {
        let group = Group {
            ids: &long_id,
            data: &[0; 300],
            elements,
            allowed: ONE,
        };
        let refused = made(&SAMPLE, &group, 5000).err();
        assert_eq!(refused, Some(NotRouted::LongId), "{elements:?}");
    }
}

#[test]
fn data_begin_and_end_in_those_that_are_there() {
    let ids = NewIds::new().with(1, 3);
    for (at, len, due) in [
        (299, 1, None),
        (300, 0, None),
        (45, 255, None),
        (300, 1, BAD),
        (301, 0, BAD),
        (usize::MAX, 0, BAD),
        (0, usize::MAX, BAD),
        (0, 256, BAD),
        (46, 255, BAD),
        (1 << 32, 1, BAD),
        (0, 1 << 32, BAD),
    ] {
        let elements = [place(20, 0, 1), place(30, at, len)];
        let told = cause(&SAMPLE, &ids, &elements, 5000);
        assert_eq!(told, due, "{at} {len}");
    }
}

#[test]
fn forms_that_are_not_allowed_and_others() {
    let ids = NewIds::new().with(1, 3);
    let elements = in_a_row(1);
    let mut group = Group {
        ids: &ids,
        data: &[0],
        elements: &elements,
        allowed: ONE,
    };
    assert_eq!(made(&SAMPLE, &group, 5000).err(), Some(NotRouted::LongId));
    let of_none = [place(14, 0, 0)];
    group.elements = &of_none;
    let not_allowed = Some(NotRouted::NotPut(NotPut::FormNotAllowed));
    assert_eq!(made(&SAMPLE, &group, 5000).err(), not_allowed);
    (group.elements, group.allowed) = (&elements, TWO);
    let two = made(&SAMPLE, &group, 5000).unwrap();
    assert_eq!(two.header(), written(0x90, "10000002 0301AA 140100 0000"));
    let camera = written(0x90, "ABAC0000");
    assert_eq!(cause(&camera, &ids, &[], 16), None);
    let other = Some(NotRouted::NotPut(NotPut::OtherForm));
    assert_eq!(cause(&camera, &ids, &elements, 5000), other);
}

#[test]
fn a_block_of_65535_words() {
    let own = each_its_own();
    let mut full = written(0x90, &format!("1000FFFF {}", "00".repeat(4 * 65_535)));
    for at in (16..full.len()).step_by(257) {
        full[at..at + 2].copy_from_slice(&[2, 255]);
    }
    let long = cause(&full, &own, &[place(9, 0, 255)], 600_000);
    assert_eq!(long, Some(NotRouted::NotPut(NotPut::LongBlock)));
    let group = Group {
        ids: &own,
        data: &[],
        elements: &[],
        allowed: None,
    };
    let template = made(&full, &group, full.len()).unwrap();
    assert!(template.header() == full);
    let buf = at_end(&vec![0; full.len()]);
    assert_eq!(template.write_header(&NO_FIELDS, &[], buf), Ok(262_156));
    assert!(buf == full);
}

#[test]
fn a_header_has_room_or_not() {
    let ids = NewIds::new().with(1, 3);
    // in its twenty bytes; with the element in 24
    for (elements, room) in [(&[][..], 20), (&[place(4, 0, 3)][..], 24)] {
        assert_eq!(cause(&SAMPLE, &ids, elements, room), None);
        assert_eq!(cause(&SAMPLE, &ids, elements, room - 1), SHORT);
    }
    assert_eq!(cause(&SAMPLE, &ids, &[], 0), SHORT);
}

#[test]
fn a_new_id_above_14_asks_for_the_two_byte_form() {
    let ids = NewIds::new().with(1, 200);
    let mut group = Group {
        ids: &ids,
        data: &[],
        elements: &[],
        allowed: None,
    };
    for allowed in [None, TWO] {
        group.allowed = allowed;
        let template = made(&SAMPLE, &group, 60).unwrap();
        assert_eq!(template.header(), written(0x90, "10000001 C801AA00"));
    }
    group.allowed = ONE;
    assert_eq!(made(&SAMPLE, &group, 60).err(), Some(NotRouted::LongId));
    // two elements take eight bytes in that form, though one of them goes
    let two = written(0x90, "BEDE0001 10AA20BB");
    group.allowed = None;
    assert_eq!(made(&two, &group, 23).err(), SHORT);
    let template = made(&two, &group, 24).unwrap();
    assert_eq!(template.header(), written(0x90, "10000001 C801AA00"));
}

#[test]
fn causes_are_told() {
    for (cause, text) in [
        (NotRouted::ManyElements, "more than 16 elements"),
        (NotRouted::RepeatedId, "two elements of one id"),
        (
            NotRouted::LongId,
            "an id above 14, which the one-byte form can't carry",
        ),
        (
            NotRouted::NotPut(NotPut::BadId),
            "an element can't be put, or there is no room",
        ),
    ] {
        assert_eq!(cause.to_string(), text);
        let source = cause.source().map(ToString::to_string);
        let is_put = matches!(cause, NotRouted::NotPut(_));
        assert_eq!(
            source.as_deref(),
            is_put.then_some("the id 0, which no element has")
        );
    }
}
