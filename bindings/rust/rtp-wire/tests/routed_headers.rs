//! A packet's header for each of its receivers, worked out by hand from RFC 3550, 5.1, RFC 4588, 4, and RFC 8285, 4.2.
//! Memory ends at a page that may not be touched.

mod groups;
mod guarded;

use std::iter::FusedIterator;

use groups::{made, place, written, NO_FIELDS, NUMBERS, ONE, SAMPLE};
use guarded::at_end;
use rtp_wire::{Fields, Group, HeaderTemplate, NewIds, NotWritten, PacketMut, RoutedSlot};

/// The sample's template for two bytes of the id 4, where 1 becomes 3.
fn template() -> HeaderTemplate<'static> {
    let ids = NewIds::new().with(1, 3);
    let elements = [place(4, 0, 2)];
    let group = Group {
        ids: &ids,
        data: &NUMBERS,
        elements: &elements,
        allowed: None,
    };
    made(&SAMPLE, &group, 304).unwrap()
}

#[test]
fn two_receivers() {
    let template = template();
    let header = written(0x90, "BEDE0002 30AA4100 07000000");
    assert_eq!(template.header(), header);
    assert_eq!((template.header_len(), template.data_len()), (24, 2));
    let first = Fields {
        sequence_number: Some(9),
        ssrc: Some(45),
        ..NO_FIELDS
    };
    let second = Fields {
        timestamp: Some(0x0102_0304),
        payload_type: Some(97),
        marker: Some(true),
        ..NO_FIELDS
    };
    let mut slots = [RoutedSlot::new(&first, 0), RoutedSlot::new(&second, 2)];
    let mut buf = [0xEE; 50];
    let mut wanted = [0xEE; 50];
    wanted[..24].copy_from_slice(&header);
    (wanted[3], wanted[11]) = (9, 45);
    wanted[24..48].copy_from_slice(&header);
    wanted[25..32].copy_from_slice(&[0xE1, 0, 5, 1, 2, 3, 4]);
    wanted[44] = 8;
    let headers = template.write_headers(&NUMBERS, &mut slots, &mut buf);
    assert!(headers.eq([Ok(&wanted[..24]), Ok(&wanted[24..48])]));
    assert_eq!(buf, wanted);
    assert_eq!(slots.map(|it| it.range()), [Ok(0..24), Ok(24..48)]);
    // alone
    let mut buf = [0xEE; 25];
    assert_eq!(
        template.write_header(&first, &NUMBERS[..2], &mut buf),
        Ok(24)
    );
    assert_eq!((&buf[..24], buf[24]), (&wanted[..24], 0xEE));
    assert_eq!(
        template.write_header(&second, &NUMBERS[2..], &mut buf),
        Ok(24)
    );
    assert_eq!(buf[..24], wanted[24..48]);
}

#[test]
fn each_field_is_one_of_its_own() {
    let template = template();
    let header = template.header();
    let all = Fields {
        marker: Some(true),
        payload_type: Some(1),
        sequence_number: Some(0x0203),
        timestamp: Some(0x0405_0607),
        ssrc: Some(0x0809_0A0B),
    };
    let rows: [(Fields, std::ops::Range<usize>, &[u8]); 8] = [
        (NO_FIELDS, 0..0, &[]),
        (
            Fields {
                marker: all.marker,
                ..NO_FIELDS
            },
            1..2,
            &[0xE0],
        ),
        (
            Fields {
                marker: Some(false),
                ..NO_FIELDS
            },
            0..0,
            &[],
        ),
        (
            Fields {
                payload_type: all.payload_type,
                ..NO_FIELDS
            },
            1..2,
            &[1],
        ),
        (
            Fields {
                payload_type: Some(0),
                ..NO_FIELDS
            },
            1..2,
            &[0],
        ),
        (
            Fields {
                sequence_number: all.sequence_number,
                ..NO_FIELDS
            },
            2..4,
            &[2, 3],
        ),
        (
            Fields {
                timestamp: all.timestamp,
                ..NO_FIELDS
            },
            4..8,
            &[4, 5, 6, 7],
        ),
        (
            Fields {
                ssrc: all.ssrc,
                ..NO_FIELDS
            },
            8..12,
            &[8, 9, 10, 11],
        ),
    ];
    for (fields, at, bytes) in
        rows.into_iter()
            .chain([(all, 1..12, &[0x81, 2, 3, 4, 5, 6, 7, 8, 9, 10, 11][..])])
    {
        let mut wanted = header.to_vec();
        wanted[at].copy_from_slice(bytes);
        let buf = at_end(&[0; 24]);
        assert_eq!(template.write_header(&fields, &NUMBERS[..2], buf), Ok(24));
        assert_eq!(buf, wanted, "{fields:?}");
    }
}

/// The fields of a retransmission's stream.
const AGAIN: Fields = Fields {
    payload_type: Some(97),
    sequence_number: Some(9),
    ssrc: Some(45),
    ..NO_FIELDS
};

#[test]
fn a_retransmission_between_others() {
    let ids = NewIds::new().with(1, 3);
    let elements = [place(4, 0, 2)];
    let group = Group {
        ids: &ids,
        data: &NUMBERS,
        elements: &elements,
        allowed: None,
    };
    // with P set, which is cleared in a retransmission alone
    for (first, plain, again) in [(0x90, 0x90, 0x90), (0xB0, 0xB0, 0x90)] {
        let template = made(&written(first, "BEDE0001 10AA0000"), &group, 304).unwrap();
        let wanted_plain = written(plain, "BEDE0002 30AA4100 08000000");
        for number in [0_u16, 1, 0x00FF, 0x0102, 0xFF00, 65_535] {
            let mut wanted_again = written(again, "BEDE0002 30AA4100 07000000");
            wanted_again[1] = 97;
            (wanted_again[3], wanted_again[11]) = (9, 45);
            wanted_again.extend(number.to_be_bytes());
            let mut unpadded = wanted_plain.clone();
            unpadded[0] = 0x90;
            let all = [&wanted_plain[..], &wanted_again, &unpadded, &wanted_again];
            let plain = RoutedSlot::new(&NO_FIELDS, 2);
            let again = RoutedSlot::retransmission(&AGAIN, number, 0);
            let mut slots = [
                plain,
                again,
                plain.without_padding(),
                again.without_padding(),
            ];
            let buf = at_end(&[0xEE; 100]);
            let headers = template.write_headers(&NUMBERS, &mut slots, buf);
            assert!(headers.eq(all.map(Ok)));
            assert_eq!(*buf, *all.concat());
            let ranges = [0..24, 24..50, 50..74, 74..100].map(Ok);
            assert_eq!(slots.map(|it| it.range()), ranges);
            // alone
            let buf = at_end(&[0xEE; 26]);
            let len = template.write_retransmission(&AGAIN, number, &NUMBERS[..2], buf);
            assert_eq!((len, &*buf), (Ok(26), &wanted_again[..]));
        }
    }
}

#[test]
fn a_retransmission_has_room_for_its_number_or_none() {
    let template = template();
    let again = RoutedSlot::retransmission(&AGAIN, 0x0105, 0);
    let plain = RoutedSlot::new(&AGAIN, 0);
    let short = Err(NotWritten::ShortBuffer);
    for (slots, room, due) in [
        ([again; 2], 52, [Ok(0..26), Ok(26..52)]),
        ([again; 2], 51, [Ok(0..26), short.clone()]),
        ([again; 2], 26, [Ok(0..26), short.clone()]),
        ([again; 2], 25, [short.clone(), short.clone()]),
        ([again; 2], 0, [short.clone(), short.clone()]),
        // what is refused takes no bytes: the next one has them
        ([again, plain], 50, [Ok(0..26), Ok(26..50)]),
        ([again, plain], 49, [Ok(0..26), short.clone()]),
        ([again, plain], 25, [short.clone(), Ok(0..24)]),
        ([again, plain], 24, [short.clone(), Ok(0..24)]),
        ([again, plain], 23, [short.clone(), short.clone()]),
    ] {
        let buf = at_end(&vec![0xEE; room]);
        let slots = at_end(&slots);
        let headers = template.write_headers(&NUMBERS, slots, buf);
        let lens = due.iter().map(|it| it.clone().map(|at| at.len()));
        assert!(headers.map(|it| it.map(<[u8]>::len)).eq(lens), "{room}");
        assert!(
            slots.iter().map(RoutedSlot::range).eq(due.clone()),
            "{room}"
        );
        let end = due.into_iter().flatten().map(|it| it.end).max();
        assert!(buf[end.unwrap_or(0)..].iter().all(|it| *it == 0xEE));
    }
    let bad_type = Fields {
        payload_type: Some(128),
        ..AGAIN
    };
    for (fields, data, room, due) in [
        (AGAIN, &NUMBERS[..2], 26, Ok(26)),
        (AGAIN, &NUMBERS[..2], 25, Err(NotWritten::ShortBuffer)),
        (AGAIN, &NUMBERS[..1], 26, Err(NotWritten::BadField)),
        (AGAIN, &NUMBERS[..3], 26, Err(NotWritten::BadField)),
        (bad_type, &NUMBERS[..2], 0, Err(NotWritten::BadField)),
    ] {
        let buf = at_end(&vec![0xEE; room]);
        let len = template.write_retransmission(&fields, 5, at_end(data), buf);
        assert_eq!(len, due);
        assert!(due.is_ok() || buf.iter().all(|it| *it == 0xEE));
    }
}

#[test]
fn a_slot_that_is_made_anew_is_no_retransmission() {
    let template = template();
    let mut again = [template.header(), &[0, 7]].concat();
    again[1] = 97;
    (again[3], again[11]) = (9, 45);
    let mut slots = [RoutedSlot::retransmission(&AGAIN, 7, 0); 2];
    assert_eq!(slots[0].range(), Err(NotWritten::BadField)); // not yet
    let buf = at_end(&[0; 52]);
    for _ in 0..2 {
        let headers = template.write_headers(&NUMBERS, &mut slots, buf);
        assert!(headers.eq([Ok(&again[..]); 2]));
    }
    slots[0] = RoutedSlot::new(&NO_FIELDS, 0);
    let headers = template.write_headers(&NUMBERS, &mut slots, buf);
    assert!(headers.eq([Ok(template.header()), Ok(&again[..])]));
    assert_eq!(buf[50..], again[24..]); // as they were
}

#[test]
fn padding_stays_or_is_cleared_for_each() {
    let ids = NewIds::new();
    let group = Group {
        ids: &ids,
        data: &[],
        elements: &[],
        allowed: None,
    };
    let slot = RoutedSlot::new(&NO_FIELDS, 0);
    // two packets in a row, of which the first has padding: the slots are used again
    let mut slots = [slot, slot.without_padding(), slot];
    for (first, due) in [(0xA0, [0xA0, 0x80, 0xA0]), (0x80, [0x80; 3])] {
        let template = made(&written(first, ""), &group, 24).unwrap();
        let buf = at_end(&[0; 36]);
        let headers = template.write_headers(&[], &mut slots, buf);
        assert!(headers.eq(due.map(|it| written(it, "")).iter().map(|it| Ok(&it[..]))));
    }
    // the call for one leaves it, and it is cleared there
    let template = made(&written(0xA0, ""), &group, 24).unwrap();
    let mut buf = [0; 12];
    assert_eq!(template.write_header(&NO_FIELDS, &[], &mut buf), Ok(12));
    assert_eq!(buf[0], 0xA0);
    PacketMut::parse(&mut buf).unwrap().set_padding(false);
    assert_eq!(buf[..], written(0x80, ""));
}

#[test]
fn headers_of_forty_elements() {
    // forty mids of one byte: a header of 96 bytes, and one of 98 before it
    let mids = |id: u8| (0..40).map(move |n| [id << 4, b'0' + n]);
    let block = |id| {
        [
            &[0xBE, 0xDE, 0, 20][..],
            &mids(id).flatten().collect::<Vec<_>>(),
        ]
        .concat()
    };
    let packet = [&SAMPLE[..12], &block(2)].concat();
    let ids = NewIds::new().with(2, 7);
    let group = Group {
        ids: &ids,
        data: &[],
        elements: &[],
        allowed: ONE,
    };
    let template = made(&packet, &group, 2 * 96).unwrap();
    let mut slots = [
        RoutedSlot::retransmission(&AGAIN, 0xABCD, 0),
        RoutedSlot::new(&NO_FIELDS, 0),
    ];
    let headers: Vec<_> = template
        .write_headers(&[], &mut slots, at_end(&[0; 196]))
        .map(Result::unwrap)
        .collect();
    let again = [
        &[0x90, 97, 0, 9, 0, 0, 0, 100, 0, 0, 0, 45],
        &block(7)[..],
        &[0xAB, 0xCD],
    ];
    assert_eq!(
        headers,
        [again.concat(), [&SAMPLE[..12], &block(7)].concat()]
    );
}

/// Twenty receivers of the template, each with a number and data of its own.
fn twenty() -> (Vec<RoutedSlot>, Vec<u8>) {
    let fields = |n| Fields {
        sequence_number: Some(1000 + n),
        ..NO_FIELDS
    };
    let slot = |n: u16| RoutedSlot::new(&fields(n), 2 * usize::from(n));
    ((0..20).map(slot).collect(), (100..140).collect())
}

#[test]
fn one_of_twenty_cannot_be_served() {
    let template = template();
    let (slots, data) = twenty();
    let most = usize::MAX;
    let bad_type = Fields {
        payload_type: Some(128),
        ..NO_FIELDS
    };
    let rows = [
        (RoutedSlot::new(&bad_type, 16), false),
        (RoutedSlot::new(&NO_FIELDS, 39), false),
        (RoutedSlot::new(&NO_FIELDS, 40), false),
        (RoutedSlot::new(&NO_FIELDS, most), false),
        (RoutedSlot::new(&NO_FIELDS, most - 1), false),
        (RoutedSlot::new(&NO_FIELDS, 1 << 32), false),
        (slots[8], true),
    ];
    for (ninth, is_served) in rows {
        let slots = at_end(&slots);
        slots[8] = ninth;
        let served: Vec<usize> = (0..20).filter(|n| *n != 8 || is_served).collect();
        let buf = at_end(&[0xEE; 480]);
        let mut wanted = [0xEE; 480];
        for (n, header) in served.iter().zip(wanted.chunks_mut(24)) {
            header.copy_from_slice(template.header());
            header[2..4].copy_from_slice(&(1000 + *n as u16).to_be_bytes());
            header[19..21].copy_from_slice(&data[2 * n..2 * n + 2]);
        }
        let mut due: Vec<_> = wanted.chunks(24).map(Ok).collect();
        let mut ranges: Vec<_> = (0..20).map(|n| Ok(24 * n..24 * n + 24)).collect();
        if !is_served {
            due.insert(8, Err(NotWritten::BadField));
            due.pop();
            ranges.insert(8, Err(NotWritten::BadField));
            ranges.pop();
        }
        let headers = template.write_headers(at_end(&data), slots, buf);
        assert_eq!(headers.len(), 20);
        assert!(headers.eq(due));
        assert!(slots.iter().map(RoutedSlot::range).eq(ranges));
        assert_eq!(buf, wanted);
    }
}

#[test]
fn a_receiver_alone_is_refused_as_one_of_many() {
    let template = template();
    let bad_type = Fields {
        payload_type: Some(200),
        ..NO_FIELDS
    };
    for (fields, data, room, wanted) in [
        (bad_type, &NUMBERS[..2], 24, Err(NotWritten::BadField)),
        (bad_type, &NUMBERS[..2], 0, Err(NotWritten::BadField)),
        (NO_FIELDS, &NUMBERS[..1], 24, Err(NotWritten::BadField)),
        (NO_FIELDS, &NUMBERS[..3], 24, Err(NotWritten::BadField)),
        (NO_FIELDS, &[], 24, Err(NotWritten::BadField)),
        (NO_FIELDS, &NUMBERS[..2], 23, Err(NotWritten::ShortBuffer)),
        (NO_FIELDS, &NUMBERS[..2], 0, Err(NotWritten::ShortBuffer)),
        (NO_FIELDS, &NUMBERS[..2], 24, Ok(24)),
    ] {
        let buf = at_end(&vec![0xEE; room]);
        assert_eq!(template.write_header(&fields, at_end(data), buf), wanted);
        assert!(wanted.is_ok() || buf.iter().all(|it| *it == 0xEE));
    }
}

#[test]
fn none_are_none() {
    let template = template();
    let mut headers = template.write_headers(&[], &mut [], &mut []);
    assert!(headers.len() == 0 && headers.next().is_none() && headers.next_back().is_none());
    // without elements no data are due
    let ids = NewIds::new();
    let group = Group {
        ids: &ids,
        data: &[],
        elements: &[],
        allowed: None,
    };
    let template = made(&written(0x80, ""), &group, 12).unwrap();
    assert_eq!((template.header_len(), template.data_len()), (12, 0));
    let buf = at_end(&[0; 12]);
    let mut slots = [
        RoutedSlot::new(&NO_FIELDS, 0),
        RoutedSlot::new(&NO_FIELDS, 1),
    ];
    let headers = template.write_headers(&[], &mut slots, buf);
    let wanted = written(0x80, "");
    assert!(headers.eq([Ok(&wanted[..]), Err(NotWritten::BadField)]));
}

#[test]
fn many_receivers_and_slots_that_are_used_again() {
    let template = template();
    let data: Vec<u8> = (0..2000_u16).map(|it| (it % 251) as u8).collect();
    let fields = |n: usize| Fields {
        ssrc: Some(n as u32),
        ..NO_FIELDS
    };
    let mut slots: Vec<_> = (0..1000)
        .map(|n| RoutedSlot::new(&fields(n), 2 * n))
        .collect();
    assert!(slots
        .iter()
        .all(|it| it.range() == Err(NotWritten::BadField))); // not yet
    let mut buf = vec![0; 24_000];
    for (room, data_len) in [(24_000, 2000), (24 * 7, 2000), (24_000, 6), (24_000, 2000)] {
        let headers = template.write_headers(&data[..data_len], &mut slots, &mut buf[..room]);
        for (n, header) in headers.enumerate() {
            let mut wanted = template.header().to_vec();
            wanted[10..12].copy_from_slice(&(n as u16).to_be_bytes());
            wanted[19..21].copy_from_slice(&data[2 * n..2 * n + 2]);
            let due = match (2 * n + 2 <= data_len, 24 * n + 24 <= room) {
                (false, _) => Err(NotWritten::BadField),
                (_, false) => Err(NotWritten::ShortBuffer),
                _ => Ok(&wanted[..]),
            };
            assert_eq!(header, due, "{n}");
        }
    }
}

#[test]
fn headers_are_gone_through_as_a_list() {
    fn is_a_list<T: Clone + ExactSizeIterator + DoubleEndedIterator + FusedIterator>(_: &T) {}
    fn crosses_threads<T: Send + Sync>(_: &T) {}
    let template = template();
    crosses_threads(&template);
    let (mut slots, data) = twenty();
    let mut buf = [0; 72];
    let mut headers = template.write_headers(&data, &mut slots[..4], &mut buf);
    is_a_list(&headers);
    crosses_threads(&headers);
    let again = headers.clone();
    assert_eq!(
        (headers.next_back(), headers.len()),
        (Some(Err(NotWritten::ShortBuffer)), 3)
    );
    let low = |it: Option<Result<&[u8], NotWritten>>| it.and_then(Result::ok).map(|it| it[3]);
    assert_eq!(
        (low(headers.next()), low(headers.next_back())),
        (Some(232), Some(234))
    );
    assert_eq!(
        (low(headers.next()), headers.size_hint()),
        (Some(233), (0, Some(0)))
    );
    assert!(headers.next().is_none() && headers.next_back().is_none());
    // what is lent lives as long as the buffer
    let lent: Vec<_> = again.filter_map(Result::ok).collect();
    assert!(lent.iter().map(|it| it[3]).eq([232, 233, 234]));
}

#[test]
fn templates_and_headers_are_shown() {
    let (template, (mut slots, data)) = (template(), twenty());
    let told = format!("{template:?}");
    assert!(
        told.starts_with("HeaderTemplate { header: [144, 96, 0, 5"),
        "{told}"
    );
    assert!(told.ends_with("data_len: 2, .. }"), "{told}");
    let mut buf = [0; 24];
    let told = format!(
        "{:?}",
        template.write_headers(&data, &mut slots[..2], &mut buf)
    );
    assert!(told.starts_with("[Ok([144, 96, 3, 232"), "{told}");
    assert!(told.ends_with("]), Err(ShortBuffer)]"), "{told}");
}
