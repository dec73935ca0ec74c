//! Blocks that are put, taken off and made of the other form, and a second element of an id. The expected packets are
//! worked out by hand from RFC 3550, 5.3.1, and RFC 8285, 4.2 and 4.3. Each buffer ends at a page that may not be
//! touched.

mod guarded;

use guarded::at_end;
use rtp_wire::{
    add_element, change_form, compact, put_block, put_element, remove_block, Form, NewIds,
    NotAPacket, NotChanged, NotPut, Packet, PacketMut,
};

const ONE: Option<Form> = Some(Form::OneByte);
const TWO: Option<Form> = Some(Form::TwoByte);

/// The packet that is written in hexadecimal as its first byte, and what follows its twelve.
fn written(text: &str) -> Vec<u8> {
    let digits: Vec<char> = text.chars().filter(|it| *it != ' ').collect();
    let bytes = digits.chunks(2).map(|it| {
        let pair: String = it.iter().collect();
        u8::from_str_radix(&pair, 16).unwrap()
    });
    let bytes: Vec<u8> = bytes.collect();
    let mut packet = vec![bytes[0], 0x60, 0, 5, 0, 0, 0, 100, 0, 0, 0, 44];
    packet.extend(&bytes[1..]);
    packet
}

/// The packet, and behind it as many bytes more.
fn with_room(packet: &[u8], room: usize) -> Vec<u8> {
    [packet, &vec![0xEE; room]].concat()
}

/// One packet becomes the other in each buffer that has room for both, and in none with less.
fn becomes(before: &str, call: impl Fn(&mut [u8], usize) -> Result<usize, NotPut>, after: &str) {
    let (packet, wanted) = (written(before), written(after));
    let grown = wanted.len().saturating_sub(packet.len());
    for room in [grown, grown + 1, grown + 40] {
        let left = with_room(&packet, room);
        let buf = at_end(&left);
        assert_eq!(call(buf, packet.len()), Ok(wanted.len()), "{before}");
        assert_eq!(buf[..wanted.len()], wanted, "{before}");
        assert_eq!(buf[wanted.len()..], left[wanted.len()..], "{before}");
    }
    if grown != 0 {
        let left = with_room(&packet, grown - 1);
        let buf = at_end(&left);
        let made = call(buf, packet.len());
        assert_eq!(made, Err(NotPut::ShortBuffer), "{before}");
        assert_eq!(buf, left);
    }
}

/// It is refused by exactly this cause, and stays as it was.
fn stays(before: &str, call: impl Fn(&mut [u8], usize) -> Result<usize, NotPut>, cause: NotPut) {
    let packet = written(before);
    let mut buf = with_room(&packet, 40);
    let left = buf.clone();
    assert_eq!(call(&mut buf, packet.len()), Err(cause), "{before}");
    assert_eq!(buf, left, "{before}");
}

fn adds(
    id: u8,
    data: &[u8],
    allowed: Option<Form>,
) -> impl Fn(&mut [u8], usize) -> Result<usize, NotPut> + '_ {
    move |buf, len| add_element(buf, len, id, at_end(data), allowed)
}

#[test]
fn elements_are_added_behind_all_others() {
    let plain = "90 BEDE0001 10AA0000 01";
    becomes(plain, adds(1, &[0xBB], None), "90 BEDE0001 10AA10BB 01");
    becomes(plain, adds(1, &[0xBB], ONE), "90 BEDE0001 10AA10BB 01");
    becomes(
        plain,
        adds(2, &[7, 8], None),
        "90 BEDE0002 10AA2107 08000000 01",
    );
    becomes(
        plain,
        adds(15, &[7], None),
        "90 10000002 0101AA0F 01070000 01",
    );
    becomes(
        plain,
        adds(1, &[], None),
        "90 10000002 0101AA01 00000000 01",
    );
    becomes(
        plain,
        adds(2, &[7], TWO),
        "90 10000002 0101AA02 01070000 01",
    );
    becomes("80 01", adds(1, &[7], None), "90 BEDE0001 10070000 01");
    becomes("80", adds(1, &[7], TWO), "90 10000001 01010700");
    let bits = "90 100F0002 01010701 01080000 01"; // those of the application stay
    becomes("90 100F0001 01010700 01", adds(1, &[8], None), bits);
    // an element of the id 0 goes, and what stands where reading ends: behind the id 15, and cut short
    let only = "90 BEDE0001 10070000 01";
    becomes("90 BEDE0001 01AABB00 01", adds(1, &[7], None), only);
    becomes("90 BEDE0001 F0556677 01", adds(1, &[7], None), only);
    let both = "90 BEDE0001 10AA1007 01";
    becomes("90 BEDE0001 10AA2355 01", adds(1, &[7], None), both);
    // what has 16 bytes is in one form, and what has 17 in the other
    let sevens = |count: usize| "07".repeat(count);
    let one = format!("90 BEDE0005 EF{}000000", sevens(16));
    becomes("80", adds(14, &[7; 16], None), &one);
    let two = format!("90 10000005 0E11{}00", sevens(17));
    becomes("80", adds(14, &[7; 17], None), &two);
    let most = format!("90 10000041 FFFF{}000000", sevens(255));
    becomes("80", adds(255, &[7; 255], None), &most);
}

#[test]
fn elements_are_not_added() {
    let plain = "90 BEDE0001 10AA0000 01";
    stays(plain, adds(15, &[7], ONE), NotPut::LongId);
    stays(
        "90 10000001 01010700 01",
        adds(255, &[], ONE),
        NotPut::LongId,
    );
    let other = "90 ABAC0001 01020304 01";
    stays(other, adds(15, &[8], ONE), NotPut::OtherForm);
    stays(plain, adds(2, &[], ONE), NotPut::FormNotAllowed);
    stays(plain, adds(2, &[7; 17], ONE), NotPut::FormNotAllowed);
    let two = "90 10000001 01010700 01";
    stays(two, adds(1, &[8], ONE), NotPut::FormNotAllowed);
    stays(other, adds(1, &[8], None), NotPut::OtherForm);
    stays(plain, adds(0, &[7], None), NotPut::BadId);
    stays(plain, adds(1, &[7; 256], None), NotPut::BadField);
    stays(plain, adds(1, &vec![7; 65_537], None), NotPut::BadField);
    let cut = NotPut::NotAPacket(NotAPacket::CutBlock);
    stays("90 BEDE0002 10AA0000 01", adds(1, &[7], None), cut);
}

#[test]
fn elements_are_not_put() {
    let puts = |id, allowed| move |buf: &mut [u8], len| put_element(buf, len, id, &[7], allowed);
    let plain = "90 BEDE0001 10AA0000 01";
    stays(plain, puts(0, None), NotPut::BadId);
    stays(plain, puts(15, ONE), NotPut::LongId);
    let two = "90 10000001 0101AA00 01";
    stays(two, puts(15, ONE), NotPut::LongId);
    stays(two, puts(1, ONE), NotPut::FormNotAllowed);
}

// The last one of an id counts, and one that is put stands in place of them.
#[test]
fn an_id_has_several_elements() {
    let packet = written("90 BEDE0001 10AA0000 01");
    let mut buf = with_room(&packet, 43);
    let mut len = packet.len();
    for data in [&[0xBB][..], &[0xCC, 0xDD], &[0xEE]] {
        len = add_element(&mut buf, len, 1, data, ONE).unwrap();
    }
    assert_eq!(
        buf[..len],
        written("90 BEDE0003 10AA10BB 11CCDD10 EE000000 01")
    );
    let packet = Packet::parse(&buf[..len]).unwrap();
    assert_eq!(packet.element(1), Some(&[0xEE][..]));
    assert_eq!(packet.elements().count(), 4);
    len = put_element(&mut buf, len, 1, &[7], ONE).unwrap();
    let one = written("90 BEDE0003 10070000 00000000 00000000 01");
    assert_eq!(buf[..len], one);
}

fn changes(form: Form) -> impl Fn(&mut [u8], usize) -> Result<usize, NotPut> {
    move |buf, len| change_form(buf, len, form)
}

#[test]
fn forms_are_changed() {
    let (one, two) = (changes(Form::OneByte), changes(Form::TwoByte));
    let sixteen = "07".repeat(16);
    for (before, after) in [
        ("90 BEDE0001 10AA0000 01", "90 10000001 0101AA00 01"),
        (
            "90 BEDE0001 10AA20BB 01",
            "90 10000002 0101AA02 01BB0000 01",
        ),
        (
            "90 BEDE0002 0010AA00 0021BBCC 01",
            "90 10000002 0101AA02 02BBCC00 01",
        ),
        ("90 BEDE0001 01AABB00 01", "90 10000001 00000000 01"),
        ("90 BEDE0001 10AAF055 01", "90 10000001 0101AA00 01"),
        ("90 BEDE0001 10AA2355 01", "90 10000001 0101AA00 01"),
        ("90 BEDE0000 01", "90 10000000 01"),
    ] {
        becomes(before, &two, after);
    }
    let longest = format!("90 10000005 0E10{sixteen}0000 01");
    let shorter = format!("90 BEDE0005 EF{sixteen}000000 01");
    for (before, after) in [
        ("90 10000001 0101AA00 01", "90 BEDE0001 10AA0000 01"),
        ("90 100F0001 0101AA00 01", "90 BEDE0001 10AA0000 01"),
        (
            "90 10000002 01010701 01080000 01",
            "90 BEDE0002 10071008 00000000 01",
        ),
        (&longest, &shorter),
    ] {
        becomes(before, &one, after);
    }
    // it has the form, or has no block
    let (zero, bits) = ("90 BEDE0001 01AABB00 01", "90 100F0001 0F01AA00 01");
    becomes(zero, &one, zero);
    becomes(bits, &two, bits);
    becomes("80 01", &one, "80 01");
    becomes("80 01", &two, "80 01");
}

#[test]
fn forms_are_kept() {
    let (one, two) = (changes(Form::OneByte), changes(Form::TwoByte));
    let seventeen = format!("90 10000005 0111{}00 01", "07".repeat(17));
    for before in ["90 10000001 01000000 01", &seventeen] {
        stays(before, &one, NotPut::FormNotAllowed);
    }
    for before in ["90 10000001 0F01AA00 01", "90 10000001 0100FF00 01"] {
        stays(before, &one, NotPut::LongId);
    }
    stays("90 ABAC0001 01020304 01", &one, NotPut::OtherForm);
    stays("90 ABAC0001 01020304 01", &two, NotPut::OtherForm);
    let cut = NotPut::NotAPacket(NotAPacket::CutBlock);
    stays("90 BEDE0002 10AA0000 01", &two, cut);
}

#[test]
fn an_id_above_14_is_put_then() {
    let mut packet = written("90 BEDE0001 10AA0000 01");
    let ids = NewIds::new().with(1, 200);
    let renumbered = PacketMut::parse(&mut packet).unwrap().renumber(&ids);
    assert_eq!(renumbered, Err(NotChanged::BadNewId));
    assert_eq!(change_form(&mut packet, 21, Form::TwoByte), Ok(21));
    PacketMut::parse(&mut packet)
        .unwrap()
        .renumber(&ids)
        .unwrap();
    assert_eq!(packet, written("90 10000001 C801AA00 01"));
}

fn puts(profile: u16, body: &[u8]) -> impl Fn(&mut [u8], usize) -> Result<usize, NotPut> + '_ {
    move |buf, len| put_block(buf, len, profile, at_end(body))
}

#[test]
fn blocks_are_put() {
    let words = [1, 2, 3, 4];
    becomes("80 01", puts(0xABAC, &words), "90 ABAC0001 01020304 01");
    let elements = [0x10, 0xAA, 0, 0];
    becomes("80", puts(0xBEDE, &elements), "90 BEDE0001 10AA0000");
    let plain = "90 BEDE0001 10AA0000 01";
    becomes(plain, puts(0xC0DE, &[]), "90 C0DE0000 01");
    let longer = "90 ABAC0002 0102030405060708 01";
    becomes(
        longer,
        puts(0x1000, &[15, 1, 7, 0]),
        "90 10000001 0F010700 01",
    );
    let other = "90 ABAC0001 01020304 01";
    becomes(
        other,
        puts(0xFFFF, &[9; 8]),
        "90 FFFF0002 0909090909090909 01",
    );
    let sources = "B1 00000009 12340001 07070707 0102";
    becomes("A1 00000009 0102", puts(0x1234, &[7; 4]), sources);
    let long = format!("90 0000012C{}01", "07".repeat(1200));
    becomes("80 01", puts(0, &[7; 1200]), &long);

    for len in [1, 2, 3, 5, 262_141, 262_143, 262_145] {
        stays(plain, puts(0xABAC, &vec![7; len]), NotPut::BadField);
    }
    stays("80 01", puts(0xABAC, &vec![7; 262_144]), NotPut::LongBlock);
    stays(
        "80 01",
        puts(0xABAC, &vec![7; 262_140]),
        NotPut::ShortBuffer,
    );
    for (before, cause) in [
        ("40 01", NotAPacket::OtherVersion),
        ("90 BEDE0002 10AA0000 01", NotAPacket::CutBlock),
    ] {
        stays(before, puts(0xABAC, &[]), NotPut::NotAPacket(cause));
    }
}

fn removes(buf: &mut [u8], len: usize) -> Result<usize, NotPut> {
    Ok(remove_block(&mut buf[..len])?)
}

#[test]
fn blocks_are_taken_off() {
    for (before, after) in [
        ("90 BEDE0001 10AA0000 01", "80 01"),
        ("90 BEDE0000", "80"),
        ("90 100F0001 01010700 01", "80 01"),
        ("90 ABAC0001 01020304 0102", "80 0102"),
        ("B1 00000009 12340001 AABBCCDD 0102", "A1 00000009 0102"),
        ("80 01", "80 01"),
        ("A1 00000009 0102", "A1 00000009 0102"),
    ] {
        becomes(before, removes, after);
    }
    for (before, cause) in [
        ("40 01", NotAPacket::OtherVersion),
        ("90 BEDE0002 10AA0000 01", NotAPacket::CutBlock),
    ] {
        stays(before, removes, NotPut::NotAPacket(cause));
    }
    assert_eq!(remove_block(&mut []), Err(NotAPacket::CutFixedPart));
    // what is left of a block whose last element is gone
    let mut packet = written("90 BEDE0001 10AA0000 01");
    assert!(PacketMut::parse(&mut packet).unwrap().remove_element(1));
    let len = compact(&mut packet).unwrap();
    assert_eq!(packet[..len], written("90 BEDE0000 01"));
    let len = remove_block(&mut packet[..len]).unwrap();
    assert_eq!(packet[..len], written("80 01"));
}

/// A packet with a full block of these elements.
fn full(profile: [u8; 2], element: &[u8]) -> Vec<u8> {
    let mut packet = written("90");
    packet.extend(profile);
    packet.extend([0xFF, 0xFF]);
    packet.extend(element.repeat(262_140 / element.len()));
    assert_eq!(packet.len(), 16 + 262_140);
    packet
}

// 1,020 elements of 255 bytes fill 65,535 words in the two-byte form, and 15,420 of 16 bytes in the one-byte form.
#[test]
fn blocks_have_at_most_65535_words() {
    let element = [&[3, 255][..], &[7; 255]].concat();
    let packet = full([0x10, 0], &element);
    let mut buf = with_room(&packet, 600);
    let len = packet.len();
    let put = put_element(&mut buf, len, 4, &[], None);
    assert_eq!(put, Err(NotPut::LongBlock));
    let added = add_element(&mut buf, len, 3, &[], None);
    assert_eq!(added, Err(NotPut::LongBlock));
    assert!(buf.starts_with(&packet));
    // with one element fewer there is room for one of 255 bytes
    buf[len - 257..len].fill(0);
    assert_eq!(add_element(&mut buf, len, 9, &[7; 255], TWO), Ok(len));
    assert_eq!(buf[len - 257..len - 254], [9, 255, 7]);

    let packet = full([0xBE, 0xDE], &[&[0x3F][..], &[7; 16]].concat());
    let mut buf = with_room(&packet, 70_000);
    let changed = change_form(&mut buf, packet.len(), Form::TwoByte);
    assert_eq!(changed, Err(NotPut::LongBlock));
    assert!(buf.starts_with(&packet));

    let mut buf = with_room(&written("80"), 4 + 262_140);
    let put = put_block(&mut buf, 12, 0xABAC, &vec![7; 262_140]);
    assert_eq!(put, Ok(16 + 262_140));
    assert_eq!(buf[12..18], [0xAB, 0xAC, 0xFF, 0xFF, 7, 7]);
}

#[test]
fn lengths_past_the_buffer_are_refused() {
    let mut buf = with_room(&written("90 BEDE0001 10AA0000 01"), 19);
    let left = buf.clone();
    for len in [41, (1 << 32) + 21, usize::MAX] {
        for refused in [
            add_element(&mut buf, len, 1, &[7], None),
            change_form(&mut buf, len, Form::TwoByte),
            put_block(&mut buf, len, 0xABAC, &[]),
        ] {
            assert_eq!(refused, Err(NotPut::BadField));
        }
    }
    assert_eq!(buf, left);
}
