//! Headers of groups that are prepared once, worked out by hand from RFC 3550, 5.1, and RFC 8285, 4.2 and 4.3. Memory
//! ends at a page that may not be touched.

mod guarded;

use guarded::at_end;
use rtp_wire::{
    Fields, Form, Group, HeaderTemplate, NewIds, NotPut, NotRouted, Packet, Place, PreparedGroup,
};

/// 96, 5, 100, 44 and the element 1 (AA), with two bytes of padding.
const SAMPLE: [u8; 20] = [
    0x90, 96, 0, 5, 0, 0, 0, 100, 0, 0, 0, 44, 0xBE, 0xDE, 0, 1, 0x10, 0xAA, 0, 0,
];
const PLAIN: [u8; 12] = [0x80, 96, 0, 5, 0, 0, 0, 100, 0, 0, 0, 44];

/// The packet's fixed part, with X, and this block.
fn with_block(block: &[u8]) -> Vec<u8> {
    [&[0x90], &PLAIN[1..], block].concat()
}

fn prepared(
    ids: &NewIds,
    elements: &[Place],
    allowed: Option<Form>,
) -> Result<PreparedGroup, NotRouted> {
    PreparedGroup::new(ids, at_end(elements), allowed)
}

/// The template that is made in so many bytes, or why not.
fn made(
    packet: &[u8],
    group: &PreparedGroup,
    room: usize,
) -> Result<HeaderTemplate<'static>, NotRouted> {
    let packet = Packet::parse(at_end(packet)).unwrap();
    HeaderTemplate::from_group(&packet, &at_end(&[*group])[0], at_end(&vec![0xEE; room]))
}

/// Two bytes of the id 4, where 1 becomes 3.
fn numbered(allowed: Option<Form>) -> PreparedGroup {
    let ids = NewIds::new().with(1, 3);
    prepared(&ids, &[Place::new(4, 0..2)], allowed).unwrap()
}

#[test]
fn packets_of_one_group() {
    let group = numbered(None);
    assert_eq!(group.data_len(), 2);
    let rows: [(&[u8], &[u8], &[u8]); 3] = [
        (
            &SAMPLE,
            &[0xBE, 0xDE, 0, 2, 0x30, 0xAA, 0x41, 0, 0, 0, 0, 0],
            &[0xBE, 0xDE, 0, 2, 0x30, 0xAA, 0x41, 0, 8, 0, 0, 0],
        ),
        (
            &PLAIN,
            &[0xBE, 0xDE, 0, 1, 0x41, 0, 0, 0],
            &[0xBE, 0xDE, 0, 1, 0x41, 0, 8, 0],
        ),
        // an element of the two-byte form, and one that gets no id
        (
            &with_block(&[0x10, 7, 0, 2, 1, 1, 0xAA, 9, 1, 0xBB, 0, 0]),
            &[0x10, 7, 0, 2, 3, 1, 0xAA, 4, 2, 0, 0, 0],
            &[0x10, 7, 0, 2, 3, 1, 0xAA, 4, 2, 0, 8, 0],
        ),
    ];
    for (packet, common, of_one) in rows {
        let template = made(packet, &group, 400).unwrap();
        assert_eq!(template.header(), with_block(common));
        assert_eq!(
            (template.header_len(), template.data_len()),
            (12 + common.len(), 2)
        );
        let buf = at_end(&vec![0; template.header_len()]);
        let written = template.write_header(&Fields::default(), &[0, 8], buf);
        assert_eq!(written, Ok(buf.len()));
        assert_eq!(buf, with_block(of_one));
    }
}

#[test]
fn the_form_that_is_allowed() {
    let two = made(&SAMPLE, &numbered(Some(Form::TwoByte)), 400).unwrap();
    let block = [0x10, 0, 0, 2, 3, 1, 0xAA, 4, 2, 0, 0, 0];
    assert_eq!(two.header(), with_block(&block));
    let one = made(&SAMPLE, &numbered(Some(Form::OneByte)), 400).unwrap();
    assert_eq!(one.header()[12..14], [0xBE, 0xDE]);
    // a new id above 14 asks for the two-byte form
    let ids = NewIds::new().with(1, 200);
    let group = |allowed| prepared(&ids, &[], allowed).unwrap();
    let wide = made(&SAMPLE, &group(None), 60).unwrap();
    assert_eq!(wide.header(), with_block(&[0x10, 0, 0, 1, 200, 1, 0xAA, 0]));
    let narrow = made(&SAMPLE, &group(Some(Form::OneByte)), 60);
    assert_eq!(narrow.err(), Some(NotRouted::LongId));
}

#[test]
fn what_a_group_is_refused_for() {
    let ids = NewIds::new();
    let all: Vec<_> = (20..37).map(|id| Place::new(id, 0..1)).collect();
    assert_eq!(prepared(&ids, &all[..16], None).unwrap().data_len(), 16);
    let many = prepared(&ids, &all, None).err();
    assert_eq!(many, Some(NotRouted::ManyElements));
    let repeated = prepared(&ids, &[all[0], all[1], all[0]], None).err();
    assert_eq!(repeated, Some(NotRouted::RepeatedId));
    let of_zero = prepared(&ids, &[Place::new(0, 0..1)], None).err();
    assert_eq!(of_zero, Some(NotRouted::NotPut(NotPut::BadId)));
    let long = prepared(&ids, &[Place::new(4, 0..256)], None).err();
    assert_eq!(long, Some(NotRouted::NotPut(NotPut::BadField)));
    // where the data lie doesn't count
    let far = Place::new(4, usize::MAX - 255..usize::MAX);
    let near = Place::new(4, 0..255);
    assert_eq!(prepared(&ids, &[far], None), prepared(&ids, &[near], None));
}

#[test]
fn what_a_packet_is_refused_for() {
    let short = Some(NotRouted::NotPut(NotPut::ShortBuffer));
    assert_eq!(made(&SAMPLE, &numbered(None), 23).err(), short);
    assert!(made(&SAMPLE, &numbered(None), 24).is_ok());
    let camera = with_block(&[0xAB, 0xAC, 0, 0]);
    let other = Some(NotRouted::NotPut(NotPut::OtherForm));
    assert_eq!(made(&camera, &numbered(None), 400).err(), other);
    let of_none = prepared(&NewIds::new(), &[Place::new(4, 0..0)], Some(Form::OneByte));
    let not_allowed = Some(NotRouted::NotPut(NotPut::FormNotAllowed));
    assert_eq!(made(&SAMPLE, &of_none.unwrap(), 400).err(), not_allowed);
    let above = prepared(&NewIds::new(), &[Place::new(15, 0..1)], Some(Form::OneByte));
    let long_id = made(&SAMPLE, &above.unwrap(), 400).err();
    assert_eq!(long_id, Some(NotRouted::LongId));
}

#[test]
fn it_is_that_of_a_group_whose_data_are_zeros() {
    let ids = (1..=255).fold(NewIds::new(), |ids, id| ids.with(id, id.wrapping_neg()));
    for count in 0..=16 {
        let elements: Vec<_> = (0..count)
            .map(|it| Place::new(100 + it as u8, 16 * it..16 * it + 17 * (it % 16)))
            .collect();
        for allowed in [None, Some(Form::TwoByte)] {
            let group = Group {
                ids: &ids,
                data: &[0; 600],
                elements: &elements,
                allowed,
            };
            let packet = Packet::parse(&SAMPLE).unwrap();
            let mut room = vec![0; 5000];
            let wanted = HeaderTemplate::new(&packet, &group, &mut room).unwrap();
            let group = prepared(&ids, &elements, allowed).unwrap();
            let template = made(&SAMPLE, &group, wanted.header_len()).unwrap();
            assert_eq!(template.header(), wanted.header());
            assert_eq!(template.data_len(), wanted.data_len());
        }
    }
}

#[test]
fn what_it_is() {
    fn is_a_value<T: Copy + Eq + std::hash::Hash + Send + Sync + 'static>() {}
    is_a_value::<PreparedGroup>();
    assert_eq!(size_of::<PreparedGroup>(), 550);
    let told = format!("{:?}", numbered(None));
    assert_eq!(told, "PreparedGroup { element_ids: [4], data_len: 2, .. }");
}
