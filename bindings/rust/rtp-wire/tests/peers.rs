//! What a caller meets with other peers than str0m, and what its hand finds first. The expected values are worked out
//! by hand from RFC 3550, RFC 5450, RFC 8285, 4.2 and 4.3, RFC 9626 and 3GPP TS 26.114, 7.4.5.

use rtp_wire::standard::{parse_transmission_offset, Camera, FrameMarking, Orientation, Turn};
use rtp_wire::{
    compact, put_element, write_elements, Form, Header, Kind, Map, NotPut, NotWritten, Packet,
    PacketMut, Place, ReceptionStatistics, Values, WideReceiver,
};

const ONE: Option<Form> = Some(Form::OneByte);
const TWO: Option<Form> = Some(Form::TwoByte);

/// V=2, X; PT=96; 5; 100; 44; then the block, and a payload of one byte.
fn packet(block: &[u8]) -> Vec<u8> {
    let fixed_part = [0x90, 0x60, 0, 5, 0, 0, 0, 100, 0, 0, 0, 44];
    [&fixed_part, block, &[9]].concat()
}

fn becomes(before: &[u8], id: u8, byte: u8, allowed: Option<Form>, after: &[u8]) {
    let mut buf = packet(before);
    let len = buf.len();
    let put = put_element(&mut buf, len, id, &[byte], allowed);
    assert_eq!((put, buf), (Ok(len), packet(after)), "{before:x?}");
}

/// Behind an element of the id 0 with length bits a receiver that follows the RFC reads nothing: it goes, also where
/// only as many bytes of another element would change.
#[test]
fn elements_of_the_id_0_go() {
    becomes(
        b"\xBE\xDE\0\x01\x01\xAA\xBB\0",
        1,
        0xCC,
        None,
        b"\xBE\xDE\0\x01\x10\xCC\0\0",
    );
    let made = b"\xBE\xDE\0\x02\x10\xCC\0\0\0\0\0\0";
    let before = b"\xBE\xDE\0\x02\x01\xAA\xBB\0\x10\x77\0\0";
    becomes(before, 1, 0xCC, ONE, made);
    let behind = b"\xBE\xDE\0\x02\x10\x77\x01\xAA\xBB\0\0\0";
    becomes(behind, 1, 0xCC, None, made);
    let between = b"\xBE\xDE\0\x02\x01\xAA\xBB\x10\x77\0\0\0";
    becomes(
        between,
        2,
        0xCC,
        ONE,
        b"\xBE\xDE\0\x02\x10\x77\x20\xCC\0\0\0\0",
    );
    let mut buf = packet(before);
    assert_eq!(compact(&mut buf), Ok(21));
    assert_eq!(buf[..21], packet(b"\xBE\xDE\0\x01\x10\x77\0\0"));
}

/// And none is written.
#[test]
fn no_element_of_the_id_0_is_written() {
    let places = [Place::new(1, 0..1), Place::new(0, 1..2)];
    let mut buf = [0xEE; 32];
    for form in [None, ONE, TWO] {
        let written = Header::default().write_with(&mut buf, b"\xAA\xBB", &places, form);
        assert_eq!((written, buf[0]), (Err(NotWritten::BadField), 0xEE));
    }
    let written = write_elements(&mut buf, Form::TwoByte, b"\xAA\xBB", &places);
    assert_eq!(written, Err(NotWritten::BadField));
}

/// The form is the one that alone is allowed, also where an element would only change; and where it isn't put the form
/// of the block tells whether that or the element is at fault.
#[test]
fn forms_of_a_put_element() {
    let one = b"\xBE\xDE\0\x01\x10\xAA\0\0";
    let two = b"\x10\x05\0\x01\x01\x01\xAA\0";
    becomes(one, 1, 0xBB, ONE, b"\xBE\xDE\0\x01\x10\xBB\0\0");
    becomes(one, 1, 0xBB, TWO, b"\x10\0\0\x01\x01\x01\xBB\0");
    becomes(two, 1, 0xBB, TWO, b"\x10\x05\0\x01\x01\x01\xBB\0");
    for (block, form) in [(two, Form::TwoByte), (one, Form::OneByte)] {
        let before = packet(block);
        let mut buf = [&before[..], &[0; 8]].concat();
        let put = put_element(&mut buf, before.len(), 15, &[0xBB], ONE);
        assert_eq!(put, Err(NotPut::LongId));
        let put = put_element(&mut buf, before.len(), 14, &[], ONE);
        assert_eq!(put, Err(NotPut::FormNotAllowed));
        assert_eq!(buf[..before.len()], before);
        assert_eq!(Packet::parse(&before).unwrap().form(), Some(form));
    }
    let mut buf = packet(one);
    let put = put_element(&mut buf, 21, 0, &[0xBB], ONE);
    assert_eq!(put, Err(NotPut::BadId));
}

/// An offset of three bytes and a marking of three are no values of a header; a header that is read and written keeps
/// the turn of an orientation, and loses the camera and the flip.
#[test]
fn elements_of_the_standards() {
    const MAP: Map = Map::new()
        .with(1, Kind::TransmissionOffset)
        .with(2, Kind::FrameMarking)
        .with(3, Kind::VideoOrientation);
    let datagram = packet(b"\xBE\xDE\0\x03\x12\xFF\xFF\xA6\x22\xA9\x02\x07\x30\x0D\0\0");
    let read = Header::parse(&datagram, &MAP).unwrap();
    let values = Values::default();
    assert_eq!(read.values.transmission_offset, values.transmission_offset);
    assert_eq!(read.values.frame_marking, values.frame_marking);
    assert_eq!(read.values.video_orientation, Some(270));

    let lies = Packet::parse(&datagram).unwrap();
    let data = |id| lies.element(id).unwrap();
    assert_eq!(parse_transmission_offset(data(1)), Ok(-90));
    let marking = FrameMarking::parse(data(2)).unwrap();
    assert!(marking.start && !marking.end && marking.independent && !marking.discardable);
    let layers = marking.layers.unwrap();
    assert_eq!((layers.temporal_id, layers.layer_id), (1, 2));
    assert_eq!(
        (layers.base_layer_sync, layers.tl0_pic_idx),
        (true, Some(7))
    );
    let orientation = Orientation::parse(data(3)).unwrap();
    let taken = (orientation.turn, orientation.camera, orientation.flip);
    assert_eq!(taken, (Turn::Deg270, Camera::Back, true));

    let mut buf = [0; 32];
    let len = read.write_to(&mut buf, &MAP).unwrap();
    assert_eq!(buf[12..len], *b"\xBE\xDE\0\x01\x30\x01\0\0");
    let mut again = [0];
    assert_eq!(orientation.write_to(&mut again), Ok(1));
    let mut written = PacketMut::parse(&mut buf[..len]).unwrap();
    assert_eq!(written.set_element(3, &again), Ok(()));
    assert_eq!(buf[17], 0x0D);
}

/// From the rollover count 0 the second packet has a number near 2^64, and no later one is taken.
#[test]
fn packets_from_before_the_first() {
    let numbers = |count| {
        let mut receiver = WideReceiver::<2>::starting_at(count).unwrap();
        [5, 65_533, 6, 7].map(|it| receiver.receive(it))
    };
    assert_eq!(numbers(0), [Some(5), Some(u64::MAX - 2), None, None]);
    assert_eq!(numbers(1), [65_541, 65_533, 65_542, 65_543].map(Some));
}

/// Expected are those from the first one's number to the highest, whatever else came.
#[test]
fn packets_are_expected() {
    let mut statistics = ReceptionStatistics::new();
    assert_eq!(statistics.expected(), 0);
    for (number, expected) in [(65_541, 1), (65_544, 4), (65_540, 4), (65_544, 4)] {
        statistics.record(number, 0, 0);
        assert_eq!(statistics.expected(), expected);
    }
    let report = statistics.report().unwrap();
    assert_eq!((report.cumulative_lost, statistics.expected()), (0, 4));
    let mut all = ReceptionStatistics::new();
    for (number, expected) in [(0, 1), (u64::MAX - 1, u64::MAX), (u64::MAX, u64::MAX)] {
        all.record(number, 0, 0);
        assert_eq!(all.expected(), expected);
    }
}
