//! The crate for Rust on a system for which there may be no standard library: what its documents show, asked of it there.
#![no_std]
#![no_main]

use rtp_wire::{
    add_element, change_form, from_retransmission, put_element, receive_many, to_retransmission, Arrival, ArrivalSlot, Fields, Form,
    Group, Header, HeaderTemplate, Kind, Map, NewIds, NotRtp, OwnUris, Packet, PacketMut, Place, Receiver,
    ReceptionStatistics, RestartingReceiver, RoutedSlot, Values,
};

extern "C" {
    fn puts(text: *const u8) -> i32;
    fn abort() -> !;
}

#[panic_handler]
fn panic(info: &core::panic::PanicInfo<'_>) -> ! {
    let said = info.message().as_str().unwrap_or("an assertion failed");
    let mut text = [0; 512];
    let len = said.len().min(511);
    text[..len].copy_from_slice(&said.as_bytes()[..len]);
    unsafe {
        puts(text.as_ptr());
        abort()
    }
}

const LEVEL: &str = "urn:ietf:params:rtp-hdrext:ssrc-audio-level";
const PADDED: [u8; 24] = *b"\xB0\x6F\0\x05\0\0\0\xA0\0\0\0\x07\xBE\xDE\0\x01\x10\x8A\0\0hi\0\x02";

fn reads() {
    let mut uris: OwnUris<&str> = OwnUris::new();
    let map = uris.map([(1, LEVEL), (2, "urn:example:weather")]).unwrap();
    let (packet, header) = Packet::read(&PADDED, &map).unwrap();
    assert_eq!((header.ssrc, header.values.audio_level), (7, Some(-10)), "a level");
    assert_eq!(packet.unpadded_payload(), Some(&b"hi"[..]), "a payload");
    assert_eq!(packet.element(1), Some(&[0x8A][..]), "an element");
    assert_eq!(Packet::read(&[0x80, 201, 0, 1, 0, 0, 0, 7], &map), Err(NotRtp::Rtcp), "RTCP");
    assert!(Packet::read(&PADDED[..11], &map).is_err(), "eleven bytes");
    assert_eq!(Kind::from_uri(LEVEL), Some(Kind::AudioLevel), "a URI");
}

fn receives() {
    let mut receiver = Receiver::starting_at(1).unwrap();
    assert_eq!(receiver.receive(65_533), Some(131_069), "the first number");
    assert_eq!(receiver.receive(5), Some(131_077), "one behind a rollover");
    assert_eq!(receiver.receive(5), None, "a replay");
    let mut restarting = RestartingReceiver::with_bounds(3000, 1).with_max_misorder(100);
    assert_eq!(restarting.receive(1999), Arrival::Taken(67_535), "taken");
    assert_eq!(restarting.receive(1800), Arrival::Refused, "refused");
    assert_eq!(restarting.receive(1801), Arrival::Restarted(198_409), "restarted");
    let mut receivers = [receiver];
    let mut arrivals = [(0, 6), (0, 6), (1, 7)].map(|(index, number)| ArrivalSlot::new(index, number));
    receive_many(&mut receivers, &mut arrivals);
    let numbers = arrivals.map(|it| it.number().ok());
    assert_eq!(numbers, [Some(131_078), None, None], "one of three arrivals");
    let mut statistics = ReceptionStatistics::new();
    statistics.record(70_000, 0, 0);
    statistics.record(70_003, 480, 480);
    assert_eq!(statistics.report().unwrap().cumulative_lost, 2, "two lost");
}

fn changes() {
    let mut buf = [0; 64];
    buf[..24].copy_from_slice(&PADDED);
    let fields = Fields { ssrc: Some(0x0102_0304), sequence_number: Some(9), ..Fields::default() };
    PacketMut::parse(&mut buf[..24]).unwrap().set_fields(&fields).unwrap();
    assert_eq!(buf[..12], *b"\xB0\x6F\0\x09\0\0\0\xA0\x01\x02\x03\x04", "fields");
    let len = put_element(&mut buf, 24, 4, &[0, 7], None).unwrap();
    assert_eq!(buf[..len], *b"\xB0\x6F\0\x09\0\0\0\xA0\x01\x02\x03\x04\xBE\xDE\0\x02\x10\x8A\x41\0\x07\0\0\0hi\0\x02", "put");
    let len = add_element(&mut buf, len, 4, &[8], Some(Form::OneByte)).unwrap();
    let len = change_form(&mut buf, len, Form::TwoByte).unwrap();
    assert_eq!(buf[12..len - 4], *b"\x10\0\0\x03\x01\x01\x8A\x04\x02\0\x07\x04\x01\x08\0\0", "the two-byte form");
    let mut again = *b"\x80\x60\0\x05\0\0\0\x0A\0\0\0\x2C\xAA\xBB\0\0";
    let ids = NewIds::to_retransmission(&Map::standard());
    assert_eq!(to_retransmission(&mut again, 14, 45, 97, 7, &ids), Ok(16), "again");
    assert_eq!(again, *b"\x80\x61\0\x07\0\0\0\x0A\0\0\0\x2D\0\x05\xAA\xBB", "a retransmission");
    assert_eq!(from_retransmission(&mut again, 16, 44, 96, &ids), Ok(14), "and back");
}

fn writes() {
    const MAP: Map = Map::new().with(3, Kind::Mid);
    let mut values = Values::default();
    values.mid = Some("1".parse().unwrap());
    let mut header = Header::with_values(values);
    (header.payload_type, header.sequence_number) = (33, 47_000);
    let mut buf = [0; 64];
    let len = header.write_all(&mut buf, &MAP).unwrap();
    assert_eq!(buf[..len], *b"\x90\x21\xB7\x98\0\0\0\0\0\0\0\0\xBE\xDE\0\x01\x30\x31\0\0", "a header");
    assert!(header.left_out(&Map::new()).unwrap().iter().eq([Kind::Mid]), "left out");
}

fn routes() {
    let datagram = *b"\x90\x60\0\x05\0\0\0\x64\0\0\0\x2C\xBE\xDE\0\x01\x10\xAA\0\0";
    let group = Group { ids: &NewIds::new().with(1, 3), data: &[0, 7, 0, 8], elements: &[Place::new(4, 0..2)], allowed: None };
    let mut room = [0; 304];
    let template = HeaderTemplate::new(&Packet::parse(&datagram).unwrap(), &group, &mut room).unwrap();
    let fields = |ssrc| Fields { ssrc: Some(ssrc), ..Fields::default() };
    let mut receivers = [(45, 0), (46, 2), (47, 3)].map(|(ssrc, data_at)| RoutedSlot::new(&fields(ssrc), data_at));
    let mut headers = [0; 64];
    template.write_headers(group.data, &mut receivers, &mut headers);
    let second = receivers[1].range().unwrap();
    assert_eq!(headers[second], *b"\x90\x60\0\x05\0\0\0\x64\0\0\0\x2E\xBE\xDE\0\x02\x30\xAA\x41\0\x08\0\0\0", "routed");
    assert!(receivers[2].range().is_err(), "data that reach past the data");
}

#[no_mangle]
pub extern "C" fn main() -> i32 {
    reads();
    receives();
    changes();
    writes();
    routes();
    unsafe { puts(b"all as it is due\0".as_ptr()) };
    0
}
