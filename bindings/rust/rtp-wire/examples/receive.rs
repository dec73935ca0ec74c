//! Receives the packets of one stream, and refuses replays.

use rtp_wire::{Map, NotRtp, OwnUris, Packet, Receiver};

fn receive(receiver: &mut Receiver, map: &Map, datagram: &[u8]) -> Result<(), NotRtp> {
    let (packet, header) = Packet::read(datagram, map)?;
    let Some(payload) = packet.unpadded_payload() else {
        println!("the padding is longer than the payload");
        return Ok(());
    };
    if let Some(number) = receiver.receive(header.sequence_number) {
        let level = header.values.audio_level;
        println!("{number}: {level:?} dB, {payload:?}");
    }
    Ok(())
}

fn main() -> Result<(), Box<dyn std::error::Error>> {
    let mut uris = OwnUris::new();
    let map = uris.map([(1, "urn:ietf:params:rtp-hdrext:ssrc-audio-level")])?;
    // one for each SSRC; from 1 on a packet from before the first one has a number too
    let mut receiver = Receiver::starting_at(1)?;
    // with two bytes of padding
    let packet = *b"\xB0\x6F\0\x05\0\0\0\xA0\0\0\0\x07\xBE\xDE\0\x01\x10\x8A\0\0\x01\x02\0\x02";
    receive(&mut receiver, &map, &packet)?;
    receive(&mut receiver, &map, &packet)?; // a replay: nothing is printed

    // Eleven bytes of it, and a receiver report, which comes to the same port.
    for datagram in [&packet[..11], &[0x80, 201, 0, 1, 0, 0, 0, 7]] {
        match receive(&mut receiver, &map, datagram) {
            Err(NotRtp::NotAPacket(cause)) => println!("{cause}"),
            Err(error) => println!("{error}"),
            Ok(()) => {}
        }
    }
    Ok(())
}
