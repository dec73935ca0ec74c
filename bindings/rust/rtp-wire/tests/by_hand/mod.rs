//! The header of a packet, read by the bit fields of RFC 3550, 5.1 and RFC 8285, 4.2 and 4.3, and without the
//! library.

/// The first 16 bits of a block, and the id and the data of each element.
pub type Block = (u16, Vec<(u8, Vec<u8>)>);

#[derive(Debug, PartialEq)]
pub struct Fields {
    pub version: u8,
    pub has_padding: bool,
    pub has_extension: bool,
    pub marker: bool,
    pub payload_type: u8,
    pub sequence_number: u16,
    pub timestamp: u32,
    pub ssrc: u32,
    pub sources: Vec<u32>,
    pub block: Option<Block>,
    pub header_len: usize,
}

fn number(bytes: &[u8]) -> u32 {
    bytes
        .iter()
        .fold(0, |high, low| high << 8 | u32::from(*low))
}

pub fn read(bytes: &[u8]) -> Fields {
    let list_end = 12 + 4 * usize::from(bytes[0] & 15);
    let has_extension = bytes[0] & 0x10 != 0;
    let mut header_len = list_end;
    let mut block = None;
    if has_extension {
        let form = number(&bytes[list_end..list_end + 2]) as u16;
        let words = number(&bytes[list_end + 2..list_end + 4]) as usize;
        header_len = list_end + 4 + 4 * words;
        block = Some((form, elements(form, &bytes[list_end + 4..header_len])));
    }
    Fields {
        version: bytes[0] >> 6,
        has_padding: bytes[0] & 0x20 != 0,
        has_extension,
        marker: bytes[1] & 0x80 != 0,
        payload_type: bytes[1] & 0x7F,
        sequence_number: number(&bytes[2..4]) as u16,
        timestamp: number(&bytes[4..8]),
        ssrc: number(&bytes[8..12]),
        sources: bytes[12..list_end].chunks(4).map(number).collect(),
        block,
        header_len,
    }
}

/// The elements of the body, of which none is cut short.
fn elements(form: u16, mut body: &[u8]) -> Vec<(u8, Vec<u8>)> {
    let mut elements = Vec::new();
    while let Some(first) = body.first() {
        if *first == 0 {
            body = &body[1..];
            continue;
        }
        let (id, at, len) = match form {
            0xBEDE => (first >> 4, 1, usize::from(first & 15) + 1),
            _ => (*first, 2, usize::from(body[1])),
        };
        elements.push((id, body[at..at + len].to_vec()));
        body = &body[at + len..];
    }
    elements
}
