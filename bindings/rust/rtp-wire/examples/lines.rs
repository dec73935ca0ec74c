//! Reads datagrams from standard input, one a line in hexadecimal, and prints of each its header, the
//! values of its extensions, and whether a receiver takes it. Each SSRC has a receiver of its own. Lines
//! `map ID URI` before the first datagram say which extension an id means. It prints what the program
//! `rtp_lines` does: a mid and a stream id with an underscore for each character that isn't a letter or a
//! digit, as `cam_1` for a mid `cam-1`, and the first 16 characters of a mid and 8 of a stream id. To compare
//! one with that of an SDP take `Packet::token`, the text as it lies.

use std::collections::HashMap;
use std::io::{self, BufRead, Write};
use std::process::ExitCode;

use rtp_wire::{Header, Kind, Map, Receiver, Values};

/// Maps the id of the line, of one to three digits, where it is a map line. A URI that isn't known means nothing here:
/// no packet goes on.
fn is_mapped(map: &mut Map, line: &str) -> bool {
    let words = line.strip_prefix("map ").and_then(|it| it.split_once(' '));
    let Some((id, uri)) = words else {
        return false;
    };
    let is_number = id.len() <= 3 && id.bytes().all(|digit| digit.is_ascii_digit());
    is_number && !uri.is_empty() && {
        let id = id.parse();
        id.is_ok_and(|id| map.set(id, Kind::from_uri(uri)).is_ok())
    }
}

/// The bytes that the text spells.
fn bytes_of(text: &str) -> Option<Vec<u8>> {
    let digits: Option<Vec<u8>> = text.chars().map(|c| Some(c.to_digit(16)? as u8)).collect();
    let digits = digits?;
    let pairs = digits.chunks_exact(2);
    pairs
        .remainder()
        .is_empty()
        .then(|| pairs.map(|pair| pair[0] << 4 | pair[1]).collect())
}

fn yes_or_no(flag: bool) -> &'static str {
    if flag {
        "yes"
    } else {
        "no"
    }
}

fn print_header(out: &mut impl Write, count: u64, header: &Header) -> io::Result<()> {
    write!(
        out,
        "packet {count}: pt {} seq {} ts {} ssrc {} marker {} padding {} extension {} csrc {} header {}",
        header.payload_type,
        header.sequence_number,
        header.timestamp,
        header.ssrc,
        yes_or_no(header.marker),
        yes_or_no(header.has_padding),
        yes_or_no(header.has_extension),
        header.csrcs().len(),
        header.header_len(),
    )
}

fn print_values(out: &mut impl Write, values: &Values) -> io::Result<()> {
    if let Some(mid) = values.mid {
        write!(out, " mid {mid}")?;
    }
    if let Some(rid) = values.rid {
        write!(out, " rid {rid}")?;
    }
    if let Some(rid) = values.repaired_rid {
        write!(out, " repaired {rid}")?;
    }
    if let Some(level) = values.audio_level {
        write!(out, " level {level}")?;
    }
    if let Some(voice) = values.voice_activity {
        write!(out, " voice {}", yes_or_no(voice))?;
    }
    if let Some(time) = values.send_time {
        write!(out, " send {time}")?;
    }
    if let Some(number) = values.transport_number {
        write!(out, " transport {number}")?;
    }
    writeln!(out)
}

fn main() -> io::Result<ExitCode> {
    let mut out = io::BufWriter::new(io::stdout().lock());
    let mut map = Map::new();
    let mut receivers: HashMap<u32, Receiver> = HashMap::new();
    let mut count = 0;
    for (index, line) in io::stdin().lock().lines().enumerate() {
        let line = line?;
        if count == 0 && is_mapped(&mut map, &line) {
            continue;
        }
        let Some(datagram) = bytes_of(&line) else {
            writeln!(out, "line {}: neither a map line nor hex", index + 1)?;
            out.flush()?;
            return Ok(ExitCode::from(2));
        };
        count += 1;
        match Header::parse(&datagram, &map) {
            Err(_) => writeln!(
                out,
                "packet {count}: unreadable\nverdict {count}: unreadable"
            )?,
            Ok(header) => {
                print_header(&mut out, count, &header)?;
                print_values(&mut out, &header.values)?;
                // From the rollover count 0, as the program rtp_lines has it. Receiver::starting_at(1) also has a
                // number for a packet from before the first one.
                let receiver = receivers.entry(header.ssrc).or_default();
                match receiver.receive(header.sequence_number) {
                    Some(number) => writeln!(out, "verdict {count}: taken {number}")?,
                    None => writeln!(out, "verdict {count}: refused")?,
                }
            }
        }
    }
    out.flush()?;
    Ok(ExitCode::SUCCESS)
}
