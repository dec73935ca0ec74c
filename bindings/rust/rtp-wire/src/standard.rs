//! The data of one element as the standard of its extension has them, where [`Values`](crate::Values) have another
//! reading, that of str0m, or none.
//!
//! What is read is what [`Packet::element`](crate::Packet::element) lends, and what is written is for
//! [`put_element`](crate::put_element), [`PacketMut::set_element`](crate::PacketMut::set_element) and
//! [`write_elements`](crate::write_elements). [`Map::id_of`](crate::Map::id_of) its kind is the id of each but RFC 9626's
//! frame marking, which has no kind: [`OwnUris`](crate::OwnUris) gives it one of your own.
//!
//! ```
//! use rtp_wire::standard::{Camera, Orientation, Turn, MOST_DATA};
//! use rtp_wire::{put_element, Packet};
//!
//! let taken = Orientation { camera: Camera::Back, flip: true, turn: Turn::Deg270 };
//! let mut data = [0; MOST_DATA];
//! let data_len = taken.write_to(&mut data)?;
//!
//! let mut buf = [0; 100];
//! buf[0] = 0x80; // a header of 12 bytes
//! let len = put_element(&mut buf, 12, 5, &data[..data_len], None)?;
//! assert_eq!(buf[12..len], [0xBE, 0xDE, 0, 1, 0x50, 0x0D, 0, 0]);
//!
//! let packet = Packet::parse(&buf[..len])?;
//! let data = packet.element(5).expect("it was put");
//! assert_eq!(Orientation::parse(data), Ok(taken));
//! # Ok::<(), Box<dyn std::error::Error>>(())
//! ```

use crate::error::NotWritten;

mod color_space;
mod dependency_descriptor;
mod frame_marking;
mod numbers;
mod orientation;
mod send_time;
mod timing;
mod token;
mod transport_number;

pub use color_space::{ChromaSiting, Chromaticity, ColorRange, ColorSpace, HdrMetadata};
pub use dependency_descriptor::{has_dependency_structure, DependencyDescriptor};
pub use frame_marking::{FrameLayers, FrameMarking};
pub use numbers::{
    extend_ntp_56, ntp_56_bytes, ntp_64_bytes, parse_mixer_level, parse_ntp_56, parse_ntp_64,
    parse_transmission_offset, transmission_offset_bytes, write_mixer_levels,
};
pub use orientation::{Camera, Orientation, Turn};
pub use send_time::{extend_send_time, parse_send_time, send_time_bytes};
pub use timing::Timing;
pub use token::{is_stream_id, parse_token};
pub use transport_number::{FeedbackRequest, TransportNumber};

/// Enough room for the data of each value.
pub const MOST_DATA: usize = 28;

/// How many bytes were written by a function that tells it.
fn written(write: impl FnOnce(&mut usize) -> i32) -> Result<usize, NotWritten> {
    let mut len = 0;
    NotWritten::of_status(write(&mut len))?;
    Ok(len)
}

/// A value is read of what an element's data are.
macro_rules! read_of_data {
    ($it:ty) => {
        impl TryFrom<&[u8]> for $it {
            type Error = crate::error::NotAValue;

            fn try_from(data: &[u8]) -> Result<$it, crate::error::NotAValue> {
                <$it>::parse(data)
            }
        }
    };
}
use read_of_data;
