use super::{read_of_data, written};
use crate::error::{NotAValue, NotWritten, OutOfRange};
use crate::sys::{self, range};
use crate::views::TransportNumberView;

/// The packet's number on its transport, and what feedback it asks for
/// (<http://www.webrtc.org/experiments/rtp-hdrext/transport-wide-cc-02>,
/// [`Kind::TransportNumber2`](crate::Kind::TransportNumber2)): two bytes, or four with a request. Each that is read is
/// written byte for byte. [`Values`](crate::Values) have the number alone, of the older URI, where feedback is on all
/// packets.
///
/// ```
/// use rtp_wire::standard::{FeedbackRequest, TransportNumber};
///
/// let read = TransportNumber::parse(&[0x12, 0x34, 0x80, 5])?;
/// assert_eq!(read.number, 0x1234);
/// assert_eq!(read.request, Some(FeedbackRequest { timestamps: true, packets: 5 }));
/// # Ok::<(), rtp_wire::NotAValue>(())
/// ```
#[derive(Clone, Copy, Debug, Default, PartialEq, Eq, Hash)]
pub struct TransportNumber {
    /// The packet's number over all streams of the transport.
    pub number: u16,
    /// The feedback that the sender asks for with this packet, if it does.
    pub request: Option<FeedbackRequest>,
}

/// A request for transport-wide feedback.
#[derive(Clone, Copy, Debug, PartialEq, Eq, Hash)]
pub struct FeedbackRequest {
    /// Whether the feedback is to have the times at which the packets arrived.
    pub timestamps: bool,
    /// For how many packets the feedback is to be, 0 to 32,767, of which this one is the last; 0 asks for none.
    pub packets: u16,
}

impl TransportNumber {
    /// Reads a number.
    ///
    /// # Errors
    ///
    /// [`NotAValue`] where there are neither two nor four bytes.
    pub fn parse(data: &[u8]) -> Result<TransportNumber, NotAValue> {
        let view = sys::read_transport_number(data).ok_or(NotAValue)?;
        Ok(TransportNumber {
            number: view.number,
            request: (view.has_request != 0).then_some(FeedbackRequest {
                timestamps: view.timestamps != 0,
                packets: view.packets,
            }),
        })
    }

    /// Writes the data to the front of the buffer, and returns how many bytes they are: two, or four with a request.
    /// Those after them stay.
    ///
    /// # Errors
    ///
    /// [`NotWritten::OutOfRange`] where there is a request for more than 32,767 packets, and else
    /// [`NotWritten::ShortBuffer`]; nothing is written then.
    pub fn write_to(&self, buf: &mut [u8]) -> Result<usize, NotWritten> {
        let mut view = TransportNumberView {
            number: self.number,
            ..TransportNumberView::default()
        };
        if let Some(request) = self.request {
            let range = range::TRANSPORT_NUMBER_PACKETS;
            OutOfRange::check("packets", request.packets.into(), range)?;
            view.has_request = 1;
            view.packets = request.packets;
            view.timestamps = u8::from(request.timestamps);
        }
        written(|len| sys::write_transport_number(&view, buf, len))
    }
}

read_of_data!(TransportNumber);
