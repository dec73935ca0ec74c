use core::ops::Range;

use crate::error::NotWritten;
use crate::packet_mut::Fields;
use crate::sys;

/// One of the receivers of a group, for [`HeaderTemplate::write_headers`](crate::HeaderTemplate::write_headers): what
/// it gets of its own, and then what became of it. Keep some in an array or a `Vec`, and use them again. 48 bytes.
pub use crate::views::RoutedSlot;

impl RoutedSlot {
    /// A receiver with these fields, whose data begin there in all data, in bytes.
    ///
    /// ```
    /// use rtp_wire::{Fields, Group, HeaderTemplate, NewIds, NotWritten, Packet, RoutedSlot};
    ///
    /// let packet = Packet::parse(&[0x80, 96, 0, 5, 0, 0, 0, 100, 0, 0, 0, 44])?;
    /// let group = Group { ids: &NewIds::new(), data: &[], elements: &[], allowed: None };
    /// let mut room = [0; 24];
    /// let template = HeaderTemplate::new(&packet, &group, &mut room)?;
    ///
    /// let fields = |payload_type| Fields { payload_type: Some(payload_type), ..Fields::default() };
    /// let mut slots = [97, 128, 98, 99].map(|it| RoutedSlot::new(&fields(it), 0));
    /// let mut buf = [0; 35];
    /// template.write_headers(&[], &mut slots, &mut buf);
    /// let ranges = [Ok(0..12), Err(NotWritten::BadField), Ok(12..24), Err(NotWritten::ShortBuffer)];
    /// assert_eq!(slots.map(|it| it.range()), ranges); // each to be encrypted where it lies, say
    /// assert_eq!((buf[1], buf[13], &buf[24..]), (97, 98, &[0; 11][..]));
    /// # Ok::<(), Box<dyn std::error::Error>>(())
    /// ```
    #[must_use]
    #[inline]
    pub fn new(fields: &Fields, data_at: usize) -> RoutedSlot {
        RoutedSlot {
            data_at,
            at: 0,
            fields: fields.view(),
            original_number: 0,
            is_retransmission: 0,
            clears_padding: 0,
            status: sys::BAD_FIELD,
            len: 0,
        }
    }

    /// A receiver that gets a retransmission of the packet with this original number
    /// ([`HeaderTemplate::write_retransmission`](crate::HeaderTemplate::write_retransmission)). Its header is two bytes
    /// longer than that of the others.
    ///
    /// ```
    /// use rtp_wire::{Fields, Group, HeaderTemplate, NewIds, Packet, RoutedSlot};
    ///
    /// let packet = Packet::parse(&[0x80, 96, 0, 5, 0, 0, 0, 100, 0, 0, 0, 44])?;
    /// let group = Group { ids: &NewIds::new(), data: &[], elements: &[], allowed: None };
    /// let mut room = [0; 24];
    /// let template = HeaderTemplate::new(&packet, &group, &mut room)?;
    ///
    /// let stream = Fields { payload_type: Some(97), sequence_number: Some(9), ssrc: Some(45), ..Fields::default() };
    /// let mut slots = [RoutedSlot::retransmission(&stream, 5, 0), RoutedSlot::new(&Fields::default(), 0)];
    /// let mut buf = [0; 26];
    /// let mut headers = template.write_headers(&[], &mut slots, &mut buf);
    /// assert_eq!(headers.next(), Some(Ok(&[0x80, 97, 0, 9, 0, 0, 0, 100, 0, 0, 0, 45, 0, 5][..])));
    /// assert_eq!(headers.next(), Some(Ok(&[0x80, 96, 0, 5, 0, 0, 0, 100, 0, 0, 0, 44][..])));
    /// # Ok::<(), Box<dyn std::error::Error>>(())
    /// ```
    #[must_use]
    #[inline]
    pub fn retransmission(fields: &Fields, original_number: u16, data_at: usize) -> RoutedSlot {
        RoutedSlot {
            original_number,
            is_retransmission: 1,
            ..RoutedSlot::new(fields, data_at)
        }
    }

    /// The same receiver with P clear, as it always is for a retransmission: for one that gets the payload without its
    /// padding. Where P stays set, the receiver takes the last bytes of the media for padding.
    ///
    /// ```
    /// use rtp_wire::{Fields, Group, HeaderTemplate, NewIds, Packet, RoutedSlot};
    ///
    /// let packet = Packet::parse(&[0xA0, 96, 0, 5, 0, 0, 0, 100, 0, 0, 0, 44, b'h', b'i', 0, 2])?;
    /// let group = Group { ids: &NewIds::new(), data: &[], elements: &[], allowed: None };
    /// let mut room = [0; 24];
    /// let template = HeaderTemplate::new(&packet, &group, &mut room)?;
    ///
    /// let mut slots = [RoutedSlot::new(&Fields::default(), 0).without_padding()];
    /// let mut buf = [0; 14];
    /// let header = template.write_headers(&[], &mut slots, &mut buf).next().expect("there is one slot")?;
    /// let payload = packet.unpadded_payload().expect("the padding fits");
    /// assert_eq!([header, payload].concat(), [0x80, 96, 0, 5, 0, 0, 0, 100, 0, 0, 0, 44, b'h', b'i']);
    /// # Ok::<(), Box<dyn std::error::Error>>(())
    /// ```
    #[must_use]
    #[inline]
    pub fn without_padding(mut self) -> RoutedSlot {
        self.clears_padding = 1;
        self
    }

    /// Where the receiver's header lies in the buffer, with the original number behind that of a retransmission.
    ///
    /// # Errors
    ///
    /// Those of [`HeaderTemplate::write_headers`](crate::HeaderTemplate::write_headers); [`NotWritten::BadField`] also
    /// where that wasn't called yet.
    #[inline]
    pub fn range(&self) -> Result<Range<usize>, NotWritten> {
        NotWritten::of_status(self.status)?;
        Ok(self.at..self.at + self.len as usize)
    }
}
