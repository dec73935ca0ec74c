use core::fmt;
use core::iter::FusedIterator;
use core::slice;

use crate::error::{NotRouted, NotWritten};
use crate::group::{Group, PreparedGroup};
use crate::growing::number_of;
use crate::packet::Packet;
use crate::packet_mut::Fields;
use crate::sys;
use crate::views::{RoutedSlot, TemplateParts};

/// A packet's header for a group of receivers, each of which gets a copy with fields and data of its own before the one
/// payload, which stays where it lies (`writev`; RFC 7667, 3.7). It is what
/// [`PacketMut::set_fields`](crate::PacketMut::set_fields), [`renumber`](crate::PacketMut::renumber),
/// [`put_element`](crate::put_element) for each element and [`compact`](crate::compact) make of a copy of the packet's
/// header, one after another, with [`change_form`](crate::change_form) before `renumber` where a new id is above 14 and
/// the two-byte form is allowed. The header lies in a buffer of the caller's, which is lent to the template.
///
/// ```
/// use rtp_wire::{Fields, Group, HeaderTemplate, NewIds, NotWritten, Packet, Place, RoutedSlot};
///
/// let datagram = [0x90, 96, 0, 5, 0, 0, 0, 100, 0, 0, 0, 44, 0xBE, 0xDE, 0, 1, 0x10, 0xAA, 0, 0, b'h', b'i'];
/// let numbers = [0, 7, 0, 8]; // a transport number for each receiver: two bytes of the id 4
/// let group = Group {
///     ids: &NewIds::new().with(1, 3),
///     data: &numbers,
///     elements: &[Place::new(4, 0..2)],
///     allowed: None,
/// };
/// let mut room = [0; 304];
/// let template = HeaderTemplate::new(&Packet::parse(&datagram)?, &group, &mut room)?;
///
/// let fields = |ssrc| Fields { ssrc: Some(ssrc), ..Fields::default() };
/// let mut receivers = [(45, 0), (46, 2), (47, 3)]
///     .map(|(ssrc, data_at)| RoutedSlot::new(&fields(ssrc), data_at));
/// let mut buf = [0; 3 * 306]; // the template's header_len and two bytes for each are enough
/// let mut headers = template.write_headers(&numbers, &mut receivers, &mut buf);
/// assert!(headers.next().is_some_and(|it| it.is_ok()));
/// let second = [0x90, 96, 0, 5, 0, 0, 0, 100, 0, 0, 0, 46, 0xBE, 0xDE, 0, 2, 0x30, 0xAA, 0x41, 0, 8, 0, 0, 0];
/// assert_eq!(headers.next(), Some(Ok(&second[..])));
/// assert_eq!(headers.next(), Some(Err(NotWritten::BadField))); // there is one byte of data where two are due
/// # Ok::<(), Box<dyn std::error::Error>>(())
/// ```
///
/// What it was made in can't be changed while it is used:
///
/// ```compile_fail,E0506
/// # use rtp_wire::{Group, HeaderTemplate, NewIds, Packet};
/// let mut room = [0; 304];
/// let packet = Packet::parse(&[0x80, 0, 0, 0, 0, 0, 0, 0, 0, 0, 0, 0]).unwrap();
/// let group = Group { ids: &NewIds::new(), data: &[], elements: &[], allowed: None };
/// let template = HeaderTemplate::new(&packet, &group, &mut room).unwrap();
/// room[0] = 0;
/// template.header();
/// ```
#[derive(Clone, Copy)]
pub struct HeaderTemplate<'a> {
    header: &'a [u8],
    parts: TemplateParts,
}

impl<'a> HeaderTemplate<'a> {
    /// The most elements that are put into a header.
    pub const MAX_ELEMENTS: usize = 16;

    /// Makes the header that the packet gets for the group, at the front of the buffer. An id above 14 asks for the
    /// two-byte form, where that is allowed. A buffer of twice the packet's header and 264 bytes for each element has
    /// room.
    ///
    /// # Errors
    ///
    /// [`NotRouted`] says why there is none; the buffer may hold anything then.
    ///
    /// ```
    /// use rtp_wire::{Group, HeaderTemplate, NewIds, NotRouted, Packet, Place};
    ///
    /// let packet = Packet::parse(&[0x80, 96, 0, 5, 0, 0, 0, 100, 0, 0, 0, 44])?;
    /// let elements = [Place::new(4, 0..2), Place::new(4, 0..1)];
    /// let mut group = Group { ids: &NewIds::new(), data: &[0, 7], elements: &elements, allowed: None };
    /// let mut room = [0; 552];
    /// assert_eq!(HeaderTemplate::new(&packet, &group, &mut room).err(), Some(NotRouted::RepeatedId));
    /// group.elements = &elements[..1];
    /// let template = HeaderTemplate::new(&packet, &group, &mut room)?;
    /// assert_eq!((template.header_len(), template.data_len()), (20, 2));
    /// # Ok::<(), Box<dyn std::error::Error>>(())
    /// ```
    pub fn new(
        packet: &Packet<'_>,
        group: &Group<'_>,
        buf: &'a mut [u8],
    ) -> Result<HeaderTemplate<'a>, NotRouted> {
        let mut parts = TemplateParts::default();
        let status = sys::make_template(
            packet.datagram(),
            &group.ids.ids,
            group.data,
            group.elements,
            number_of(group.allowed),
            buf,
            &mut parts,
        );
        NotRouted::check(status, group.elements)?;
        Ok(HeaderTemplate::of(parts, buf))
    }

    /// Makes the header that the packet gets for a group that was prepared, in the same way, with zeros for the data of
    /// the group's elements: each receiver brings its own.
    ///
    /// # Errors
    ///
    /// Those of [`new`](HeaderTemplate::new) that the packet and the buffer are the cause of.
    ///
    /// ```
    /// use rtp_wire::{Fields, HeaderTemplate, NewIds, Packet, Place, PreparedGroup};
    ///
    /// let group = PreparedGroup::new(&NewIds::new().with(1, 3), &[Place::new(4, 0..2)], None)?; // once
    ///
    /// let packet = [0x90, 96, 0, 5, 0, 0, 0, 100, 0, 0, 0, 44, 0xBE, 0xDE, 0, 1, 0x10, 0xAA, 0, 0];
    /// let mut room = [0; 304];
    /// let template = HeaderTemplate::from_group(&Packet::parse(&packet)?, &group, &mut room)?; // for each packet
    /// let mut header = [0; 24];
    /// let fields = Fields { ssrc: Some(46), ..Fields::default() };
    /// assert_eq!(template.write_header(&fields, &[0, 8], &mut header), Ok(24));
    /// assert_eq!(header[..12], [0x90, 96, 0, 5, 0, 0, 0, 100, 0, 0, 0, 46]);
    /// assert_eq!(header[12..], [0xBE, 0xDE, 0, 2, 0x30, 0xAA, 0x41, 0, 8, 0, 0, 0]);
    /// # Ok::<(), Box<dyn std::error::Error>>(())
    /// ```
    pub fn from_group(
        packet: &Packet<'_>,
        group: &PreparedGroup,
        buf: &'a mut [u8],
    ) -> Result<HeaderTemplate<'a>, NotRouted> {
        let mut parts = TemplateParts::default();
        let status = sys::make_from_group(&group.stored, packet.datagram(), buf, &mut parts);
        NotRouted::check(status, &[])?;
        Ok(HeaderTemplate::of(parts, buf))
    }

    /// What was made, at the front of the buffer.
    fn of(parts: TemplateParts, buf: &'a [u8]) -> HeaderTemplate<'a> {
        let header = &buf[..parts.header_len as usize];
        HeaderTemplate { header, parts }
    }

    /// The header that was made, with the packet's fields and the group's data, or zeros where it was prepared.
    #[must_use]
    pub fn header(&self) -> &'a [u8] {
        self.header
    }

    /// How many bytes it has, and each that is written; that of a retransmission has 2 more.
    #[must_use]
    pub fn header_len(&self) -> usize {
        self.header.len()
    }

    /// How many bytes of data each receiver brings: those of the group's elements, 0 to 4,080.
    #[must_use]
    pub fn data_len(&self) -> usize {
        self.parts.data_total.into()
    }

    /// Writes the header with these fields and these data, which are those of the group's elements one after another, to
    /// the front of the buffer, and returns how many bytes it has; those after them stay. P is the packet's: where the
    /// payload is sent without its padding, [`PacketMut::set_padding`](crate::PacketMut::set_padding) clears it.
    ///
    /// # Errors
    ///
    /// [`NotWritten::BadField`] where the payload type is above 127, or the data aren't as many as
    /// [`data_len`](HeaderTemplate::data_len) says; [`NotWritten::ShortBuffer`]. Nothing is written then.
    ///
    /// ```
    /// use rtp_wire::{Fields, Group, HeaderTemplate, NewIds, Packet, Place};
    ///
    /// let packet = Packet::parse(&[0x80, 96, 0, 5, 0, 0, 0, 100, 0, 0, 0, 44])?;
    /// let group = Group { ids: &NewIds::new(), data: &[0, 7], elements: &[Place::new(4, 0..2)], allowed: None };
    /// let mut room = [0; 288];
    /// let template = HeaderTemplate::new(&packet, &group, &mut room)?;
    /// let mut header = [0; 20];
    /// let fields = Fields { sequence_number: Some(9), ..Fields::default() };
    /// assert_eq!(template.write_header(&fields, &[0, 8], &mut header), Ok(20));
    /// assert_eq!(header, [0x90, 96, 0, 9, 0, 0, 0, 100, 0, 0, 0, 44, 0xBE, 0xDE, 0, 1, 0x41, 0, 8, 0]);
    /// # Ok::<(), Box<dyn std::error::Error>>(())
    /// ```
    pub fn write_header(
        &self,
        fields: &Fields,
        data: &[u8],
        buf: &mut [u8],
    ) -> Result<usize, NotWritten> {
        self.write_alone(RoutedSlot::new(fields, 0), data, buf)
    }

    /// Writes the header of a retransmission (RFC 4588, 4) in the same way: the fields are those of its own stream, with
    /// the timestamp and marker that the receiver got the packet with where these were its own, P is clear, and the last
    /// two bytes are the original number, with which it got the packet. The payload follows without its padding, which
    /// isn't looked at here. That is what [`to_retransmission`](crate::to_retransmission) makes of what the receiver
    /// got, where each id stays.
    ///
    /// # Errors
    ///
    /// Those of [`write_header`](HeaderTemplate::write_header).
    ///
    /// ```
    /// use rtp_wire::{Fields, Group, HeaderTemplate, NewIds, Packet, Place};
    ///
    /// let packet = Packet::parse(&[0xA0, 96, 0, 5, 0, 0, 0, 100, 0, 0, 0, 44, b'h', b'i', 0, 2])?;
    /// let group = Group { ids: &NewIds::new(), data: &[0, 7], elements: &[Place::new(4, 0..2)], allowed: None };
    /// let mut room = [0; 288];
    /// let template = HeaderTemplate::new(&packet, &group, &mut room)?;
    /// let mut header = [0; 22];
    /// let stream = Fields { payload_type: Some(97), sequence_number: Some(9), ssrc: Some(45), ..Fields::default() };
    /// assert_eq!(template.write_retransmission(&stream, 0x0105, &[0, 8], &mut header), Ok(22));
    /// assert_eq!(header, [0x90, 97, 0, 9, 0, 0, 0, 100, 0, 0, 0, 45, 0xBE, 0xDE, 0, 1, 0x41, 0, 8, 0, 1, 5]);
    /// # Ok::<(), Box<dyn std::error::Error>>(())
    /// ```
    pub fn write_retransmission(
        &self,
        fields: &Fields,
        original_number: u16,
        data: &[u8],
        buf: &mut [u8],
    ) -> Result<usize, NotWritten> {
        let receiver = RoutedSlot::retransmission(fields, original_number, 0);
        self.write_alone(receiver, data, buf)
    }

    fn write_alone(
        &self,
        mut receiver: RoutedSlot,
        data: &[u8],
        buf: &mut [u8],
    ) -> Result<usize, NotWritten> {
        if data.len() != self.data_len() {
            return Err(NotWritten::BadField);
        }
        self.write(data, slice::from_mut(&mut receiver), buf);
        receiver.range().map(|it| it.len())
    }

    /// Writes the headers of many receivers, each with the fields of its slot and the data that its slot says: in `data`
    /// there are [`data_len`](HeaderTemplate::data_len) bytes for each, those of the group's elements one after another.
    /// They are written in the order of the slots, one behind another from the buffer's first byte on: so none overlaps
    /// another, and [`header_len`](HeaderTemplate::header_len) and two bytes for each are room enough. Bytes behind the
    /// last one stay. What each gets is lent in that order, or told by [`RoutedSlot::range`].
    ///
    /// P of each but a retransmission is the packet's: behind it goes [`Packet::payload`], with its padding, or
    /// [`Packet::unpadded_payload`] where the slot is [`without_padding`](RoutedSlot::without_padding).
    ///
    /// # Errors
    ///
    /// Each has a result of its own: [`NotWritten::BadField`] where its payload type is above 127, or its data reach
    /// past `data`; [`NotWritten::ShortBuffer`] where its header would reach past the buffer. That one takes no bytes
    /// then, and all others are as without it.
    pub fn write_headers<'s, 'b>(
        &self,
        data: &[u8],
        receivers: &'s mut [RoutedSlot],
        buf: &'b mut [u8],
    ) -> RoutedHeaders<'s, 'b> {
        self.write(data, receivers, buf);
        RoutedHeaders {
            buf,
            slots: receivers.iter(),
        }
    }

    fn write(&self, data: &[u8], receivers: &mut [RoutedSlot], buf: &mut [u8]) {
        let status = sys::write_headers(&self.parts, self.header, data, receivers, buf);
        assert!(status == sys::OK, "what was made stays a template");
    }
}

impl fmt::Debug for HeaderTemplate<'_> {
    fn fmt(&self, f: &mut fmt::Formatter<'_>) -> fmt::Result {
        f.debug_struct("HeaderTemplate")
            .field("header", &self.header)
            .field("data_len", &self.data_len())
            .finish_non_exhaustive()
    }
}

/// The headers that [`HeaderTemplate::write_headers`] wrote, in the order of their slots.
#[derive(Clone)]
pub struct RoutedHeaders<'s, 'b> {
    buf: &'b [u8],
    slots: slice::Iter<'s, RoutedSlot>,
}

impl<'b> RoutedHeaders<'_, 'b> {
    fn header(&self, slot: &RoutedSlot) -> Result<&'b [u8], NotWritten> {
        Ok(&self.buf[slot.range()?])
    }
}

impl<'b> Iterator for RoutedHeaders<'_, 'b> {
    type Item = Result<&'b [u8], NotWritten>;

    #[inline]
    fn next(&mut self) -> Option<Self::Item> {
        let slot = self.slots.next()?;
        Some(self.header(slot))
    }

    fn size_hint(&self) -> (usize, Option<usize>) {
        self.slots.size_hint()
    }
}

impl DoubleEndedIterator for RoutedHeaders<'_, '_> {
    fn next_back(&mut self) -> Option<Self::Item> {
        let slot = self.slots.next_back()?;
        Some(self.header(slot))
    }
}

impl ExactSizeIterator for RoutedHeaders<'_, '_> {}
impl FusedIterator for RoutedHeaders<'_, '_> {}

impl fmt::Debug for RoutedHeaders<'_, '_> {
    fn fmt(&self, f: &mut fmt::Formatter<'_>) -> fmt::Result {
        f.debug_list().entries(self.clone()).finish()
    }
}
