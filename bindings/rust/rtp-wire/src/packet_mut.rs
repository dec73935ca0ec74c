use core::fmt;

use crate::error::{NotAPacket, NotChanged};
use crate::new_ids::NewIds;
use crate::packet::Packet;
use crate::sys;
use crate::views::FieldsView;

/// Fields that [`PacketMut::set_fields`] sets at once, or that a receiver of a [`HeaderTemplate`](crate::HeaderTemplate)
/// gets of its own; one that is `None` stays as it is.
#[derive(Clone, Copy, Debug, Default, PartialEq, Eq, Hash)]
pub struct Fields {
    /// M.
    pub marker: Option<bool>,
    /// What the payload is, 0 to 127.
    pub payload_type: Option<u8>,
    /// The low 16 bits of the packet's number.
    pub sequence_number: Option<u16>,
    /// The moment of the payload's first byte, in ticks of the payload's own clock.
    pub timestamp: Option<u32>,
    /// The source whose stream this is.
    pub ssrc: Option<u32>,
}

impl Fields {
    #[inline]
    pub(crate) fn view(&self) -> FieldsView {
        FieldsView {
            timestamp: self.timestamp.unwrap_or_default(),
            ssrc: self.ssrc.unwrap_or_default(),
            sequence_number: self.sequence_number.unwrap_or_default(),
            payload_type: self.payload_type.unwrap_or_default(),
            marker: self.marker.unwrap_or_default().into(),
            has_timestamp: self.timestamp.is_some().into(),
            has_ssrc: self.ssrc.is_some().into(),
            has_sequence_number: self.sequence_number.is_some().into(),
            has_payload_type: self.payload_type.is_some().into(),
            has_marker: self.marker.is_some().into(),
        }
    }
}

/// A packet that is changed in the bytes of its datagram: each call changes the part that it names, and
/// no other byte. The datagram stays a packet, of the same length and with the same block form.
///
/// All but [`remove_padding`](PacketMut::remove_padding) needs the header alone: its bytes are a packet
/// without a payload, and what they become is, with the payload behind it, what the whole would become. So
/// a server copies and changes only the header for each receiver.
///
/// ```
/// let datagram = [0x80, 0x21, 0xB7, 0x98, 0, 0, 0x27, 0x10, 0, 0, 0, 0x2C, 1, 2, 3];
/// let (header, payload) = datagram.split_at(rtp_wire::Packet::parse(&datagram)?.header_len());
/// let mut header = header.to_vec();
/// rtp_wire::PacketMut::parse(&mut header)?.set_ssrc(77);
/// let sent = [&header[..], payload].concat(); // by sendmsg, without this copy
/// assert_eq!(rtp_wire::Packet::parse(&sent)?.ssrc(), 77);
/// # Ok::<(), rtp_wire::NotAPacket>(())
/// ```
pub struct PacketMut<'a> {
    datagram: &'a mut [u8],
}

impl<'a> PacketMut<'a> {
    /// Takes the packet that the datagram is.
    ///
    /// # Errors
    ///
    /// The first cause for which it is none.
    pub fn parse(datagram: &'a mut [u8]) -> Result<PacketMut<'a>, NotAPacket> {
        Packet::parse(datagram)?;
        Ok(PacketMut { datagram })
    }

    /// The packet as it is now.
    #[must_use]
    #[expect(clippy::missing_panics_doc, reason = "it is a packet")]
    pub fn as_packet(&self) -> Packet<'_> {
        Packet::parse(self.datagram).expect("what was a packet stays one")
    }

    /// The bytes of the packet, to encrypt the payload in place, say.
    #[must_use]
    pub fn into_datagram(self) -> &'a mut [u8] {
        self.datagram
    }

    /// Sets M.
    pub fn set_marker(&mut self, marker: bool) {
        done(sys::set_marker(self.datagram, marker));
    }

    /// Sets the payload type.
    ///
    /// # Errors
    ///
    /// [`NotChanged::BadPayloadType`] where it is above 127; nothing changes then.
    pub fn set_payload_type(&mut self, payload_type: u8) -> Result<(), NotChanged> {
        let status = sys::set_payload_type(self.datagram, payload_type);
        NotChanged::of_status(status, NotChanged::BadPayloadType)
    }

    /// Sets the sequence number.
    pub fn set_sequence_number(&mut self, number: u16) {
        done(sys::set_sequence_number(self.datagram, number));
    }

    /// Sets the timestamp.
    pub fn set_timestamp(&mut self, timestamp: u32) {
        done(sys::set_timestamp(self.datagram, timestamp));
    }

    /// Sets the SSRC.
    pub fn set_ssrc(&mut self, ssrc: u32) {
        done(sys::set_ssrc(self.datagram, ssrc));
    }

    /// Sets the fields that are given after one look at the packet, and leaves the others.
    ///
    /// # Errors
    ///
    /// [`NotChanged::BadPayloadType`] where a payload type is given that is above 127; nothing changes then.
    ///
    /// ```
    /// use rtp_wire::{Fields, PacketMut};
    ///
    /// let mut datagram = [0x80, 0xE0, 0, 5, 0, 0, 0x27, 0x10, 0, 0, 0, 0x2C];
    /// let mut packet = PacketMut::parse(&mut datagram)?;
    /// packet.set_fields(&Fields {
    ///     payload_type: Some(8),
    ///     sequence_number: Some(6),
    ///     ..Fields::default()
    /// })?;
    /// assert_eq!(datagram[..4], [0x80, 0x88, 0, 6]); // M stays
    /// # Ok::<(), Box<dyn std::error::Error>>(())
    /// ```
    pub fn set_fields(&mut self, fields: &Fields) -> Result<(), NotChanged> {
        let status = sys::set_fields(self.datagram, &fields.view());
        NotChanged::of_status(status, NotChanged::BadPayloadType)
    }

    /// Sets the contributing source at this place, counted from 0.
    ///
    /// # Errors
    ///
    /// [`NotChanged::NoSource`] where the list has no such place; nothing changes then.
    pub fn set_csrc(&mut self, index: usize, source: u32) -> Result<(), NotChanged> {
        let status = sys::set_csrc(self.datagram, index, source);
        NotChanged::of_status(status, NotChanged::NoSource)
    }

    /// Gives the last element of this id these data.
    ///
    /// # Errors
    ///
    /// [`NotChanged::NoElement`] where there is no element of the id, or its last one has another number
    /// of bytes; nothing changes then.
    pub fn set_element(&mut self, id: u8, data: &[u8]) -> Result<(), NotChanged> {
        let status = sys::set_element(self.datagram, id, data);
        NotChanged::of_status(status, NotChanged::NoElement)
    }

    /// Makes each element of this id padding. Returns whether there was one.
    pub fn remove_element(&mut self, id: u8) -> bool {
        sys::remove_element(self.datagram, id) == sys::OK
    }

    /// Sets or clears P, and no other bit: the padding itself is the caller's to write ([`pad`](crate::pad)),
    /// or to keep.
    pub fn set_padding(&mut self, has_padding: bool) {
        done(sys::set_padding(self.datagram, has_padding));
    }

    /// Takes the padding off: clears P, and returns how many bytes the packet then has, which are the
    /// first ones of the datagram; where P is clear, all of them. Of SRTP the padding is encrypted: decrypt
    /// first.
    ///
    /// # Errors
    ///
    /// [`NotChanged::BadPadding`] where the padding's last byte counts more bytes than the payload has;
    /// nothing changes then.
    ///
    /// ```
    /// let mut datagram = [0xA0, 0, 0, 1, 0, 0, 0, 0, 0, 0, 0, 0x2C, 0xAA, 0xBB, 0, 2];
    /// let mut packet = rtp_wire::PacketMut::parse(&mut datagram)?;
    /// assert_eq!(packet.remove_padding(), Ok(14));
    /// assert_eq!(datagram[0], 0x80);
    /// # Ok::<(), rtp_wire::NotAPacket>(())
    /// ```
    pub fn remove_padding(&mut self) -> Result<usize, NotChanged> {
        let mut len = 0;
        let status = sys::remove_padding(self.datagram, &mut len);
        NotChanged::of_status(status, NotChanged::BadPadding)?;
        Ok(len)
    }

    /// Gives each element its new id, and makes one that has none padding.
    ///
    /// # Errors
    ///
    /// [`NotChanged::BadNewId`] where the packet's form can't carry a new id that an element gets: one above
    /// 14 in the one-byte form, of which [`change_form`](crate::change_form) makes the other; nothing changes
    /// then.
    pub fn renumber(&mut self, ids: &NewIds) -> Result<(), NotChanged> {
        let status = sys::renumber(self.datagram, &ids.ids);
        NotChanged::of_status(status, NotChanged::BadNewId)
    }
}

/// A call on a packet does what it is for.
fn done(status: i32) {
    debug_assert_eq!(status, sys::OK);
}

impl<'a> TryFrom<&'a mut [u8]> for PacketMut<'a> {
    type Error = NotAPacket;

    fn try_from(datagram: &'a mut [u8]) -> Result<PacketMut<'a>, NotAPacket> {
        PacketMut::parse(datagram)
    }
}

impl fmt::Debug for PacketMut<'_> {
    fn fmt(&self, f: &mut fmt::Formatter<'_>) -> fmt::Result {
        self.as_packet().fmt(f)
    }
}
