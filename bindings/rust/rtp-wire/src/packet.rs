use core::fmt;
use core::iter::FusedIterator;

use crate::elements::Elements;
use crate::error::{NotAPacket, NotRtp};
use crate::header::Header;
use crate::map::Map;
use crate::standard::parse_token;
use crate::sys;
use crate::views::{PacketParts, WholePacket};

/// The form of an extension block (RFC 8285, 4.2 and 4.3).
#[derive(Clone, Copy, Debug, PartialEq, Eq, Hash)]
pub enum Form {
    /// 0xBEDE: ids up to 14, and 1 to 16 bytes of data.
    OneByte,
    /// 0x1000 to 0x100F: ids up to 255, and up to 255 bytes of data.
    TwoByte,
}

impl Form {
    pub(crate) fn number(self) -> u8 {
        match self {
            Form::OneByte => sys::ONE_BYTE_FORM,
            Form::TwoByte => sys::TWO_BYTE_FORM,
        }
    }
}

/// A packet in the bytes of its datagram: nothing is copied.
#[derive(Clone, Copy, PartialEq, Eq)]
pub struct Packet<'a> {
    datagram: &'a [u8],
    parts: PacketParts,
}

impl<'a> Packet<'a> {
    /// Reads a packet of RTP, and its header with the values of its block under the map: in one call what
    /// [`is_rtcp`], [`parse`](Packet::parse) and [`Header::parse`] tell. A block of another form gives no values.
    ///
    /// ```
    /// use rtp_wire::{Map, NotRtp, Packet};
    ///
    /// let map = Map::standard(); // 1 is the audio level
    /// let datagram = b"\xB0\x60\0\x05\0\0\0\xA0\0\0\0\x07\xBE\xDE\0\x01\x10\x8A\0\0hi\0\x02";
    /// let (packet, header) = Packet::read(datagram, &map)?;
    /// assert_eq!((header.ssrc, header.values.audio_level), (7, Some(-10)));
    /// assert_eq!(packet.unpadded_payload(), Some(&b"hi"[..])); // two bytes of padding are behind it
    /// let report = [0x80, 201, 0, 1, 0, 0, 0, 7];
    /// assert_eq!(Packet::read(&report, &map), Err(NotRtp::Rtcp));
    /// # Ok::<(), NotRtp>(())
    /// ```
    ///
    /// # Errors
    ///
    /// [`NotRtp::Rtcp`], before all else, of RTCP, however short it is; else the first cause for which the datagram is
    /// no packet.
    pub fn read(datagram: &'a [u8], map: &Map) -> Result<(Packet<'a>, Header), NotRtp> {
        let mut whole = WholePacket::default();
        NotRtp::of_status(sys::read(datagram, &map.kinds, &mut whole))?;
        Ok((
            Packet::of_whole(datagram, &whole),
            Header::of(&whole.header),
        ))
    }

    /// Reads the header of the packet that the datagram is. On a port that RTP and RTCP share
    /// [`is_rtcp`] comes first.
    ///
    /// # Errors
    ///
    /// The first cause for which it is none. A block of any form may follow the sources.
    pub fn parse(datagram: &'a [u8]) -> Result<Packet<'a>, NotAPacket> {
        let mut parts = PacketParts::default();
        NotAPacket::of_status(sys::packet_parse(datagram, &mut parts))?;
        Ok(Packet { datagram, parts })
    }

    /// The packet that was read of the datagram.
    #[inline]
    pub(crate) fn of(datagram: &'a [u8], parts: PacketParts) -> Packet<'a> {
        Packet { datagram, parts }
    }

    /// The same of one that was read with its values.
    #[inline]
    pub(crate) fn of_whole(datagram: &'a [u8], whole: &WholePacket) -> Packet<'a> {
        let header = &whole.header;
        let parts = PacketParts {
            payload_at: header.header_len,
            payload_len: datagram.len() - header.header_len,
            unpadded_len: whole.unpadded_len,
            body_at: whole.body_at,
            body_len: whole.body_len,
            timestamp: header.timestamp,
            ssrc: header.ssrc,
            sequence_number: header.sequence_number,
            payload_type: header.payload_type,
            csrc_count: header.csrc_count,
            marker: header.marker,
            has_padding: header.has_padding,
            padding_fits: whole.padding_fits,
            block_form: whole.block_form,
            block_profile: whole.block_profile,
        };
        Packet { datagram, parts }
    }

    /// The whole datagram.
    #[must_use]
    pub fn datagram(&self) -> &'a [u8] {
        self.datagram
    }

    /// M.
    #[must_use]
    pub fn marker(&self) -> bool {
        self.parts.marker != 0
    }

    /// What the payload is, 0 to 127.
    #[must_use]
    pub fn payload_type(&self) -> u8 {
        self.parts.payload_type
    }

    /// The low 16 bits of the packet's number.
    #[must_use]
    pub fn sequence_number(&self) -> u16 {
        self.parts.sequence_number
    }

    /// The moment of the payload's first byte, in ticks of its own clock.
    #[must_use]
    pub fn timestamp(&self) -> u32 {
        self.parts.timestamp
    }

    /// The stream's source.
    #[must_use]
    pub fn ssrc(&self) -> u32 {
        self.parts.ssrc
    }

    /// The contributing sources, at most 15, in order.
    #[must_use]
    pub fn csrcs(&self) -> Csrcs<'a> {
        let list = &self.datagram[sys::CSRC_AT..];
        Csrcs {
            list: &list[..4 * usize::from(self.parts.csrc_count)],
        }
    }

    /// How many bytes the header takes: 12 to 262,216.
    #[must_use]
    pub fn header_len(&self) -> usize {
        self.parts.payload_at
    }

    /// The payload with any padding.
    #[must_use]
    pub fn payload(&self) -> &'a [u8] {
        &self.datagram[self.parts.payload_at..]
    }

    /// P: whether there is padding at the end of the payload.
    #[must_use]
    pub fn has_padding(&self) -> bool {
        self.parts.has_padding != 0
    }

    /// The payload without its padding; `None` where the padding's last byte counts more bytes than the
    /// payload has. A last byte of 0 takes nothing away, and neither does P of an empty payload. Of SRTP the
    /// padding is encrypted: decrypt first.
    #[must_use]
    pub fn unpadded_payload(&self) -> Option<&'a [u8]> {
        if self.parts.padding_fits == 0 {
            return None;
        }
        Some(&self.payload()[..self.parts.unpadded_len])
    }

    /// The form of the block; `None` where the packet has none (X is clear), or one of another form.
    #[must_use]
    pub fn form(&self) -> Option<Form> {
        match self.parts.block_form {
            sys::ONE_BYTE_FORM => Some(Form::OneByte),
            sys::TWO_BYTE_FORM => Some(Form::TwoByte),
            _ => None,
        }
    }

    /// The form and the body of the block, after the four bytes of its header; `None` as [`form`](Packet::form).
    #[must_use]
    pub fn block(&self) -> Option<(Form, &'a [u8])> {
        Some((self.form()?, self.body()?))
    }

    /// The 16 bits that the block begins with, those of a form or others, which its profile defines (RFC 3550,
    /// 5.3.1): 0xABAC of ONVIF's cameras, say, and 0xC0DE and 0xC2DE of Cryptex (RFC 9335). `None` where X is clear.
    ///
    /// ```
    /// let datagram = [
    ///     0x90, 0x60, 0, 5, 0, 0, 0, 100, 0, 0, 0, 44, 0xAB, 0xAC, 0, 3, 0xE5, 0x8B, 0x3C, 0x40, 0x80, 0, 0, 0,
    ///     0xE0, 7, 0, 0, 1, 2,
    /// ];
    /// let packet = rtp_wire::Packet::parse(&datagram)?;
    /// assert_eq!((packet.block_profile(), packet.form()), (Some(0xABAC), None));
    /// let seconds = packet.body().and_then(|body| body.first_chunk::<4>());
    /// assert_eq!(seconds.map(|it| u32::from_be_bytes(*it)), Some(0xE58B_3C40));
    /// # Ok::<(), rtp_wire::NotAPacket>(())
    /// ```
    #[must_use]
    pub fn block_profile(&self) -> Option<u16> {
        (self.parts.block_form != sys::NO_BLOCK).then_some(self.parts.block_profile)
    }

    /// The body of the block, of any form, after the four bytes of its header; `None` where X is clear.
    #[must_use]
    pub fn body(&self) -> Option<&'a [u8]> {
        let body = &self.datagram[self.parts.body_at..self.parts.payload_at];
        (self.parts.block_form != sys::NO_BLOCK).then_some(body)
    }

    /// The elements of the block, in order: none where there is no block, or one of another form. One of the id 0 with
    /// length bits (RFC 8285, 4.2) is told with the id 0, which no call writes, and those behind it are told too.
    #[must_use]
    pub fn elements(&self) -> Elements<'a> {
        Elements::of(self.block())
    }

    /// The data of the last element of this id, which is the one that counts.
    #[must_use]
    pub fn element(&self, id: u8) -> Option<&'a [u8]> {
        last_data(self.block()?, id)
    }

    /// The text of the last element of this id as it lies, as [`parse_token`] has it: that of
    /// [`Map::id_of`](crate::Map::id_of) of [`Kind::Mid`](crate::Kind::Mid), say. `None` where there is no element
    /// of the id, or its data are no token. Where the kind doesn't keep it ([`Kind::keeps`](crate::Kind::keeps))
    /// the text of [`Values`](crate::Values) is another one.
    ///
    /// ```
    /// use rtp_wire::{Kind, Map, Packet};
    ///
    /// const MAP: Map = Map::new().with(1, Kind::Mid);
    /// let packet = Packet::parse(b"\x90\0\0\0\0\0\0\0\0\0\0\0\xBE\xDE\0\x02\x14cam-1\0\0")?;
    /// assert_eq!(packet.values(&MAP).mid.as_deref(), Some("cam_1"));
    /// assert_eq!(packet.token(1), Some("cam-1"));
    /// # Ok::<(), rtp_wire::NotAPacket>(())
    /// ```
    #[must_use]
    pub fn token(&self, id: u8) -> Option<&'a str> {
        parse_token(last_data(self.block()?, id)?).ok()
    }
}

/// The data of the last element of this id in a block.
fn last_data((form, body): (Form, &[u8]), id: u8) -> Option<&[u8]> {
    let place = sys::last_element(body, form.number(), id)?;
    Some(&body[place.data()])
}

impl fmt::Debug for Packet<'_> {
    fn fmt(&self, f: &mut fmt::Formatter<'_>) -> fmt::Result {
        f.debug_struct("Packet")
            .field("marker", &self.marker())
            .field("payload_type", &self.payload_type())
            .field("sequence_number", &self.sequence_number())
            .field("timestamp", &self.timestamp())
            .field("ssrc", &self.ssrc())
            .field("form", &self.form())
            .field("block_profile", &self.block_profile())
            .field("header_len", &self.header_len())
            .field("payload_len", &self.payload().len())
            .finish_non_exhaustive()
    }
}

impl<'a> TryFrom<&'a [u8]> for Packet<'a> {
    type Error = NotAPacket;

    fn try_from(datagram: &'a [u8]) -> Result<Packet<'a>, NotAPacket> {
        Packet::parse(datagram)
    }
}

/// Whether a datagram on a port that RTP and RTCP share is RTCP (RFC 5761, 4): it has version 2, and its
/// second byte, the RTCP packet type, is 192 to 223. It comes before [`Packet::parse`], which would take
/// a receiver report for RTP: as RTP that byte is M and a payload type of 64 to 95, which a stream on
/// such a port must not have. `false` of fewer than two bytes.
///
/// ```
/// assert!(rtp_wire::is_rtcp(&[0x80, 201, 0, 1, 0, 0, 0, 0x2C])); // a receiver report
/// assert!(!rtp_wire::is_rtcp(&[0x80, 96, 0, 1]) && !rtp_wire::is_rtcp(&[0x80, 128 + 96, 0, 1]));
/// ```
#[must_use]
pub fn is_rtcp(datagram: &[u8]) -> bool {
    sys::is_rtcp(datagram)
}

/// The contributing sources of a packet: what [`Packet::csrcs`] returns.
#[derive(Clone, Debug)]
pub struct Csrcs<'a> {
    list: &'a [u8],
}

impl Iterator for Csrcs<'_> {
    type Item = u32;

    fn next(&mut self) -> Option<u32> {
        let (source, rest) = self.list.split_first_chunk::<4>()?;
        self.list = rest;
        Some(u32::from_be_bytes(*source))
    }

    fn size_hint(&self) -> (usize, Option<usize>) {
        (self.list.len() / 4, Some(self.list.len() / 4))
    }
}

impl DoubleEndedIterator for Csrcs<'_> {
    fn next_back(&mut self) -> Option<u32> {
        let (rest, source) = self.list.split_last_chunk::<4>()?;
        self.list = rest;
        Some(u32::from_be_bytes(*source))
    }
}

impl ExactSizeIterator for Csrcs<'_> {}
impl FusedIterator for Csrcs<'_> {}
