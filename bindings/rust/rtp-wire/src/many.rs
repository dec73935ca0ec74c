use core::fmt;
use core::iter::FusedIterator;
use core::slice;

use crate::error::{NotRead, NotTaken};
use crate::header::Header;
use crate::map::Map;
use crate::packet::Packet;
use crate::receiver::Receiver;
use crate::sys;

/// A sequence number for one of several receivers, for [`receive_many`](crate::receive_many), and then what became
/// of it. 24 bytes.
pub use crate::views::ArrivalSlot;
/// As [`PacketSlot`], for [`parse_headers`](crate::parse_headers). 248 bytes.
pub use crate::views::HeaderSlot;
/// Room for one of several datagrams that lie in a buffer, for [`parse_packets`](crate::parse_packets): where it lies,
/// and what is read of it. Keep some in an array or a `Vec`, and use them again. 88 bytes.
pub use crate::views::PacketSlot;
/// As [`PacketSlot`], for [`read_packets`](crate::read_packets). 280 bytes.
pub use crate::views::WholeSlot;

/// Reads many datagrams that lie in one buffer, as after `recvmmsg`, each as [`Packet::parse`] reads it: one that is no
/// packet spoils no other. The slots say where each lies; they may overlap.
///
/// ```
/// use rtp_wire::{parse_packets, NotAPacket, NotRead, PacketSlot};
///
/// let buf = [0xA0, 0x21, 0xB7, 0x98, 0, 0, 0x27, 0x10, 0, 0, 0, 0x2C, b'h', b'i', 0, 2, 0x80, 0x21, 0xB7];
/// let mut slots = [PacketSlot::default(); 32]; // used again for each buffer
/// slots[0].set_place(0, 16); // with two bytes of padding
/// slots[1].set_place(16, 3);
/// slots[2].set_place(16, 4);
///
/// let mut datagrams = parse_packets(&buf, &mut slots[..3]);
/// let packet = datagrams.next().expect("the first of three").packet()?;
/// assert_eq!((packet.ssrc(), packet.sequence_number()), (44, 47_000));
/// assert_eq!(packet.unpadded_payload(), Some(&b"hi"[..]));
/// let failures: Vec<_> = datagrams.map(|it| it.packet().expect_err("no packet")).collect();
/// assert_eq!(failures, [NotRead::NotAPacket(NotAPacket::CutFixedPart), NotRead::OutsideOfTheBuffer]);
/// # Ok::<(), NotRead>(())
/// ```
pub fn parse_packets<'s, 'a>(
    buf: &'a [u8],
    slots: &'s mut [PacketSlot],
) -> Datagrams<'s, 'a, PacketSlot> {
    sys::packet_parse_many(buf, slots);
    let slots = slots.iter();
    Datagrams { buf, slots }
}

/// Reads many datagrams as [`parse_packets`] does, each as [`Packet::read`] reads it under the map: the packet, and its
/// header with the values of its block.
///
/// ```
/// use rtp_wire::{read_packets, Map, NotRead, WholeSlot};
///
/// let buf = *b"\xB0\x60\0\x05\0\0\0\xA0\0\0\0\x07\xBE\xDE\0\x01\x10\x8A\0\0hi\0\x02\x80\xC9\0\x01\0\0\0\x07";
/// let mut slots = [WholeSlot::default(); 32]; // used again for each buffer
/// slots[0].set_place(0, 24); // with two bytes of padding
/// slots[1].set_place(24, 8); // a receiver report
/// let map = Map::standard(); // 1 is the audio level
/// let mut datagrams = read_packets(&buf, &map, &mut slots[..2]);
/// let (packet, header) = datagrams.next().expect("the first of two").packet()?;
/// assert_eq!((header.values.audio_level, packet.unpadded_payload()), (Some(-10), Some(&b"hi"[..])));
/// assert_eq!(datagrams.next().expect("the second").packet(), Err(NotRead::Rtcp));
/// # Ok::<(), NotRead>(())
/// ```
pub fn read_packets<'s, 'a>(
    buf: &'a [u8],
    map: &Map,
    slots: &'s mut [WholeSlot],
) -> Datagrams<'s, 'a, WholeSlot> {
    sys::read_many(buf, &map.kinds, slots);
    let slots = slots.iter();
    Datagrams { buf, slots }
}

/// Reads many datagrams as [`parse_packets`] does, each as [`Header::parse`] reads it under the map: its header, with
/// the values of its block.
///
/// ```
/// use rtp_wire::{parse_headers, HeaderSlot, Map};
///
/// let buf = *b"\xB0\x60\0\x05\0\0\0\xA0\0\0\0\x07\xBE\xDE\0\x01\x10\x8A\0\0hi\0\x02";
/// let mut slots = [HeaderSlot::default(); 2];
/// slots[0].set_place(0, 24); // with two bytes of padding
/// slots[1].set_place(0, 19);
/// let map = Map::standard(); // 1 is the audio level
/// let levels: Vec<_> = parse_headers(&buf, &map, &mut slots)
///     .map(|it| Some((it.header().ok()?.values.audio_level?, it.unpadded_payload()?)))
///     .collect();
/// assert_eq!(levels, [Some((-10, &b"hi"[..])), None]);
/// ```
pub fn parse_headers<'s, 'a>(
    buf: &'a [u8],
    map: &Map,
    slots: &'s mut [HeaderSlot],
) -> Datagrams<'s, 'a, HeaderSlot> {
    sys::parse_many(buf, &map.kinds, slots);
    let slots = slots.iter();
    Datagrams { buf, slots }
}

/// Has many packets that needn't be authenticated judged in order, each by the receiver at its index, as
/// [`Receiver::receive`] does.
///
/// ```
/// use rtp_wire::{receive_many, ArrivalSlot, NotTaken, Receiver};
///
/// let mut receivers = [Receiver::starting_at(1)?, Receiver::starting_at(2)?];
/// let mut arrivals = [(0, 5), (1, 5), (0, 5), (2, 5)].map(|(index, number)| ArrivalSlot::new(index, number));
/// receive_many(&mut receivers, &mut arrivals);
/// let numbers = arrivals.map(|it| it.number());
/// assert_eq!(numbers, [Ok(65_541), Ok(131_077), Err(NotTaken::Refused), Err(NotTaken::NoReceiver)]);
/// # Ok::<(), rtp_wire::BadRolloverCount>(())
/// ```
pub fn receive_many(receivers: &mut [Receiver], arrivals: &mut [ArrivalSlot]) {
    sys::receive_many(receivers, arrivals);
}

/// The datagrams that [`read_packets`], [`parse_packets`] or [`parse_headers`] read, in the order of their slots.
#[derive(Clone)]
pub struct Datagrams<'s, 'a, Slot> {
    buf: &'a [u8],
    slots: slice::Iter<'s, Slot>,
}

/// One of several datagrams that were read. Nothing of it is copied: it borrows its slot, and what it lends lies in the
/// buffer.
#[derive(Clone, Copy)]
pub struct Datagram<'s, 'a, Slot> {
    buf: &'a [u8],
    slot: &'s Slot,
}

impl<Slot: fmt::Debug> fmt::Debug for Datagrams<'_, '_, Slot> {
    fn fmt(&self, f: &mut fmt::Formatter<'_>) -> fmt::Result {
        let mut told = f.debug_struct("Datagrams");
        told.field("slots", &self.slots).finish_non_exhaustive()
    }
}

impl<Slot: fmt::Debug> fmt::Debug for Datagram<'_, '_, Slot> {
    fn fmt(&self, f: &mut fmt::Formatter<'_>) -> fmt::Result {
        let mut told = f.debug_struct("Datagram");
        told.field("slot", self.slot).finish_non_exhaustive()
    }
}

impl<'s, 'a, Slot> Iterator for Datagrams<'s, 'a, Slot> {
    type Item = Datagram<'s, 'a, Slot>;

    fn next(&mut self) -> Option<Datagram<'s, 'a, Slot>> {
        let (buf, slot) = (self.buf, self.slots.next()?);
        Some(Datagram { buf, slot })
    }

    fn size_hint(&self) -> (usize, Option<usize>) {
        self.slots.size_hint()
    }
}

impl<Slot> DoubleEndedIterator for Datagrams<'_, '_, Slot> {
    fn next_back(&mut self) -> Option<Self::Item> {
        let (buf, slot) = (self.buf, self.slots.next_back()?);
        Some(Datagram { buf, slot })
    }
}

impl<Slot> ExactSizeIterator for Datagrams<'_, '_, Slot> {}
impl<Slot> FusedIterator for Datagrams<'_, '_, Slot> {}

/// The bytes at the place; `None` where that isn't within the buffer.
#[inline]
fn bytes_at(buf: &[u8], at: usize, len: usize) -> Option<&[u8]> {
    buf.get(at..)?.get(..len)
}

impl<'a> Datagram<'_, 'a, PacketSlot> {
    /// All of its bytes; `None` where it doesn't lie within the buffer.
    #[must_use]
    #[inline]
    pub fn bytes(&self) -> Option<&'a [u8]> {
        bytes_at(self.buf, self.slot.at, self.slot.len)
    }

    /// Whether it is RTCP, as [`is_rtcp`](crate::is_rtcp) says. On a port that RTP and RTCP share it comes before
    /// [`packet`](Datagram::packet).
    #[must_use]
    #[inline]
    pub fn is_rtcp(&self) -> bool {
        self.slot.is_rtcp != 0
    }

    /// The packet that it is.
    ///
    /// # Errors
    ///
    /// The first cause for which it is none, or [`NotRead::OutsideOfTheBuffer`].
    #[inline]
    pub fn packet(&self) -> Result<Packet<'a>, NotRead> {
        NotRead::of_status(self.slot.status)?;
        let bytes = self.bytes().ok_or(NotRead::OutsideOfTheBuffer)?;
        Ok(Packet::of(bytes, self.slot.packet))
    }
}

impl<'a> Datagram<'_, 'a, WholeSlot> {
    /// All of its bytes; `None` where it doesn't lie within the buffer.
    #[must_use]
    #[inline]
    pub fn bytes(&self) -> Option<&'a [u8]> {
        bytes_at(self.buf, self.slot.at, self.slot.len)
    }

    /// The packet that it is, and its header with the values of its block.
    ///
    /// # Errors
    ///
    /// [`NotRead::Rtcp`], the first cause for which it is no packet, or [`NotRead::OutsideOfTheBuffer`].
    #[inline]
    pub fn packet(&self) -> Result<(Packet<'a>, Header), NotRead> {
        NotRead::of_status(self.slot.status)?;
        let bytes = self.bytes().ok_or(NotRead::OutsideOfTheBuffer)?;
        let whole = &self.slot.packet;
        Ok((Packet::of_whole(bytes, whole), Header::of(&whole.header)))
    }
}

impl<'a> Datagram<'_, 'a, HeaderSlot> {
    /// All of its bytes; `None` where it doesn't lie within the buffer.
    #[must_use]
    #[inline]
    pub fn bytes(&self) -> Option<&'a [u8]> {
        bytes_at(self.buf, self.slot.at, self.slot.len)
    }

    /// Whether it is RTCP, as [`is_rtcp`](crate::is_rtcp) says. On a port that RTP and RTCP share it comes before
    /// [`header`](Datagram::header).
    #[must_use]
    #[inline]
    pub fn is_rtcp(&self) -> bool {
        self.slot.is_rtcp != 0
    }

    /// The header that it begins with, and the values of its block.
    ///
    /// # Errors
    ///
    /// The first cause for which there is none, or [`NotRead::OutsideOfTheBuffer`].
    #[inline]
    pub fn header(&self) -> Result<Header, NotRead> {
        NotRead::of_status(self.slot.status)?;
        Ok(Header::of(&self.slot.header))
    }

    /// The payload with any padding; `None` where there is no [`header`](Datagram::header).
    #[must_use]
    #[inline]
    pub fn payload(&self) -> Option<&'a [u8]> {
        if self.slot.status != sys::OK {
            return None;
        }
        self.bytes()?.get(self.slot.header.header_len..)
    }

    /// The payload without its padding; `None` where there is no [`header`](Datagram::header), or the padding's last
    /// byte counts more bytes than the payload has. Of SRTP the padding is encrypted: decrypt first.
    #[must_use]
    #[inline]
    pub fn unpadded_payload(&self) -> Option<&'a [u8]> {
        let payload = self.payload()?;
        if self.slot.header.has_padding == 0 {
            return Some(payload);
        }
        Packet::parse(self.bytes()?).ok()?.unpadded_payload()
    }
}

impl PacketSlot {
    /// A slot for the datagram of so many bytes that begins there in the buffer.
    #[must_use]
    pub fn new(at: usize, len: usize) -> PacketSlot {
        let mut slot = PacketSlot::default();
        slot.set_place(at, len);
        slot
    }

    /// Uses the slot for the datagram of so many bytes that begins there in the buffer.
    #[inline]
    pub fn set_place(&mut self, at: usize, len: usize) {
        (self.at, self.len) = (at, len);
    }
}

impl WholeSlot {
    /// A slot for the datagram of so many bytes that begins there in the buffer.
    #[must_use]
    pub fn new(at: usize, len: usize) -> WholeSlot {
        let mut slot = WholeSlot::default();
        slot.set_place(at, len);
        slot
    }

    /// Uses the slot for the datagram of so many bytes that begins there in the buffer.
    #[inline]
    pub fn set_place(&mut self, at: usize, len: usize) {
        (self.at, self.len) = (at, len);
    }
}

impl HeaderSlot {
    /// A slot for the datagram of so many bytes that begins there in the buffer.
    #[must_use]
    pub fn new(at: usize, len: usize) -> HeaderSlot {
        let mut slot = HeaderSlot::default();
        slot.set_place(at, len);
        slot
    }

    /// Uses the slot for the datagram of so many bytes that begins there in the buffer.
    #[inline]
    pub fn set_place(&mut self, at: usize, len: usize) {
        (self.at, self.len) = (at, len);
    }
}

impl ArrivalSlot {
    /// A packet with this sequence number, for the receiver at this index.
    #[must_use]
    #[inline]
    pub fn new(receiver: usize, sequence_number: u16) -> ArrivalSlot {
        ArrivalSlot {
            receiver,
            number: 0,
            sequence_number,
            status: sys::BAD_FIELD,
        }
    }

    /// The extended sequence number of the packet, where it was taken.
    ///
    /// # Errors
    ///
    /// [`NotTaken::Refused`] where it is a replay or too old to tell; [`NotTaken::NoReceiver`] where there is no receiver
    /// at its index, or [`receive_many`] wasn't called yet.
    #[inline]
    pub fn number(&self) -> Result<u64, NotTaken> {
        match self.status {
            sys::OK => Ok(self.number),
            sys::REFUSED => Err(NotTaken::Refused),
            _ => Err(NotTaken::NoReceiver),
        }
    }
}
