use crate::elements::Place;
use crate::error::{NotAHeader, NotChanged, NotWritten};
use crate::kind_set::KindSet;
use crate::layers::Layers;
use crate::map::Map;
use crate::packet::Form;
use crate::sys;
use crate::values::Values;
use crate::views::HeaderView;

/// The header of a packet (RFC 3550, 5.1), with the values of its block: read by
/// [`parse`](Header::parse), or filled and written by [`write_all`](Header::write_all), or by
/// [`write_to`](Header::write_to) where values may be left out.
///
/// ```
/// use rtp_wire::{Header, Kind, Map, Values};
///
/// const MAP: Map = Map::new().with(3, Kind::Mid);
/// let mut values = Values::default();
/// values.mid = Some("1".parse()?);
/// let mut header = Header::with_values(values);
/// header.payload_type = 33;
/// header.sequence_number = 47_000;
///
/// let mut datagram = [0; 1500];
/// let len = header.write_all(&mut datagram, &MAP)?;
/// assert_eq!(datagram[..len], [0x90, 33, 0xB7, 0x98, 0, 0, 0, 0, 0, 0, 0, 0, 0xBE, 0xDE, 0, 1, 0x30, b'1', 0, 0]);
///
/// let read = Header::parse(&datagram, &MAP)?;
/// assert_eq!(read.values.mid.as_deref(), Some("1"));
/// # Ok::<(), Box<dyn std::error::Error>>(())
/// ```
#[derive(Clone, Copy, Debug, Default, PartialEq, Eq, Hash)]
#[expect(clippy::struct_field_names, reason = "header_len is a word of its own")]
pub struct Header {
    /// M.
    pub marker: bool,
    /// What the payload is, 0 to 127.
    pub payload_type: u8,
    /// The low 16 bits of the packet's number.
    pub sequence_number: u16,
    /// The moment of the payload's first byte, in ticks of its own clock.
    pub timestamp: u32,
    /// The stream's source.
    pub ssrc: u32,
    /// P: whether there is padding at the end of the payload. Padding is no part of a header: the payload behind
    /// [`header_len`](Header::header_len) ends with it, and [`Packet::unpadded_payload`](crate::Packet::unpadded_payload)
    /// is the payload without. As written only with padding behind the payload ([`pad`](crate::pad)): clear it where a
    /// header that was read is written before a payload without its padding, or each peer takes the payload's last bytes
    /// for padding.
    pub has_padding: bool,
    /// X: whether there is a block of elements.
    pub has_extension: bool,
    /// What the elements of the block say: nothing without a block.
    pub values: Values,
    csrcs: [u32; 15],
    csrc_count: u8,
    header_len: usize,
}

impl Header {
    /// A header with these values, all else 0 or clear: X is set exactly where one of them is there, so that
    /// what is given is written.
    ///
    /// ```
    /// use rtp_wire::{Header, Values};
    ///
    /// let mut values = Values::default();
    /// values.mid = Some("1".parse()?);
    /// assert!(Header::with_values(values).has_extension);
    /// assert!(!Header::with_values(Values::default()).has_extension);
    /// # Ok::<(), rtp_wire::NotAText>(())
    /// ```
    #[must_use]
    pub fn with_values(values: Values) -> Header {
        Header {
            has_extension: values != Values::default(),
            values,
            ..Header::default()
        }
    }

    /// Reads the header that the datagram begins with, and the values of its block under the map: all but a layer
    /// allocation ([`parse_with_layers`](Header::parse_with_layers)), which [`left_out`](Header::left_out) then doesn't
    /// know of.
    ///
    /// # Errors
    ///
    /// The first cause for which there is none.
    pub fn parse(datagram: &[u8], map: &Map) -> Result<Header, NotAHeader> {
        let mut view = HeaderView::default();
        NotAHeader::of_status(sys::parse(datagram, &map.kinds, &mut view))?;
        Ok(Header::of(&view))
    }

    /// Reads the header and, where the packet has one, the layer allocation.
    ///
    /// # Errors
    ///
    /// Those of [`parse`](Header::parse).
    pub fn parse_with_layers(
        datagram: &[u8],
        map: &Map,
    ) -> Result<(Header, Option<Layers>), NotAHeader> {
        let mut view = HeaderView::default();
        let mut layers = Layers::default();
        let status = sys::parse_layers(datagram, &map.kinds, &mut view, &mut layers);
        NotAHeader::of_status(status)?;
        let layers = (view.values.has_layers != 0).then_some(layers);
        Ok((Header::of(&view), layers))
    }

    /// How many bytes the header took that was read: the payload begins there, and ends with padding where
    /// [`has_padding`](Header::has_padding) is set. It is 0 where none was.
    #[must_use]
    pub fn header_len(&self) -> usize {
        self.header_len
    }

    /// The contributing sources, in order.
    #[must_use]
    pub fn csrcs(&self) -> &[u32] {
        &self.csrcs[..usize::from(self.csrc_count)]
    }

    /// Sets the contributing sources.
    ///
    /// # Errors
    ///
    /// [`NotChanged::TooManySources`] where there are more than 15; nothing changes then.
    pub fn set_csrcs(&mut self, csrcs: &[u32]) -> Result<(), NotChanged> {
        let mut list = [0; 15];
        let used = list.get_mut(..csrcs.len());
        used.ok_or(NotChanged::TooManySources)?
            .copy_from_slice(csrcs);
        self.csrcs = list;
        self.csrc_count = csrcs.len() as u8; // at most 15
        Ok(())
    }

    /// How many bytes [`write_to`](Header::write_to) writes: a multiple of 4, 12 to 4,668.
    ///
    /// # Errors
    ///
    /// [`NotWritten::BadField`], as `write_to`.
    pub fn wire_len(&self, map: &Map) -> Result<usize, NotWritten> {
        let mut len = 0;
        NotWritten::of_status(sys::wire_len(&map.kinds, &self.view(), &mut len))?;
        Ok(len)
    }

    /// Writes the header to the front of the buffer, and returns how many bytes it took; those after
    /// them stay. Where there is a block it has an element for each mapped id whose value is there, by
    /// rising id, in the one-byte form where no id above 14 and no [`Kind::Layers`](crate::Kind::Layers)
    /// is mapped, and no text of a mapped kind is empty. A layer allocation isn't written
    /// ([`write_with_layers`](Header::write_with_layers)). A value without an id, or without a block, is
    /// left out, and no error says so: [`left_out`](Header::left_out) tells these, and
    /// [`write_all`](Header::write_all) refuses them.
    ///
    /// # Errors
    ///
    /// [`NotWritten::BadField`] where the payload type is above 127, the orientation none of the four or the audio level
    /// none of -127 to 0, and else [`NotWritten::ShortBuffer`] where the buffer has too few bytes; nothing is written
    /// then.
    ///
    /// ```
    /// use rtp_wire::{Header, Map, Packet};
    ///
    /// let datagram = [0xA0, 96, 0, 5, 0, 0, 0, 160, 0, 0, 0, 7, 1, 2, 0, 2]; // two bytes of padding
    /// let payload = Packet::parse(&datagram)?.unpadded_payload().expect("the padding fits");
    /// let mut header = Header::parse(&datagram, &Map::new())?;
    /// header.ssrc = 44;
    /// header.has_padding = false; // the payload is sent on without it
    /// let mut buf = [0; 1500];
    /// let len = header.write_to(&mut buf, &Map::new())?;
    /// let sent = [&buf[..len], payload].concat();
    /// assert_eq!(sent, [0x80, 96, 0, 5, 0, 0, 0, 160, 0, 0, 0, 44, 1, 2]);
    /// # Ok::<(), Box<dyn std::error::Error>>(())
    /// ```
    pub fn write_to(&self, buf: &mut [u8], map: &Map) -> Result<usize, NotWritten> {
        let mut len = 0;
        NotWritten::of_status(sys::write(&map.kinds, &self.view(), buf, &mut len))?;
        Ok(len)
    }

    /// How many bytes [`write_with_layers`](Header::write_with_layers) writes: a multiple of 4, 12 to 65,612.
    ///
    /// # Errors
    ///
    /// [`NotWritten::BadField`], as `write_with_layers`.
    pub fn wire_len_with_layers(&self, map: &Map, layers: &Layers) -> Result<usize, NotWritten> {
        let mut len = 0;
        let status = sys::wire_len_layers(&map.kinds, &self.view(), layers, &mut len);
        NotWritten::of_status(status)?;
        Ok(len)
    }

    /// Writes the header as [`write_to`](Header::write_to) does, and these layers, in an element for each id
    /// that the map has for [`Kind::Layers`](crate::Kind::Layers): so what
    /// [`parse_with_layers`](Header::parse_with_layers) read is written again. A stream is written without
    /// the layers at its end that aren't active.
    ///
    /// # Errors
    ///
    /// Those of `write_to`; and [`NotWritten::BadField`] where no element can carry the layers, mapped or not:
    /// the packet's stream is above 3, or above 0 without a stream; a rate is 2^63 or more; a width or height is
    /// 0; there is a resolution of a layer that isn't active, or behind an active layer without one; or they
    /// take more than 255 bytes.
    ///
    /// ```
    /// use rtp_wire::{Header, Kind, Layer, Layers, Map, Resolution, Stream};
    ///
    /// const MAP: Map = Map::new().with(5, Kind::Layers);
    /// let hd = Resolution { width: 1280, height: 720, framerate: 30 };
    /// let stream = Stream::new(&[Layer::new(&[300, 500], Some(hd))?])?;
    /// let mut header = Header::default();
    /// header.has_extension = true;
    /// let mut buf = [0; 100];
    /// let len = header.write_with_layers(&mut buf, &MAP, &Layers::new(0, &[stream])?)?;
    /// assert_eq!(buf[16..len], [5, 11, 1, 0x40, 0xAC, 2, 0xF4, 3, 0x04, 0xFF, 0x02, 0xCF, 30, 0, 0, 0]);
    /// # Ok::<(), Box<dyn std::error::Error>>(())
    /// ```
    pub fn write_with_layers(
        &self,
        buf: &mut [u8],
        map: &Map,
        layers: &Layers,
    ) -> Result<usize, NotWritten> {
        let mut len = 0;
        let status = sys::write_layers(&map.kinds, &self.view(), layers, buf, &mut len);
        NotWritten::of_status(status)?;
        Ok(len)
    }

    /// The kinds of which there is a value that [`write_to`](Header::write_to) leaves out: all that are there
    /// where `has_extension` is clear, and else those that aren't mapped, and those of which a second value is
    /// absent, as an audio level without voice or one of two playout delays.
    ///
    /// # Errors
    ///
    /// [`NotWritten::BadField`], as `write_to`.
    ///
    /// ```
    /// use rtp_wire::{Header, Kind, Map, Values};
    ///
    /// const MAP: Map = Map::new().with(3, Kind::AudioLevel);
    /// let mut values = Values::default();
    /// values.audio_level = Some(-42);
    /// values.mid = Some("1".parse()?);
    /// let mut header = Header::with_values(values);
    /// assert!(header.left_out(&MAP)?.iter().eq([Kind::AudioLevel, Kind::Mid]));
    /// header.values.voice_activity = Some(false);
    /// assert!(header.left_out(&MAP)?.iter().eq([Kind::Mid]));
    /// # Ok::<(), Box<dyn std::error::Error>>(())
    /// ```
    pub fn left_out(&self, map: &Map) -> Result<KindSet, NotWritten> {
        let mut kinds = KindSet::default();
        NotWritten::of_status(sys::left_out(&map.kinds, &self.view(), &mut kinds.bits))?;
        Ok(kinds)
    }

    /// The same where [`write_with_layers`](Header::write_with_layers) writes: these layers are left out where
    /// `has_extension` is clear or [`Kind::Layers`](crate::Kind::Layers) isn't mapped.
    ///
    /// # Errors
    ///
    /// [`NotWritten::BadField`], as `write_with_layers`.
    pub fn left_out_with_layers(&self, map: &Map, layers: &Layers) -> Result<KindSet, NotWritten> {
        let mut kinds = KindSet::default();
        let status = sys::left_out_layers(&map.kinds, &self.view(), layers, &mut kinds.bits);
        NotWritten::of_status(status)?;
        Ok(kinds)
    }

    /// Writes the header as [`write_to`](Header::write_to) does, where no value is left out. Of a packet that was read
    /// it writes the values alone: elements that have none, as those of an unknown URI, and a block of another form
    /// aren't seen here. To send it on with all of these change it where it lies
    /// ([`PacketMut`](crate::PacketMut)).
    ///
    /// # Errors
    ///
    /// Those of `write_to`; and, after [`NotWritten::BadField`] and before [`NotWritten::ShortBuffer`],
    /// [`NotWritten::LeftOut`] with the kinds that [`left_out`](Header::left_out) tells, where there are any.
    /// Nothing is written then.
    pub fn write_all(&self, buf: &mut [u8], map: &Map) -> Result<usize, NotWritten> {
        none_left(self.left_out(map)?)?;
        self.write_to(buf, map)
    }

    /// Writes the header as [`write_with_layers`](Header::write_with_layers) does, where no value is left out.
    ///
    /// # Errors
    ///
    /// Those of `write_with_layers`; and [`NotWritten::LeftOut`], as [`write_all`](Header::write_all).
    pub fn write_all_with_layers(
        &self,
        buf: &mut [u8],
        map: &Map,
        layers: &Layers,
    ) -> Result<usize, NotWritten> {
        none_left(self.left_out_with_layers(map, layers)?)?;
        self.write_with_layers(buf, map, layers)
    }

    /// Writes the header with a block of these elements, whatever `has_extension` and `values` hold, and
    /// returns how many bytes it took; those after them stay. Each place is one in `data`. Where `allowed`
    /// is `None` the block is in the one-byte form where that can carry each element: ids 1 to 14, 1 to 16
    /// bytes. `Some` is the one form that it may have, as for a peer that hasn't agreed to both forms in one
    /// stream (RFC 8285, 4.1.2).
    ///
    /// # Errors
    ///
    /// [`NotWritten::BadField`] where the payload type is above 127, or an element has the id 0, more than
    /// 255 bytes or bytes past the end of `data`, or the form that is allowed can't carry it, or all of them
    /// are too long for a block; [`NotWritten::ShortBuffer`]. Nothing is written then.
    ///
    /// ```
    /// use rtp_wire::{Header, Packet, Place};
    ///
    /// let datagram = [0x90, 0, 0, 1, 0, 0, 0, 2, 0, 0, 0, 3, 0xBE, 0xDE, 0, 1, 0x30, 0x8A, 0, 0];
    /// let packet = Packet::parse(&datagram)?;
    /// let (_, body) = packet.block().expect("X is set");
    /// let places: Vec<Place> = packet.elements().places().map(|it| it.with_id(20)).collect();
    /// let mut buf = [0; 100];
    /// let len = Header::default().write_with(&mut buf, body, &places, None)?;
    /// assert_eq!(buf[12..len], [0x10, 0, 0, 1, 20, 1, 0x8A, 0]);
    /// # Ok::<(), Box<dyn std::error::Error>>(())
    /// ```
    pub fn write_with(
        &self,
        buf: &mut [u8],
        data: &[u8],
        elements: &[Place],
        allowed: Option<Form>,
    ) -> Result<usize, NotWritten> {
        let (view, mut len) = (self.view(), 0);
        let status = match allowed {
            None => sys::write_with(&view, data, elements, buf, &mut len),
            Some(form) => sys::write_with_form(&view, data, elements, form.number(), buf, &mut len),
        };
        NotWritten::of_status(status)?;
        Ok(len)
    }

    #[inline]
    pub(crate) fn of(view: &HeaderView) -> Header {
        Header {
            marker: view.marker != 0,
            payload_type: view.payload_type,
            sequence_number: view.sequence_number,
            timestamp: view.timestamp,
            ssrc: view.ssrc,
            has_padding: view.has_padding != 0,
            has_extension: view.has_extension != 0,
            values: Values::of(&view.values),
            csrcs: view.csrc,
            csrc_count: view.csrc_count,
            header_len: view.header_len,
        }
    }

    fn view(&self) -> HeaderView {
        HeaderView {
            header_len: self.header_len,
            timestamp: self.timestamp,
            ssrc: self.ssrc,
            csrc: self.csrcs,
            sequence_number: self.sequence_number,
            payload_type: self.payload_type,
            csrc_count: self.csrc_count,
            marker: u8::from(self.marker),
            has_padding: u8::from(self.has_padding),
            has_extension: u8::from(self.has_extension),
            values: self.values.view(),
        }
    }
}

fn none_left(kinds: KindSet) -> Result<(), NotWritten> {
    if kinds.is_empty() {
        Ok(())
    } else {
        Err(NotWritten::LeftOut(kinds))
    }
}
