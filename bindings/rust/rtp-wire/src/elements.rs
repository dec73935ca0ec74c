use core::iter::FusedIterator;
use core::ops::Range;

use crate::error::NotWritten;
use crate::packet::Form;
use crate::sys;

/// Where the data of an element lie. [`Elements::places`](crate::Elements::places) tells it of a block, and
/// [`write_elements`](crate::write_elements) and [`Header::write_with`](crate::Header::write_with) take it.
pub use crate::views::Place;

/// An element of an extension block (RFC 8285).
#[derive(Clone, Copy, Debug, PartialEq, Eq, Hash)]
pub struct Element<'a> {
    /// 0 to 14 in the one-byte form, and 1 to 255 in the two-byte form.
    pub id: u8,
    /// 1 to 16 bytes in the one-byte form, and 0 to 255 in the two-byte form.
    pub data: &'a [u8],
}

impl Place {
    /// An element of this id, whose data are these bytes of what they are written from.
    #[must_use]
    pub fn new(id: u8, data: Range<usize>) -> Place {
        Place {
            data_at: data.start,
            data_len: data.len(),
            end: data.end,
            id,
        }
    }

    /// The id.
    #[must_use]
    pub fn id(&self) -> u8 {
        self.id
    }

    /// The same data, as those of another id.
    #[must_use]
    pub fn with_id(self, id: u8) -> Place {
        Place { id, ..self }
    }

    /// Where its data lie: offsets from the first byte of the block's body.
    #[must_use]
    pub fn data(&self) -> Range<usize> {
        self.data_at..self.end
    }
}

/// The elements of a packet's block, in order: what [`Packet::elements`](crate::Packet::elements)
/// returns. They end where one is cut short, and in the one-byte form where one has the id 15.
#[derive(Clone, Debug)]
pub struct Elements<'a> {
    places: Places<'a>,
}

impl<'a> Elements<'a> {
    pub(crate) fn of(block: Option<(Form, &'a [u8])>) -> Elements<'a> {
        let places = Places { block, at: 0 };
        Elements { places }
    }

    /// Where the data of each lie in the block's body.
    #[must_use]
    pub fn places(self) -> Places<'a> {
        self.places
    }
}

impl<'a> Iterator for Elements<'a> {
    type Item = Element<'a>;

    fn next(&mut self) -> Option<Element<'a>> {
        let (_, body) = self.places.block?;
        let place = self.places.next()?;
        Some(Element {
            id: place.id,
            data: &body[place.data()],
        })
    }

    fn size_hint(&self) -> (usize, Option<usize>) {
        self.places.size_hint()
    }
}

impl FusedIterator for Elements<'_> {}

/// Where the elements of a block lie, in order: what [`Elements::places`] returns.
#[derive(Clone, Debug)]
pub struct Places<'a> {
    /// The block, and `None` where it has no more element.
    block: Option<(Form, &'a [u8])>,
    /// Where to look for the next one.
    at: usize,
}

impl Iterator for Places<'_> {
    type Item = Place;

    fn next(&mut self) -> Option<Place> {
        let (form, body) = self.block?;
        let next = sys::next_element(body, form.number(), self.at);
        match next {
            Some(place) => self.at = place.end,
            None => self.block = None,
        }
        next
    }

    fn size_hint(&self) -> (usize, Option<usize>) {
        // an element takes two bytes or more
        let most = self.block.map_or(0, |(_, body)| (body.len() - self.at) / 2);
        (0, Some(most))
    }
}

impl FusedIterator for Places<'_> {}

/// Writes elements, one after the other, as a block's body has them, to the front of the buffer, and
/// returns how many bytes they took; those after them stay. Each place is one in `data`.
///
/// # Errors
///
/// [`NotWritten::BadField`] where the form can't carry one of them, or one has bytes past the end of
/// `data`; [`NotWritten::ShortBuffer`]. Nothing is written then.
///
/// ```
/// use rtp_wire::{write_elements, Form, Place};
///
/// let mut buf = [0; 8];
/// let places = [Place::new(1, 0..1), Place::new(2, 1..3)];
/// let len = write_elements(&mut buf, Form::OneByte, &[0xAA, 0xBB, 0xCC], &places)?;
/// assert_eq!(buf[..len], [0x10, 0xAA, 0x21, 0xBB, 0xCC]);
/// # Ok::<(), rtp_wire::NotWritten>(())
/// ```
pub fn write_elements(
    buf: &mut [u8],
    form: Form,
    data: &[u8],
    elements: &[Place],
) -> Result<usize, NotWritten> {
    let mut len = 0;
    let status = sys::write_elements(data, elements, form.number(), buf, &mut len);
    NotWritten::of_status(status)?;
    Ok(len)
}
