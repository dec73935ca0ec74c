use core::fmt;

use crate::elements::Place;
use crate::error::{NotPut, NotRouted};
use crate::growing::number_of;
use crate::new_ids::NewIds;
use crate::packet::Form;
use crate::sys;
use crate::template::HeaderTemplate;
use crate::views;

/// What some receivers of a packet have in common.
///
/// ```
/// use rtp_wire::{Form, Group, Kind, Map, NewIds, Place};
///
/// const SENDER: Map = Map::new().with(1, Kind::AudioLevel);
/// const RECEIVER: Map = Map::new().with(3, Kind::AudioLevel).with(4, Kind::Mid).with(5, Kind::TransportNumber);
/// let group = Group {
///     ids: &NewIds::between(&SENDER, &RECEIVER),
///     data: b"a\0\x07", // of one of the receivers: its mid, and then its transport number
///     elements: &[Place::new(4, 0..1), Place::new(5, 1..3)],
///     allowed: Some(Form::OneByte), // they haven't agreed to both forms
/// };
/// # let _ = group;
/// ```
#[derive(Clone, Copy, Debug)]
pub struct Group<'a> {
    /// The ids that the packet's elements get; one that gets none goes.
    pub ids: &'a NewIds,
    /// What the data of the elements are bytes of.
    pub data: &'a [u8],
    /// The elements that are then put into the header, in this order, each by its place in `data`: at most 16, of ids
    /// of their own, as [`put_element`](crate::put_element) takes them. A receiver's own data are theirs one after
    /// another in this order, whatever the places here are.
    pub elements: &'a [Place],
    /// The form that alone the block may get, or both. One that gets no element, and no id above 14, keeps its form.
    pub allowed: Option<Form>,
}

/// What some receivers of a packet have in common, checked and tabled once for all packets, where a session's ids are
/// agreed on: [`HeaderTemplate::from_group`] makes each packet's header of it. 550 bytes, and it borrows nothing.
#[derive(Clone, Copy, PartialEq, Eq, Hash)]
pub struct PreparedGroup {
    pub(crate) stored: views::StoredGroup,
}

impl PreparedGroup {
    /// What the fields of a [`Group`] of the same names say, but for the data: of a place its id and how many bytes of
    /// data it has count, and not where these lie, since each receiver brings its own.
    ///
    /// # Errors
    ///
    /// [`NotRouted::ManyElements`], [`NotRouted::RepeatedId`], or [`NotRouted::NotPut`] of an element with the id 0
    /// ([`NotPut::BadId`]) or more than 255 bytes of data ([`NotPut::BadField`]).
    ///
    /// ```
    /// use rtp_wire::{NewIds, NotRouted, Place, PreparedGroup};
    ///
    /// let elements = [Place::new(4, 0..2), Place::new(4, 0..1)];
    /// let repeated = PreparedGroup::new(&NewIds::new(), &elements, None);
    /// assert_eq!(repeated.err(), Some(NotRouted::RepeatedId));
    /// let group = PreparedGroup::new(&NewIds::new(), &elements[..1], None)?;
    /// assert_eq!(group.data_len(), 2);
    /// # Ok::<(), NotRouted>(())
    /// ```
    pub fn new(
        ids: &NewIds,
        elements: &[Place],
        allowed: Option<Form>,
    ) -> Result<PreparedGroup, NotRouted> {
        let mut stored = views::StoredGroup {
            new_ids: [0; 256],
            numbers: [0; 256],
            element_ids: [0; 16],
            data_lens: [0; 16],
            data_total: 0,
            count: 0,
            allowed: 0,
            one_byte: 0,
        };
        let status = sys::prepare_group(&ids.ids, elements, number_of(allowed), &mut stored);
        NotRouted::check(status, elements)?;
        Ok(PreparedGroup { stored })
    }

    /// How many bytes of data each receiver brings: those of all elements, 0 to 4,080.
    #[must_use]
    pub fn data_len(&self) -> usize {
        self.stored.data_total.into()
    }
}

impl fmt::Debug for PreparedGroup {
    fn fmt(&self, f: &mut fmt::Formatter<'_>) -> fmt::Result {
        let count = usize::from(self.stored.count);
        f.debug_struct("PreparedGroup")
            .field("element_ids", &&self.stored.element_ids[..count])
            .field("data_len", &self.data_len())
            .finish_non_exhaustive()
    }
}

impl NotRouted {
    /// What the status says where a header is made, or a group prepared, with these elements.
    pub(crate) fn check(status: i32, elements: &[Place]) -> Result<(), NotRouted> {
        match NotPut::of_status(status) {
            Err(NotPut::BadField) => Err(NotRouted::bad_field(elements)),
            Err(NotPut::LongId) => Err(NotRouted::LongId),
            other => other.map_err(NotRouted::NotPut),
        }
    }

    /// Which of the causes it is that the library doesn't tell apart.
    fn bad_field(elements: &[Place]) -> NotRouted {
        let is_repeated = |at: usize| elements[..at].iter().any(|it| it.id == elements[at].id);
        if elements.len() > HeaderTemplate::MAX_ELEMENTS {
            NotRouted::ManyElements
        } else if (0..elements.len()).any(is_repeated) {
            NotRouted::RepeatedId
        } else {
            NotRouted::NotPut(NotPut::BadField)
        }
    }
}
