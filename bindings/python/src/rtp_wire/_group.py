"""What receivers of a packet have in common."""

from __future__ import annotations

from ctypes import Array
from typing import Iterable, Optional, Tuple

from . import _library
from ._errors import BadField, Status, check, element_id, within
from ._growing import allowed_forms
from ._map import NewIds, raw_new_ids
from ._packet import Form

MOST_ELEMENTS = 16


class Group:
    """What receivers of a packet have in common, checked and tabled once for all packets, when a session's ids are
    agreed on: the new ids of a packet's elements, the elements that are put into it, and the forms that are allowed.
    `HeaderTemplate.from_group` makes a packet's header of it. It doesn't follow the ids that it was made of. Two of
    the same ids, elements and forms are equal; it can be copied and pickled.

    >>> group = Group(NewIds({1: 3}), [(4, 2)])  # two bytes of the id 4
    >>> group.data_len
    2
    >>> Group(NewIds(), [(4, 2), (4, 1)])
    Traceback (most recent call last):
    rtp_wire._errors.BadField: two elements have the id 4
    """

    __slots__ = ("_raw",)

    _raw: _library.RawGroup

    def __init__(
        self, ids: NewIds, elements: Iterable[Tuple[int, int]] = (), allowed: Optional[Form] = None
    ) -> None:
        """Elements are pairs of an id and of how many bytes of data it has, at most 16 of ids of their own, in the
        order that they are put in. Each receiver brings its own data.

        BadField where there are more elements, two have one id, or one has more than 255 bytes of data; BadId where an
        id isn't 1 to 255."""
        self._raw = _library.RawGroup()
        places, forms = places_of(elements), allowed_forms(allowed)
        check(_library.prepare_group(raw_new_ids(ids), places, len(places), forms, self._raw))

    @property
    def data_len(self) -> int:
        """How many bytes of data each receiver brings, those of all elements that are put."""
        return self._raw.data_total

    def _parts(self) -> Tuple[NewIds, Tuple[Tuple[int, int], ...], Optional[Form]]:
        """What it was made of."""
        raw = self._raw
        ids = NewIds((id, new) for id, new in enumerate(raw.new_ids) if new)
        elements = tuple(zip(raw.element_ids, raw.data_lens))[: raw.count]
        return ids, elements, Form(raw.allowed) if raw.allowed else None

    def __eq__(self, other: object) -> bool:
        return isinstance(other, Group) and self._parts() == other._parts()

    def __hash__(self) -> int:
        _, *others = self._parts()
        return hash((bytes(self._raw.new_ids), *others))

    def __repr__(self) -> str:
        ids, elements, allowed = self._parts()
        return f"Group({ids!r}, {list(elements)!r}, {allowed!r})"

    def __reduce__(self) -> Tuple[object, ...]:
        return Group, self._parts()


def places_of(elements: Iterable[Tuple[int, int]]) -> Array[_library.RawElement]:
    """Where the data of elements lie, of which each has so many bytes, one after another."""
    places, ids, at = [], set(), 0
    for id, length in elements:
        number = element_id(id)
        if number in ids:
            raise BadField(Status.BAD_FIELD, f"two elements have the id {number}")
        ids.add(number)
        size = within("the length of data", length, 0, 255)
        places.append(_library.RawElement(at, size, 0, number))
        at += size
    within("the number of elements", len(places), 0, MOST_ELEMENTS)
    return (_library.RawElement * len(places))(*places)
