"""Which extension each id means, and the ids of another map."""

from __future__ import annotations

from operator import index
from typing import Any, Dict, Iterable, Iterator, Mapping, MutableMapping, Optional, Tuple, TypeVar, Union
from warnings import warn

from . import _library
from ._errors import check, unsigned, within
from ._kind import OWN_URIS, Kind, OwnUris, kind_number

Entry = TypeVar("Entry", bound=int)


def _id_of(key: object) -> int:
    """The id that a key is; 0, which has no entry, where it is none."""
    try:
        id = index(key)  # type: ignore[arg-type]
    except TypeError:
        return 0
    return id if 0 < id < 256 else 0


class _Table(MutableMapping[int, Entry]):
    """A number for each id from 1 to 255: 0 for those that have no entry."""

    __slots__ = ("_raw",)
    _raw: Any

    def __delitem__(self, id: int) -> None:
        self[id]  # raises KeyError where there is no entry
        self._remove(_id_of(id))

    def _remove(self, id: int) -> None:
        raise NotImplementedError

    def __iter__(self) -> Iterator[int]:
        return (id for id, entry in enumerate(bytes(self._raw)) if entry)

    def __len__(self) -> int:
        return sum(map(bool, bytes(self._raw)))

    def __repr__(self) -> str:
        entries = ", ".join(f"{id}: {entry!r}" for id, entry in self.items())
        return f"{type(self).__name__}({{{entries}}})"

    def __reduce__(self) -> Tuple[object, ...]:
        return type(self), (dict(self),)


class Map(_Table[Kind]):
    """Which extension each id means, as the lines `a=extmap` of SDP say it (RFC 8285, 5): a mapping from ids, 1 to
    255, to kinds. `del map[id]` takes an entry out: Kind.NONE is no entry.

    >>> Map({1: Kind.AUDIO_LEVEL})[1].name
    'AUDIO_LEVEL'
    """

    __slots__ = ("_own", "_unknown")
    _own: OwnUris
    _unknown: Dict[int, str]

    def __init__(self, kinds: Union[Mapping[int, Kind], Iterable[Tuple[int, Kind]]] = ()) -> None:
        self._raw, self._own, self._unknown = _library.RawMap(), OWN_URIS, {}
        self.update(kinds)
        if isinstance(kinds, Map):
            self._own, self._unknown = kinds._own, dict(kinds._unknown)

    @classmethod
    def standard(cls) -> Map:
        """The usual ids: 1 audio level, 2 send time, 3 transport number, 4 mid, 10 rid, 11 repaired rid, 13 video
        orientation."""
        made = cls()
        _library.map_standard(made._raw)
        return made

    @classmethod
    def from_uris(
        cls, uris: Union[Mapping[int, str], Iterable[Tuple[int, str]]], own: Optional[OwnUris] = None
    ) -> Map:
        """The map of the URIs by their ids. One that the library doesn't know gets a number of your own (`OwnUris`),
        the same in all maps of the process or, where a table is given, in those of the table: so an extension that
        both peers agreed on goes on from one to the other (`NewIds.between`). `unknown` tells these. Where the table
        is full an id has no entry: that is a RuntimeWarning, and `left_out` tells which. BadField where an id isn't 1
        to 255.

        >>> uris = {1: "urn:ietf:params:rtp-hdrext:ssrc-audio-level", 2: "urn:x", 3: "urn:y"}
        >>> sender, receiver = Map.from_uris(uris), Map.from_uris({8: "urn:y", 9: "urn:x"})
        >>> NewIds.between(sender, receiver), sender.unknown
        (NewIds({2: 9, 3: 8}), {2: 'urn:x', 3: 'urn:y'})
        """
        made = cls()
        named = {within("an id", id, 1, 255): uri for id, uri in dict(uris).items()}
        made._name(named, OWN_URIS if own is None else own)
        return made

    def _name(self, uris: Dict[int, str], own: OwnUris) -> None:
        """Gives these ids the kinds of these URIs."""
        if not isinstance(own, OwnUris):
            raise TypeError(f"a table of URIs is {type(own).__name__}, and not OwnUris")
        kinds = {id: Kind.from_uri(uri) for id, uri in uris.items()}
        self._own = own
        for id, kind in kinds.items():
            kind = kind or own.kind_of(uris[id])
            if kind:
                self[id] = kind
            if not kinds[id]:
                self._unknown[id] = uris[id]
        if self.left_out:
            warn("all numbers for URIs that aren't known are given: ids have no entry (Map.left_out)", RuntimeWarning, 3)

    @property
    def uris(self) -> Dict[int, str]:
        """The URI of each id, known or not, as an answer in SDP says it and `from_uris` takes it; a number of your own
        that was set by hand has none.

        >>> Map.from_uris({3: "urn:3gpp:video-orientation", 5: "urn:x"}).uris
        {3: 'urn:3gpp:video-orientation', 5: 'urn:x'}
        """
        named = ((id, self._unknown.get(id) or kind.uri) for id, kind in self.items())
        return {id: uri for id, uri in named if uri}

    @property
    def unknown(self) -> Dict[int, str]:
        """By its id each URI of `from_uris` that the library doesn't know and that has a number: an extension whose
        elements are yours to read and write, or a URI that is misspelled."""
        return {id: uri for id, uri in self._unknown.items() if id in self}

    @property
    def left_out(self) -> Dict[int, str]:
        """By its id each that has none, and so no entry, since all 128 were given: its elements go on to nobody."""
        return {id: uri for id, uri in self._unknown.items() if id not in self}

    def __getitem__(self, id: int) -> Kind:
        kind = _library.map_get(self._raw, _id_of(id))
        if not kind:
            raise KeyError(id)
        return Kind(kind)

    def id_of(self, kind: Kind) -> Optional[int]:
        """The lowest id that means the kind; None where none does."""
        return _library.id_of(self._raw, unsigned("a kind", kind, 8)) or None

    def __setitem__(self, id: int, kind: Kind) -> None:
        """The id means the kind from now on. BadField where the id isn't 1 to 255, or the kind is none: Kind.NONE,
        which `Kind.from_uri` gives of a URI that it doesn't know, or one of 21 to 127."""
        number = within("an id", id, 1, 255)
        check(_library.map_set(self._raw, number, kind_number(kind)))
        self._unknown.pop(number, None)

    def _remove(self, id: int) -> None:
        _library.map_remove(self._raw, id)
        self._unknown.pop(id, None)

    def __reduce__(self) -> Tuple[object, ...]:
        """By the URIs, where there are some: in another process their numbers may be others."""
        if not self._unknown:
            return super().__reduce__()
        by_number = {id: kind for id, kind in self.items() if id not in self._unknown}
        return type(self)._stored, (by_number, dict(self._unknown), self._own)

    @classmethod
    def _stored(cls, kinds: Dict[int, Kind], unknown: Dict[int, str], own: OwnUris) -> Map:
        """The map that was stored so."""
        made = cls(kinds)
        made._name(unknown, own)
        return made


def raw_map(map: Map) -> _library.RawMap:
    """The map as the library has it; TypeError where it is none."""
    if not isinstance(map, Map):
        raise TypeError(f"a map is {type(map).__name__}, and not Map")
    raw: _library.RawMap = map._raw
    return raw


class NewIds(_Table[int]):
    """The new id that elements of each id get: a mapping from ids, 1 to 255. Elements of an id that has no entry
    become padding."""

    __slots__ = ()

    def __init__(self, ids: Union[Mapping[int, int], Iterable[Tuple[int, int]]] = ()) -> None:
        self._raw = _library.RawNewIds()
        self.update(ids)

    @classmethod
    def between(cls, sender: Map, receiver: Map) -> NewIds:
        """For each id of a kind in the sender's map, your own kinds too, its lowest id in the receiver's. An extension
        whose URI the library doesn't know goes on where both maps have a number for it, as `Map.from_uris` gives it,
        of one table or of two.
        """
        made = cls()
        _library.new_ids_between(raw_map(sender), raw_map(receiver), made._raw)
        if sender._own is not receiver._own:
            made._compare(sender.unknown, receiver.unknown)
        return made

    def _compare(self, sender: Dict[int, str], receiver: Dict[int, str]) -> None:
        """Of ids whose numbers are of two tables, and so say nothing of each other, the URIs tell which go on."""
        ids = {uri: id for id, uri in sorted(receiver.items(), reverse=True)}
        for id, uri in sender.items():
            if not self._raw.id[id] or self._raw.id[id] in receiver:
                self._raw.id[id] = ids.get(uri, 0)

    @classmethod
    def to_retransmission(cls, map: Map) -> NewIds:
        """The new ids where packets become retransmissions (RFC 8852, 3): where the map has both Kind.RID and
        Kind.REPAIRED_RID, an id of the first becomes the lowest id of the second, and the ids of the second get none.
        Every other id keeps itself, and so does each where the map hasn't both."""
        made = cls()
        _library.new_ids_to_retransmission(raw_map(map), made._raw)
        return made

    @classmethod
    def from_retransmission(cls, map: Map) -> NewIds:
        """The same on the way back: an id of Kind.REPAIRED_RID becomes the lowest id of Kind.RID, and the ids of that
        get none."""
        made = cls()
        _library.new_ids_from_retransmission(raw_map(map), made._raw)
        return made

    def __getitem__(self, id: int) -> int:
        number = _id_of(id)
        new: int = self._raw.id[number]
        if not number or not new:
            raise KeyError(id)
        return new

    def __setitem__(self, id: int, new: int) -> None:
        self._raw.id[within("an id", id, 1, 255)] = within("a new id", new, 1, 255)

    def _remove(self, id: int) -> None:
        self._raw.id[id] = 0


def raw_new_ids(ids: NewIds) -> _library.RawNewIds:
    """The new ids as the library has them; TypeError where they are none."""
    if not isinstance(ids, NewIds):
        raise TypeError(f"new ids are {type(ids).__name__}, and not NewIds")
    raw: _library.RawNewIds = ids._raw
    return raw
