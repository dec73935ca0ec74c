"""What the ids of header extensions mean, guessed from the data of the elements."""

from __future__ import annotations

import re
from dataclasses import dataclass, field
from typing import Dict, List, Optional, Sequence, Set, Tuple

from ._kind import Kind
from ._map import Map

# So many packets of a capture are looked at.
LOOKED_AT = 4096
# A send time has a fraction of 18 bits, modulo 64 seconds.
SEND_TIME_HZ, SEND_TIMES = 1 << 18, 1 << 24
# Transport-wide numbers of packets that are lost or come late are as far apart.
NEAR = 64


@dataclass
class _Seen:
    """The elements of an id."""

    count: int = 0
    lengths: Set[int] = field(default_factory=set)
    texts: Dict[Tuple[int, int], Set[str]] = field(default_factory=dict)  # by source: "" of what is no text
    changes: int = 0  # from an element of the source to its next one
    last_of_source: Dict[Tuple[int, int], bytes] = field(default_factory=dict)
    last_of_flow: Dict[int, Tuple[int, int]] = field(default_factory=dict)  # a time, and the data as a number
    steps: int = 0  # from one to the next of the flow
    ones: int = 0  # where the number rises by one
    near: int = 0  # where it is near to the one before
    paced: int = 0  # where it runs with the time
    loud: bool = False  # whether one is another level than silence

    def take(self, source: Tuple[int, int], time: int, data: bytes) -> None:
        self.count += 1
        self.lengths.add(len(data))
        self.loud |= data[:1].hex() not in ("7f", "ff")
        text = data.decode("latin-1") if re.fullmatch(rb"[0-9A-Za-z_-]{1,16}", data) else ""
        self.texts.setdefault(source, set()).add(text)
        self.changes += self.last_of_source.get(source, data) != data
        self.last_of_source[source] = data
        number = int.from_bytes(data[:3], "big")
        if source[0] in self.last_of_flow:
            before, last = self.last_of_flow[source[0]]
            self.steps += 1
            self.ones += 1 <= (number - last) % 65536 <= 2
            self.near += (number - last + NEAR) % 65536 <= 2 * NEAR
            passed = (time - before) * SEND_TIME_HZ // 10**9
            off = (number - last - passed + SEND_TIMES // 2) % SEND_TIMES - SEND_TIMES // 2
            self.paced += abs(off) < SEND_TIME_HZ // 10
        self.last_of_flow[source[0]] = time, number

    def kind(self) -> Optional[Kind]:
        """What the elements are by their form alone, where they are not texts."""
        if self.lengths == {3} and self.changes and 10 * self.paced >= 9 * self.steps:
            return Kind.ABS_SEND_TIME
        if self.lengths == {2} and 2 * self.ones > self.steps:
            return Kind.TRANSPORT_NUMBER
        if self.lengths == {1} and self.changes and not self.is_text():
            return Kind.AUDIO_LEVEL
        return None

    def is_text(self) -> bool:
        """Whether each source has one text, and always the same."""
        return all(len(it) == 1 and "" not in it for it in self.texts.values())


class Guess:
    """What the packets of a capture say of the meaning of their ids."""

    def __init__(self) -> None:
        self._seen: Dict[int, _Seen] = {}
        self._sources: Set[Tuple[int, int]] = set()

    def look(self, flow: int, ssrc: int, time: int, elements: Sequence[Tuple[int, bytes]]) -> None:
        """Looks at the elements of a packet: their ids and data."""
        self._sources.add((flow, ssrc))
        for id, data in elements:
            self._seen.setdefault(id, _Seen()).take((flow, ssrc), time, data)

    def map(self) -> Tuple[Map, Dict[int, str]]:
        """The map, and by its id how each entry was found: all ids that occur are there. What the data don't tell is what
        the id usually means, where they don't gainsay that."""
        made = Map()
        origins: Dict[int, str] = {}
        for id, seen in sorted(self._seen.items()):
            kind = seen.kind()
            if kind and made.id_of(kind) is None:
                made[id], origins[id] = kind, "guess"
        for id, kind in zip(self._text_ids(made), (Kind.MID, Kind.RID, Kind.REPAIRED_RID)):
            made[id], origins[id] = kind, "guess"
        for id, kind in Map.standard().items():
            seen_there = self._seen.get(id)
            if id not in made and made.id_of(kind) is None and (not seen_there or _may_be(kind, seen_there)):
                made[id], origins[id] = kind, "usual"
        return made, {id: origins.get(id, "unknown") for id in self.ids}

    @property
    def ids(self) -> List[int]:
        """The ids that occur."""
        return sorted(self._seen)

    def _text_ids(self, made: Map) -> List[int]:
        """Ids of texts: that of most sources is the mid, and of the others the first is the rid; the repaired rid is on
        sources that have no rid."""
        texts = [(id, it) for id, it in sorted(self._seen.items()) if id not in made and it.is_text()]
        texts.sort(key=lambda it: (-len(it[1].texts), it[0]))
        return [id for id, _ in texts[:3]]


def _may_be(kind: Kind, seen: _Seen) -> bool:
    """Whether the elements of an id may be of the kind that it usually means, though their data aren't as those of its:
    one that comes again has to run, to rise or to change, but for the level of silence."""
    if kind in (Kind.MID, Kind.RID, Kind.REPAIRED_RID):
        return seen.is_text()
    if kind == Kind.ABS_SEND_TIME:
        return seen.lengths == {3} and not seen.steps
    if kind == Kind.TRANSPORT_NUMBER:
        return seen.lengths == {2} and (not seen.steps or (seen.changes > 0 and 10 * seen.near >= 9 * seen.steps))
    comes_again = seen.count > len(seen.texts)
    return seen.lengths == {1} and not (kind == Kind.AUDIO_LEVEL and comes_again and seen.loud)
