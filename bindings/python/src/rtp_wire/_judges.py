"""The receivers that judge many packets at once."""

from __future__ import annotations

from ctypes import byref, memmove, sizeof
from typing import Dict, Iterable, MutableMapping, Optional

from . import _library
from ._column import RawColumn, columns_receive
from ._receiver import Receiver

_NO_INDEX = (1 << 64) - 1


class Indices(Dict[int, int]):
    """The index of the receiver of each SSRC; of one that no packet has, that of none."""

    def __missing__(self, ssrc: int) -> int:
        return _NO_INDEX


class Judges:
    """The receivers of these SSRCs, of which each that has none yet gets one."""

    def __init__(
        self, receivers: MutableMapping[int, Receiver], rollover_count: int, ssrcs: Iterable[int]
    ) -> None:
        judges = {ssrc: receivers[ssrc] if ssrc in receivers else Receiver(rollover_count) for ssrc in ssrcs}
        for ssrc, judge in judges.items():
            if not isinstance(judge, Receiver):
                told = f"the receiver of {ssrc} is {type(judge).__name__}, and not Receiver"
                raise TypeError(f"{told}: have it judge the packets one by one")
        apart = {id(it): it for it in judges.values()}  # one may be that of several sources
        places = dict(zip(apart, range(len(apart))))
        self.receivers, self.judges, self.apart = receivers, judges, list(apart.values())
        self.index_of = Indices((ssrc, places[id(it)]) for ssrc, it in judges.items())

    def judge(
        self,
        indices: Optional[int],
        sequence_numbers: RawColumn,
        is_rtp: RawColumn,
        count: int,
        numbers: RawColumn,
        verdicts: RawColumn,
    ) -> None:
        """Has the packets judged, one after the other, by the receivers whose indices lie there."""
        states = (_library.RawReceiver * len(self.apart))(*(it._raw for it in self.apart))
        columns_receive(states, len(states), indices, sequence_numbers, is_rtp, count, numbers, verdicts)
        for judge, state in zip(self.apart, states):
            memmove(byref(judge._raw), byref(state), sizeof(state))
        self.receivers.update(self.judges)
