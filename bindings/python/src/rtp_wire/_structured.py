"""Many packets at once, in a structured array of numpy."""

from __future__ import annotations

from importlib import import_module
from typing import TYPE_CHECKING, Any, Dict, Iterable, List, MutableMapping, Optional, Tuple

from ._buffers import place_of
from ._column import RawColumn
from ._judges import Judges
from ._many import FIELDS, NUMBERS, TEXTS, has_at, no_column, places_of, read
from ._map import Map
from ._receiver import Receiver

if TYPE_CHECKING:
    from ._buffers import Buffer
    from ._many import Places

# The fields that only a packet has, and those that are masks.
OF_A_PACKET = [name for name in FIELDS if name not in ("status", "is_rtcp")]
FLAGS = ("is_rtcp", "is_rtp", "marker", "padding_fits", "voice_activity")


def structured_array(
    buffer: Buffer,
    at: Places,
    lengths: Places,
    map: Optional[Map] = None,
    values: Iterable[str] = (),
    receivers: Optional[MutableMapping[int, Receiver]] = None,
    rollover_count: int = 1,
) -> Any:
    """What many datagrams of one buffer are, as a structured array of numpy with a row for each, where numpy is there;
    else it is an ImportError. What is given, the fields and the values that are asked for are those of
    `Columns.parse`, by the same names. The field `is_rtp` is a mask: `table[table["is_rtp"]]` are the packets of RTP.
    So are `is_rtcp`, `marker`, `padding_fits` and `voice_activity`. The rows are written where they lie, and nothing is
    copied.

    It is a numpy.ma.MaskedArray, in which what isn't there is masked, and 0: a value that the packet hasn't, and each
    value and field of a packet where the row is RTCP or no packet. So `table["audio_level"].mean()` is of those that are
    there, `table[table["ssrc"] == 7]` are the packets of a source, and `table.data` is without masks.

    With receivers each packet is judged as by `Columns.receive`, and there are the fields `number`, masked where the
    packet isn't taken, and `verdict`, a `Verdict` as a number. The numbers have a sign, so that of those of a source
    `numpy.diff` is -2 where one comes two late: one from 2^63 on is told less 2^64. As with `Columns.receive` they know no
    restart, and are those of one flow."""
    numpy: Any = import_module("numpy")
    data = place_of(buffer)[0]
    begins, sizes = places_of(at, lengths)
    listed = list(dict.fromkeys(values))
    formats: Dict[str, str] = {name: code for name, (code, _) in FIELDS.items()}
    formats.update({"is_rtp": "B"} if receivers is None else {"is_rtp": "B", "number": "q", "verdict": "B"})
    formats.update((name, _format_of(name)) for name in listed)
    formats.update((name, "?") for name in FLAGS if name in formats)
    rows = _Rows(numpy, list(formats.items()), len(begins))
    fields = [rows.column(name, offset) for name, (_, offset) in FIELDS.items()]
    of_values = [it for name in listed for it in rows.value(name)]
    read(data, begins, sizes, map, fields, of_values, rows.column("is_rtp"))
    rows.mask(listed)
    if receivers is not None:
        rows.judge(receivers, rollover_count)
    return numpy.ma.MaskedArray(rows.rows, rows.masks)


def _format_of(name: str) -> str:
    """The format of the field of a value; BadField where there is none."""
    if name in NUMBERS:
        return NUMBERS[name][0]
    if name in TEXTS:
        return f"S{TEXTS[name][1]}"
    raise no_column(name)


class _Rows:
    """Rows of such fields, and what says of each whether it is masked, all 0."""

    def __init__(self, numpy: Any, formats: List[Tuple[str, str]], count: int) -> None:
        self.numpy = numpy
        self.rows = numpy.zeros(count, numpy.dtype(formats, align=True))
        self.masks = numpy.zeros(count, numpy.ma.make_mask_descr(self.rows.dtype))

    def column(self, name: str, offset: int = 0, masks: bool = False) -> RawColumn:
        """The column of a field, or of its masks, for what stands in a struct there."""
        of = self.masks if masks else self.rows
        kind, begin = of.dtype.fields[name][:2]
        return RawColumn(offset, kind.itemsize, of.ctypes.data + begin, of.dtype.itemsize)

    def value(self, name: str) -> List[RawColumn]:
        """The columns of a value, and of whether it is there."""
        offset, has = NUMBERS[name][1:] if name in NUMBERS else TEXTS[name][::2]
        return [self.column(name, offset), self.column(name, has_at(has), masks=True)]

    def mask(self, values: List[str]) -> None:
        """Masks the fields where the row is no packet of RTP, and these values where it hasn't them, as no such row has:
        so far their masks are set where it has."""
        missing = ~self.rows["is_rtp"]
        for name in (*OF_A_PACKET, *values):
            self.rows[name][missing] = self.numpy.zeros((), self.rows.dtype[name])
            self.masks[name] = ~self.masks[name] if name in values else missing

    def judge(self, receivers: MutableMapping[int, Receiver], rollover_count: int) -> None:
        """Has the packets judged by the receivers of their sources."""
        numpy, rows = self.numpy, self.rows
        sources, places = numpy.unique(rows["ssrc"], return_inverse=True)
        heard = numpy.unique(rows["ssrc"][rows["is_rtp"]]).tolist()
        judges = Judges(receivers, rollover_count, heard)
        of_sources = [judges.index_of[ssrc] for ssrc in sources.tolist()]
        indices = numpy.array(of_sources, "Q")[places]
        given = self.column("sequence_number"), self.column("is_rtp")
        made = self.column("number"), self.column("verdict")
        judges.judge(indices.ctypes.data, *given, len(rows), *made)
        self.masks["number"] = rows["verdict"] != 1
