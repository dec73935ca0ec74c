"""Many packets at once, each field and value of them in a column."""

from __future__ import annotations

from array import array
from enum import IntEnum
from itertools import compress
from typing import TYPE_CHECKING, Dict, Iterable, Iterator, MutableMapping, NamedTuple, Optional, Union

from ._buffers import address_of, place_of
from ._column import Column, RawColumn, TextColumn
from ._errors import BadField, Status
from ._judges import Judges
from ._many import FIELDS, NUMBERS, TEXTS, has_at, no_column, places_of, read
from ._map import Map
from ._receiver import Receiver

if TYPE_CHECKING:
    from ._buffers import Buffer
    from ._many import Places


def _zeros(code: str, count: int) -> array[int]:
    column = array(code)
    column.frombytes(bytes(column.itemsize * count))
    return column


def _raw_column(column: Union[array[int], memoryview], offset: int = 0) -> RawColumn:
    view = memoryview(column)
    return RawColumn(offset, view.itemsize, address_of(view), view.itemsize)


class Verdict(IntEnum):
    """What a receiver says of a packet."""

    NONE = 0
    """It isn't judged: the datagram is no packet, or it is RTCP."""
    TAKEN = 1
    REFUSED = 2
    """A replay, or too old to tell."""


class Verdicts(NamedTuple):
    """What receivers say of many packets: two columns."""

    number: array[int]
    """The extended sequence number of each packet that is taken, 64 bits; 0 of all others."""
    verdict: array[int]
    """A `Verdict` of each, as a number."""


class Columns:
    """What many datagrams of one buffer are, read in one call of C: a column for each field, and for each kind of
    value that is asked for. A column has an item for each datagram, in the order in which their places were given:
    `mask` tells which of them are packets of RTP. RTCP is told as if it were RTP; one that is no packet has a status,
    and 0 in all other columns but is_rtcp: it spoils no other.

    >>> import rtp_wire
    >>> level = "90E00005 000000A0 00000007 BEDE0001 108A0000 6869"
    >>> report = "81C90007 00000009 00000007" + 20 * "00"  # a receiver report on the source 7
    >>> buffer = bytes.fromhex(level + report + "8021B7")
    >>> columns = rtp_wire.Columns.parse(buffer, [0, 22, 54], [22, 32, 3], rtp_wire.Map.standard(), ["audio_level"])
    >>> list(columns.mask)
    [True, False, False]
    >>> list(columns.ssrc), list(columns.status), list(columns.is_rtcp)
    ([7, 7, 0], [0, 0, 1], [0, 1, 0])
    >>> list(columns.values["audio_level"])
    [-10, None, None]
    >>> columns.unpadded_payload(0).tobytes()
    b'hi'

    The columns are arrays of numbers as the machine has them, so `numpy.asarray(columns.ssrc)` is one of numpy over
    the same memory, without a copy, and `numpy.asarray(columns.ssrc)[columns.mask]` the sources of the packets alone.
    """

    __slots__ = (*FIELDS, "is_rtp", "values", "texts", "_data", "_at", "_lengths")

    status: array[int]
    """A `Status` of each, as a number: 0 of a packet, one of the causes 1 to 6 for which it is none, or
    Status.BAD_FIELD where its place isn't within the buffer."""
    is_rtcp: array[int]
    """1 where the datagram is RTCP, as `is_rtcp` says; also where its bytes would be a packet of RTP too."""
    is_rtp: array[int]
    """1 where the datagram is a packet and not RTCP: where status and is_rtcp are 0. numpy takes these for the numbers
    of rows, and `mask` for a mask."""
    sequence_number: array[int]
    """The low 16 bits of the packet's number. `receive` extends them."""
    timestamp: array[int]
    """Ticks of the payload's clock, 32 bits."""
    ssrc: array[int]
    """The stream's source, 32 bits."""
    payload_type: array[int]
    """0 to 127."""
    marker: array[int]
    """M: 0 or 1."""
    payload_at: array[int]
    """Where the payload begins, in bytes from the first one of the buffer."""
    payload_len: array[int]
    """How many bytes the payload has with any padding."""
    unpadded_len: array[int]
    """How many it has without; 0 where padding_fits is 0. With SRTP the padding is known only after decryption."""
    padding_fits: array[int]
    """0 where the padding is longer than the payload, or there is no packet, and else 1."""
    values: Dict[str, Column]
    """The column of each kind of value that was asked for and is a number, by its name."""
    texts: Dict[str, TextColumn]
    """The column of each that is a text: "mid", "rid" and "repaired_rid"."""
    _data: Union[bytes, memoryview]
    _at: array[int]
    _lengths: array[int]

    def __init__(self) -> None:
        raise TypeError("columns are made by Columns.parse")

    @classmethod
    def parse(
        cls,
        buffer: Buffer,
        at: Places,
        lengths: Places,
        map: Optional[Map] = None,
        values: Iterable[str] = (),
    ) -> Columns:
        """Reads the datagrams that begin at these places of the buffer, in bytes, and have so many bytes. Each is what
        `Packet.parse` says of it alone; they may overlap. The places are numbers, or a buffer of numbers of 64 bits,
        as an array of the type "Q" or one of numpy's int64. BadField where there are more places than lengths or
        fewer, or one is no number of 64 bits.

        The values are names of fields of `Values`, whose values are those under the map: a playout delay in hundredths
        of a second; in place of "video_timing" its parts "encode_start", "encode_finish", "packetize_complete",
        "last_left_pacer" and "timing_flags"; and no "layers". BadField for any other name."""
        columns = cls.__new__(cls)
        columns._data, columns._at, columns._lengths = place_of(buffer)[0], *places_of(at, lengths)
        count = len(columns._at)
        fields = []
        for name, (code, offset) in FIELDS.items():
            column = _zeros(code, count)
            setattr(columns, name, column)
            fields.append(_raw_column(column, offset))
        columns.is_rtp, columns.values, columns.texts = _zeros("B", count), {}, {}
        of_values = [it for name in dict.fromkeys(values) for it in columns._add(name)]
        read(columns._data, columns._at, columns._lengths, map, fields, of_values, _raw_column(columns.is_rtp))
        return columns

    def _add(self, name: str) -> Iterator[RawColumn]:
        """Adds an empty column of this kind of value, and says what goes there."""
        there = _zeros("B", len(self))
        if name in NUMBERS:
            code, offset, has = NUMBERS[name]
            self.values[name] = Column(_zeros(code, len(self)), there)
            yield _raw_column(self.values[name].data, offset)
        elif name in TEXTS:
            offset, size, has = TEXTS[name]
            text = self.texts[name] = TextColumn(bytearray(size * len(self)), size, there)
            yield RawColumn(offset, size, address_of(memoryview(text.data)), size)
        else:
            raise no_column(name)
        yield _raw_column(there, has_at(has))

    def __len__(self) -> int:
        """How many datagrams there are."""
        return len(self._at)

    @property
    def mask(self) -> memoryview:
        """Which of the datagrams are packets of RTP: is_rtp as True and False, where it lies."""
        return memoryview(self.is_rtp).cast("?")

    def datagram(self, row: int) -> Optional[memoryview]:
        """The bytes of a datagram where they lie; None where its place isn't within the buffer."""
        at, length = self._at[row], self._lengths[row]
        return None if self.status[row] == Status.BAD_FIELD else memoryview(self._data)[at : at + length]

    def payload(self, row: int) -> Optional[memoryview]:
        """The payload of a packet where it lies, with any padding; None where the datagram is none."""
        at, length = self.payload_at[row], self.payload_len[row]
        return None if self.status[row] else memoryview(self._data)[at : at + length]

    def unpadded_payload(self, row: int) -> Optional[memoryview]:
        """The payload of a packet without its padding; None also where the padding is longer than the payload. With
        SRTP the padding is known only once the payload is decrypted."""
        at, length = self.payload_at[row], self.unpadded_len[row]
        return memoryview(self._data)[at : at + length] if self.padding_fits[row] else None

    def _held(self, name: str, code: str) -> memoryview:
        """A column, which can't change its size while it is held. BadField where it hasn't a number of this type for
        each datagram: whoever has the columns may have changed it."""
        view = memoryview(getattr(self, name))
        if view.format != code or view.shape != (len(self),) or not view.c_contiguous:
            raise BadField(Status.BAD_FIELD, f"the column {name} isn't {len(self)} numbers of the type {code!r}")
        return view

    def receive(self, receivers: MutableMapping[int, Receiver], rollover_count: int = 1) -> Verdicts:
        """Has each packet judged by the receiver of its SSRC, one after the other, as `Receiver.receive` does; where
        there is none yet one is put there, which begins at the rollover count: at 1, where nothing is authenticated, a
        packet from before the first one has a number too. RTCP isn't judged.

        A receiver knows no restart: the packets of a sender that has started again are refused as too old, or taken as
        if numbers had been lost. Where one may have, a `RestartingReceiver` of each source judges packet by packet;
        here it is a TypeError. Receivers are those of one flow: in two, an SSRC may stand for other numbers. BadField
        where one of the columns ssrc, sequence_number and is_rtp was made longer or shorter, or of another type.

        >>> import rtp_wire
        >>> buffer = bytes.fromhex("8021FFFF 00002710 0000002C" + "80210000 00002710 0000002C")
        >>> columns = rtp_wire.Columns.parse(buffer, [0, 12, 12], [12, 12, 12])
        >>> verdicts = columns.receive(receivers := {})
        >>> list(verdicts.number), list(verdicts.verdict), receivers[44].highest
        ([131071, 131072, 0], [1, 1, 2], 131072)
        """
        sources, numbers = self._held("ssrc", "I"), self._held("sequence_number", "H")
        is_rtp, count = self._held("is_rtp", "B"), len(self)
        verdicts = Verdicts(_zeros("Q", count), _zeros("B", count))
        judges = Judges(receivers, rollover_count, set(compress(sources, is_rtp)))
        indices = array("Q", map(judges.index_of.__getitem__, sources))
        given = _raw_column(numbers), _raw_column(is_rtp)
        made = _raw_column(verdicts.number), _raw_column(verdicts.verdict)
        judges.judge(indices.buffer_info()[0], *given, count, *made)
        return verdicts

    def differences(self, verdicts: Verdicts) -> array[int]:
        """How far the number of each packet that is taken is above that of the packet of its source that was taken
        before it, with a sign and modulo 2^64: 1 of the next one, 3 where two are missing between them, and -2 of one
        that comes late. 0 of the first one of a source, and of all that aren't taken. (`numpy.diff` of the numbers
        themselves, which have no sign, is 2^64 - 2 for -2.) BadField where the verdicts are of other datagrams.

        >>> import rtp_wire
        >>> datagrams = [bytes([0x80, 96, 0, number]) + bytes(8) for number in (5, 6, 9, 7, 7)]
        >>> columns = rtp_wire.Columns.parse(b"".join(datagrams), range(0, 60, 12), [12] * 5)
        >>> list(columns.differences(columns.receive({})))
        [0, 1, 3, -2, 0]
        """
        if len(verdicts.verdict) != len(self):
            told = f"there are {len(verdicts.verdict)} verdicts and {len(self)} datagrams"
            raise BadField(Status.BAD_FIELD, told)
        found = _zeros("q", len(self))
        before: Dict[int, int] = {}
        for row, (ssrc, number, verdict) in enumerate(zip(self.ssrc, *verdicts)):
            if verdict == Verdict.TAKEN:
                found[row] = (number - before.get(ssrc, number) + (1 << 63)) % (1 << 64) - (1 << 63)
                before[ssrc] = number
        return found
