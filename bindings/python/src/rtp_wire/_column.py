"""A column of values, of which some aren't there."""

from __future__ import annotations

from array import array
from ctypes import POINTER, Structure, c_size_t, c_void_p
from typing import Generic, Iterator, List, Optional, TypeVar, Union, overload

from ._library import BYTES, SIZE, RawMap, RawReceiver
from ._loaded import declare

Value = TypeVar("Value")


class RawColumn(Structure):
    """A column of src/columns.c."""

    _fields_ = [("offset", c_size_t), ("size", c_size_t), ("to", c_void_p), ("stride", c_size_t)]


_COLUMNS = POINTER(RawColumn)
_DATAGRAMS = (BYTES, SIZE, POINTER(RawMap), BYTES, BYTES, SIZE)
columns_parse = declare(None, "columns_parse", *_DATAGRAMS, _COLUMNS, SIZE, _COLUMNS, SIZE, _COLUMNS)
_RECEIVERS = (POINTER(RawReceiver), SIZE, BYTES)
columns_receive = declare(None, "columns_receive", *_RECEIVERS, _COLUMNS, _COLUMNS, SIZE, _COLUMNS, _COLUMNS)


class _Optionals(Generic[Value]):
    """A sequence, of which an item is None where the value isn't there. A slice is a list of such items."""

    __slots__ = ("there",)

    there: array[int]
    """1 for each that is there, and 0 for each that isn't."""

    def __len__(self) -> int:
        return len(self.there)

    @overload
    def __getitem__(self, row: int) -> Optional[Value]: ...

    @overload
    def __getitem__(self, row: slice) -> List[Optional[Value]]: ...

    def __getitem__(self, row: Union[int, slice]) -> Union[Optional[Value], List[Optional[Value]]]:
        rows = range(len(self.there))[row]
        return self._item(rows) if isinstance(rows, int) else [self._item(it) for it in rows]

    def __iter__(self) -> Iterator[Optional[Value]]:
        return map(self._item, range(len(self.there)))

    def _item(self, row: int) -> Optional[Value]:
        raise NotImplementedError


class Column(_Optionals[int]):
    """The values of a kind, one for each datagram: a sequence, of which an item is None where the value isn't there. A
    slice is a list of such items."""

    __slots__ = ("data",)

    data: array[int]
    """The values, of which those that aren't there are 0."""

    def __init__(self, data: array[int], there: array[int]) -> None:
        self.data, self.there = data, there

    def __iter__(self) -> Iterator[Optional[int]]:
        return (value if is_there else None for value, is_there in zip(self.data, self.there))

    def _item(self, row: int) -> Optional[int]:
        return self.data[row] if self.there[row] else None


class TextColumn(_Optionals[str]):
    """The texts of a kind, one for each datagram: a sequence, of which an item is None where the text isn't there. A
    slice is a list of such items."""

    __slots__ = ("data", "size")

    data: bytearray
    """The texts as C has them, each of `size` bytes with zeros behind it: numpy's type S17 for 17 of them."""
    size: int
    """How many bytes of the data are those of a row."""

    def __init__(self, data: bytearray, size: int, there: array[int]) -> None:
        self.data, self.size, self.there = data, size, there

    def _item(self, row: int) -> Optional[str]:
        if not self.there[row]:
            return None
        return self.data[row * self.size : (row + 1) * self.size].rstrip(b"\0").decode()
