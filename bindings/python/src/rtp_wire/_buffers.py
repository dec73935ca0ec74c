"""Where the bytes of a buffer lie. Nothing is copied."""

from __future__ import annotations

from ctypes import Structure, addressof, byref, c_char, c_int, c_ssize_t, c_void_p, py_object, pythonapi
from typing import TYPE_CHECKING, Optional, Tuple, Union

if TYPE_CHECKING:
    from _typeshed import ReadableBuffer as Buffer
    from _typeshed import WriteableBuffer as WritableBuffer

    __all__ = [
        "Address",
        "Buffer",
        "WritableBuffer",
        "address_of",
        "copy_of",
        "place_of",
        "view_of",
        "writable_view_of",
    ]

    # What ctypes passes as a pointer to the first byte: None where there is no byte.
    Address = Union[bytes, int, None]


class _PyBuffer(Structure):
    """Py_buffer of CPython."""

    _fields_ = [
        ("buf", c_void_p),
        ("obj", c_void_p),
        ("len", c_ssize_t),
        ("itemsize", c_ssize_t),
        ("readonly", c_int),
        ("ndim", c_int),
        ("format", c_void_p),
        ("shape", c_void_p),
        ("strides", c_void_p),
        ("suboffsets", c_void_p),
        ("internal", c_void_p),
    ]


_get_buffer = pythonapi.PyObject_GetBuffer
_get_buffer.argtypes = [py_object, c_void_p, c_int]
_release_buffer = pythonapi.PyBuffer_Release
_release_buffer.argtypes = [c_void_p]
_release_buffer.restype = None


def view_of(data: Buffer) -> memoryview:
    """The bytes of an object that has the buffer protocol, as they lie. TypeError where they don't lie together, or are
    the parts of larger items, as those of an array of numpy that has a byte of a datagram in each of its int64."""
    view = memoryview(data)
    if view.itemsize != 1:
        raise TypeError(f"the items of the buffer have {view.itemsize} bytes each, and not one")
    if not view.c_contiguous:
        raise TypeError("the bytes of the buffer don't lie together")
    return view if view.format == "B" and view.ndim == 1 else view.cast("B")


def writable_view_of(data: WritableBuffer) -> memoryview:
    """The same; TypeError also where they can't be changed."""
    view = view_of(data)
    if view.readonly:
        raise TypeError("the buffer is read-only")
    return view


def copy_of(data: Buffer) -> bytes:
    """The bytes, where they may lie in what is written: the library mustn't see them twice."""
    return data if type(data) is bytes else bytes(view_of(data))


def address_of(view: memoryview) -> Optional[int]:
    """Where the bytes of a view lie, for as long as the view lives and isn't released. None where there are none."""
    if not view.nbytes:
        return None
    if not view.readonly:
        return addressof(c_char.from_buffer(view))
    raw = _PyBuffer()
    _get_buffer(view, byref(raw), 0)
    try:
        return raw.buf  # type: ignore[no-any-return]
    finally:
        _release_buffer(byref(raw))


def place_of(data: Buffer) -> Tuple[Union[bytes, memoryview], Address]:
    """The bytes as they lie, and what ctypes passes as a pointer to them, for as long as the first of the two lives."""
    if type(data) is bytes:  # of another class len() may be anything
        return data, data
    view = memoryview(data) if type(data) is bytearray else view_of(data)
    return view, address_of(view)
