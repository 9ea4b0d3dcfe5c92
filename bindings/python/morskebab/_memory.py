"""Bytes where they stand: what a call is lent of an object that has bytes, such as bytes, a bytearray, a memoryview or a mapped file."""
from __future__ import annotations

from ctypes import POINTER, Structure, byref, c_int, c_ssize_t, c_uint8, c_void_p, cast, py_object, pythonapi
from typing import Any


class _Buffer(Structure):
    """Python's own Py_buffer."""

    _fields_ = [
        ("buf", c_void_p), ("obj", c_void_p), ("len", c_ssize_t), ("itemsize", c_ssize_t), ("readonly", c_int), ("ndim", c_int),
        ("format", c_void_p), ("shape", c_void_p), ("strides", c_void_p), ("suboffsets", c_void_p), ("internal", c_void_p),
    ]


class Memory:
    """The place of an object's first byte and their number. The bytes stay where they are while this lives, and are copied only where they are not in
    one piece; TypeError with the field's name where the object has none, or they may not be written and are to be."""

    def __init__(self, field: str, data: Any, written: bool = False) -> None:
        self._buffer = _Buffer()
        if isinstance(data, memoryview) and not data.c_contiguous and not written:
            data = bytes(data)
        try:
            pythonapi.PyObject_GetBuffer(py_object(data), byref(self._buffer), int(written))
        except (TypeError, BufferError):
            raise TypeError(f"{field} must be bytes{' that may be written' if written else ''}, not {type(data).__name__}") from None
        # an empty one may have no place
        self.first = cast(self._buffer.buf, POINTER(c_uint8)) if self._buffer.buf else (c_uint8 * 1)()
        self.length = self._buffer.len

    def __del__(self) -> None:
        pythonapi.PyBuffer_Release(byref(self._buffer))
