"""The bytes of a file: a view of them, and their address."""
from __future__ import annotations

import ctypes
import mmap
from typing import Any


class _Buffer(ctypes.Structure):
    """CPython's `Py_buffer`."""

    _fields_ = [
        ("buf", ctypes.c_void_p),
        ("obj", ctypes.c_void_p),
        ("len", ctypes.c_ssize_t),
        ("itemsize", ctypes.c_ssize_t),
        ("readonly", ctypes.c_int),
        ("ndim", ctypes.c_int),
        ("format", ctypes.c_void_p),
        ("shape", ctypes.c_void_p),
        ("strides", ctypes.c_void_p),
        ("suboffsets", ctypes.c_void_p),
        ("internal", ctypes.c_void_p),
    ]


# Functions taken by an index are this module's own: their types don't change for other users of `pythonapi`.
_get_buffer = ctypes.pythonapi["PyObject_GetBuffer"]
_get_buffer.argtypes = (ctypes.py_object, ctypes.c_void_p, ctypes.c_int)
_release_buffer = ctypes.pythonapi["PyBuffer_Release"]
_release_buffer.argtypes, _release_buffer.restype = (ctypes.c_void_p,), None


class Address(int):
    """The address of bytes, which stay in memory as long as the number does."""

    view: memoryview


def address_of(view: memoryview) -> Address:
    """The address of the bytes. ctypes gives none of memory that is read-only."""
    buffer = _Buffer()
    _get_buffer(view, ctypes.byref(buffer), 0)
    address = Address(buffer.buf or 0)
    _release_buffer(ctypes.byref(buffer))
    address.view = view
    return address


def _contents(stream: Any) -> Any:
    """A map of a file, or what is read from a stream that can't be mapped."""
    try:
        return mmap.mmap(stream.fileno(), 0, access=mmap.ACCESS_READ)
    except (AttributeError, OSError, ValueError):
        return stream.read()


def view_of(source: Any) -> memoryview:
    """The bytes of an object with a buffer, or of a binary stream."""
    try:
        view = memoryview(source)
    except TypeError:
        if not hasattr(source, "read"):
            raise TypeError(
                f"a binary file or bytes are wanted, not {type(source).__name__}; `load_from_path` takes a path"
            ) from None
        view = memoryview(_contents(source))
    return view.cast("B") if view.nbytes else memoryview(b"")
