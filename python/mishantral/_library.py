"""Finds and declares the shared library."""

import ctypes
import functools
import os
from ctypes.util import find_library
from pathlib import Path
from typing import Iterator

from .errors import LibraryNotFound

_U8 = ctypes.POINTER(ctypes.c_uint8)
_U64 = ctypes.POINTER(ctypes.c_uint64)
_SIZE = ctypes.c_size_t
_BUFFERS = [_U64, _SIZE] * 3


class DroppedRecord(ctypes.Structure):
    """An entry of mishantral_mend's report."""

    _fields_ = [("place", ctypes.c_uint64), ("reply", ctypes.c_uint64)]


_SIGNATURES = {
    "mishantral_words": [ctypes.c_uint64],
    "mishantral_load": [_U8, _SIZE, *_BUFFERS],
    "mishantral_request": [_U8, _SIZE, *_BUFFERS],
    "mishantral_settle": [*_BUFFERS],
    "mishantral_settled_request": [_U8, _SIZE, *_BUFFERS],
    "mishantral_pile": [_U8, _SIZE, _U8, _SIZE, ctypes.c_uint64, *_BUFFERS],
    "mishantral_question": [_U8, _SIZE, _U64, _SIZE, *_BUFFERS],
    "mishantral_write": [_U8, _SIZE, *_BUFFERS],
    "mishantral_mend": [_U8, _SIZE, _U8, _SIZE, ctypes.POINTER(DroppedRecord), _SIZE, *_BUFFERS],
    "mishantral_opl": [_U8, _SIZE, _U8, _SIZE, _U8, _SIZE, _U64, _SIZE],
    "mishantral_opl_all": [_U8, _SIZE, _U8, _SIZE, _U8, _SIZE, _U64, _SIZE],
}


def _candidates() -> Iterator[str]:
    named = os.environ.get("MISHANTRAL_LIBRARY")
    if named:
        yield named
        return
    in_clone = Path(__file__).resolve().parents[2] / "target" / "native" / "libmishantral.so"
    if in_clone.exists():
        yield str(in_clone)
    found = find_library("mishantral")
    if found:
        yield found


@functools.lru_cache(maxsize=None)
def library() -> ctypes.CDLL:
    """The library, loaded at the first call, because a client of a served desk needs none."""
    for path in _candidates():
        try:
            loaded = ctypes.CDLL(path)
        except OSError as error:
            raise LibraryNotFound(f"{path} cannot be loaded: {error}") from error
        for name, arguments in _SIGNATURES.items():
            function = getattr(loaded, name)
            function.argtypes = arguments
            function.restype = ctypes.c_uint64
        return loaded
    raise LibraryNotFound(
        "libmishantral.so was not found: make it with `tools/archive shared`, install it with `tools/install`, "
        "or name it in the environment variable MISHANTRAL_LIBRARY"
    )


def bytes_in(data: bytes) -> "ctypes.Array[ctypes.c_uint8]":
    """A copy of the bytes as a C array; keep it for as long as the call needs it."""
    return (ctypes.c_uint8 * len(data)).from_buffer_copy(data)
