"""The shared library: where it is found, and its calls. include/lorukinde.h says what each does."""
from __future__ import annotations

import ctypes
import os
from ctypes import POINTER, byref, c_char_p, c_size_t, c_uint32
from pathlib import Path
from typing import Callable, List, Union

from ._version import __version__

RECORD_BYTES = 64
ANSWER_BYTES = 16
PART_BYTES = 28
SHEET_BYTES = 4096

Bytes = Union[bytes, bytearray, memoryview]


def _found() -> str:
    """The file that LORUKINDE_LIB names, the library beside the package, or else one that is installed."""
    beside = Path(__file__).with_name("liblorukinde.so")
    if "LORUKINDE_LIB" in os.environ:
        return os.environ["LORUKINDE_LIB"]
    return str(beside) if beside.exists() else f"liblorukinde.so.{__version__.split('.')[0]}"


def _loaded() -> ctypes.CDLL:
    try:
        library = ctypes.CDLL(_found())
    except OSError as error:
        raise ImportError(
            f"{error}: the library is looked for by LORUKINDE_LIB, beside the package, and among those that are installed (tools/install.sh)"
        ) from error
    library.lorukinde_version.restype = c_char_p
    version = library.lorukinde_version().decode()
    if version != __version__:
        raise ImportError(f"{_found()} is version {version}, and the package {__version__}")
    return library


_library = _loaded()
_numbers = POINTER(c_uint32)
_sizes = POINTER(c_size_t)
_lent = ctypes.c_void_p


def _call(name: str, answer: object, *arguments: object) -> Callable[..., int]:
    call = getattr(_library, "lorukinde_" + name)
    call.restype = answer
    call.argtypes = arguments
    return call  # type: ignore[no-any-return]


_lent_bytes = (_lent, c_size_t)
_lent_sheets = (_lent, _lent, c_size_t)  # the text, where each sheet ends, and how many there are
read_parts = _call("read_parts", c_uint32, c_uint32, *_lent_sheets, c_size_t, *_lent_bytes, *_lent_bytes, _sizes, _sizes, _sizes)
read_feed = _call("read_feed", c_uint32, *_lent_bytes, *_lent_bytes, *_lent_bytes, _sizes, _sizes)
note = _call("note", c_uint32, c_size_t, c_size_t, ctypes.c_int32, ctypes.c_int32, _sizes, _sizes)
position = _call("position", None, *_lent_bytes, c_size_t, _sizes, _sizes)
say_rules = _call("say_rules", c_size_t, *_lent_bytes, *_lent_bytes, *_lent_bytes)
say_refusal = _call("say_refusal", c_size_t, c_uint32, *_lent_bytes, c_size_t, c_size_t, c_uint32, c_size_t, *_lent_bytes)
say_parts = _call("say_parts", c_size_t, c_uint32, *_lent_sheets, *_lent_bytes, *_lent_bytes, *_lent_bytes, *_lent_bytes, *_lent_bytes)
parts_days = _call("parts_days", c_uint32, *_lent_bytes, *_lent_bytes, *_lent_bytes, *_lent_bytes)
rule_months = _call("rule_months", c_uint32, *_lent_bytes, *_lent_bytes)
tally_add = _call("tally_add", c_uint32, *_lent_bytes, c_uint32, c_uint32, c_uint32, c_uint32, *_lent_bytes)
tally_feed = _call("tally_feed", c_uint32, *_lent_bytes, *_lent_bytes, *_lent_bytes)
tally_join = _call("tally_join", c_uint32, *_lent_bytes, *_lent_bytes)


def lent(data: bytes) -> tuple[bytes, int]:
    """Bytes that a call reads, with their length. The pointer is never null, as the library asks."""
    return data, len(data)


class Room:
    """Bytes that a call writes to."""

    def __init__(self, length: int, filled: bytes = b"") -> None:
        self.length = length
        self.bytes = bytearray(filled or max(length, 1))

    def lent(self) -> tuple[ctypes.Array[ctypes.c_char], int]:
        return (ctypes.c_char * len(self.bytes)).from_buffer(self.bytes), self.length

    def used(self, length: int) -> bytes:
        return bytes(memoryview(self.bytes)[:length])


def sizes(count: int) -> List[c_size_t]:
    """Numbers that a call stores."""
    return [c_size_t() for _ in range(count)]


def stored(numbers: List[c_size_t]) -> List[object]:
    return [byref(number) for number in numbers]


def sentence(call: Callable[..., int], *arguments: object, likely: int = 1024) -> str:
    """What a call says; it is asked again where that is longer than is likely."""
    room = Room(likely)
    length = call(*arguments, *room.lent())
    if length > room.length:
        room = Room(length)
        call(*arguments, *room.lent())
    return room.used(length).decode()
