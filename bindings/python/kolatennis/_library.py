"""The calls of libkolatennis.so, by ctypes."""
from __future__ import annotations

import ctypes, os
from typing import Any, Callable, Optional, Tuple, Union

from ._errors import Closed, OutOfMemory, OutOfRange, TooLong
from ._numbers import Status
from ._version import __version__

#: Anything that shows its bytes.
Bytes = Union[bytes, bytearray, memoryview]

NO_PLACE: int = ctypes.c_size_t(-1).value
#: The most bytes of a text that the library makes.
LONGEST_TEXT = 268435456


class Handle(ctypes.Structure):
    """A handle: kolatennis_host, kolatennis_printer or kolatennis_till."""

    _fields_ = [("at", ctypes.c_void_p)]


class Sensors(ctypes.Structure):
    """kolatennis_sensors."""

    _fields_ = [("cover_open", ctypes.c_bool), ("near_end", ctypes.c_bool), ("paper_end", ctypes.c_bool)]


class Options(ctypes.Structure):
    """kolatennis_options."""

    _fields_ = [("width", ctypes.c_uint16), ("replacement", ctypes.c_uint8)]


class Asks(ctypes.Structure):
    """kolatennis_asked."""

    _fields_ = [("ask", ctypes.c_uint32), ("note", ctypes.c_uint32), ("fault", ctypes.c_uint32), ("number", ctypes.c_size_t)]


_HANDLE, _SENSORS, _OPTIONS, _ASKS = map(ctypes.POINTER, (Handle, Sensors, Options, Asks))
_BUFFER = [ctypes.c_void_p, ctypes.c_size_t]
_SIZE, _U32, _BOOL = ctypes.POINTER(ctypes.c_size_t), ctypes.POINTER(ctypes.c_uint32), ctypes.POINTER(ctypes.c_bool)
_TEXT = [*_BUFFER, *_BUFFER, _SIZE]
_CALLS = {
    "kolatennis_version": [],
    "kolatennis_error_name": [ctypes.c_uint32],
    "kolatennis_encode": [_OPTIONS, *_BUFFER, *_BUFFER, _SIZE, _U32, _SIZE],
    "kolatennis_listing": _TEXT,
    "kolatennis_paper": [ctypes.c_uint16, *_TEXT],
    "kolatennis_paper_text": [ctypes.c_uint16, *_TEXT],
    "kolatennis_picture": [ctypes.c_uint16, *_TEXT],
    "kolatennis_image": [ctypes.c_uint16, ctypes.c_uint8, *_TEXT],
    "kolatennis_host_new": [_HANDLE, ctypes.c_uint32],
    "kolatennis_host_resume": [_HANDLE, ctypes.c_uint32, ctypes.c_size_t],
    "kolatennis_host_free": [_HANDLE],
    "kolatennis_host_link_up": [_HANDLE, _U32],
    "kolatennis_host_nudge": [_HANDLE, _U32],
    "kolatennis_host_submit": [_HANDLE, _OPTIONS, *_BUFFER, _U32, _SIZE],
    "kolatennis_host_submit_raw": [_HANDLE, ctypes.c_uint16, *_BUFFER, _U32, _SIZE],
    "kolatennis_host_ask": [_HANDLE, ctypes.c_uint8, _U32],
    "kolatennis_host_link_down": [_HANDLE],
    "kolatennis_host_take_out": [_HANDLE, *_BUFFER, _SIZE],
    "kolatennis_host_has_out": [_HANDLE, _BOOL],
    "kolatennis_host_heard": [_HANDLE, *_BUFFER, _SIZE, _U32, _SIZE],
    "kolatennis_host_state": [_HANDLE, _U32],
    "kolatennis_host_next_mark": [_HANDLE, _U32],
    "kolatennis_host_records": [_HANDLE, _SIZE],
    "kolatennis_printer_new": [_HANDLE, _SENSORS, ctypes.c_uint16],
    "kolatennis_printer_free": [_HANDLE],
    "kolatennis_printer_feed": [_HANDLE, *_BUFFER, _SIZE, _U32, _U32, _SIZE],
    "kolatennis_printer_take_answer": [_HANDLE, *_BUFFER, _SIZE],
    "kolatennis_printer_set_condition": [_HANDLE, _SENSORS],
    "kolatennis_printer_paper": [_HANDLE, *_BUFFER, _SIZE],
    "kolatennis_printer_tear_off": [_HANDLE],
    "kolatennis_till_new": [_HANDLE],
    "kolatennis_till_open": [_HANDLE, *_BUFFER, _U32, _SIZE],
    "kolatennis_till_free": [_HANDLE],
    "kolatennis_till_queue": [_HANDLE, _OPTIONS, *_BUFFER, _U32, _SIZE],
    "kolatennis_till_queue_keyed": [_HANDLE, _OPTIONS, *_BUFFER, *_BUFFER, _U32, _SIZE],
    "kolatennis_till_queue_raw": [_HANDLE, ctypes.c_uint16, *_BUFFER, _U32, _SIZE],
    "kolatennis_till_raise": [_HANDLE, ctypes.c_uint32, _U32, _U32],
    "kolatennis_till_cancel": [_HANDLE, ctypes.c_size_t, _U32],
    "kolatennis_till_deliver": [_HANDLE, ctypes.c_uint32, *_BUFFER, ctypes.c_uint32, _U32, _SIZE],
    "kolatennis_till_asks": [_HANDLE, _ASKS],
    "kolatennis_till_append": [_HANDLE, *_BUFFER, _SIZE],
    "kolatennis_till_appended": [_HANDLE, ctypes.c_bool],
    "kolatennis_till_connected": [_HANDLE, ctypes.c_bool],
    "kolatennis_till_take_out": [_HANDLE, *_BUFFER, _SIZE],
    "kolatennis_till_came": [_HANDLE, *_BUFFER, _SIZE],
    "kolatennis_till_link_ended": [_HANDLE, ctypes.c_uint32],
    "kolatennis_till_hung_up": [_HANDLE],
    "kolatennis_till_told": [_HANDLE],
    "kolatennis_till_receipts": [_HANDLE, _SIZE],
    "kolatennis_till_state": [_HANDLE, ctypes.c_size_t, _U32, _SIZE],
    "kolatennis_till_is_paused": [_HANDLE, _BOOL],
    "kolatennis_till_next_mark": [_HANDLE, _U32],
}


def _path() -> str:
    """Returns the path of the library: the file that KOLATENNIS_LIBRARY names, if it is set, otherwise the one beside this module."""
    named = os.environ.get("KOLATENNIS_LIBRARY")
    path = os.path.abspath(named) if named else os.path.join(os.path.dirname(os.path.abspath(__file__)), "libkolatennis.so")
    if not os.path.exists(path):
        raise ImportError(f"there is no {path}: install the wheel, or name libkolatennis.so in KOLATENNIS_LIBRARY")
    return path


def _result(name: str) -> Any:
    """Returns what a call returns, as ctypes has it."""
    if name.endswith("_free"):
        return None
    return ctypes.c_char_p if name in ("kolatennis_version", "kolatennis_error_name") else ctypes.c_int


def _loaded(path: str) -> ctypes.CDLL:
    """Loads the library, which must have the version of this module."""
    try:
        found = ctypes.CDLL(path)
        for name, arguments in _CALLS.items():
            call = getattr(found, name)
            call.argtypes, call.restype = arguments, _result(name)
    except (OSError, AttributeError) as why:
        raise ImportError(f"{path} isn't the library of Kolatennis {__version__}: {why}") from None
    version = found.kolatennis_version().decode()
    if version != __version__:
        raise ImportError(f"{path} has the version {version}, and this module {__version__}")
    return found


library = _loaded(_path())


def told(status: int) -> int:
    """Raises what a status means that no call but this one handles, and returns any other."""
    if status == Status.MEMORY:
        raise OutOfMemory("out of memory")
    if status == Status.EMPTY:
        raise Closed("it is closed")
    if status == Status.TOO_LONG:
        raise TooLong(f"the text would have more than {LONGEST_TEXT} bytes")
    assert status != Status.BAD_ARGUMENT
    return status


def as_bytes(given: Bytes) -> bytes:
    """Returns bytes, or anything that shows its bytes, as bytes."""
    return given if isinstance(given, bytes) else memoryview(given).tobytes()


def in_range(number: int, most: int, what: str, least: int = 0) -> int:
    """Returns a number that is in its range."""
    if not least <= number <= most:
        raise OutOfRange(f"{what} is {number}: it must be {least} to {most}")
    return number


def dots(width: int) -> int:
    """Returns a width that is in its range."""
    return in_range(width, 1024, "width", 1)


def options(width: int, replacement: Optional[str]) -> Options:
    """Returns the options of a receipt's text."""
    if replacement is None:
        return Options(dots(width), 0)
    if not (isinstance(replacement, str) and len(replacement) == 1 and " " <= replacement <= "~"):
        raise OutOfRange(f"replacement is {replacement!r}: it must be one character of ASCII, ' ' to '~'")
    return Options(dots(width), ord(replacement))


def place(at: int) -> Optional[int]:
    """Returns a place, or None for one that isn't there."""
    return None if at == NO_PLACE else at


def filled(call: Callable[..., int], guess: int, *results: Any) -> Tuple[int, bytes]:
    """Calls with a buffer, and again with a longer one if the first was too short; returns the status and what was written."""
    while True:
        buffer, written = ctypes.create_string_buffer(max(guess, 1)), ctypes.c_size_t()
        status = call(buffer, guess, ctypes.byref(written), *results)
        if status != Status.SHORT:
            return told(status), ctypes.string_at(buffer, written.value)
        guess = written.value
