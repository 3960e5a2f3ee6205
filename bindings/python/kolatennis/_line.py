"""Both ends of a line: a host, and a printer for emulators."""
from __future__ import annotations

import contextlib, ctypes, os, threading
from typing import Any, Callable, Iterator, List, NamedTuple, NoReturn, Optional, Tuple, TypeVar

from ._errors import Forked, NotNow, Refused
from ._library import NO_PLACE, Bytes, Handle, Sensors, as_bytes, dots, filled, in_range, library, options, place, told
from ._numbers import EVENTS, FAULT_REASONS, HOST_REASONS, RECEIPT_REASONS, STATES, STOPS, Status
from ._texts import Receipt, as_json


class Event(NamedTuple):
    """What a host heard: a name of EVENTS, and the record's number, the status byte, the place of the bad answer, the number of the mark
    that was answered late, or the four bytes of the condition as one number, the first byte highest."""

    kind: str
    number: int


class Fed(NamedTuple):
    """How far a printer took bytes: a name of STOPS, and of a fault its reason and its place, otherwise None."""

    consumed: int
    stop: str
    reason: Optional[str]
    at: Optional[int]


_Own = TypeVar("_Own", bound="_Held")


class _Held:
    """What a handle holds; it is freed once, by `close`, at the end of a `with`, or with the object. Any thread may use it: a lock gives
    it to one call at a time. A process that was forked since may not."""

    _free: Callable[..., None]
    _process: Optional[int] = None

    def _make(self, call: Callable[..., int], *arguments: Any) -> None:
        self.close()
        self._handle, self._lock, self._process = Handle(), threading.RLock(), os.getpid()
        with self._turn() as handle:
            told(call(handle, *arguments))

    @contextlib.contextmanager
    def _turn(self) -> Iterator[Any]:
        """Gives the handle to one call, or several in a row."""
        if self._process != os.getpid():
            raise Forked("this was made before a fork: the process that made it may go on with it")
        with self._lock:
            yield ctypes.byref(self._handle)

    def _do(self, call: Callable[..., int], *arguments: Any) -> int:
        with self._turn() as handle:
            return told(call(handle, *arguments))

    def _fill(self, call: Callable[..., int], guess: int) -> bytes:
        with self._turn() as handle:
            return filled(lambda *out: call(handle, *out), guess)[1]

    def close(self) -> None:
        """Frees it. Every later use raises Closed. Where it was made before a fork, nothing is freed."""
        if self._process == os.getpid():
            with self._turn() as handle:
                type(self)._free(handle)

    def __enter__(self: _Own) -> _Own:
        return self

    def __exit__(self, *_: object) -> None:
        self.close()

    def __del__(self) -> None:
        self.close()

    def __reduce__(self) -> NoReturn:
        raise TypeError(f"a {type(self).__name__} can't be copied")

    def _number(self, call: Callable[..., int], kind: Any) -> Any:
        number = kind()
        self._do(call, ctypes.byref(number))
        return number.value


class Host(_Held):
    """The till's end of a line.

    `first_mark` is the number of its first mark: what `next_mark` said last to the run before, and 0 with a new printer. No number may
    be used twice with a printer, so keep `next_mark` where it survives a crash before you send what `take_out` gives, each time.
    `records` is how many receipts are recorded already.

    >>> host, printer = Host(), Printer()
    >>> host.link_up()
    >>> def turn():
    ...     while True:
    ...         piece = host.take_out()
    ...         printer.feed(piece)
    ...         answer = printer.take_answer()
    ...         if not piece and answer is None: return
    ...         for event in host.hear(answer or b""): print(event)
    >>> turn()
    Event(kind='opened', number=0)
    >>> host.submit([{"line": "Hi"}])
    >>> turn()
    Event(kind='recorded', number=0)
    >>> print(printer.paper(), end="")
    row left Hi
    feed 1
    >>> host.state, host.next_mark, host.records
    ('ready', 2, 1)
    """

    _free = library.kolatennis_host_free

    def __init__(self, first_mark: int = 0, records: int = 0) -> None:
        in_range(first_mark, 2**32 - 1, "first_mark")
        in_range(records, NO_PLACE, "records")
        self._make(library.kolatennis_host_resume, first_mark, records)

    def _does(self, call: Callable[..., int], *arguments: Any) -> None:
        reason = ctypes.c_uint32()
        if self._do(call, *arguments, ctypes.byref(reason)) == Status.REFUSED:
            raise NotNow(HOST_REASONS[reason.value])

    def link_up(self) -> None:
        """Opens a link: puts one opening mark out.

        >>> host = Host(); host.link_up(); host.link_up()
        Traceback (most recent call last):
        ...
        kolatennis.NotNow: AlreadyUp
        """
        self._does(library.kolatennis_host_link_up)

    def nudge(self) -> None:
        """Puts one more opening mark out; possible while none is answered. A printer may still wait for the rest of a command that an
        older link cut off, and takes the first marks for that: so put out a few."""
        self._does(library.kolatennis_host_nudge)

    def ask(self, kind: int) -> None:
        """Puts a status request of a kind from 1 to 4 out; possible while the link is open and no receipt is in flight."""
        self._does(library.kolatennis_host_ask, in_range(kind, 255, "kind"))

    def submit(self, receipt: Receipt, width: int = 512, replacement: Optional[str] = None) -> None:
        """Puts a receipt out; possible while the link is open and fewer than four are in flight. Raises Refused where it is no
        receipt, and NotNow where the host takes none. `width` and `replacement` are those of `encode`."""
        chosen, text = options(width, replacement), as_json(receipt)
        self._submit(library.kolatennis_host_submit, ctypes.byref(chosen), text, len(text))

    def submit_raw(self, stream: Bytes, width: int = 512) -> None:
        """The same of a stream of bytes, as another library makes it: it is a receipt if its commands are one without each ESC @ at the
        beginning and at the end, GS a and DLE EOT. The place of a refusal is that of a byte.

        >>> Host().submit_raw(b"\\x1b@Hi\\n\\x1b@Ho\\n")
        Traceback (most recent call last):
        ...
        kolatennis.Refused: Forbidden at 5
        """
        given = as_bytes(stream)
        self._submit(library.kolatennis_host_submit_raw, dots(width), given, len(given))

    def _submit(self, call: Callable[..., int], *arguments: Any) -> None:
        reason, at = ctypes.c_uint32(), ctypes.c_size_t()
        if self._do(call, *arguments, ctypes.byref(reason), ctypes.byref(at)) == Status.REFUSED:
            why = {**RECEIPT_REASONS, **FAULT_REASONS}.get(reason.value)
            if why is not None:
                raise Refused(why, place(at.value))
            raise NotNow(HOST_REASONS[reason.value])

    def link_down(self) -> None:
        """Gives the link up. A receipt that was in flight and isn't recorded may have been printed or not: an event "recorded" on the next
        link, before that is open, says that it is."""
        self._do(library.kolatennis_host_link_down)

    def take_out(self, most: int = 65536) -> bytes:
        """Returns the next bytes for the link, at most so many; none if there are none."""
        return self._fill(library.kolatennis_host_take_out, in_range(most, NO_PLACE, "most"))

    def hear(self, answer: Bytes) -> List[Event]:
        """Hears all of these bytes, and returns the events in their order. After a bad answer, whose place is that in all of these bytes,
        the link is down, and the rest isn't heard.

        >>> host = Host(); host.link_up()
        >>> host.hear(b"\\x12\\xff\\x12")
        [Event(kind='status', number=18), Event(kind='bad answer', number=1)]
        """
        answer = as_bytes(answer)
        all_of_it, heard, events = ctypes.create_string_buffer(answer, len(answer)), 0, []
        with self._turn() as handle:
            while heard < len(answer):
                consumed, event = _heard(handle, ctypes.byref(all_of_it, heard), len(answer) - heard)
                if event.kind == "bad answer":
                    return [*events, Event(event.kind, heard + event.number)]
                heard += consumed
                if event.kind != "none":
                    events.append(event)
        return events

    @property
    def has_out(self) -> bool:
        """Whether there are bytes for the link."""
        return bool(self._number(library.kolatennis_host_has_out, ctypes.c_bool))

    @property
    def state(self) -> str:
        """Where the host stands with its link: a name of STATES."""
        return STATES[self._number(library.kolatennis_host_state, ctypes.c_uint32)]

    @property
    def next_mark(self) -> int:
        """The number of the next mark."""
        return int(self._number(library.kolatennis_host_next_mark, ctypes.c_uint32))

    @property
    def records(self) -> int:
        """How many receipts are recorded, those of before among them."""
        return int(self._number(library.kolatennis_host_records, ctypes.c_size_t))


def _heard(handle: Any, answer: Any, length: int) -> Tuple[int, Event]:
    """Hears bytes up to the first event; returns how many were heard, and the event."""
    consumed, kind, number = ctypes.c_size_t(), ctypes.c_uint32(), ctypes.c_size_t()
    told(library.kolatennis_host_heard(handle, answer, length, ctypes.byref(consumed), ctypes.byref(kind), ctypes.byref(number)))
    return consumed.value, Event(EVENTS[kind.value], number.value)


class Printer(_Held):
    """A printer, with nothing on its paper, whose lines have `width` dots.

    >>> with Printer() as printer:
    ...     printer.feed(b"A\\x1b#"), printer.feed(b"\\n")
    ...     printer.paper()
    (Fed(consumed=2, stop='fault', reason='UnknownCommand', at=2), Fed(consumed=1, stop='all', reason=None, at=None))
    'row left A\\nfeed 1\\n'
    >>> printer.paper()
    Traceback (most recent call last):
    ...
    kolatennis.Closed: it is closed
    """

    _free = library.kolatennis_printer_free

    def __init__(self, cover_open: bool = False, near_end: bool = False, paper_end: bool = False, width: int = 512) -> None:
        sensors = Sensors(cover_open, near_end, paper_end)
        self._make(library.kolatennis_printer_new, ctypes.byref(sensors), dots(width))

    def feed(self, piece: Bytes) -> Fed:
        """Feeds bytes of a stream, up to the first that can't be taken now."""
        piece = as_bytes(piece)
        consumed, stop, reason, at = ctypes.c_size_t(), ctypes.c_uint32(), ctypes.c_uint32(), ctypes.c_size_t()
        results = [ctypes.byref(it) for it in (consumed, stop, reason, at)]
        self._do(library.kolatennis_printer_feed, piece, len(piece), *results)
        return Fed(consumed.value, STOPS[stop.value], FAULT_REASONS.get(reason.value), place(at.value))

    def take_answer(self) -> Optional[bytes]:
        """Returns the answer that has waited longest, as its bytes, or None.

        >>> printer = Printer(cover_open=True)
        >>> printer.feed(b"\\x10\\x04\\x02A").stop, printer.take_answer(), printer.take_answer()
        ('offline', b'\\x16', None)
        """
        return self._fill(library.kolatennis_printer_take_answer, 7) or None

    def set_condition(self, cover_open: bool = False, near_end: bool = False, paper_end: bool = False) -> None:
        """Sets what the sensors say."""
        sensors = Sensors(cover_open, near_end, paper_end)
        self._do(library.kolatennis_printer_set_condition, ctypes.byref(sensors))

    def paper(self) -> str:
        """Returns what is on the paper, as text."""
        return self._fill(library.kolatennis_printer_paper, 4096).decode()

    def tear_off(self) -> None:
        """Drops what is on the paper."""
        self._do(library.kolatennis_printer_tear_off)
