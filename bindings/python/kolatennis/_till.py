"""A till with one printer."""
from __future__ import annotations

import ctypes
from typing import Callable, Iterator, NamedTuple, Optional, Union

from ._errors import Damaged, NotNow, OutOfRange, Refused
from ._library import NO_PLACE, Asks, Bytes, as_bytes, dots, in_range, library, options, place
from ._line import _Held
from ._numbers import ASKS, FAULT_REASONS, HOST_REASONS, LINK_REASONS, NOTES, RECEIPT_REASONS, STANDS, TILL_REASONS, Status
from ._texts import Receipt, as_json

#: A mark number has 32 bits, and so has the number of answers' bytes.
_MOST = 2**32 - 1


class Asked(NamedTuple):
    """What a till asks for: a name of ASKS. At "tell" `note` is a name of NOTES, `number` the receipt's, if the note has one, and `why` at
    "waiting" a name of LINK_REASONS or HOST_REASONS, or "out of memory", at "paused" and "still paused" one of PAUSES. At "wait" `number` is the most bytes that are read."""

    ask: str
    note: str = "none"
    number: int = 0
    why: Optional[str] = None


class Standing(NamedTuple):
    """Where a receipt stands: a name of STANDS; how often it was tried if it waits or is cancelled, and how many were recorded before it
    if it is recorded."""

    kind: str
    count: int


class Till(_Held):
    """All that a till does with one printer, but for I/O: it takes receipts, delivers them one at a time, and knows which are printed.

    What it has to remember is its entries, each a line of text, as bytes with a newline at the end: a row of a table, or a line of a
    file. `lines` is those that were kept, one after another in order; none for a till that is new. No line is ever changed or removed.
    Half a last line was never said to be kept: cut it off. One process at a time may have the entries.

    It asks for one thing at a time. After `queue`, `raise_mark`, `cancel` or `deliver` its owner does what each of `steps` asks for:

        append     keep `line()` after those before it, so that it outlives a crash; then `appended(True)`
        connect    open a link to the printer; then `connected(True)`, or `connected(False)` if there is none
        put        send what `take_out()` gives, or say `link_ended`
        wait       read what the printer sends, at most `number` bytes, and give it to `came`, after what that gave back; or say `link_ended`
        hang up    close the link; then `hung_up()`
        tell       see the `note`; then `told()`

    >>> from kolatennis import Printer
    >>> kept, printer, rest = [], Printer(), b""
    >>> till = Till()
    >>> def run():
    ...     global rest
    ...     for asked in till.steps():
    ...         if asked.ask == "append": kept.append(till.line()); till.appended(True)
    ...         elif asked.ask == "connect": till.connected(True)
    ...         elif asked.ask == "put": assert printer.feed(till.take_out()).stop == "all"
    ...         elif asked.ask == "wait": rest = till.came(rest or printer.take_answer())
    ...         elif asked.ask == "hang up": till.hung_up()
    ...         else: print(asked.note, asked.number); till.told()
    >>> till.queue([{"line": "Hi"}]); run()
    queued 1
    >>> till.deliver(); run()
    recorded 1
    >>> print(printer.paper(), end="")
    row left Hi
    feed 1
    >>> kept
    [b'queued 0200005b7b226c696e65223a20224869227d5d\\n', b'tried 000000000000000100000004\\n', b'recorded 000000000000000100000004\\n']
    >>> again = Till(b"".join(kept))
    >>> again.state(1), again.receipts, again.next_mark
    (Standing(kind='recorded', count=0), 1, 4)
    """

    _free = library.kolatennis_till_free

    def __init__(self, lines: Bytes = b"") -> None:
        """Raises Damaged where a line is no entry, or one that may not come after those before it.

        >>> Till(b"recorded 0000000000000001\\n")
        Traceback (most recent call last):
        ...
        kolatennis.Damaged: line 1 is no entry, or may not come after those before it
        """
        text, at = as_bytes(lines), ctypes.c_size_t()
        self._make(self._open, text, at)

    def _open(self, handle: object, text: bytes, at: ctypes.c_size_t) -> int:
        status: int = library.kolatennis_till_open(handle, text, len(text), None, ctypes.byref(at))
        if status == Status.REFUSED:
            raise Damaged(at.value + 1)
        return status

    def _does(self, call: Callable[..., int], *arguments: object) -> None:
        reason, at = ctypes.c_uint32(), ctypes.c_size_t()
        if self._do(call, *arguments, ctypes.byref(reason), ctypes.byref(at)) == Status.REFUSED:
            why = {**RECEIPT_REASONS, **FAULT_REASONS}.get(reason.value)
            if why is not None:
                raise Refused(why, place(at.value))
            raise NotNow({**TILL_REASONS, **HOST_REASONS}[reason.value])

    def queue(self, receipt: Receipt, width: int = 512, replacement: Optional[str] = None, key: Optional[str] = None) -> None:
        """Takes a receipt. Raises Refused where it is none, and NotNow where the till is busy or has failed. `width` and `replacement` are
        those of `encode`. If a receipt has the `key` already, 1 to 64 characters of ASCII without blanks, that is the one: its number is
        told, and nothing is kept. So whoever lost the answer may ask again. Raises NotNow where the key is none.

        >>> Till().queue([{"fed": 1}])
        Traceback (most recent call last):
        ...
        kolatennis.Refused: BadShape at 0
        >>> till = Till(b"key 73616c652d37\\nqueued 0200005b7b226c696e65223a20224869227d5d\\n")
        >>> till.queue([{"line": "Hi"}], key="sale-7"); till.asks
        Asked(ask='tell', note='queued', number=1, why=None)
        """
        chosen, text = options(width, replacement), as_json(receipt)
        if key is None:
            self._does(library.kolatennis_till_queue, ctypes.byref(chosen), text, len(text))
            return
        given = key.encode("utf-8", "surrogatepass")
        self._does(library.kolatennis_till_queue_keyed, ctypes.byref(chosen), text, len(text), given, len(given))

    def queue_raw(self, stream: Bytes, width: int = 512) -> None:
        """Takes a stream of bytes, as another library makes it, as a receipt; as `Host.submit_raw` reads and refuses it.

        >>> Till().queue_raw(b"\\x1b@Hi\\n\\x1d\\x00")
        Traceback (most recent call last):
        ...
        kolatennis.Refused: UnknownCommand at 6
        """
        given = as_bytes(stream)
        self._does(library.kolatennis_till_queue_raw, dots(width), given, len(given))

    def raise_mark(self, first: int) -> None:
        """Raises the number of the next mark, where those below it were used elsewhere. Raises NotNow where it is higher already."""
        reason, next_mark = ctypes.c_uint32(), ctypes.c_uint32()
        told = (in_range(first, _MOST, "first"), ctypes.byref(reason), ctypes.byref(next_mark))
        if self._do(library.kolatennis_till_raise, *told) == Status.REFUSED:
            raise NotNow(TILL_REASONS[reason.value])

    def cancel(self, number: int) -> None:
        """Cancels a receipt that waits: it isn't sent again. Raises NotNow where it was never taken, is recorded or is cancelled already.

        >>> Till().cancel(1)
        Traceback (most recent call last):
        ...
        kolatennis.NotNow: NotTaken
        """
        reason = ctypes.c_uint32()
        told = (in_range(number, NO_PLACE, "number"), ctypes.byref(reason))
        if self._do(library.kolatennis_till_cancel, *told) == Status.REFUSED:
            raise NotNow(TILL_REASONS[reason.value])

    def deliver(self, openings: int = 3, copy: Union[str, Bytes] = b"", most: int = 65536) -> None:
        """Delivers the first receipt that waits. A printer may still wait for the rest of a command that an older link cut off, and takes
        the first of the opening marks for that. `copy` is a line that is printed before a receipt that was tried before: 1 to 42
        characters of ASCII, or none. At most `most` bytes of answers are read.

        >>> Till().deliver()
        Traceback (most recent call last):
        ...
        kolatennis.NotNow: NothingWaits
        """
        line = copy.encode("utf-8", "surrogatepass") if isinstance(copy, str) else as_bytes(copy)
        in_range(openings, _MOST, "openings"), in_range(most, _MOST, "most")
        self._does(library.kolatennis_till_deliver, openings, line, len(line), most)

    @property
    def asks(self) -> Asked:
        """What it asks for."""
        found = Asks()
        self._do(library.kolatennis_till_asks, ctypes.byref(found))
        why = library.kolatennis_error_name(found.fault).decode() if found.fault else None
        return Asked(ASKS[found.ask], NOTES[found.note], found.number, why)

    def steps(self) -> Iterator[Asked]:
        """Gives what it asks for, again and again, until it asks for nothing."""
        while (asked := self.asks).ask != "nothing":
            yield asked

    def line(self) -> bytes:
        """Returns the line of the entry that is to be kept. Raises NotNow where none is."""
        if self.asks.ask != "append":
            raise NotNow("NothingToKeep")
        return self._fill(library.kolatennis_till_append, 4096)

    def appended(self, kept: bool) -> None:
        """Whether the entry would outlive a crash now. If that isn't known, say False: then the till has failed."""
        self._do(library.kolatennis_till_appended, kept)

    def connected(self, is_up: bool) -> None:
        """Whether there is a link."""
        self._do(library.kolatennis_till_connected, is_up)

    def take_out(self, most: int = 65536) -> bytes:
        """Returns the next bytes for the link, at most so many; none if there are none."""
        return self._fill(library.kolatennis_till_take_out, in_range(most, NO_PLACE, "most"))

    def came(self, answer: Bytes) -> bytes:
        """Hears bytes from the link, and returns those that it took none of: give them again the next time that it asks for "wait", before
        any that come later. Once it asks for something else than "put" and "wait" they are of no use."""
        answer, consumed = as_bytes(answer), ctypes.c_size_t()
        self._do(library.kolatennis_till_came, answer, len(answer), ctypes.byref(consumed))
        return answer[consumed.value :]

    def link_ended(self, why: str) -> None:
        """The link has ended: "Ended", "ReadFault", "WriteFault" or "TimedOut"."""
        number = {name: number for number, name in LINK_REASONS.items()}.get(why, 0)
        if self._do(library.kolatennis_till_link_ended, number) == Status.REFUSED:
            raise OutOfRange(f"why is {why!r}: it must be Ended, ReadFault, WriteFault or TimedOut")

    def hung_up(self) -> None:
        """The link is given up."""
        self._do(library.kolatennis_till_hung_up)

    def told(self) -> None:
        """The note is read."""
        self._do(library.kolatennis_till_told)

    @property
    def receipts(self) -> int:
        """The number of the receipt that was taken last, in these entries or in an older ledger that they go on from."""
        count: int = self._number(library.kolatennis_till_receipts, ctypes.c_size_t)
        return count

    def state(self, number: int) -> Standing:
        """Where the receipt of a number stands."""
        state, count = ctypes.c_uint32(), ctypes.c_size_t()
        told = (in_range(number, NO_PLACE, "number"), ctypes.byref(state), ctypes.byref(count))
        self._do(library.kolatennis_till_state, *told)
        return Standing(STANDS[state.value], count.value)

    @property
    def is_paused(self) -> bool:
        """Whether the printer says, over the link that there is, that it prints nothing for now. At "wait", wait longer for it then."""
        return bool(self._number(library.kolatennis_till_is_paused, ctypes.c_bool))

    @property
    def next_mark(self) -> int:
        """The number of the next mark."""
        mark: int = self._number(library.kolatennis_till_next_mark, ctypes.c_uint32)
        return mark
