"""The cores of a receipt line for tills in Python, by ctypes over libkolatennis.so.

`encode` makes the bytes of a receipt, `image` its entries for a logo; `listing`, `paper` and `picture` show what a stream says and
prints. `Till` is all that a till does with one printer: it takes receipts, delivers them, and knows which are printed. `Host` is less,
the till's end of a line, and `Printer` the other end, for emulators. Nothing here does I/O but `image`, which reads its file: the caller
has the socket and the file. All may be used from any thread; a `Till`, a `Host` or a `Printer` takes one call at a time, and none in a
process that was forked after it was made.

A `width` is the dots of a line on the printer's paper, 1 to 1024. Printers of paper 80 mm wide mostly have 576 or 512, those of paper
58 mm wide 384. What the module raises itself is an `Error`.

The library is in the wheel. Without a wheel, the environment variable KOLATENNIS_LIBRARY names the file that bindings/build has made. A
library of another version isn't taken.

>>> encode([{"line": "Hi"}, {"cut": "full"}])
b'Hi\\n\\x1dV\\x00'
>>> print(paper(b"Hi\\n").text, end="")
row left Hi
feed 1
"""
from ._errors import Closed, Damaged, Error, Forked, NoPillow, NotNow, OutOfMemory, OutOfRange, Refused, TooLong
from ._line import Event, Fed, Host, Printer
from ._numbers import ASKS, EVENTS, FAULT_REASONS, HOST_REASONS, LINK_REASONS, NOTES, PAUSES, RECEIPT_REASONS, STANDS, STATES, STOPS, TILL_REASONS
from ._texts import Paper, Receipt, Text, encode, image, listing, paper, picture
from ._till import Asked, Standing, Till
from ._version import __version__

__all__ = [
    "encode", "image", "listing", "paper", "picture", "Till", "Host", "Printer", "Receipt", "Text", "Paper", "Asked", "Standing", "Event",
    "Fed", "Error", "Closed", "Damaged", "Forked", "NoPillow", "NotNow", "OutOfMemory", "OutOfRange", "Refused", "TooLong",
    "RECEIPT_REASONS", "HOST_REASONS", "FAULT_REASONS", "TILL_REASONS", "LINK_REASONS", "EVENTS", "STATES", "STOPS", "ASKS", "NOTES", "PAUSES",
    "STANDS", "__version__",
]
