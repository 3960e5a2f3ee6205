"""Calls that keep nothing: receipts, listings, papers, pictures."""
from __future__ import annotations

import ctypes, io, json
from typing import Any, Callable, List, Mapping, NamedTuple, Optional, Sequence, Union

from ._errors import NoPillow, Refused
from ._library import LONGEST_TEXT, Bytes, as_bytes, dots, filled, in_range, library, options, place
from ._numbers import RECEIPT_REASONS, Status

#: A receipt: JSON, as text or bytes, or the list that such a text stands for.
Receipt = Union[str, Bytes, Sequence[Mapping[str, Any]]]

#: The most bytes of a stream, a receipt or a picture.
_LONGEST = 16777216


class Text(NamedTuple):
    """A text of a stream; `whole` is false where the stream isn't read to its end, and a last line in the text says why."""

    text: str
    whole: bool


class Paper(Text):
    """The text of a paper."""

    _stream: bytes
    _width: int

    @property
    def plain(self) -> str:
        """The same as plain text: rows without styles, in the characters that they show, and U+FFFD for each that isn't known."""
        return _text(library.kolatennis_paper_text, self._stream, 4, self._width).text


def as_json(receipt: Receipt) -> bytes:
    """Returns a receipt as bytes in JSON: bytes as they are, a text in UTF-8, and anything else as `json.dumps` has it."""
    if isinstance(receipt, (bytes, bytearray, memoryview)):
        return as_bytes(receipt)
    # (half a surrogate pair becomes bytes that aren't UTF-8, which are refused as such)
    return (receipt if isinstance(receipt, str) else json.dumps(receipt)).encode("utf-8", "surrogatepass")


def encode(receipt: Receipt, width: int = 512, replacement: Optional[str] = None) -> bytes:
    """Returns the bytes of a receipt's commands. The receipt is JSON, as text or bytes, or the list that such a text stands for. Layouts
    (`pair`, `row`, `rule`, `wrap`) are as wide as a line of `width` dots, and `replacement` is printed in place of a character that no
    code table has; without one a text with such a character is refused.

    >>> encode('[{"text": "Hi"}]')
    Traceback (most recent call last):
    ...
    kolatennis.Refused: TextLeft
    >>> try: encode([{"line": "A"}, {"fed": 1}])
    ... except Refused as why: print(why.reason, why.at)
    BadShape 1
    >>> encode([{"pair": ["Tea", "2.10"]}], width=144)
    b'Tea     2.10\\n'
    >>> encode([{"line": "漢"}], replacement="?")
    b'?\\n'
    >>> encode([{"rule": "-"}], width=1025)
    Traceback (most recent call last):
    ...
    kolatennis.OutOfRange: width is 1025: it must be 1 to 1024
    """
    chosen, text, reason, at = options(width, replacement), as_json(receipt), ctypes.c_uint32(), ctypes.c_size_t()
    told = [ctypes.byref(reason), ctypes.byref(at)]
    status, written = filled(lambda *out: library.kolatennis_encode(ctypes.byref(chosen), text, len(text), *out), 4096, *told)
    if status == Status.REFUSED:
        raise Refused(RECEIPT_REASONS[reason.value], place(at.value))
    return written


def _text(call: Callable[..., int], stream: bytes, factor: int, *width: int) -> Text:
    """Gives the text of a stream; it is asked for once if it has at most `factor` bytes for each of the stream."""
    guess = 4096 if len(stream) > _LONGEST else min(factor * len(stream) + 4096, LONGEST_TEXT)
    status, written = filled(lambda *out: call(*width, stream, len(stream), *out), guess)
    return Text(written.decode(), status == Status.GOOD)


def listing(stream: Bytes) -> Text:
    """Lists the commands of a stream.

    >>> print(listing(b"A\\n").text, end="")
    0 char 41
    1 lf
    end 2 pending 0
    >>> listing(b"\\x1b#")
    Text(text='fault 1 2 UnknownCommand\\n', whole=False)
    """
    return _text(library.kolatennis_listing, as_bytes(stream), 20)


def paper(stream: Bytes, width: int = 512) -> Paper:
    """Prints a stream on paper, in lines of `width` dots, as text. Its `plain` is the same without styles, rows in the characters that
    they show.

    >>> paper(b"A\\n\\x1dV\\x00")
    Paper(text='row left A\\nfeed 1\\ncut full\\n', whole=True)
    >>> paper(encode([{"line": "Café 4,20 €"}])).plain
    'row left Café 4,20 €\\nfeed 1\\n'
    >>> paper(b"ABC\\n", width=24).text
    'row left AB\\nfeed 1\\nrow left C\\nfeed 1\\n'
    """
    stream = as_bytes(stream)
    printed = Paper(*_text(library.kolatennis_paper, stream, 4, dots(width)))
    printed._stream, printed._width = stream, width
    return printed


def picture(stream: Bytes, width: int = 512) -> Text:
    """Prints a stream on paper, in lines of `width` dots, as a picture: an SVG document.

    >>> picture(b"A\\n").text.startswith("<svg "), picture(b"A\\n").whole
    (True, True)
    >>> "é" in picture(b"\\x82\\n").text
    True
    """
    return _text(library.kolatennis_picture, as_bytes(stream), 16, dots(width))


def _pnm(path: Any) -> bytes:
    """Returns the bytes of a file as those of a PBM, PGM or PPM picture, which others than such a file become by Pillow."""
    if hasattr(path, "read"):
        content = as_bytes(path.read())
    else:
        with open(path, "rb") as file:
            content = file.read()
    if content[:1] == b"P" and content[1:2] in (b"1", b"2", b"3", b"4", b"5", b"6"):
        return content
    try:
        import PIL.Image
    except ImportError:
        raise NoPillow("pictures other than PBM, PGM and PPM need Pillow, which isn't installed") from None
    with PIL.Image.open(io.BytesIO(content)) as found:
        if found.mode.startswith("I"):
            # (gray of 16 bits has no transparency)
            gray = found.convert("I").point(lambda value: value / 256).convert("L")
        else:
            drawn = found.convert("RGBA")
            gray = PIL.Image.alpha_composite(PIL.Image.new("RGBA", drawn.size, "white"), drawn).convert("L")
    return b"P5 %d %d 255\n" % gray.size + gray.tobytes()


def image(path: Any, width: int = 512, threshold: Optional[int] = None) -> List[Mapping[str, Any]]:
    """Returns the entries of a receipt that print a picture. `path` is a path or a file that is open for bytes: PBM, PGM or PPM, or
    with Pillow any other that it opens, on white where it is transparent. A picture that is wider than `width` dots is scaled down to
    them. It is black where its gray value, 0 to 255, is below `threshold`, 1 to 255, and by error diffusion without one.

    >>> image(io.BytesIO(b"P1 8 2 11110000 00001111"))
    [{'raster': {'scale': 'normal', 'x': 1, 'y': 2, 'dots': 'f00f'}}]
    >>> image(io.BytesIO(b"P2 2 1 255 99 100"), threshold=100)
    [{'raster': {'scale': 'normal', 'x': 1, 'y': 1, 'dots': '80'}}]
    >>> image(io.BytesIO(b"P1 8 2 1"))
    Traceback (most recent call last):
    ...
    kolatennis.Refused: CutShort at 8
    """
    dots(width)
    limit = 0 if threshold is None else in_range(threshold, 255, "threshold", 1)
    content = _pnm(path)
    guess = 4096 if len(content) > _LONGEST else len(content) // 4 + 4096
    status, written = filled(lambda *out: library.kolatennis_image(width, limit, content, len(content), *out), guess)
    if status == Status.REFUSED:
        raise _no_picture(content, written.decode())
    entries: List[Mapping[str, Any]] = json.loads(b"[" + written + b"]")
    return entries


def _no_picture(content: bytes, line: str) -> Refused:
    """Returns why bytes are no picture, from the line that says so."""
    if len(content) > _LONGEST:
        return Refused("TooLong", None)
    _, _, reason, *at = line.split()
    return Refused(reason, int(at[0]) if at else None)
