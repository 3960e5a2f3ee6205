#!/usr/bin/env python3
"""Compares what the Python module gives for the streams and receipts of examples/ with the texts that stand there, and its pictures,
what it gives with a width or a replacement, and the entries that it makes of pictures with what the program prints.

usage: same_as_program.py PROGRAM      with bindings/python/ in PYTHONPATH, and KOLATENNIS_LIBRARY
"""
import io, json, os, subprocess, sys

import kolatennis

EXAMPLES = os.path.join(os.path.dirname(os.path.abspath(__file__)), "../../examples")


def content(name, mode="rb"):
    with open(os.path.join(EXAMPLES, name), mode) as file:
        return file.read()


def compare(what, given, wanted):
    if given != wanted:
        sys.exit(f"same_as_program.py: {what} differs: {given[:200]!r} .. in place of {wanted[:200]!r} ..")


WIDTHS = (1, 11, 144, 384, 576, 1024)

# Receipts of which a width or a replacement changes the bytes, or that are refused with some.
RECEIPTS = [
    [{"pair": ["Coffee", "4.20"]}, {"row": [["Cake", 4], ["2", -2], ["6.40", -6]]}, {"rule": "-"}, {"wrap": "Thank you for coming, and see you soon!"}],
    [{"line": "\u6f22 1 \u20ac"}, {"tables": [19]}, {"line": "\u20ac"}],
    [{"line": "A"}, {"text": "\u6f22"}],
]
REPLACEMENTS = (None, "?", " ", "~")

# Pictures: bits as text and as bytes, grays, colours, one that is wider than most lines, and some that are none.
PICTURES = [
    b"P1 8 2 11110000 00001111",
    b"P4 12 3 " + bytes(range(0xB0, 0xB6)),
    b"P2 3 2 15 0 5 10 15 7 8",
    b"P5 700 40 255 " + bytes((x * 255 // 699 + 5 * y) % 256 for y in range(40) for x in range(700)),
    b"P6 9 4 255 " + bytes(37 * n % 256 for n in range(108)),
    b"P1", b"P1 8 2 1", b"P2 2 1 255 300 0", b"P3 1 1 0 1 1 1", b"P5 0 1 255 ", b"P6 1 1 255 AB",
]
THRESHOLDS = (None, 1, 128, 255)


def ran(program, words, given):
    return subprocess.run([program, *words], input=given, stdout=subprocess.PIPE).stdout


def at_widths(program, name, stream):
    """Compares what a stream prints in lines of other widths."""
    for width in WIDTHS:
        words = ["--raw", "--width", str(width)]
        what, wanted = f"{name}, {width} dots: the", ran(program, ["render", *words], stream)
        compare(f"{what} paper", kolatennis.paper(stream, width).text.encode(), wanted)
        compare(f"{what} plain text", kolatennis.paper(stream, width=width).plain.encode(), ran(program, ["render", "--text", *words], stream))
        compare(f"{what} picture", kolatennis.picture(stream, width).text.encode(), ran(program, ["draw", *words], stream))
        with kolatennis.Printer(width=width) as printer:
            printer.feed(stream)
            compare(f"{what} printer's paper", printer.paper().encode(), wanted)


def submitted(receipt, *options):
    """Returns what a host puts out for a receipt, without the marks around it."""
    host = kolatennis.Host()
    host.link_up()
    host.take_out()
    assert host.hear(b"\x37\x220000\x00") == [kolatennis.Event("opened", 0)]
    host.submit(receipt, *options)
    return host.take_out().removeprefix(b"\x1b@").removesuffix(b"\x1d(H\x06\x00000001")


def with_options(program, receipt):
    """Compares the bytes of a receipt with each width and each replacement, or why there are none."""
    text = json.dumps(receipt).encode()
    for width in WIDTHS:
        for replacement in REPLACEMENTS:
            words = ["encode", "--raw", "--width", str(width)] + (["--replace", replacement] if replacement else [])
            what, wanted = f"{receipt}, {width} dots, replaced by {replacement}", ran(program, words, text)
            for how in (kolatennis.encode, submitted):
                try:
                    given = how(receipt, width, replacement)
                except kolatennis.Refused as why:
                    number = next(n for n, reason in kolatennis.RECEIPT_REASONS.items() if reason == why.reason)
                    given = f"refused {number - 100} {why}".replace(" at ", " ").encode()
                    compare(what, given, b" ".join(wanted.split()[: len(given.split())]))
                else:
                    compare(what, given, wanted)


def as_entries(program, picture):
    """Compares the entries of a picture at each width and threshold, or why there are none."""
    for width in WIDTHS:
        for threshold in THRESHOLDS:
            words = ["image", "--width", str(width)] + (["--threshold", str(threshold)] if threshold else [])
            what, wanted = f"{picture[:20]}, {width} dots, threshold {threshold}", ran(program, words, picture)
            try:
                given = kolatennis.image(io.BytesIO(picture), width, threshold)
            except kolatennis.Refused as why:
                compare(what, str(why).replace(" at ", " ").encode(), b" ".join(wanted.split()[2:]))
            else:
                compare(what, given, json.loads(b"[" + wanted + b"]"))


def is_refused(call):
    try:
        call()
    except kolatennis.OutOfRange:
        pass
    else:
        sys.exit("same_as_program.py: a number that is out of range is taken")


def main(program):
    names = sorted(it.removesuffix(".hex") for it in os.listdir(EXAMPLES) if it.endswith(".hex"))
    for name in names:
        stream = bytes.fromhex(content(f"{name}.hex", "r"))
        compare(f"{name}: the listing", kolatennis.listing(stream).text.encode(), content(f"{name}.listing"))
        compare(f"{name}: the paper", kolatennis.paper(stream).text.encode(), content(f"{name}.paper"))
        plain = subprocess.run([program, "render", "--raw", "--text"], input=stream, stdout=subprocess.PIPE, check=True).stdout
        compare(f"{name}: the plain text", kolatennis.paper(stream).plain.encode(), plain)
        drawn = subprocess.run([program, "draw", "--raw"], input=stream, stdout=subprocess.PIPE, check=True).stdout
        compare(f"{name}: the picture", kolatennis.picture(stream).text.encode(), drawn)
        with kolatennis.Printer() as printer:
            fed = printer.feed(stream)
            compare(f"{name}: what a printer took", repr(fed), repr(kolatennis.Fed(len(stream), "all", None, None)))
            compare(f"{name}: a printer's paper", printer.paper().encode(), content(f"{name}.paper"))
        if os.path.exists(os.path.join(EXAMPLES, f"{name}.json")):
            compare(f"{name}: the encoded receipt", kolatennis.encode(content(f"{name}.json")), stream)
        at_widths(program, name, stream)
    assert names
    for receipt in RECEIPTS:
        with_options(program, receipt)
    for picture in PICTURES:
        as_entries(program, picture)
    for width in (-1, 0, 1025, 65537):
        for call in (kolatennis.encode, kolatennis.Host().submit):
            is_refused(lambda: call("[]", width))
        for call in (kolatennis.paper, kolatennis.picture):
            is_refused(lambda: call(b"", width))
        is_refused(lambda: kolatennis.Printer(width=width))
        is_refused(lambda: kolatennis.image(io.BytesIO(b"P1 1 1 1"), width))
    for replacement in ("", "??", "\x1f", "\x7f", "\xe9", 63):
        is_refused(lambda: kolatennis.encode("[]", 512, replacement))
    for threshold in (0, 256):
        is_refused(lambda: kolatennis.image(io.BytesIO(b"P1 1 1 1"), 512, threshold))
    print(f"{len(names)} examples, {len(RECEIPTS)} receipts and {len(PICTURES)} pictures, the same from Python")


main(*sys.argv[1:])
