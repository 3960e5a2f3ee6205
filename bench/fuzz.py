"""Makes random streams and receipts for `bench/fuzz.sh`, and says what the program must make of them.

The tables and the reading of JSON here are written on their own, from what docs/PROFILE.md says, and share nothing with the program.
"""
import json, math, re

from barcodes import expanded, qr_side, widths
from text import Encoding, NoCharacter

MARKS = 36**4  # ids of marks, which come round

# Commands of one spelling; and those of fixed bytes with one parameter byte, with what that may be.
PLAIN = {"tab": b"\t", "lf": b"\n", "cr": b"\r", "init": b"\x1b@", "spacing default": b"\x1b2", "home": b"\x1b<", "kanji off": b"\x1c.", "qrprint": b"\x1d(k\x03\x001Q0"}
WITH_BYTE = {
    "char": (b"", range(32, 256)),
    "mode": (b"\x1b!", range(256)),
    "underline": (b"\x1b-", (0, 1, 2, 48, 49, 50)),
    "spacing": (b"\x1b3", range(256)),
    "emphasis": (b"\x1bE", range(256)),
    "strike": (b"\x1bG", range(256)),
    "font": (b"\x1bM", (0, 1, 48, 49)),
    "charset": (b"\x1bR", range(18)),
    "align": (b"\x1ba", (0, 1, 2, 48, 49, 50)),
    "units": (b"\x1bJ", range(256)),
    "feed": (b"\x1bd", range(256)),
    "table": (b"\x1bt", range(256)),
    "upside": (b"\x1b{", range(256)),
    "size": (b"\x1d!", [n for n in range(256) if not n & 0x88]),
    "reverse": (b"\x1dB", range(256)),
    "hriplace": (b"\x1dH", (0, 1, 2, 3, 48, 49, 50, 51)),
    "cut": (b"\x1dV", (0, 1, 48, 49)),
    "smooth": (b"\x1db", range(256)),
    "unidirectional": (b"\x1bU", range(256)),
    "charspacing": (b"\x1b ", range(256)),
    "turned": (b"\x1bV", (0, 1, 2, 48, 49, 50)),
    "color": (b"\x1br", (0, 1, 48, 49)),
    "devices": (b"\x1b=", range(256)),
    "endsensors": (b"\x1bc3", range(256)),
    "stopsensors": (b"\x1bc4", range(256)),
    "buttons": (b"\x1bc5", range(256)),
    "hrifont": (b"\x1df", (0, 1, 48, 49)),
    "barheight": (b"\x1dh", range(1, 256)),
    "barwidth": (b"\x1dw", range(2, 7)),
    "status": (b"\x10\x04", range(1, 5)),
    "qrsize": (b"\x1d(k\x03\x001C", range(1, 17)),
    "qrlevel": (b"\x1d(k\x03\x001E", range(48, 52)),
    "graphicsprint": (b"\x1d(L\x02\x000", (2, 50)),
}
WITH_BYTES = {"cut": b"\x1dV", "pulse": b"\x1bp", "mark": b"\x1d(H\x06\x0000"}
# Commands with a number of two bytes, the low one first, and numbers that they often have.
WITH_NUMBER_OF_TWO_BYTES = {"position": b"\x1b$", "move": b"\x1b\\", "margin": b"\x1dL", "width": b"\x1dW"}
OFTEN = (0, 1, 12, 100, 300, 511, 512, 513, 1024, 32767, 32768, 65535 - 11, 65535)
SCALES = (0, 1, 2, 3, 48, 49, 50, 51)
MOST_QR_DATA = 7089
LEVELS = "LMQH"
# The content of each symbology by its m in form A; in form B that is 65 more, and CODE93, CODE128 and GS1-128 have only that form.
CONTENTS = {
    0: rb"\d{11,12}",
    1: rb"\d{6}|0(\d{6,7}|\d{10,11})",
    2: rb"\d{12,13}",
    3: rb"\d{7,8}",
    4: rb"[0-9A-Z $%*+./-]{1,255}",
    5: rb"(\d\d){1,127}",
    6: rb"[A-Da-d][0-9$+./:-]{0,253}[A-Da-d]",
    7: rb"[\x00-\x7f]{1,255}",
    8: rb"\{[ABC][\x00-\x7f]{0,253}",
    9: rb"[\x00-\x7f]{2,255}",
}
ONLY_FORM_B = (7, 8, 9)
KINDS = {"upca": 0, "upce": 1, "ean13": 2, "ean8": 3, "code39": 4, "itf": 5, "codabar": 6, "code93": 7, "code128": 8, "gs1_128": 9}
FULL_LENGTHS = {0: 12, 2: 13, 3: 8}
REASONS = {1: "UnknownByte", 2: "UnknownCommand", 3: "BadParameter", 4: "BadBarcode", 5: "BadSize"}


class Finding(Exception):
    """Something that doesn't hold."""


def hold(fact, *what):
    if not fact:
        raise Finding(" ".join(map(str, what)))


def mark(number):
    """Returns the mark with this number."""
    digits = b"0123456789ABCDEFGHIJKLMNOPQRSTUVWXYZ"
    return WITH_BYTES["mark"] + bytes(digits[number // 36**place % 36] for place in (3, 2, 1, 0))


def some_content(pick, symbology):
    """Returns content that this symbology takes."""
    several = pick.choice((1, 2, 3, 20, 120))
    if symbology == 4:
        return bytes(pick.choices(b"0123456789ABCXYZ $%*+./-", k=several))
    if symbology == 6:
        return bytes([pick.choice(b"ABCDabcd"), *pick.choices(b"0123456789$+./:-", k=several - 1), pick.choice(b"ABCDabcd")])
    if symbology == 8:
        return b"{" + bytes([pick.choice(b"ABC"), *pick.choices(range(128), k=several)])
    if symbology == 7:
        return bytes(pick.choices(range(128), k=several))
    if symbology == 9:
        return pick.choice((b"(01)", b"12")) + bytes(pick.choices(b"0123456789abc()*{1 \t", k=several))
    if symbology == 1:
        return pick.choice((b"", b"0")) + bytes(pick.choices(b"0123456789", k=6)) if several > 2 else b"01200000" + bytes(pick.choices(b"0123456789", k=several + 2))
    count = 2 * several if symbology == 5 else FULL_LENGTHS[symbology] - pick.randrange(2)
    return bytes(pick.choices(b"0123456789", k=count))


def store(data):
    """Returns what stores the data of a QR code."""
    return b"\x1d(k" + (len(data) + 3).to_bytes(2, "little") + b"1P0" + data


def graphics(form, across, down, x, y, dots):
    """Returns what stores graphics, with a length of so many bytes: of x dots to a row, and y rows."""
    front = b"\x1d(L" if form == 2 else b"\x1d8L"
    return front + (10 + len(dots)).to_bytes(form, "little") + b"0p0" + bytes([across, down]) + b"1" + x.to_bytes(2, "little") + y.to_bytes(2, "little") + dots


def sent_dots(place, stream):
    """Returns the dots of graphics that stand at this place of a stream: as many bytes as the length counts."""
    form = 2 if stream[place + 1 : place + 2] == b"(" else 4
    count = int.from_bytes(stream[place + 3 : place + 3 + form], "little") - 10
    return stream[place + 13 + form : place + 13 + form + count]


def size_of(line):
    """Returns the bytes in a row and the rows of graphics in a line of a listing."""
    *_, x, y = map(int, line.split(" ")[2:])
    return (x + 7) // 8, y


def qr_model(number):
    """Returns what sets the model of QR codes to this byte."""
    return b"\x1d(k\x04\x001A" + bytes([number, 0])


def check_digit(digits):
    """Returns what makes a multiple of ten with the sum of the digits, weighted 3, 1, 3, 1, .. from the last leftwards."""
    return -sum((digit - 48) * (1 if at % 2 else 3) for at, digit in enumerate(reversed(digits))) % 10


def upca_digits(digits):
    """Returns the digits of UPC-A that those of UPC-E mean, both without check digit."""
    return digits if len(digits) == 11 else expanded(digits[-6:].decode()).encode()


def some_command(pick):
    """Returns the bytes of a command, and its line in a listing without the place."""
    name = pick.choice(("char",) * 20 + ("lf",) * 5 + (*PLAIN, *WITH_BYTE, *WITH_BYTES, *WITH_NUMBER_OF_TWO_BYTES, "tabstops", *("bars", "raster", "graphics", "graphicsprint", "qrstore", "qrprint") * 2, "qrmodel"))
    if name in PLAIN:
        return PLAIN[name], name
    if name in WITH_BYTE and (name != "cut" or pick.randrange(2)):
        front, values = WITH_BYTE[name]
        byte = bytes([pick.choice(values)])
        return front + byte, f"{name} {byte.hex()}"
    if name in WITH_NUMBER_OF_TWO_BYTES:
        number = pick.choice((*OFTEN, pick.randrange(600), pick.randrange(65536))).to_bytes(2, "little")
        return WITH_NUMBER_OF_TWO_BYTES[name] + number, f"{name} {number.hex(' ')}"
    if name == "tabstops":
        columns = bytes(sorted(pick.sample(range(1, pick.choice((43, 256))), k=pick.choice((0, 1, 3, 32)))))
        return b"\x1bD" + columns + b"\0", name + "".join(f" {column:02x}" for column in columns)
    if name == "mark":
        id_bytes = bytes(pick.choices(range(32, 127), k=4))
        return WITH_BYTES[name] + id_bytes, f"mark {id_bytes.decode()}"
    if name == "bars":
        symbology = pick.choice(list(CONTENTS))
        content = some_content(pick, symbology)
        form = 65 if symbology in ONLY_FORM_B else pick.choice((0, 65))
        spelled = bytes([symbology + form, len(content)]) + content if form else bytes([symbology]) + content + b"\0"
        return b"\x1dk" + spelled, f"bars {symbology + form:02x} {content.hex()}"
    if name == "raster":
        scale, x, y = pick.choice(SCALES), pick.choice((1, 2, 3, 128)), pick.choice((1, 2, 5, 5, 300))
        header = b"\x1dv0" + bytes([scale, x, 0, y % 256, y // 256])
        return header + pick.randbytes(x * y), f"raster {scale:02x} {x} {y}"
    if name == "graphics":
        form, across, down = pick.choice((2, 4)), pick.choice((1, 2)), pick.choice((1, 2))
        x, y = pick.choice((1, 7, 8, 9, 12, 512, 1023, 1024, pick.randint(1, 1024))), pick.choice((1, 2, 5, 300, pick.randint(1, 500)))
        right, most = (x + 7) // 8 * y, 65525 if form == 2 else 524160
        count = pick.choice((right,) * 8 + (right + 1, right - 1, 1, pick.randint(1, 3 * right)))
        return graphics(form, across, down, x, y, pick.randbytes(max(1, min(count, most)))), f"graphics {across:02x} {down:02x} {x} {y}"
    if name == "qrstore":
        data = pick.randbytes(pick.choice((1, 2, 20, 20, 252, 253, 254, MOST_QR_DATA)))
        return store(data), f"qrstore {data.hex()}"
    if name == "qrmodel":
        number = pick.choice((49, 50))
        return qr_model(number), f"qrmodel {number:02x}"
    values = [pick.choice((65, 66) if name == "cut" else (0, 1, 48, 49))] + pick.choices(range(256), k=1 if name == "cut" else 2)
    return WITH_BYTES[name] + bytes(values), f"{name} {bytes(values).hex(' ')}"


# Commands that are passed over, by their names: how many bytes follow the name, or None where two bytes with their number do.
PASSED = {
    "CAN": 0, "DLE ENQ": 1, "ESC %": 1, "ESC ?": 1, "ESC B": 2, "ESC K": 1, "ESC L": 0, "ESC S": 0, "ESC T": 1, "ESC W": 8, "ESC e": 1, "ESC u": 1, "ESC v": 0,
    "FF": 0, "FS !": 1, "FS &": 0, "FS -": 1, "FS C": 1, "FS S": 2, "FS W": 1, "FS p": 2, "GS $": 2, "GS /": 1, "GS :": 0, "GS I": 1, "GS P": 2, "GS T": 1, "GS ^": 3,
    "GS c": 0, "GS r": 1, "ESC ( A": None, "FS ( A": None, "FS ( C": None, "FS ( E": None, "GS ( A": None, "GS ( C": None, "GS ( D": None, "GS ( E": None, "GS ( K": None,
    "GS ( M": None, "GS ( N": None, "GS ( P": None, "GS ( Q": None,
}
LETTERS = {"CAN": b"\x18", "DLE": b"\x10", "ENQ": b"\x05", "ESC": b"\x1b", "FF": b"\x0c", "FS": b"\x1c", "GS": b"\x1d"}


def some_passed(pick):
    """Returns the bytes of a command that is passed over, and its line in a listing without the place."""
    name = pick.choice(list(PASSED))
    count = PASSED[name]
    if count is None:
        count = pick.choice((0, 1, 2, 40, 300))
        following = count.to_bytes(2, "little") + pick.randbytes(count)
    else:
        following = pick.randbytes(count)
    front = b"".join(LETTERS.get(word, word.encode()) for word in name.split(" "))
    return front + following, f"passed {name}" + following.hex(" ", 1).join((" ", "")) * bool(following)


def respelled(line, stream):
    """Returns the bytes of the command that a line of a listing shows; the dots of a raster are those of the stream."""
    place, name, values = (line + " ").split(" ", 2)
    values = values[:-1]
    words = line.split(" ", 1)[1]
    if words in PLAIN:
        return PLAIN[words]
    if name == "mark":
        return WITH_BYTES[name] + values.encode("latin-1")
    if name == "bars":
        m, content = bytes.fromhex(values[:2]), bytes.fromhex(values[3:])
        hold(re.fullmatch(CONTENTS[m[0] % 65], content), "content that isn't in the table:", line)
        return b"\x1dk" + m + (bytes([len(content)]) + content if m[0] >= 65 else content + b"\0")
    if name == "raster":
        scale, x, y = values.split(" ")
        hold(int(scale, 16) in SCALES and 1 <= int(x) <= 128 and 1 <= int(y) <= 4095, "a raster that isn't in the table:", line)
        header = b"\x1dv0" + bytes([int(scale, 16), int(x), 0, int(y) % 256, int(y) // 256])
        return header + stream[int(place) + 8 : int(place) + 8 + int(x) * int(y)]
    if name == "graphics":
        across, down, x, y = values.split(" ")
        hold(across in ("01", "02") and down in ("01", "02") and 1 <= int(x) <= 1024 and 1 <= int(y) <= 4095, "graphics that aren't in the table:", line)
        form = 2 if stream[int(place) + 1 : int(place) + 2] == b"(" else 4
        dots = sent_dots(int(place), stream)
        hold(dots, "graphics without dots:", line)
        return graphics(form, int(across), int(down), int(x), int(y), dots)
    values = bytes.fromhex(values)
    if name == "qrstore":
        hold(1 <= len(values) <= MOST_QR_DATA, "data that is too short or too long:", line)
        return store(values)
    if name == "qrmodel":
        hold(values in (b"1", b"2"), "a model that isn't in the table:", line)
        return qr_model(values[0])
    if name == "tabstops":
        hold(len(values) <= 32 and all(a < b for a, b in zip(b"\0" + values, values)), "tab stops that don't rise:", line)
        return b"\x1bD" + values + b"\0"
    if name in WITH_NUMBER_OF_TWO_BYTES:
        hold(len(values) == 2, "a number that has other than two bytes:", line)
        return WITH_NUMBER_OF_TWO_BYTES[name] + values
    front, allowed = WITH_BYTE[name] if len(values) == 1 else (WITH_BYTES[name], range(256))
    hold(values[-1] in allowed, "a parameter that isn't in the table:", line)
    return front + values


def reason(half):
    """Returns the number of the reason for which a byte after these bytes of its command may be refused."""
    if half[:2] == b"\x1dk" and len(half) > 2:
        return 4
    if half[:3] == b"\x1dv0" and len(half) > 3:
        return 5
    if half[:3] == b"\x1d(k" and len(half) in (5, 6):
        return 2
    if half[:3] in (b"\x1d(L", b"\x1d8L"):
        after = len(half) - (5 if half[1:2] == b"(" else 7)
        return 2 if after in (0, 1) else 5 if after > 5 else 3
    return 1 if not half else 2 if len(half) == 1 or half in (b"\x1d(", b"\x1d8", b"\x1dv", b"\x1bc") else 3


def try_listing(stream, status, lines):
    """Checks that the lines of a listing spell the stream, and that its last line says where that ends, and why."""
    place = 0
    for line in lines[:-1]:
        if not line.startswith("note "):
            hold(line.startswith(f"{place} "), "a wrong place:", line)
            spelled = respelled(line, stream)
            hold(stream[place : place + len(spelled)] == spelled, "bytes that aren't there:", line)
            place += len(spelled)
    word, at, *rest = lines[-1].split(" ")
    if word == "fault":
        why = reason(stream[place : int(at)])
        hold(place <= int(at) < len(stream) and rest == [str(why), REASONS[why]] and status == 1, "a wrong last line:", lines[-1])
    else:
        hold(lines[-1] == f"end {len(stream)} pending {len(stream) - place}", "a wrong last line:", lines[-1])
        hold(status == (place < len(stream)), "a wrong status:", status)


def shown(data):
    """Returns bytes as the paper has them: a printing character but [ and \\ is itself."""
    return "".join(chr(byte) if 32 <= byte <= 126 and byte not in b"[\\" else f"\\{byte:02x}" for byte in data)


def qr_codes_of(lines):
    """Returns the QR codes that a listing prints, without their alignment: model, size, level and content."""
    model, size, level, data, found = 2, 3, "L", None, []
    for line in lines:
        _, name, *values = line.split(" ")
        value = bytes.fromhex(values[0]) if name.startswith("qr") and values else b""
        if name == "init":
            model, size, level, data = 2, 3, "L", None
        elif name == "qrmodel":
            model = value[0] - 48
        elif name == "qrsize":
            size = value[0]
        elif name == "qrlevel":
            level = LEVELS[value[0] - 48]
        elif name == "qrstore":
            data = value
        elif name == "qrprint" and data is not None:
            found.append(f"{model} {size} {level} {shown(data)}")
    return found


def pictures_of(lines, stream):
    """Returns the rasters and graphics that a listing prints, without their alignment: scale, size in bytes and rows, and dots."""
    stored, found = None, []
    for line in lines:
        place, name, *values = line.split(" ")
        if name == "init":
            stored = None
        elif name == "raster":
            scale, x, y = int(values[0], 16) % 48, int(values[1]), int(values[2])
            found.append(f"{SCALE_WORDS.split()[scale]} {x} {y} {respelled(line, stream)[8:].hex()}")
        elif name == "graphics":
            (row, y), dots = size_of(line), sent_dots(int(place), stream)
            scale = SCALE_WORDS.split()[int(values[0]) - 1 + 2 * (int(values[1]) - 1)]
            stored = f"{scale} {row} {y} {dots.hex()}" if len(dots) == row * y else stored
        elif name == "graphicsprint" and stored is not None:
            found.append(stored)
            stored = None
    return found


def formatted(pick, stream):
    """Returns hexadecimal digits of a stream, of either case, with blanks and line ends anywhere."""
    most = pick.choice((0, 1, 3))
    return "".join(pick.choice((digit, digit.upper())) + pick.choice(" \t\r\n") * pick.randint(0, most) for digit in stream.hex()).encode()


def spoiled(pick, text):
    """Returns these bytes with some changed, put in, taken out or moved."""
    for _ in range(pick.randint(1, 4)):
        at, other = pick.randint(0, len(text)), pick.randint(0, len(text))
        some = (pick.randbytes(1), pick.randbytes(pick.randint(1, 5)), text[at:other], b"\x1b", b"\x1d", b'"', b"0", b"}")
        text = text[:at] + pick.choice(some) + text[at + pick.randint(0, 2) :]
    return text


def note_of(line):
    """Returns the line of a wrong check digit after this line of a listing, or nothing."""
    place, name, *values = line.split(" ")
    if name != "bars" or place == "note":
        return None
    symbology, content = int(values[0], 16) % 65, bytes.fromhex(values[1])
    right = check_digit(content[:-1]) if len(content) == FULL_LENGTHS.get(symbology) else None
    if symbology == 1 and len(content) in (8, 12):
        right = check_digit(upca_digits(content[:-1]))
    return None if right is None or content[-1] - 48 == right else f"note {place} check digit {content[-1] - 48}, right {right}"


def notes_of(lines, stream):
    """Returns the notes of a listing: of wrong check digits, and of real-time commands in the data of others."""
    notes = []
    for line in lines[:-1]:
        if line.startswith("note "):
            continue
        notes += [note] if (note := note_of(line)) else []
        place, name = line.split(" ")[:2]
        if name != "status" and re.search(rb"\x10(\x04[\x01-\x08]|\x05[\x00-\x02]|\x14[\x01-\x03\x06-\x08])", respelled(line, stream)):
            notes.append(f"note {place} real-time")
    return notes


def reach_of(cells):
    """Returns how many cells a row has, and how far they reach in dots, from what stands after its alignment."""
    cells = re.sub(r"^(?:margin \d+ )?(?:width \d+ )?(?:upside )?(?=[@[])", "", cells).removeprefix("upside ")
    count, end, reach, width = 0, 0, 0, 12
    for place, style, _ in re.findall(r"@(\d+)|\[(.*?)\]|(\\..|.)", cells):
        if place:
            end = int(place)
        elif style:
            font, across, down, *fields = style.split(",")
            spacing, is_turned = (int(fields[6]) if len(fields) > 6 else 0), len(fields) > 8
            face = (24, 17) if is_turned else (12, 9)
            width = (face[font == "B"] + spacing) * int(down if is_turned else across)
        else:
            count, end = count + 1, end + width
            reach = max(reach, end)
    return count, reach


# Receipts

FEEDS = {"feed": b"\x1bd", "units": b"\x1bJ"}
SWITCHES = {"bold": b"\x1bE", "strike": b"\x1bG", "reverse": b"\x1dB", "upside": b"\x1b{"}
WITH_NUMBER = {
    "mode": (b"\x1b!", 0, 255),
    "table": (b"\x1bt", 0, 255),
    "charset": (b"\x1bR", 0, 17),
    "underline": (b"\x1b-", 0, 2),
    "bar_height": (b"\x1dh", 1, 255),
    "bar_width": (b"\x1dw", 2, 6),
}
WITH_WORD = {
    "font": (b"\x1bM", "A B"),
    "align": (b"\x1ba", "left center right"),
    "hri": (b"\x1dH", "none above below both"),
    "hri_font": (b"\x1df", "A B"),
    "cut": (b"\x1dV", "full partial"),
}
SCALE_WORDS = "normal wide tall both"


class Refused(Exception):
    """The line of a refusal, without the place of an entry."""


def number_in(value, least, most):
    if type(value) is not int or not least <= value <= most:
        raise Refused("6 BadShape")
    return value


def word_in(value, words):
    if type(value) is not str or value not in words.split():
        raise Refused("6 BadShape")
    return words.split().index(value)


def inner(value, names):
    """Returns the members of an object, in the order of these names."""
    if type(value) is not dict or sorted(value) != sorted(names.split()):
        raise Refused("6 BadShape")
    return [value[name] for name in names.split()]


def text_commands(text, encoding):
    """Returns the commands of a text: a code table does nothing to the line."""
    try:
        return [("text" if len(spelling) == 1 else "other", spelling) for spelling in encoding.write(text)]
    except NoCharacter as refused:
        character = str(refused)
        raise Refused("7 ControlByte" if character < " " else f"8 NoCharacter {{}} U+{ord(character):04X}") from None


def entry_commands(entry, encoding):
    """Returns the commands of an entry of a receipt, where this encoding is in force: what each does to the line, and its bytes."""
    if type(entry) is not dict or len(entry) != 1:
        raise Refused("6 BadShape")
    [(name, value)] = entry.items()
    if name in ("text", "line") and type(value) is str:
        return text_commands(value, encoding) + [("end", b"\n")] * (name == "line")
    if name == "tables" and type(value) is list and len(value) <= 32:
        encoding.choice = tuple(number_in(number, 0, 255) for number in value)
        return []
    if name in FEEDS:
        return [("end", FEEDS[name] + bytes([number_in(value, 0, 255)]))]
    if name in WITH_NUMBER:
        front, least, most = WITH_NUMBER[name]
        number = number_in(value, least, most)
        if name in ("table", "charset"):
            setattr(encoding, name, number)
        return [("other", front + bytes([number]))]
    if name in WITH_WORD:
        front, words = WITH_WORD[name]
        return [("block" if name == "cut" else "other", front + bytes([word_in(value, words)]))]
    if name in SWITCHES and type(value) is bool:
        return [("other", SWITCHES[name] + bytes([value]))]
    if name == "spacing":
        return [("other", b"\x1b2" if value == "default" else b"\x1b3" + bytes([number_in(value, 0, 255)]))]
    if name == "size" and type(value) is list and len(value) == 2:
        return [("other", b"\x1d!" + bytes([16 * number_in(value[0], 1, 8) + number_in(value[1], 1, 8) - 17]))]
    if name == "pulse":
        pin, on, off = inner(value, "pin on off")
        return [("other", b"\x1bp" + bytes([number_in(pin, 0, 1), number_in(on, 0, 255), number_in(off, 0, 255)]))]
    if name == "feed_cut":
        kind, feed = inner(value, "kind feed")
        return [("block", b"\x1dV" + bytes([65 + word_in(kind, "full partial"), number_in(feed, 0, 255)]))]
    if name == "bars":
        kind, content = inner(value, "kind content")
        symbology = list(KINDS.values())[word_in(kind, " ".join(KINDS))]
        if type(content) is str and re.fullmatch(CONTENTS[symbology], content.encode()):
            return [("block", b"\x1dk" + bytes([65 + symbology, len(content)]) + content.encode())]
    if name == "qr":
        content, size, level = inner(value, "content size level")
        settings = [WITH_BYTE["qrsize"][0] + bytes([number_in(size, 1, 16)]), WITH_BYTE["qrlevel"][0] + bytes([48 + word_in(level, "L M Q H")])]
        if type(content) is str and 1 <= len(content.encode()) <= MOST_QR_DATA:
            return [("other", spelling) for spelling in settings + [store(content.encode())]] + [("block", PLAIN["qrprint"])]
    if name == "raster":
        scale, x, y, dots = inner(value, "scale x y dots")
        header = b"\x1dv0" + bytes([word_in(scale, SCALE_WORDS), number_in(x, 1, 128), 0]) + number_in(y, 1, 4095).to_bytes(2, "little")
        if type(dots) is str and re.fullmatch("[0-9a-fA-F]*", dots) and len(dots) == 2 * x * y:
            return [("block", header + bytes.fromhex(dots))]
    raise Refused("6 BadShape")


def number_of(text):
    """Returns a number that is an integer without sign and not too great for any floating point number; others are no integers here."""
    if math.isinf(float(text)):
        raise ValueError
    return int(text) if text.isdecimal() else float(text)


# DLE EOT, DLE ENQ and DLE DC4, which a printer obeys wherever they stand.
REAL_TIME = re.compile(rb"\x10(?:\x04[\x01-\x08]|\x05[\x00-\x02]|\x14[\x01-\x03\x06-\x08])")


def all_left_out(spellings):
    """Gives the place of each command whose code isn't printed on a line of 512 dots."""
    module, size, level, stored = 3, 3, "L", None
    for place, spelling in enumerate(spellings):
        if spelling == PLAIN["init"]:
            module, size, level, stored = 3, 3, "L", None
        elif spelling.startswith(WITH_BYTE["barwidth"][0]):
            module = spelling[-1]
        elif spelling.startswith(WITH_BYTE["qrsize"][0]):
            size = spelling[-1]
        elif spelling.startswith(WITH_BYTE["qrlevel"][0]):
            level = LEVELS[spelling[-1] - 48]
        elif spelling[:3] == b"\x1d(k" and spelling[5:8] == b"1P0":
            stored = spelling[8:].decode("latin-1")
        elif spelling == PLAIN["qrprint"]:
            if stored is not None and not 0 < size * (qr_side(stored, level) or 0) <= 512:
                yield place
        elif spelling[:2] == b"\x1dk":
            number, content = spelling[2] % 65, spelling[4:] if spelling[2] >= 65 else spelling[3:-1]
            digit = str(check_digit(upca_digits(content) if number == 1 else content)) if len(content) < FULL_LENGTHS.get(number, 0) or number == 1 and len(content) in (6, 7, 11) else ""
            if not widths(next(kind for kind, its in KINDS.items() if its == number), content.decode("latin-1") + digit, module):
                yield place


def left_out(spellings):
    """Returns the place of the first of them, or nothing."""
    return next(all_left_out(spellings), None)


def commands_of(text):
    """Returns the commands of a receipt in JSON, or raises the line of its refusal."""
    try:
        value = json.loads(text.decode(), parse_int=number_of, parse_float=number_of, parse_constant=float.fromhex)
        json.dumps(value, ensure_ascii=False).encode()
    except ValueError:
        raise Refused("5 NotJson") from None
    if type(value) is not list:
        raise Refused("6 BadShape 0")
    commands, in_text, encoding = [], False, Encoding()
    for place, entry in enumerate(value):
        try:
            commands += entry_commands(entry, encoding)
        except Refused as refused:
            line = str(refused)
            raise Refused(line.replace("{}", str(place)) if "{}" in line else f"{line} {place}") from None
    for place, (what, spelling) in enumerate(commands):
        if what == "block" and in_text:
            raise Refused(f"4 MidLine {place}")
        if REAL_TIME.search(spelling):
            raise Refused(f"9 RealTime {place}")
        in_text = what == "text" or in_text and what != "end"
    if not commands or in_text:
        raise Refused("3 TextLeft" if commands else "1 Empty")
    spellings = [spelling for _, spelling in commands]
    place = left_out(spellings)
    if place is not None:
        raise Refused(f"10 NotPrintable {place}")
    return spellings


ASCII = "".join(map(chr, range(32, 127)))
LATIN = ASCII + "äöüßÄÖÜéèçàñ€£å"
EVERY = ASCII + "äéñ€ŁłśřαΩЖїяİşשﾝ\u00a0\u0301─█"


def some_entry(pick, name):
    """Returns the value of an entry with this member."""
    word = lambda words: pick.choice(words.split())
    byte = pick.randrange(256)
    if name in ("text", "line"):
        letters = pick.choice((ASCII,) * 3 + (LATIN, EVERY, EVERY))
        return "".join(pick.choices(letters, k=pick.choice((0, 1, 5, 30, 60)))) + pick.choice([""] * 90 + ["\x1f", "\x7f", "\x80", "\u6f22", "\U0001f600"])
    if name == "tables":
        return pick.choices((0, 1, 2, 13, 14, 16, 17, 18, 19, 20, 53, 255), k=pick.choice((0, 1, 3, 32))) if pick.randrange(9) else pick.choice(([256], [0] * 33, 5))
    if name in WITH_NUMBER:
        return pick.randint(*WITH_NUMBER[name][1:])
    if name in WITH_WORD:
        return word(WITH_WORD[name][1])
    if name in SWITCHES:
        return byte > 99
    if name == "spacing":
        return pick.choice((byte, byte, "default"))
    if name == "bars":
        kind = pick.choice(list(KINDS))
        return {"kind": kind, "content": some_content(pick, KINDS[kind]).decode()}
    if name == "raster":
        x, y = pick.choice((1, 2, 128)), pick.choice((1, 3, 30))
        return {"scale": word(SCALE_WORDS), "x": x, "y": y, "dots": pick.choice((pick.randbytes(x * y), mark(byte) * x * y))[: x * y].hex()}
    if name == "qr":
        content = "".join(pick.choices("Aa1/:?=.\"\\\n\u00e9\u20ac", k=pick.choice((1, 2, 30, 30, 300)))) if pick.randrange(20) else "a" * pick.choice((0, 7089, 7090))
        return {"content": content, "size": pick.randint(1, 16), "level": word("L M Q H")}
    size = [pick.randint(1, 8), pick.randint(1, 8)]
    pulse = {"pin": pick.randrange(2), "on": byte, "off": pick.randrange(256)}
    return {"feed": byte, "units": byte, "size": size, "pulse": pulse, "feed_cut": {"kind": word("full partial"), "feed": byte}}[name]


def some_receipt(pick):
    """Returns a receipt, as a value; some aren't one, because of a character or of text that is left in the line."""
    names = ("line",) * 5 + ("text", "tables", *FEEDS, *WITH_NUMBER, *WITH_WORD, *SWITCHES, "spacing", "size", "pulse", "bars", "raster", "qr", "qr", "feed_cut")
    entries = []
    for name in pick.choices(names, k=pick.choice((1, 2, 4, 12))):
        if name == "line" and pick.randrange(3) == 0:
            entries += [{"text": some_entry(pick, "text")}, {"bold": True}]
        entries.append({name: some_entry(pick, name)})
    return entries if pick.randrange(12) else entries + [{"text": "left"}]


def written(pick, value):
    """Returns the text of a value in JSON, in one line, with blanks and escapes or without."""
    return json.dumps(value, ensure_ascii=pick.random() < 0.5, separators=pick.choice(((",", ":"), (", ", " : ")))).encode()


def encoded(text):
    """Returns what `encode` must make of a text: its status and its output."""
    try:
        return 0, b"".join(commands_of(text)).hex() + "\n"
    except Refused as refused:
        return 1, f"refused {refused}\n"
