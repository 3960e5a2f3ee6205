"""Says which bars `bench/scan` and `bench/pictures` must find: a model of the barcodes of docs/PROFILE.md.

It is written on its own, from what the standards say, and shares nothing with the program. A content is the one that is printed, with
its check digit. A pattern is the widths of bars and spaces in turn, in modules, or in CODE39, ITF and CODABAR 1 for narrow and 2 for
wide.
"""
import re

WIDE = {2: 5, 3: 8, 4: 10, 5: 13, 6: 16}


def interleaved(bars, spaces):
    return "".join(bar + space for bar, space in zip(bars, spaces))


# UPC-A, EAN-13 and EAN-8: the digits in the number sets, and the sets of the left half by the first digit of EAN-13. The right half
# begins with a bar, so that its set C has the widths of set A.
SET_A = "3211 2221 2122 1411 1132 1231 1114 1312 1213 3112".split()
SETS = {"A": SET_A, "B": [pattern[::-1] for pattern in SET_A]}
LEFT = "AAAAAA AABABB AABBAB AABBBA ABAABB ABBAAB ABBBAA ABABAB ABABBA ABBABA".split()
# The sets of the six digits of UPC-E by its check digit, E(ven) and O(dd) in the standard.
SHORT = "EEEOOO EEOEOO EEOOEO EEOOOE EOEEOO EOOEEO EOOOEE EOEOEO EOEOOE EOOEOE".replace("E", "B").replace("O", "A").split()

# Two wide ones in five: the digits of ITF, and the bars of CODE39. There the spaces tell which ten characters are meant, and the last
# one stands between two characters.
FIVES = "11221 21112 12112 22111 11212 21211 12211 11122 21121 12121".split()
CODE39_SPACES = {"0123456789": "12111", "JABCDEFGHI": "11211", "TKLMNOPQRS": "11121", "*UVWXYZ-. ": "21111"}
CODE39 = {character: interleaved(FIVES[place], spaces) for ten, spaces in CODE39_SPACES.items() for place, character in enumerate(ten)}
CODE39 |= {"$": "1212121111", "/": "1212111211", "+": "1211121211", "%": "1112121211"}

CODABAR = dict(zip("0123456789-$:/.+ABCD", """
1111122 1111221 1112112 2211111 1121121 2111121 1211112 1211211 1221111 2112111
1112211 1122111 2111212 2121112 2121211 1121212 1122121 1212112 1112122 1112221
""".split()))

# By value, each as the nine modules of a character; the last one starts and stops. Beside the 43 characters stand the four shifts.
CODE93 = """
100010100 101001000 101000100 101000010 100101000 100100100 100100010 101010000 100010010 100001010 110101000 110100100 110100010
110010100 110010010 110001010 101101000 101100100 101100010 100110100 100011010 101011000 101001100 101000110 100101100 100010110
110110100 110110010 110101100 110100110 110010110 110011010 101101100 101100110 100110110 100111010 100101110 111010100 111010010
111001010 101101110 101110110 110101110 100100110 111011010 111010110 100110010 101011110
""".split()
CODE93 = ["".join(str(len(run)) for run in re.findall("1+|0+", modules)) for modules in CODE93]
CODE93_CHARACTERS = "0123456789ABCDEFGHIJKLMNOPQRSTUVWXYZ-. $/+%"
# What the bytes 0 to 127 are: a shift s ($), p (%), d (/) or a (+) and a letter, or a character alone.
CODE93_BYTES = """
pU sA sB sC sD sE sF sG sH sI sJ sK sL sM sN sO sP sQ sR sS sT sU sV sW sX sY sZ pA pB pC pD pE
_ dA dB dC $ % dF dG dH dI dJ + dL - . / 0 1 2 3 4 5 6 7 8 9 dZ pF pG pH pI pJ
pV A B C D E F G H I J K L M N O P Q R S T U V W X Y Z pK pL pM pN pO
pW aA aB aC aD aE aF aG aH aI aJ aK aL aM aN aO aP aQ aR aS aT aU aV aW aX aY aZ pP pQ pR pS pT
""".replace("_", " _").split()

# By value; 103 to 105 start in set A, B or C, and the last one is the stop character.
CODE128 = """
212222 222122 222221 121223 121322 131222 122213 122312 132212 221213 221312 231212 112232 122132 122231 113222 123122 123221
223211 221132 221231 213212 223112 312131 311222 321122 321221 312212 322112 322211 212123 212321 232121 111323 131123 131321
112313 132113 132311 211313 231113 231311 112133 112331 132131 113123 113321 133121 313121 211331 231131 213113 213311 213131
311123 311321 331121 312113 312311 332111 314111 221411 431111 111224 111422 121124 121421 141122 141221 112214 112412 122114
122411 142112 142211 241211 221114 413111 241112 134111 111242 121142 121241 114212 124112 124211 411212 421112 421211 212141
214121 412121 111143 111341 131141 114113 114311 411113 411311 113141 114131 311141 411131 211412 211214 211232 2331112
""".split()
DATA = {
    "A": {chr(byte): (byte - 32) % 96 for byte in range(0x60)},
    "B": {chr(byte).replace("{", "{{"): byte - 32 for byte in range(0x20, 0x80)},
    "C": {chr(byte): byte for byte in range(100)},
}
OTHERS = {
    "A": {"{S": 98, "{B": 100, "{C": 99, "{1": 102, "{2": 97, "{3": 96, "{4": 101},
    "B": {"{S": 98, "{A": 101, "{C": 99, "{1": 102, "{2": 97, "{3": 96, "{4": 100},
    "C": {"{A": 101, "{B": 100, "{1": 102},
}

# The patterns of data in each symbology.
PATTERNS = {
    "upca": SET_A,
    "upce": SETS["A"] + SETS["B"],
    "ean13": SETS["A"] + SETS["B"],
    "ean8": SET_A,
    "code39": [CODE39[character] for character in CODE39 if character != "*"],
    "itf": [interleaved(one, other) for one in FIVES for other in FIVES],
    "codabar": list(CODABAR.values()),
    "code93": CODE93[:47],
    "code128": CODE128[:103],
    # There are no function characters 2 and 4, and a change from set C to B doesn't fit at a module width of 6.
    "gs1_128": [pattern for value, pattern in enumerate(CODE128[:103]) if value not in (97, 100, 101)],
}


def code128(content):
    """Returns the values of a content of CODE128 from the start on, and its data as text; nothing if its code sets don't have it."""
    words = re.findall(r"\{.|[^{]", content, re.DOTALL)
    current, values, text, has_data, is_shifted = words[0][1], [103 + "ABC".index(words[0][1])], "", False, False
    for word in words[1:]:
        table = {"A": "B", "B": "A"}[current] if is_shifted else current
        if word in DATA[table]:
            values.append(DATA[table][word])
            text += "%02d" % ord(word) if table == "C" else word[0] if " " <= word[0] <= "~" else " "
            has_data = True
        elif word in OTHERS[table] and not is_shifted:
            values.append(OTHERS[table][word])
            text += " " if word[1] in "1234" else ""
            current = word[1] if word[1] in "ABC" else current
        else:
            return None
        is_shifted = word == "{S"
    return (values, text) if has_data and not is_shifted and "".join(words) == content else None


def check_digit(digits):
    """Returns the check digit of digits (GS1 General Specifications, 7.9)."""
    return str(-sum(int(digit) * (3, 1)[place % 2] for place, digit in enumerate(reversed(digits))) % 10)


def expanded(six):
    """Returns the eleven digits of UPC-A for which six of UPC-E stand."""
    last = six[5]
    if last in "012":
        return "0" + six[:2] + last + "0000" + six[2:5]
    if last in "34":
        kept = int(last)
        return "0" + six[:kept] + "00000" + six[kept:5]
    return "0" + six[:5] + "0000" + last


def upce(content):
    """Returns the six digits and the check digit of a content with its check digit, or nothing if there are none."""
    if len(content) < 12:
        return content[-7:]
    digits = content[:11]
    ways = (digits[1:3] + digits[8:11] + digits[3], digits[1:4] + digits[9:11] + "3", digits[1:5] + digits[10] + "4", digits[1:6] + digits[10])
    return next((six + content[11] for six in ways if expanded(six) == digits), None)


def code93(content):
    """Returns the values of a content of CODE93 from the start to the stop."""
    values = []
    for character in content:
        word = CODE93_BYTES[ord(character)].replace("_", " ")
        values += ([43 + "spda".index(word[0])] if len(word) == 2 else []) + [CODE93_CHARACTERS.index(word[-1])]
    for most in (20, 15):
        values.append(sum((place % most + 1) * value for place, value in enumerate(reversed(values))) % 47)
    return [47, *values, 47]


def gs1_words(content):
    """Returns the data of a content of GS1-128, FNC1 and FNC3 as words of two characters, and its text; nothing if it can't be spelled."""
    data, text, field = [], "", None
    for word in re.findall(r"\{.?|[^{]", content, re.DOTALL):
        if word == "*":
            if field is None:
                return None
            word = check_digit(field)
        if word in " ()":
            text += word
            field = "" if word == ")" else field
            continue
        if word[0] == "{" and word not in ("{1", "{3", "{(", "{)", "{*", "{{") or ord(word[0]) > 127:
            return None
        character = word if word in ("{1", "{3") else word[-1]
        data.append(character)
        text += character if len(character) == 1 and " " <= character <= "~" else " "
        field = field + character if field is not None and character in tuple("0123456789") else None
    return (data, text) if any(len(word) == 1 for word in data) else None


def gs1(data):
    """Returns the values of data of GS1-128: in set C two digits by two, from four on, and otherwise in set B."""
    def digits_at(place, count): return len(data) >= place + count and all(word in tuple("0123456789") for word in data[place : place + count])

    current = "C" if digits_at(0, 4) else "B"
    values, place = [105 if current == "C" else 104, 102], 0
    while place < len(data):
        word = data[place]
        if digits_at(place, 2 if current == "C" else 4):
            values += ([] if current == "C" else [99]) + [int(word + data[place + 1])]
            current, place = "C", place + 2
            continue
        place += 1
        if word == "{1":
            values.append(102)
            continue
        if current == "C":
            values.append(100)
            current = "B"
        values += [96] if word == "{3" else [98, ord(word) + 64] if word < " " else [ord(word) - 32]
    return values


def patterns(kind, content):
    """Returns the patterns of a barcode from left to right, or nothing if the symbology doesn't have the content."""
    if kind in ("upca", "ean13", "ean8"):
        sets, digits = (LEFT[int(content[0])], content[1:]) if kind == "ean13" else ("A" * (len(content) // 2), content)
        found = [SETS[name][int(digit)] for name, digit in zip(sets + "A" * len(sets), digits)]
        return ["111", *found[: len(sets)], "11111", *found[len(sets) :], "111"]
    if kind == "upce":
        short = upce(content)
        return short and ["111", *(SETS[name][int(digit)] for name, digit in zip(SHORT[int(short[6])], short[:6])), "111111"]
    if kind == "code93":
        return [CODE93[value] for value in code93(content)] + ["1"]
    if kind == "code39":
        return None if "*" in content else [CODE39[character] for character in "*" + content] + [CODE39["*"][:-1]]
    if kind == "itf":
        return ["1111", *(interleaved(FIVES[int(one)], FIVES[int(other)]) for one, other in zip(content[::2], content[1::2])), "211"]
    if kind == "codabar":
        return " 1 ".join(CODABAR[character] for character in content.upper()).split()
    if kind == "gs1_128":
        words = gs1_words(content)
        values = words and gs1(words[0])
    else:
        values = (code128(content) or [None])[0]
    return values and [CODE128[value] for value in (*values, sum(max(place, 1) * value for place, value in enumerate(values)) % 103, 106)]


def widths(kind, content, module):
    """Returns the dots of bars and spaces in turn, bar first, or nothing if the barcode isn't scannable."""
    wide = WIDE[module] if kind in ("code39", "itf", "codabar") else 2 * module
    dots = [wide if width == "2" else int(width) * module for pattern in patterns(kind, content) or [] for width in pattern]
    return dots if 0 < sum(dots) <= 512 else None


def interpretation(kind, content):
    """Returns the text beside the bars of a scannable barcode."""
    if kind == "upce":
        return "0" + upce(content)
    if kind == "code93":
        return "".join(character if " " <= character <= "~" else " " for character in content)
    if kind == "gs1_128":
        return gs1_words(content)[1]
    return code128(content)[1] if kind == "code128" else content


# QR codes: ISO/IEC 18004, table 9: for each level the error correction bytes of a block and the blocks, in the versions 1 to 40.
CORRECTION = {
    "L": ("7 10 15 20 26 18 20 24 30 18 20 24 26 30 22 24 28 30 28 28 28 28 30 30 26 28 30 30 30 30 30 30 30 30 30 30 30 30 30 30",
          "1 1 1 1 1 2 2 2 2 4 4 4 4 4 6 6 6 6 7 8 8 9 9 10 12 12 12 13 14 15 16 17 18 19 19 20 21 22 24 25"),
    "M": ("10 16 26 18 24 16 18 22 22 26 30 22 22 24 24 28 28 26 26 26 26 28 28 28 28 28 28 28 28 28 28 28 28 28 28 28 28 28 28 28",
          "1 1 1 2 2 4 4 4 5 5 5 8 9 9 10 10 11 13 14 16 17 17 18 20 21 23 25 26 28 29 31 33 35 37 38 40 43 45 47 49"),
    "Q": ("13 22 18 26 18 24 18 22 20 24 28 26 24 20 30 24 28 28 26 30 28 30 30 30 30 28 30 30 30 30 30 30 30 30 30 30 30 30 30 30",
          "1 1 2 2 4 4 6 6 8 8 8 10 12 16 12 17 16 18 21 20 23 23 25 27 29 34 34 35 38 40 43 45 48 51 53 56 59 62 65 68"),
    "H": ("17 28 22 16 22 28 26 26 24 28 24 28 22 24 24 30 28 28 26 28 30 24 30 30 30 30 30 30 30 30 30 30 30 30 30 30 30 30 30 30",
          "1 1 2 4 4 4 5 6 8 8 11 11 16 16 18 16 19 21 25 25 25 34 30 32 35 37 40 42 45 48 51 54 57 60 63 66 70 74 77 81"),
}
ALPHANUMERIC = "0123456789ABCDEFGHIJKLMNOPQRSTUVWXYZ $%*+-./:"


def qr_bytes(version, level):
    """Returns how many bytes for data a version has: those of all modules but the patterns, without the error correction."""
    modules = (16 * version + 128) * version + 64
    if version >= 2:
        patterns = version // 7 + 2
        modules -= (25 * patterns - 10) * patterns - 55 + (36 if version >= 7 else 0)
    each, blocks = (int(words.split()[version - 1]) for words in CORRECTION[level])
    return modules // 8 - each * blocks


def qr_side(content, level):
    """Returns the modules along a side of the smallest QR code that holds a content in one packing, or nothing."""
    count, place = len(content), lambda version: (version > 9) + (version > 26)
    if all(letter in ALPHANUMERIC[:10] for letter in content):
        bits, sizes = 10 * (count // 3) + (0, 4, 7)[count % 3], (10, 12, 14)
    elif all(letter in ALPHANUMERIC for letter in content):
        bits, sizes = 11 * (count // 2) + 6 * (count % 2), (9, 11, 13)
    else:
        bits, sizes = 8 * count, (8, 16, 16)
    return next((17 + 4 * version for version in range(1, 41) if 4 + sizes[place(version)] + bits <= 8 * qr_bytes(version, level)), None)
