"""How a text is written by code tables, and what bytes print: written on its own, from what docs/PROFILE.md says.

The tables are Python's codecs. Nothing is shared with the program.
"""
import unicodedata

# The code tables by their numbers, as Python names them. Katakana has no codec.
CODECS = {
    0: "cp437", 2: "cp850", 3: "cp860", 4: "cp863", 5: "cp865", 13: "cp857", 14: "cp737", 15: "iso8859_7", 16: "cp1252", 17: "cp866",
    18: "cp852", 19: "cp858", 32: "cp720", 33: "cp775", 34: "cp855", 35: "cp861", 36: "cp862", 37: "cp864", 38: "cp869",
    39: "iso8859_2", 40: "iso8859_15", 44: "cp1125", 45: "cp1250", 46: "cp1251", 47: "cp1253", 48: "cp1254", 49: "cp1255",
    50: "cp1256", 51: "cp1257", 52: "cp1258", 53: "kz1048",
}
FIRST = (0, 19, 16, 18, 17, 14, 13, 1)
USUAL = FIRST + tuple(n for n in sorted([*CODECS, 1]) if n not in FIRST)
EXCHANGED = b"#$@[\\]^`{|}~"
SETS = (
    "#$@[\\]^`{|}~", "#$à°ç§^`éùè¨", "#$§ÄÖÜ^`äöüß", "£$@[\\]^`{|}~", "#$@ÆØÅ^`æøå~", "#¤ÉÄÖÅÜéäöåü", "#$@°\\é^ùàòèì", "₧$@¡Ñ¿^`¨ñ}~",
    "#$@[¥]^`{|}~", "#¤ÉÆØÅÜéæøåü", "#$ÉÆØÅÜéæøåü", "#$á¡Ñ¿é`íñóú", "#$á¡Ñ¿éüíñóú", "#$@[₩]^`{|}~", "#$ŽŠĐĆČžšđćč", "#¥@[\\]^`{|}~",
    "#₫@[\\]^`{|}~", "#$@[\\]^`{|}~",
)


def high_character(table, byte):
    """The character of a byte from 80 on, or None."""
    if table == 1:
        return chr(0xFF61 + byte - 0xA1) if 0xA1 <= byte <= 0xDF else None
    try:
        character = bytes([byte]).decode(CODECS[table])
    except (KeyError, UnicodeDecodeError):
        return None
    return None if unicodedata.category(character) == "Cc" else character


def reads(charset, table, byte):
    """The character that a byte prints, or None."""
    if byte >= 0x80:
        return high_character(table, byte)
    if byte in EXCHANGED:
        return SETS[charset][EXCHANGED.index(byte)] if charset < len(SETS) else None
    return chr(byte) if 0x20 <= byte <= 0x7E else None


KNOWN = {}


def byte_for(charset, table, character):
    """The lowest byte that prints a character, or None."""
    if (charset, table) not in KNOWN:
        KNOWN[charset, table] = {reads(charset, table, byte): byte for byte in reversed(range(256))}
    return KNOWN[charset, table].get(character)


class NoCharacter(Exception):
    """A character that can't be printed."""


class Encoding:
    """What is in force where a text is written."""

    def __init__(self, replacement=None):
        self.charset, self.table, self.choice, self.replacement = 0, 0, USUAL, replacement

    def place_of(self, character):
        """The table and the byte of what is shown for a character."""
        for shown in [character] + [" "] * (character == "\u00a0") + [self.replacement] * (self.replacement is not None):
            for table in (self.table, *self.choice):
                byte = byte_for(self.charset, table, shown)
                if byte is not None:
                    return table, byte
        raise NoCharacter(character)

    def write(self, text):
        """The spelled commands of a text, one after another."""
        commands = []
        for character in unicodedata.normalize("NFC", text):
            if character < " ":
                raise NoCharacter(character)
            table, byte = self.place_of(character)
            if table != self.table:
                commands.append(b"\x1bt" + bytes([table]))
                self.table = table
            commands.append(bytes([byte]))
        return commands
