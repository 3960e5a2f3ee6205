"""The numbers of kolatennis.h, and the names that they have in Python."""
from __future__ import annotations

import enum
from typing import Dict


class Status(enum.IntEnum):
    """What a call of the library answers."""

    GOOD = 0
    REFUSED = 1
    EMPTY = 2
    MEMORY = 4
    SHORT = 5
    TOO_LONG = 6
    BAD_ARGUMENT = 7


#: Why a text gives no receipt, by number.
RECEIPT_REASONS: Dict[int, str] = {
    101: "Empty", 102: "Forbidden", 103: "TextLeft", 104: "MidLine", 105: "NotJson", 106: "BadShape", 107: "ControlByte",
    108: "NoCharacter", 109: "RealTime", 110: "NotPrintable", 111: "TooLong", 112: "BadOptions",
    126: "CutShort",
}
#: Why a host takes no call, by number.
HOST_REASONS: Dict[int, str] = {201: "NotReady", 202: "MarksUsedUp", 203: "AlreadyUp", 206: "InFlightFull", 209: "NoKind"}
#: Why no command goes on with a byte, by number.
FAULT_REASONS: Dict[int, str] = {301: "UnknownByte", 302: "UnknownCommand", 303: "BadParameter", 304: "BadBarcode", 305: "BadSize"}
#: What a host hears, by number.
EVENTS: Dict[int, str] = {400: "none", 401: "opened", 402: "recorded", 403: "status", 404: "bad answer", 405: "late", 406: "condition"}
#: Where a host stands with its link, by number.
STATES: Dict[int, str] = {500: "down", 501: "opening", 502: "ready", 503: "sending"}
#: Why a printer took no more bytes, by number.
STOPS: Dict[int, str] = {600: "all", 601: "answers full", 602: "offline", 603: "fault", 604: "memory"}
#: Why a till takes no call, by number.
TILL_REASONS: Dict[int, str] = {
    701: "Busy", 702: "Failed", 703: "NothingWaits", 706: "MarkReused", 707: "BadCopy", 708: "Damaged",
    709: "MarkTooHigh", 710: "NotTaken", 711: "Recorded", 712: "Cancelled", 713: "BadKey",
    714: "Earlier",
}
#: What a till asks for, by number.
ASKS: Dict[int, str] = {800: "nothing", 801: "append", 802: "connect", 803: "put", 804: "wait", 805: "hang up", 806: "tell"}
#: What a till tells its owner, by number.
NOTES: Dict[int, str] = {
    900: "none", 901: "queued", 902: "raised", 903: "recorded", 904: "no link", 905: "waiting", 906: "not kept", 907: "cancelled",
    908: "paused", 909: "still paused",
}
#: Why a link ended, by number.
LINK_REASONS: Dict[int, str] = {
    1001: "Ended", 1002: "ReadFault", 1003: "WriteFault", 1004: "TimedOut", 1005: "TooManyAnswers", 1006: "BadAnswer",
}
#: Why a printer prints nothing for now, by number.
PAUSES: Dict[int, str] = {1201: "PaperEnded", 1202: "CoverOpen", 1203: "Offline"}
#: Where a receipt of a till stands, by number.
STANDS: Dict[int, str] = {1100: "unknown", 1101: "waiting", 1102: "recorded", 1103: "cancelled"}
