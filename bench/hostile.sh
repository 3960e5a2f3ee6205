#!/usr/bin/env python3
"""Runs the built program over hostile inputs, and prints what each takes: time, memory, and how it ends.

usage: bench/hostile.sh [WORD..]    with words, only cases whose name has all of them

A line for each case: its name, the bytes that the program was given, the seconds of the quickest of three runs (one run where it
takes more than 20), its processor seconds, the most MiB held (at least those of this script, some 12), the exit status, and
for a case that grows the factor between the processor seconds of the whole input and of a quarter of it: 4 if time is
proportional, up to 8 if the larger one doesn't fit the processor's caches, and 16 if it is quadratic. A status that the
case can't end with, a last line that it can't have, a signal, more than 120 seconds, or a factor of more than 10 is printed as
WRONG, and then this script ends with 1. The last two lines are the slowest case and the one with the most memory, as rows
of a table of docs/GATE.md.

The program is crates/escpos_cli/out/escpos_cli (cd crates/escpos_cli && rt run -- help), or what PROGRAM names. It may
have MEMORY MiB of addresses, 12,288 by default; a case that needs more ends with status 4. SIZE is the size of the inputs of
cases that grow, 16,777,216 bytes by default.
"""
import collections, os, random, resource, select, signal, socket, struct, subprocess, sys, tempfile, time

PROGRAM = os.environ.get("PROGRAM") or os.path.join(os.path.dirname(os.path.abspath(__file__)), "../crates/escpos_cli/out/escpos_cli")
MEMORY = int(os.environ.get("MEMORY", "12288")) << 20
LIMIT = 16_777_216
SIZE = int(os.environ.get("SIZE", LIMIT))
ANSWERS_LIMIT = 65_536
SECONDS = 120
PATIENCE = 2  # seconds after which a peer whose bytes nobody takes is gone

MARK = b"\x1d(H\x06\x00000000"
ANSWER = b"7\"0000\0"
HEADER = b"\x1dv0\x00\x80\x00\xff\x0f"
RASTER = HEADER + bytes(range(128)) * 4095
DOT = b"\x1dv0\x00\x01\x00\x01\x00\xa5"
STORE = b"\x1d(k\xb4\x1b1P0" + b"7" * 7089
PRINT = b"\x1d(k\x03\x001Q0"
CODE128 = b"\x1dkI\xff{A" + b"x" * 253
PICTURE = b'{"raster":{"scale":"normal","x":128,"y":4095,"dots":"' + b"a5" * 524160 + b'"}}'
QR_CODE = b'{"qr":{"size":2,"level":"L","content":"'
OPEN = b"linkup\nmove 11\ndeliver 11\nhandover\nanswer 7\n"

Ran = collections.namedtuple("Ran", "seconds processor memory status count told")
# The program's arguments; the name; what makes its input; the sizes of that, or of what a peer sends: two if it grows; the
# status that it must have; what the start or the end of its output must have; and a peer over TCP, if there is one.
Case = collections.namedtuple("Case", "words name make sizes status says peer", defaults=[None])


def times(piece, before=b"", after=b""):
    """Returns what makes an input of the given number of bytes: this piece again and again, between two others."""
    return lambda size: before + piece * ((size - len(before) - len(after)) // len(piece)) + after


def hexadecimal(make):
    """Returns what makes the hexadecimal text, of the given number of bytes, of a stream."""
    return lambda size: make(size // 2).hex().encode()


def entries(piece, count=None):
    """Returns what makes an array of this entry again and again, or a given number of times."""
    return lambda size: b"[" + b",".join([piece] * (count or (size - 1) // (len(piece) + 1))) + b"]"


def members(name_of):
    """Returns what makes an entry with as many members as there may be, each of which has the name that its number gets."""
    return lambda size: b"[{" + b",".join(b'"%s":1' % name_of(number) for number in range((size - 3) // 13)) + b"}]"


def in_turn(first, then, before=b""):
    """Returns what makes a script in which first the one happens again and again, and then the other as often."""
    return lambda size: before + first * (count := (size - len(before)) // (len(first) + len(then))) + then * count


def receipt_and(line, before=b""):
    """Returns what makes a script that submits a receipt of one long line, and then has this line for each byte of it."""

    def make(size):
        count = (size - 200) // (len(line) + 1)
        return OPEN + b'submit [{"line":"' + b"A" * count + b'"}]\n' + before + line * count

    return make


STREAMS = [
    ("random bytes", lambda size: random.Random(1).randbytes(size), 1),
    ("random characters", lambda size: bytes(random.Random(1).choices(range(32, 256), k=size)), 0),
    ("all refused at the first byte", times(b"\x06"), 1),
    ("marks", times(MARK), 0),
    ("status requests", times(b"\x10\x04\x01"), 0),
    ("shortest barcodes", times(b"\x1dkE\x01A"), 0),
    ("longest barcodes", times(CODE128), 0),
    ("barcodes with a wrong check digit", times(b"\x1dk\x0355123450\0"), 0),
    ("largest rasters", times(RASTER), 0),
    ("rasters of a byte", times(DOT), 0),
    ("raster headers without dots", times(HEADER), 1),
    ("characters", times(b"A"), 0),
    ("lines of a character", times(b"A\n"), 0),
    ("line feeds", times(b"\n"), 0),
    ("feeds of 255", times(b"\x1bd\xff"), 0),
    ("changes of style after each character", times(b"A\x1b!\xb9B\x1b!\x00"), 0),
    ("barcodes after text", times(b"A\x1dkE\x01A"), 0),
    ("initialisations that drop a line", times(b"A" * 41 + b"\x1b@"), 0),
    ("a half raster at the end", times(b"A", after=RASTER[:-1]), 1),
    ("longest stores of QR codes", times(STORE), 0),
    ("stores of a byte", times(b"\x1d(k\x04\x001P0A"), 0),
    ("stores and prints of a byte", times(b"\x1d(k\x04\x001P0A" + PRINT), 0),
    ("QR codes after text", times(b"A" + PRINT, b"\x1d(k\x04\x001P0A"), 0),
    ("prints with nothing stored", times(PRINT), 0),
    ("sizes of QR codes", times(b"\x1d(k\x03\x001C\x08"), 0),
    ("a half store at the end", times(b"A", after=STORE[:-1]), 1),
]

RECEIPTS = [
    ("arrays in arrays", times(b"["), 1),
    ("objects in objects", times(b'{"a":'), 1),
    ("one long line", times(b"A", b'[{"line":"', b'"}]'), 0),
    ("one long text without a line end", times(b"A", b'[{"text":"', b'"}]'), 1),
    ("small entries", entries(b'{"feed":1}'), 0),
    ("lines of a character", entries(b'{"line":"A"}'), 0),
    ("empty arrays", entries(b"[]"), 1),
    ("empty objects", entries(b"{}"), 1),
    ("a number of many digits", times(b"7", b'[{"feed":', b"}]"), 1),
    ("a fraction of many digits", times(b"7", b'[{"feed":0.', b"}]"), 1),
    ("a long exponent", times(b"7", b'[{"feed":1e-', b"}]"), 1),
    ("escapes", times(b"\\u0041", b'[{"line":"', b'"}]'), 0),
    ("largest rasters", entries(PICTURE), 0),
    ("rasters of a byte", entries(b'{"raster":{"scale":"both","x":1,"y":1,"dots":"a5"}}'), 0),
    ("text that is no UTF-8", times(b"\xff", b'[{"line":"', b'"}]'), 1),
    ("a byte at the end that is no UTF-8", times(b"A", b'[{"line":"', b'\xc3"}]'), 1),
    ("a string without an end", times(b"A", b'[{"line":"'), 1),
    ("many members", members(lambda number: b"%08d" % number), 1),
    ("many members, the last first", members(lambda number: b"%08d" % (99999999 - number)), 1),
    ("many members in disorder", members(lambda number: b"%08d" % (number * 7919 % 9999991)), 1),
    ("a member again and again", lambda size: b"[{" + b",".join([b'"feed":1'] * (size // 9 - 2)) + b"}]", 0),
    ("quotation marks", times(b'"'), 1),
    ("QR codes of a byte", entries(QR_CODE + b'A"}}'), 0),
    ("longest QR codes", entries(QR_CODE + b"7" * 7089 + b'"}}'), 0),
    ("a QR code that is too long", times(b"A", b"[" + QR_CODE, b'"}}]'), 1),
]

SCRIPTS = [
    ("one long line", times(b"x"), 1),
    ("a number of many zeros", times(b"0", b"move "), 0),
    ("a number of many digits", times(b"9", b"move "), 1),
    ("empty lines", times(b"\n"), 1),
    ("drops", times(b"drop\n"), 0),
    ("nudges that are refused", times(b"nudge\n"), 0),
    ("receipts that are none", times(b"submit [\n"), 0),
    ("conditions", times(b"condition 111\n"), 0),
    ("links that are dropped", times(b"linkup\nmove 11\ndrop\n"), 0),
    ("links that are dropped and then left", in_turn(b"linkup\nmove 11\ndrop\n", b"leave\n"), 0),
    ("links that are dropped and then delivered", in_turn(b"linkup\nmove 11\ndrop\n", b"deliver 11\nhandover\nleave\n"), 0),
    ("nudges and then moves of a byte", in_turn(b"nudge\n", b"move 1\n", b"linkup\n"), 0),
    ("requests and then moves", in_turn(b"ask 1\n", b"move 3\n", OPEN), 0),
    ("answers on their way, heard byte by byte", in_turn(b"ask 1\nmove 3\ndeliver 3\nhandover\n", b"answer 1\n", OPEN), 0),
    ("a receipt of rasters", lambda size: OPEN + b"submit " + entries(PICTURE)(size - 99) + b"\nmove 99999999\ndeliver 99999999\n", 0),
    ("moves and deliveries of a byte", receipt_and(b"move 1\ndeliver 1\n"), 0),
    ("deliveries of a byte", receipt_and(b"deliver 1\n", b"move 99999999\n"), 0),
    ("sixteen answers that wait", times(b"deliver 1\n", b"linkup\n" + b"nudge\n" * 16 + b"move 999\n"), 0),
    ("receipts that are recorded", times(b'submit [{"feed":1}]\nmove 16\ndeliver 16\nhandover\nanswer 7\n', OPEN), 0),
    ("restarts of the host", times(b'host-restart 0\nhost-restart 1679616\n'), 0),
    ("restarts of the printer in mid-command", times(b"linkup\nmove 5\ndeliver 5\nprinter-restart\ndrop\n"), 0),
]


def growing(words, cases, wrap=lambda make: make):
    """Returns the cases of these, over a quarter of an input and over a whole one."""
    return [Case(words, name, wrap(make), (SIZE // 4, SIZE), status, b"") for name, make, status in cases]


def padded(text, size):
    """Returns a text with as many blanks after its first byte as make it this long."""
    return text[:1] + b" " * (size - len(text)) + text[1:]


def fixed(word, name, text, status, says):
    return Case(word.split(), name, text if callable(text) else lambda size: text, (0,), status, says)


def long_texts():
    """Returns the cases of inputs that are as long as one may be, and of those that have a byte more."""
    found = []
    for word in "check", "render", "draw", "encode", "play", "loop":
        make = {"check": times(b"4"), "render": times(b"4"), "draw": times(b"4"), "play": times(b"0", b"drop\nmove ")}.get(word, lambda size: padded(b'[{"feed":1}]', size))
        found.append(Case([word], "as long as may be", make, (LIMIT,), 0, b""))
        found.append(Case([word], "a byte too long", make, (LIMIT + 1,), 1, b"refused input\n"))
    return found


LIMITS = [
    fixed("check", "the longest half command", lambda size: RASTER[:-1].hex().encode(), 1, b"end 524167 pending 524167\n"),
    fixed("check", "a raster too wide", b"1D76300081", 1, b"fault 4 5 BadSize\n"),
    fixed("check", "a raster too high", b"1D763000010000 10", 1, b"fault 7 5 BadSize\n"),
    fixed("check", "a header without its dots", HEADER.hex().encode(), 1, b"end 8 pending 8\n"),
    fixed("check", "content of 255", b"1D6B45FF" + b"41" * 255, 0, b"end 259 pending 0\n"),
    fixed("check", "content of 256 without n", b"1D6B04" + b"41" * 256 + b"00", 1, b"fault 258 4 BadBarcode\n"),
    fixed("check", "the longest half store", STORE[:-1].hex().encode(), 1, b"end 7096 pending 7096\n"),
    fixed("check", "a store too long", b"1D286BB51B", 1, b"fault 4 3 BadParameter\n"),
    fixed("check", "a store of nothing", b"1D286B0300315030", 1, b"fault 6 2 UnknownCommand\n"),
    fixed("check", "half a byte", b"1B 4", 1, b"refused hex\n"),
    fixed("encode", "127 arrays", b"[" * 127 + b"]" * 127, 1, b"refused 6 BadShape 0\n"),
    fixed("encode", "128 arrays", b"[" * 128 + b"]" * 128, 1, b"refused 5 NotJson\n"),
    fixed("encode", "content of 255", b'[{"bars":{"kind":"code39","content":"' + b"A" * 255 + b'"}}]', 0, b"1d6b45ff"),
    fixed("encode", "content of 256", b'[{"bars":{"kind":"code39","content":"' + b"A" * 256 + b'"}}]', 1, b"refused 6 BadShape 0\n"),
    fixed("encode", "the largest raster", entries(PICTURE, 1), 0, HEADER.hex().encode()),
    fixed("encode", "a raster too high", lambda size: b"[" + PICTURE.replace(b"4095", b"4096") + b"]", 1, b"refused 6 BadShape 0\n"),
    fixed("encode", "a QR code of 7,089 bytes", b"[" + QR_CODE + b"7" * 7089 + b'"}}]', 0, b"1d286b0300314302"),
    fixed("encode", "a QR code of 7,090 bytes", b"[" + QR_CODE + b"A" * 7090 + b'"}}]', 1, b"refused 6 BadShape 0\n"),
    fixed("encode", "a feed of 256", b'[{"feed":256}]', 1, b"refused 6 BadShape 0\n"),
    fixed("encode", "nothing", b"", 1, b"refused 5 NotJson\n"),
    fixed("play", "the greatest number", b"move 4294967295\n", 0, b"moved 0\n"),
    fixed("play", "a greater one", b"move 4294967296\n", 1, b"line 1 unreadable\n"),
    fixed("play", "the last mark and one more", b"host-restart 1679615\nlinkup\nnudge\n", 0, b"ok\nok\nrefused 2 MarksUsedUp\n"),
    fixed("play", "five receipts in flight", OPEN + b'submit [{"feed":1}]\n' * 5, 0, b"ok\nok\nok\nok\nrefused 6 InFlightFull\n"),
    fixed("play", "a seventeenth answer", b"linkup\n" + b"nudge\n" * 16 + b"move 999\ndeliver 999\n", 0, b"moved 187\nfed 186 full\n"),
    fixed("emulate 127.0.0.1:1 --links 1001", "too many links", b"", 2, b"usage"),
    fixed("send 127.0.0.1:1 --first 1679616", "a mark too many", b"", 2, b"usage"),
    fixed("send 127.0.0.1:1 --first 0 --openings 100", "too many openings", b"", 2, b"usage"),
    fixed("send 127.0.0.1:1 --first 0", "nobody listens", b'[{"feed":1}]', 3, b"no link\n"),
]


# What peers do on a stream; they may send a given number of bytes.


def talk(piece, reads=True, first=b""):
    """Returns a peer that sends this piece again and again, and reads or doesn't; it leaves when nothing moves any more."""

    def peer(stream, size):
        stream.setblocking(False)
        if not reads:
            stream.setsockopt(socket.SOL_SOCKET, socket.SO_RCVBUF, 4096)
        rest = memoryview(times(piece, first)(size))
        while True:
            given, free, _ = select.select([stream] if reads else [], [stream] if rest else [], [], PATIENCE)
            if not given and not free or given and not stream.recv(65536):
                return
            if free:
                rest = rest[stream.send(rest[:65536]) :]
                if not rest:
                    stream.shutdown(socket.SHUT_WR)

    return peer


def closes(stream, size):
    """A peer that closes."""


def resets(stream, size):
    """A peer that breaks the link."""
    stream.setsockopt(socket.SOL_SOCKET, socket.SO_LINGER, struct.pack("ii", 1, 0))


def opens_and_waits(stream, size):
    """A printer that answers mark 0, and neither reads nor answers more."""
    stream.sendall(ANSWER)
    time.sleep(PATIENCE)


def answers_late(stream, size):
    """A printer that sends the given number of bytes of answers, of which the first is to mark 0, and the last to mark 3."""
    stream.sendall(ANSWER)
    read = b""
    while not read.endswith(MARK[:10] + b"3"):
        read += stream.recv(65536)
    stream.sendall(b"\x12" * (size - 14) + ANSWER[:5] + b"3\0")
    stream.recv(1)


def printed(name, piece, told, reads=True, sizes=(SIZE // 4, SIZE)):
    return Case(["emulate", "ADDRESS"], name, times(b""), sizes, 0, told, talk(piece, reads))


def sent(name, peer, size, status, told, make=lambda size: b'[{"line":"Hi"}]'):
    return Case("send ADDRESS --first 0".split(), name, make, (size,), status, told, peer)


# If nobody reads the answers, the link stands still once the sockets are full, however much a peer would still send: then time says
# nothing about the size.
UNREAD = (SIZE,)

PEERS = [
    printed("marks", MARK, b"link 1 read "),
    printed("marks, answers never read", MARK, b"link 1 read ", reads=False, sizes=UNREAD),
    printed("status requests", b"\x10\x04\x01", b"link 1 read "),
    printed("status requests, answers never read", b"\x10\x04\x01", b"link 1 read ", reads=False, sizes=UNREAD),
    printed("random bytes", random.Random(1).randbytes(9999), b"Fault\n"),
    printed("largest rasters", RASTER, b"link 1 read "),
    printed("characters", b"A", b"link 1 read "),
    printed("line feeds", b"\n", b"link 1 read "),
    printed("lines of a character", b"A\n", b"link 1 read "),
    printed("as many bytes as may be", b"\r", b"link 1 read 16777216 consumed 16777216 written 0 TooLong\n", sizes=(LIMIT,)),
    printed("a byte less", b"\r", b"link 1 read 16777215 consumed 16777215 written 0 Ended\n", sizes=(LIMIT - 1,)),
    printed("a byte more", b"\r", b"link 1 read 16777216 consumed 16777216 written 0 TooLong\n", sizes=(LIMIT + 1,)),
    Case(["emulate", "ADDRESS"], "a peer that closes", times(b""), (0,), 0, b"link 1 read 0 consumed 0 written 0 Ended\n", closes),
    Case(["emulate", "ADDRESS"], "a peer that resets", times(b""), (0,), 0, b"link 1 read 0 consumed 0 written 0 ReadFault\n", resets),
    sent("bytes that are no answers", talk(b"\xa5"), LIMIT, 3, b"not recorded BadAnswer\nnext 3\n"),
    sent("status bytes without end", talk(b"\x12"), LIMIT, 3, b"not recorded TooLong\nnext 3\n"),
    sent("answers to other marks without end", talk(b'7"ZZZZ\0'), LIMIT, 3, b"not recorded TooLong\nnext 3\n"),
    sent("an opening, then status bytes without end", talk(b"\x12", first=ANSWER), LIMIT, 3, b"not recorded TooLong\nnext 4\n"),
    sent("half an answer", talk(b"7"), 1, 3, b"not recorded Ended\nnext 3\n"),
    sent("an answer before the mark", talk(ANSWER[:5] + b"3\0", first=ANSWER), 14, 3, b"not recorded Ended\nnext 4\n"),
    sent("a printer that closes", closes, 0, 3, b"not recorded "),
    sent("a printer that resets", resets, 0, 3, b"not recorded "),
    sent("a printer that reads no more", opens_and_waits, 0, 3, b"not recorded ", entries(PICTURE, 15)),
    sent("as many bytes of answers as may be", answers_late, ANSWERS_LIMIT, 0, b"recorded 0\nnext 4\n"),
    sent("a byte more", answers_late, ANSWERS_LIMIT + 1, 3, b"not recorded TooLong\nnext 4\n"),
]


# A print of eight bytes puts all that is stored on paper, so less is enough.
FEW = (SIZE // 64, SIZE // 16)


def cases():
    """Returns all cases."""
    found = long_texts() + LIMITS
    for word in "check", "render", "draw":
        blanks = Case([word], "blanks", times(b" \t\r\n"), (SIZE // 4, SIZE), 0, b"end 0 pending 0\n" if word == "check" else b"")
        letters = Case([word], "letters", times(b"xyz"), (SIZE // 4, SIZE), 1, b"refused hex\n")
        spaced = Case([word], "a blank between all digits", times(b"4 "), (SIZE // 4, SIZE), 0, b"")
        found += growing([word], STREAMS, hexadecimal) + [blanks, letters, spaced]
        found.append(Case([word], "prints of the longest store", hexadecimal(times(PRINT, STORE)), FEW, 0, b""))
    found.append(Case(["emulate", "ADDRESS"], "prints of the longest store", times(b""), FEW, 0, b"link 1 read ", talk(PRINT, first=STORE)))
    looped = [case for case in RECEIPTS if case[0] in ("small entries", "lines of a character", "largest rasters")]
    return found + growing(["encode"], RECEIPTS) + growing(["loop"], looped) + growing(["play"], SCRIPTS) + PEERS


def forked(work):
    """Does some work in a process of its own, so that its memory isn't this script's; returns its id."""
    process = os.fork()
    if process == 0:
        try:
            work()
        except OSError:
            pass  # the other end of a link may leave
        finally:
            os._exit(0)
    return process


def visit(peer, port, size):
    """Is a peer that connects to this port; the program that listens there may take some time to start."""
    for _ in range(1000):
        with socket.socket() as stream:
            if stream.connect_ex(("127.0.0.1", port)) == 0:
                return peer(stream, size)
        time.sleep(0.002)


def receive(peer, listener, size):
    """Is a peer that the program connects to."""
    with listener.accept()[0] as stream:
        peer(stream, size)


def run(case, size, path):
    """Runs the program for a case once; its input is the file at this path."""
    with socket.create_server(("127.0.0.1", 0)) as listener, open(path, "rb") as given:
        port = listener.getsockname()[1]
        peer = None
        if case.peer and case.words[0] == "send":
            peer = forked(lambda: receive(case.peer, listener, size))
        elif case.peer:
            listener.close()
        words = [PROGRAM] + [word.replace("ADDRESS", f"127.0.0.1:{port}") for word in case.words]
        began = time.monotonic()
        limited = lambda: resource.setrlimit(resource.RLIMIT_AS, (MEMORY, MEMORY))
        process = subprocess.Popen(words, stdin=given, stdout=subprocess.PIPE, preexec_fn=limited)
        if case.peer and not peer:
            peer = forked(lambda: visit(case.peer, port, size))
        count, told = 0, b""
        while select.select([process.stdout], [], [], max(0, SECONDS - time.monotonic() + began))[0]:
            if not (piece := os.read(process.stdout.fileno(), 1 << 20)):
                break
            count += len(piece)
            told = told[:400] + piece[:400] if len(told) < 400 else told
            end = (end + piece)[-400:] if count > len(piece) else piece[-400:]
        else:
            process.kill()
        _, status, used = os.wait4(process.pid, 0)
        seconds = time.monotonic() - began
        process.returncode = os.waitstatus_to_exitcode(status)
        process.stdout.close()
        if peer:
            os.kill(peer, signal.SIGKILL)
            os.waitpid(peer, 0)
    return Ran(seconds, used.ru_utime + used.ru_stime, used.ru_maxrss >> 10, process.returncode, count, told + (end if count else b""))


def best(case, size, path):
    """Returns the size of the input, and the quickest of three runs with the least processor time and the most memory of them."""
    os.waitpid(forked(lambda: open(path, "wb").write(case.make(size))), 0)
    runs = [run(case, size, path)]
    while len(runs) < 3 and runs[0].seconds < 20 and runs[0].status == case.status:
        runs.append(run(case, size, path))
    least = {"processor": min(ran.processor for ran in runs), "memory": max(ran.memory for ran in runs), "status": runs[-1].status}
    return max(size, os.path.getsize(path)), min(runs)._replace(**least)


def faults(case, ran, factor):
    """Returns what is wrong with a run, nothing if all is as it must be."""
    found = []
    if ran.status != case.status:
        found.append(f"status {ran.status} in place of {case.status}")
    if case.says not in ran.told:
        found.append(f"it doesn't say {case.says!r} but {ran.told[:60]!r} .. {ran.told[-60:]!r}")
    if factor > 10 and ran.processor > 0.3:
        found.append("time isn't proportional")
    return found


def row(case, size, ran):
    """Returns the row of a case in a table of docs/GATE.md."""
    return f"| {case.words[0]} | {size / 1e6:.1f} MB, {case.name} | {ran.seconds:.2f} s | {ran.count / 1e6:.1f} MB | {ran.memory:,} MiB |"


def main():
    wrong, ended = 0, []
    print(f"{'case':58} {'bytes':>9} {'seconds':>8} {'processor':>9} {'MiB':>6} status factor")
    with tempfile.TemporaryDirectory() as folder:
        for case in cases():
            name = f"{case.words[0]}: {case.name}"
            if not all(word in name for word in sys.argv[1:]):
                continue
            rans = [best(case, size, f"{folder}/given") for size in case.sizes]
            size, ran = rans[-1]
            factor = ran.processor / max(rans[0][1].processor, 0.001) if len(rans) > 1 else 0
            found = faults(case, ran, factor)
            wrong += len(found) > 0
            ended.append((case, size, ran))
            line = f"{name:58} {size:9} {ran.seconds:8.2f} {ran.processor:9.2f} {ran.memory:6} {ran.status:6}"
            print(line + (f" {factor:6.1f}" if factor else "") + "".join(f"\n    WRONG: {what}" for what in found), flush=True)
    print(f"{len(ended)} cases, {wrong} WRONG")
    if ended:
        print(row(*max(ended, key=lambda each: each[2].processor)))
        print(row(*max(ended, key=lambda each: each[2].memory)))
    return wrong > 0


if __name__ == "__main__":
    sys.exit(main())
