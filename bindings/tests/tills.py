#!/usr/bin/env python3
"""Tests both tills of examples/ against `emulate` and against printers that answer late, little or nothing: what they print, their exit
statuses, their one limit of time, what is kept before a byte is sent, and what they do with files that aren't a till's. Then it kills
them at random moments: nothing that was taken is lost, no mark number goes out twice, and what is recorded is on the paper.

usage: tills.py PROGRAM TILL [--rounds N]    PROGRAM is escpos_cli, TILL the till in C; for that in Python, with kolatennis in PYTHONPATH.
                                             Each till is killed N times, or 20 times
"""
import concurrent.futures, contextlib, functools, json, os, random, re, resource, shutil, signal, socket, sqlite3, subprocess, sys, tempfile, threading, time

TOP = os.path.join(os.path.dirname(os.path.abspath(__file__)), "../..")
RECEIPT = f"{TOP}/examples/gate_ticket.json"
DELIVERED, REFUSED, FAULT, NOT_SENT, MAY_BE_PRINTED, UNSAID = range(6)
MARK = re.compile(rb"\x1d\(H\x06\x0000([0-9A-Z]{4})")
COPY = "*** MAY BE A COPY ***"
#: The tills' ten seconds, on a machine that has much else to do.
LEAST, MOST = 9, 25


def entries(path):
    """Returns the lines that a till has kept in its file."""
    with open(path, "rb") as file:
        content = file.read()
    if not content.startswith(b"SQLite"):
        return content[: content.rfind(b"\n") + 1].splitlines(keepends=True)
    with tempfile.TemporaryDirectory() as folder:
        for end in ("", "-journal"):
            if os.path.exists(path + end):
                shutil.copyfile(path + end, f"{folder}/copy{end}")
        with contextlib.closing(sqlite3.connect(f"{folder}/copy")) as base:
            is_made = base.execute("SELECT 1 FROM sqlite_schema").fetchall()
            return [line for (line,) in base.execute("SELECT line FROM entry ORDER BY id")] if is_made else []


class Run:
    """A run of a till in a folder of its own."""

    def __init__(self, till, folder, port, content=None, receipt=RECEIPT, words=None, **streams):
        self.file = os.path.join(folder, "entries")
        if content is not None:
            with open(self.file, "wb") as file:
                file.write(content)
        words = ["127.0.0.1", str(port), self.file] if words is None else words
        with open(receipt, "rb") as text:
            streams = {"stdin": text, "stdout": subprocess.PIPE, "stderr": subprocess.PIPE, **streams}
            self.began = time.monotonic()
            self.process = subprocess.Popen([*till, *words], **streams)

    def ends(self, status, word=""):
        """Waits for the end, which has this status, and begins what it says with this word; returns the seconds that it took."""
        out, err = self.process.communicate(timeout=120)
        took, said = time.monotonic() - self.began, (err or out or b"").decode()
        assert self.process.returncode == status and said.startswith(word), f"status {self.process.returncode} in place of {status}: {said}"
        return took

    def words(self):
        """Returns the first word of each line that is kept."""
        return b" ".join(line.split()[0] for line in entries(self.file)).decode()


class Printer:
    """A printer that does with each link what `serves` does, in a thread."""

    def __init__(self, serves, room=None):
        self.socket = socket.create_server(("127.0.0.1", 0))
        if room:
            self.socket.setsockopt(socket.SOL_SOCKET, socket.SO_RCVBUF, room)
        self.port = self.socket.getsockname()[1]
        self.serves, self.links, self.failed = serves, 0, []
        threading.Thread(target=self.run, daemon=True).start()

    def run(self):
        while True:
            link, _ = self.socket.accept()
            self.links += 1
            with link, contextlib.suppress(ConnectionError):
                try:
                    self.serves(link)
                except AssertionError as why:
                    self.failed.append(why)


def takes(link, marks):
    """Takes bytes until so many marks are in them, and returns them."""
    taken = b""
    while len(MARK.findall(taken)) < marks:
        piece = link.recv(65536)
        if not piece:
            raise ConnectionError
        taken += piece
    return taken


def answers(link, taken):
    link.sendall(b"".join(b"\x37\x22" + number + b"\x00" for number in MARK.findall(taken)))


def is_ended(link):
    """Takes bytes until the link is closed."""
    while link.recv(65536):
        pass


def prints(link):
    answers(link, takes(link, 3))
    answers(link, takes(link, 1))
    is_ended(link)


# ---- the rows: each is called with a till and a folder ----


def records(till, folder):
    run = Run(till, folder, Printer(prints).port)
    run.ends(DELIVERED, "recorded 1\n")
    assert run.words() == "queued tried recorded", run.words()


def goes_on_with_the_entries(till, folder):
    printer = Printer(prints)
    for number in (1, 2):
        run = Run(till, folder, printer.port)
        run.ends(DELIVERED, f"recorded {number}\n")
    Run(till, folder, printer.port, receipt=os.devnull).ends(DELIVERED)
    assert run.words() == "queued tried recorded queued tried recorded", run.words()
    assert printer.links == 2 and entries(run.file)[-2].endswith(b"00000008\n"), entries(run.file)


def keeps_the_entry_before_a_byte_is_sent(till, folder):
    def serves(link):
        link.recv(1)
        assert [line.split()[0] for line in entries(os.path.join(folder, "entries"))] == [b"queued", b"tried"]

    printer = Printer(serves)
    Run(till, folder, printer.port).ends(MAY_BE_PRINTED, "waiting 1 ")
    assert not printer.failed, printer.failed


def delivers_what_waits(till, folder):
    Run(till, folder, 9).ends(NOT_SENT, "waiting 1 NoLink\n")
    Run(till, folder, 9).ends(NOT_SENT, "waiting 1 NoLink\n")
    Run(till, folder, Printer(prints).port, receipt=os.devnull).ends(DELIVERED, "recorded 1\nrecorded 2\n")


def tells_that_the_printer_pauses(till, folder):
    """Its paper has ended while a receipt comes, and is put in; then its cover is open, and it leaves."""

    def serves(link):
        answers(link, takes(link, 3))
        receipt = takes(link, 1)
        if printer.links == 1:
            link.sendall(b"\x18\x00\x0c\x00" b"\x10\x00\x00\x00")
            answers(link, receipt)
            is_ended(link)
        else:
            link.sendall(b"\x38\x00\x00\x00")

    printer = Printer(serves)
    Run(till, folder, printer.port).ends(DELIVERED, "paused 1 PaperEnded\nrecorded 1\n")
    Run(till, folder, printer.port).ends(MAY_BE_PRINTED, "paused 2 CoverOpen\nwaiting 2 Ended\n")


def refuses_what_is_no_till(till, folder):
    """It is as it was. (To the till in Python none of these is a database.)"""
    printer = Printer(prints)
    for content in (b"x", b"\n", b"0000007\n", b"queued \n", b"queued 0200005b5d\ntried 000000000000000100000000\n", b"recorded 0000000000000001\n", b"\0" * 4096):
        run = Run(till, folder, printer.port, content)
        run.ends(FAULT)
        with open(run.file, "rb") as file:
            assert file.read() == content
    assert printer.links == 0, "a link was opened"


def refuses_damaged_entries(till, folder):
    """A line is lost in the middle of those that are kept."""
    printer = Printer(prints)
    run = Run(till, folder, printer.port)
    run.ends(DELIVERED)
    lines = entries(run.file)
    if lines == open(run.file, "rb").read().splitlines(keepends=True):
        with open(run.file, "wb") as file:
            file.write(lines[0] + lines[2])
    else:
        with contextlib.closing(sqlite3.connect(run.file)) as base, base:
            base.execute("DELETE FROM entry WHERE id = 2")
    Run(till, folder, printer.port).ends(FAULT)
    assert printer.links == 1 and len(entries(run.file)) == 2


def cannot_keep_an_entry(till, folder):
    """Each file may have a few bytes: half a line, or half a page of the database."""

    def is_full():
        signal.signal(signal.SIGXFSZ, signal.SIG_IGN)
        resource.setrlimit(resource.RLIMIT_FSIZE, (20, 20))

    printer = Printer(prints)
    run = Run(till, folder, printer.port, preexec_fn=is_full)
    run.ends(FAULT)
    assert printer.links == 0 and entries(run.file) == []
    run = Run(till, folder, printer.port)
    run.ends(DELIVERED, "recorded 1\n")
    assert run.words() == "queued tried recorded", run.words()


def shares_no_file(till, folder):
    printer = Printer(lambda link: time.sleep(3))
    first = Run(till, folder, printer.port)
    while printer.links == 0 and first.process.poll() is None:
        time.sleep(0.05)
    Run(till, folder, printer.port).ends(FAULT)
    first.ends(MAY_BE_PRINTED, "waiting 1 ")


def is_no_receipt(till, folder):
    receipt = os.path.join(folder, "receipt")
    with open(receipt, "w") as file:
        file.write('[{"fed":1}]')
    run = Run(till, folder, Printer(prints).port, receipt=receipt)
    run.ends(REFUSED, "refused: BadShape")
    assert entries(run.file) == []


def wants_arguments(till, folder):
    for words in ([], ["127.0.0.1"], ["localhost:9100", "9100", "entries"], ["127.0.0.1", "printer", "entries"], ["127.0.0.1", "9100", "none/entries"]):
        Run(till, folder, 1, words=[it if it[-7:] != "entries" else os.path.join(folder, it) for it in words]).ends(FAULT)


def finds_no_printer(till, folder):
    with socket.create_server(("127.0.0.1", 0)) as closed:
        port = closed.getsockname()[1]
    run = Run(till, folder, port)
    run.ends(NOT_SENT, "waiting 1 NoLink\n")
    assert run.words() == "queued", run.words()


def output_is_full(till, folder):
    with open("/dev/full", "w") as full:
        Run(till, folder, Printer(prints).port, stdout=full).ends(UNSAID, "standard output")
        run = Run(till, folder, Printer(prints).port, stdout=full, stderr=full)
        run.ends(UNSAID)
        assert run.words().count("recorded") == 2
        Run(till, folder, 9, stdout=full).ends(NOT_SENT)
        Run(till, folder, Printer(lambda link: link.recv(1)).port, stderr=full).ends(MAY_BE_PRINTED)
        Run(till, folder, 9, b"x", stderr=full).ends(FAULT)


def output_is_closed(till, folder):
    Run(["sh", "-c", 'exec "$@" >&-', "sh", *till], folder, Printer(prints).port).ends(FAULT)


def link_is_closed(till, folder):
    def after_openings(link):
        takes(link, 3)

    def after_receipt(link):
        answers(link, takes(link, 3))
        takes(link, 1)

    for serves in (lambda link: None, after_openings, after_receipt):
        Run(till, folder, Printer(serves).port).ends(MAY_BE_PRINTED, "waiting 1 ")


def answer_is_bad(till, folder):
    def after_receipt(link):
        answers(link, takes(link, 3))
        takes(link, 1)
        link.sendall(b"\xff")
        is_ended(link)

    for serves in (lambda link: link.sendall(b"\xff") or is_ended(link), after_receipt):
        Run(till, folder, Printer(serves).port).ends(MAY_BE_PRINTED, "waiting 1 BadAnswer\n")


def in_time(took):
    assert LEAST <= took <= MOST, f"it took {took:.1f} seconds"


def is_never_accepted(till, folder):
    with socket.socket() as full:
        full.bind(("127.0.0.1", 0))
        full.listen(0)
        port = full.getsockname()[1]
        waiting = [socket.socket() for _ in range(4)]
        for it in waiting:
            it.setblocking(False)
            it.connect_ex(("127.0.0.1", port))
        time.sleep(0.5)
        in_time(Run(till, folder, port).ends(NOT_SENT, "waiting 1 NoLink\n"))


def is_never_answered(till, folder):
    in_time(Run(till, folder, Printer(is_ended).port).ends(MAY_BE_PRINTED, "waiting 1 TimedOut\n"))


def receipt_is_never_answered(till, folder):
    def serves(link):
        answers(link, takes(link, 3))
        is_ended(link)

    in_time(Run(till, folder, Printer(serves).port).ends(MAY_BE_PRINTED, "waiting 1 TimedOut\n"))


def is_answered_bit_by_bit(till, folder):
    """Status bytes come for a minute, each in time."""

    def serves(link):
        answers(link, takes(link, 3))
        for _ in range(60):
            link.sendall(b"\x12")
            time.sleep(1)

    in_time(Run(till, folder, Printer(serves).port).ends(MAY_BE_PRINTED, "waiting 1 TimedOut\n"))


def is_taken_bit_by_bit(till, folder):
    """Eight megabytes are taken in pieces for a minute, each in time."""
    receipt = os.path.join(folder, "receipt")
    with open(receipt, "w") as file:
        file.write("[" + ",".join(['{"line":"%s"}' % ("A" * 8000)] * 1000) + "]")

    def serves(link):
        answers(link, takes(link, 3))
        for _ in range(30):
            for _ in range(4):
                link.recv(65536)
            time.sleep(2)

    in_time(Run(till, folder, Printer(serves, room=32768).port, receipt=receipt).ends(MAY_BE_PRINTED, "waiting 1 TimedOut\n"))


def is_stopped_for_a_while(till, folder):
    """The till is stopped and goes on while it waits for each answer, which interrupts the wait."""

    def serves(link):
        for marks in (3, 1):
            taken = takes(link, marks)
            for _ in range(3):
                time.sleep(0.3)
                run.process.send_signal(signal.SIGSTOP)
                time.sleep(0.2)
                run.process.send_signal(signal.SIGCONT)
            answers(link, taken)
        is_ended(link)

    run = Run(till, folder, Printer(serves).port)
    run.ends(DELIVERED, "recorded 1\n")


ROWS = [
    records, goes_on_with_the_entries, keeps_the_entry_before_a_byte_is_sent, delivers_what_waits, tells_that_the_printer_pauses, refuses_what_is_no_till,
    refuses_damaged_entries, cannot_keep_an_entry, shares_no_file, is_no_receipt, wants_arguments, finds_no_printer, output_is_full,
    output_is_closed, link_is_closed, answer_is_bad, is_never_accepted, is_never_answered, receipt_is_never_answered,
    is_answered_bit_by_bit, is_taken_bit_by_bit, is_stopped_for_a_while,
]


# ---- against `emulate` ----


def listens(process, port):
    """Returns whether it listens at this port. A connection would count as a link, so the tables of the system say it."""
    with open("/proc/net/tcp") as table:
        socket_of = re.search(rf":{port:04X} 00000000:0000 0A \S+ \S+ \S+ +\d+ +\d+ (\d+)", table.read())
    if not socket_of:
        return False
    with contextlib.suppress(OSError):
        fds = f"/proc/{process.pid}/fd"
        return f"socket:[{socket_of[1]}]" in [os.readlink(f"{fds}/{fd}") for fd in os.listdir(fds)]
    return False


@contextlib.contextmanager
def emulate(program, links, printed):
    """Runs `emulate` for so many links; its paper goes into a file. Where another row took the free port first, another port is tried."""
    process = None
    while process is None or process.poll() is not None:
        with socket.create_server(("127.0.0.1", 0)) as free:
            port = free.getsockname()[1]
        with open(printed, "wb") as out:
            process = subprocess.Popen([program, "emulate", f"127.0.0.1:{port}", "--links", str(links)], stdout=out)
        while process.poll() is None and not listens(process, port):
            time.sleep(0.05)
    try:
        yield port
        assert process.wait(60) == 0
    finally:
        process.kill()


def paper(program, receipt):
    with open(receipt, "rb") as text:
        stream = subprocess.run([program, "encode", "--raw"], stdin=text, stdout=subprocess.PIPE, check=True).stdout
    return subprocess.run([program, "render", "--raw"], input=stream, stdout=subprocess.PIPE, check=True).stdout


def prints_what_is_a_receipt(program, till, folder):
    """Two receipts, and a text that is none: it opens no link."""
    receipts = [RECEIPT, f"{TOP}/examples/tax_receipt.json"]
    none, printed = os.path.join(folder, "none"), os.path.join(folder, "printed")
    with open(none, "w") as file:
        file.write('[{"fed":1}]')
    with emulate(program, 2, printed) as port:
        for number, receipt in enumerate(receipts, 1):
            Run(till, folder, port, receipt=receipt).ends(DELIVERED, f"recorded {number}\n")
            Run(till, folder, port, receipt=none).ends(REFUSED, "refused")
    assert rows_of(printed) == b"".join(paper(program, it) for it in receipts), rows_of(printed)


def rows_of(printed):
    """Returns what `emulate` printed on its paper."""
    with open(printed, "rb") as file:
        return b"".join(line for line in file if not line.startswith(b"link "))


def prints_after_a_link_was_cut(program, till, folder):
    """An older link ended in the middle of a raster: the request for automatic status and the first opening marks are its dots."""
    with emulate(program, 2, os.path.join(folder, "printed")) as port:
        with socket.create_connection(("127.0.0.1", port)) as link:
            link.sendall(b"\x1dv0\x00\x02\x00\x0c\x00ABC")
        Run(till, folder, port).ends(DELIVERED, "recorded 1\n")


# ---- kills ----


class Wire:
    """Passes each link of a till on to a printer, and keeps what the till put on it."""

    def __init__(self, printer):
        self.printer, self.put = printer, []
        self.socket = socket.create_server(("127.0.0.1", 0))
        self.port = self.socket.getsockname()[1]
        threading.Thread(target=self.run, daemon=True).start()

    def run(self):
        while True:
            till, _ = self.socket.accept()
            link = socket.create_connection(("127.0.0.1", self.printer))
            self.put.append(bytearray())
            for words in ((till, link, self.put[-1]), (link, till, bytearray())):
                threading.Thread(target=self.carry, args=words, daemon=True).start()

    @staticmethod
    def carry(source, sink, kept):
        with contextlib.suppress(OSError):
            while piece := source.recv(4096):
                kept += piece
                sink.sendall(piece)
        for it in (source, sink):
            with contextlib.suppress(OSError):
                it.shutdown(socket.SHUT_RDWR)


def texts_of(lines):
    """Returns the texts of the receipts that were taken."""
    return [json.loads(bytes.fromhex(line.split()[1].decode())[3:])[0]["line"] for line in lines if line.startswith(b"queued ")]


def is_killed(rounds, program, till, folder):
    """Each round takes a receipt and delivers what waits, and the till is killed at a random moment. What it kept of before stays, and
    what it said is recorded is. At the end all is delivered: each receipt is on the paper, no mark number went out twice, and none
    that wasn't kept before."""
    chance, printed, receipt, links = random.Random(0), os.path.join(folder, "printed"), os.path.join(folder, "receipt"), 3 * rounds + 20
    with emulate(program, links, printed) as port:
        wire, kept, mean, given = Wire(port), [], 0, 0
        for turn in range(rounds + 1):
            with open(receipt, "w") as file:
                json.dump([{"line": f"RECEIPT {turn} " + "-" * 20}] * chance.choice((1, 3, 400)), file)
            run = Run(till, folder, wire.port, receipt=receipt)
            if turn:
                time.sleep(chance.uniform(0, 1.2 * mean))
                run.process.kill()
            out = run.process.communicate(timeout=60)[0].decode()
            mean = mean or time.monotonic() - run.began
            lines = entries(run.file) if os.path.exists(run.file) else []
            assert lines[: len(kept)] == kept, f"round {turn}: lost {kept[len(lines):]}"
            for number in re.findall("^recorded ([0-9]+)\n", out, re.MULTILINE):
                assert any(line.startswith(b"recorded %016x" % int(number)) for line in lines), f"round {turn}: recorded {number}"
            kept = lines
        while (status := Run(till, folder, wire.port, receipt=os.devnull).process.wait(60)) == MAY_BE_PRINTED and given < 20:
            given += 1
        assert status == DELIVERED, f"status {status}"
        kept = entries(run.file)
        for _ in range(links - len(wire.put)):
            socket.create_connection(("127.0.0.1", port)).close()
    taken = texts_of(kept)
    assert len([line for line in kept if line.startswith(b"recorded ")]) == len(taken) == len(set(taken)) and len(taken) > rounds // 4, kept
    rows = rows_of(printed).decode().splitlines()
    for text in taken:
        assert any(text.strip() in row for row in rows), f"{text} isn't on the paper"
    marks = [int(mark, 36) for put in wire.put for mark in MARK.findall(bytes(put))]
    last = max(int(line.split()[1][16:], 16) for line in kept if line.startswith(b"tried "))
    assert len(marks) == len(set(marks)) and max(marks) < last, f"mark numbers {sorted(marks)}"


def tried(name, row):
    """Runs a row in a folder of its own, and says what is wrong."""
    with tempfile.TemporaryDirectory() as folder:
        try:
            row(folder)
        except Exception as why:
            return f"{name}: {type(why).__name__}: {why}"
    return None


def main(program, till, rounds="20"):
    tills = {"C": [till], "Python": [sys.executable, f"{TOP}/examples/python/till.py"]}
    against = [*(functools.partial(row, program) for row in (prints_what_is_a_receipt, prints_after_a_link_was_cut)), functools.partial(is_killed, int(rounds), program)]
    rows = [(f"{getattr(row, 'func', row).__name__}, the till in {name}", functools.partial(row, words)) for name, words in tills.items() for row in [*ROWS, *against]]
    with concurrent.futures.ThreadPoolExecutor(len(rows)) as pool:
        wrong = [it for it in pool.map(lambda row: tried(*row), rows) if it]
    for it in wrong:
        print(f"tills.py: {it}", file=sys.stderr)
    print(f"{len(rows)} rows of the tills, {len(wrong)} wrong")
    return 1 if wrong else 0


sys.exit(main(*(it for it in sys.argv[1:] if it != "--rounds")))
