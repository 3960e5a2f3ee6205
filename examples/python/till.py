#!/usr/bin/env python3
"""A till with one printer over a plain socket: takes a receipt, delivers all that wait, and says of each whether it is printed.

What it remembers is an SQLite database with a row for each entry of a kolatennis.Till. Killed at any moment, it goes on from there with
the next run: no receipt that was taken is lost, no mark number is used twice, and what may be on the paper already is printed again with
a line that says so. One till at a time may have the database.

    pip install bindings/out/dist/*.whl
    escpos_cli emulate 127.0.0.1:9100 &
    examples/python/till.py 127.0.0.1 9100 till.db < examples/gate_ticket.json

With no receipt (</dev/null) it delivers what waits. It prints `recorded N` or `waiting N WHY` of the receipt number N. All that it does
for one receipt takes at most ten seconds; but once the printer says that its paper has ended, or its cover is open, that is told by
`paused N WHY`, and the receipt is given ten minutes more. The exit status:
    0  no receipt waits
    1  refused: the text is no receipt, and wasn't taken
    2  the caller's own fault (arguments, input, the database)
    3  a receipt waits, and nothing of it was sent by this run
    4  a receipt waits, and may be printed
    5  as 0, but standard output took no word of it
"""
import ipaddress, os, re, socket, sqlite3, sys, time

import kolatennis

DELIVERED, REFUSED, FAULT, NOT_SENT, MAY_BE_PRINTED, UNSAID = range(6)
SECONDS, PATIENCE = 10, 600


class Fault(Exception):
    """The caller's own."""


class Store:
    """The database with the entries, which no other till has now."""

    def __init__(self, path):
        try:
            with open(path, "ab+") as file:
                file.seek(0)
                if file.read(16) not in (b"", b"SQLite format 3\0"):
                    raise Fault(f"{path} isn't a database")
            self.base = sqlite3.connect(path, timeout=0, isolation_level=None)
            # a row is on the disk once its INSERT has returned; the lock stays until the end
            self.base.executescript("PRAGMA synchronous = EXTRA; PRAGMA locking_mode = EXCLUSIVE; BEGIN EXCLUSIVE")
            self.base.execute("CREATE TABLE IF NOT EXISTS entry (id INTEGER PRIMARY KEY, line BLOB NOT NULL)")
            self.base.execute("COMMIT")
            # (what an earlier run wrote may not be on the disk yet, if that was killed: this writes, and syncs all)
            self.base.execute("PRAGMA user_version = 1")
            self.till = kolatennis.Till(b"".join(line for line, in self.base.execute("SELECT line FROM entry ORDER BY id")))
        except (OSError, sqlite3.Error, kolatennis.Damaged) as why:
            raise Fault(f"{path} can't be opened, another till has it, or it is damaged: {why}")

    def keeps(self, line):
        try:
            self.base.execute("INSERT INTO entry (line) VALUES (?)", (line,))
        except sqlite3.Error:
            return False
        return True


class Link:
    """A link to the printer, until this time at most; `rest` is what came and the till didn't take yet."""

    def __init__(self, place, end):
        self.end, self.rest = end, b""
        self.socket = socket.create_connection(place, timeout=self.left())

    def left(self):
        left = self.end - time.monotonic()
        if left <= 0:
            raise TimeoutError
        return left

    def put(self, till):
        piece = till.take_out()
        while piece:
            self.socket.settimeout(self.left())
            piece = piece[self.socket.send(piece) :]

    def wait(self, till, most):
        self.socket.settimeout(self.left())
        answer = self.rest or self.socket.recv(min(most, 256))
        if not answer:
            return till.link_ended("Ended")
        self.rest = till.came(answer)


def run(store, place):
    """Does what the till asks for, until it asks for nothing, and returns the exit status."""
    till, link, status, end = store.till, None, DELIVERED, time.monotonic() + SECONDS
    for asked in till.steps():
        try:
            if asked.ask == "append":
                till.appended(store.keeps(till.line()))
            elif asked.ask == "connect":
                link = Link(place, end)
                till.connected(True)
            elif asked.ask == "put":
                link.put(till)
            elif asked.ask == "wait":
                link.wait(till, asked.number)
            elif asked.ask == "hang up":
                link.socket.close()
                till.hung_up()
            else:
                status = tell(asked) or status
                if asked.note == "paused":
                    link.end = time.monotonic() + PATIENCE
                till.told()
        except OSError as why:
            if asked.ask == "connect":
                till.connected(False)
            else:
                till.link_ended("TimedOut" if isinstance(why, TimeoutError) else "WriteFault" if asked.ask == "put" else "ReadFault")
    return status


def tell(asked):
    """Prints what became of a receipt, and returns the exit status that it stands for."""
    if asked.note == "recorded":
        return say(f"recorded {asked.number}", sys.stdout)
    if asked.note == "paused":
        return say(f"paused {asked.number} {asked.why}", sys.stdout)
    if asked.note in ("no link", "waiting", "still paused"):
        say(f"waiting {asked.number} {asked.why or 'NoLink'}", sys.stdout)
        return MAY_BE_PRINTED if asked.why else NOT_SENT
    if asked.note == "not kept":
        raise Fault("an entry may not be kept: the next run finds it, or it doesn't")


def say(text, file):
    """Prints a line, and returns 0, or UNSAID if it couldn't."""
    try:
        print(text, file=file, flush=True)
    except OSError:
        # (at its end the interpreter would try again, and change the exit status)
        os.dup2(os.open(os.devnull, os.O_WRONLY), file.fileno())
        if file is sys.stdout:
            say("standard output is full or closed", sys.stderr)
        return UNSAID


def numeric(address, port):
    """Returns where the printer is. Names aren't looked up, since that may take longer than the link has."""
    try:
        ipaddress.ip_address(address)
    except ValueError as why:
        raise Fault(str(why))
    if not (re.fullmatch("[0-9]{1,5}", port) and int(port) < 65536):
        raise Fault("the port is no number below 65536")
    return address, int(port)


def main(arguments):
    if None in (sys.stdin, sys.stdout, sys.stderr):
        return FAULT
    try:
        if len(arguments) != 3:
            raise Fault(__doc__.strip())
        place, receipt = numeric(*arguments[:2]), sys.stdin.buffer.read()
        store, status = Store(arguments[2]), DELIVERED
        if receipt:
            store.till.queue(receipt)
            run(store, place)
        while status in (DELIVERED, UNSAID):
            try:
                store.till.deliver(copy="*** MAY BE A COPY ***")
            except (kolatennis.Refused, kolatennis.NotNow) as why:
                if why.reason == "NothingWaits":
                    return status
                say(f"can't be delivered: {why}", sys.stderr)
                return NOT_SENT
            status = run(store, place) or status
    except kolatennis.Refused as why:
        say(f"refused: {why}", sys.stderr)
        return REFUSED
    except (Fault, kolatennis.Error, OSError) as why:
        say(str(why), sys.stderr)
        return FAULT
    return status


sys.exit(main(sys.argv[1:]))
