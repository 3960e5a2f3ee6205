#!/usr/bin/env python3
"""Runs random streams, receipts and scripts through the built program, and checks what must hold for all of them.

usage: bench/fuzz.sh SECONDS [SEED [FOLDER]]

Streams are valid, cut off, spoiled or of random bytes, or have commands that are passed over; receipts are valid, spoiled or not JSON; scripts of `play` have
restarts, lost answers, half commands and lines that aren't events; bench/fuzz.py makes them. The functions `try_stream`,
`try_passed`, `try_receipt` and `try_script` have the checks. One seed, 1 if none is given, gives the same cases in the same order. What
doesn't hold is printed, and written to a file of FOLDER (fuzz_findings in the temporary directory) with all that the program
was given; then the exit status is 1.

The program is crates/escpos_cli/out/escpos_cli (cd crates/escpos_cli && rt run -- help), or what PROGRAM names.
"""
import collections, os, random, re, subprocess, sys, tempfile, time

sys.dont_write_bytecode = True
from fuzz import *

PROGRAM = os.environ.get("PROGRAM") or os.path.join(os.path.dirname(os.path.abspath(__file__)), "../crates/escpos_cli/out/escpos_cli")
RUNS = []  # what the program was given in this case, and what it made of it


def run(word, text, *options):
    """Returns the exit status and the output of the program, which must end with status 0 or 1."""
    try:
        ran = subprocess.run([PROGRAM, word, *options], input=text, capture_output=True, timeout=60)
        status, output = ran.returncode, ran.stdout
    except subprocess.TimeoutExpired:
        status, output = None, b""
    RUNS.append((" ".join((word, *options)), text, status, output))
    hold(status in (0, 1), f"`{word}` ends with status {status}")
    return status, output.decode("latin-1")


def lines_of(word, stream):
    """Returns the exit status of `check` or `render`, and its lines."""
    status, output = run(word, stream.hex().encode())
    hold(output == "" or output.endswith("\n"), f"`{word}` ends within a line")
    return status, output.split("\n")[:-1]


def paper_of(stream):
    """Returns the items that a stream prints, a line each."""
    status, lines = lines_of("render", stream)
    return lines[:-1] if status else lines


def try_stream(pick):
    """Tries a stream: its listing, its paper, and those of streams that differ from it in what doesn't matter, or in their end."""
    commands = [some_command(pick) for _ in range(pick.choice((1, 5, 30, 200)))]
    whole = b"".join(spelling for spelling, _ in commands)
    cut = whole[: pick.randint(0, len(whole))]
    stream = pick.choice((whole, whole, cut, spoiled(pick, whole), pick.randbytes(pick.randint(0, 50))))
    status, lines = lines_of("check", stream)
    try_listing(stream, status, lines)
    if stream is whole:
        told = [line.split(" ", 1)[1] for line in lines[:-1] if not line.startswith("note ")]
        hold(status == 0 and told == [line for _, line in commands], "a whole stream isn't read as it is")
        silent = [b"\r", b"\x1bp\x00\x19\xfa", b"\x10\x04\x01", mark(7)]
        noisy = b"".join(spelling + pick.choice(silent) for spelling, _ in commands)
        hold(paper_of(whole) == paper_of(noisy), "what leaves nothing on paper changes it")
    notes = [line for line in lines if line.startswith("note ")]
    hold(notes == notes_of(lines, stream), "the notes are wrong")
    hold(run("check", formatted(pick, stream)) == (status, "".join(line + "\n" for line in lines)), "the form of the digits matters")
    some = stream[: pick.randint(0, len(stream))]
    some_lines = lines_of("check", some)[1]
    hold(lines[: len(some_lines) - 1] == some_lines[:-1], "the listing of a front isn't a front of the listing")
    if lines[-1].startswith("fault"):
        end = stream[: int(lines[-1].split(" ")[1]) + 1] + pick.randbytes(9)
        hold(lines_of("check", end) == (status, lines), "what follows a refused byte matters")
    render_status, items = lines_of("render", stream)
    hold(render_status == status and (not status or items.pop() == lines[-1]), "`render` ends otherwise than `check`")
    codes = [re.sub(r"^(margin \d+ )?(width \d+ )?", "", item.split(" ", 2)[2]) for item in items if item.startswith("qr ")]
    hold(codes == qr_codes_of(lines[:-1]), "the QR codes aren't those that are stored")
    pictures = [re.sub(r"^(margin \d+ )?(width \d+ )?", "", item.split(" ", 2)[2]) for item in items if item.startswith("raster ")]
    hold(pictures == pictures_of([line for line in lines[:-1] if not line.startswith("note ")], stream), "the rasters aren't those that are sent or stored")
    some_items = paper_of(some)
    hold(items[: len(some_items)] == some_items, "the paper of a front isn't a front of the paper")
    for item in items:
        count, reach = reach_of(item.split(" ", 2)[2]) if item.startswith("row ") else (1, 0)
        hold(count == 1 or 0 < reach <= 512, "a row that is too wide, or has nothing:", item)
    if status == 0:
        other = b"".join(some_command(pick)[0] for _ in range(5))
        hold(paper_of(stream + b"\x1b@" + other) == items + paper_of(other), "a printer that is initialised isn't as new")


def try_passed(pick):
    """Tries a stream with commands that are passed over: its listing, and its paper, which is that of the others."""
    commands = [pick.choice((some_command, some_passed))(pick) for _ in range(pick.choice((1, 5, 30)))]
    stream, expected, passed = b"", "", 0
    for spelling, line in commands:
        expected += f"{len(stream)} {line}\n"
        stream += spelling
        passed += line.startswith("passed ")
    status, output = run("check", stream, "--raw", "--pass")
    lines = [line for line in output.split("\n") if not line.startswith("note ")]
    hold((status, "\n".join(lines)) == (0, expected + f"end {len(stream)} pending 0\n"), "`check --pass` should say", expected)
    taken = b"".join(spelling for spelling, line in commands if not line.startswith("passed "))
    items = "".join(item + "\n" for item in paper_of(taken)) + f"passed {passed}\n" * bool(passed)
    hold(run("render", stream, "--raw", "--pass") == (0, items), "`render --pass` should say", items)
    front = stream[: pick.randint(0, len(stream))]
    status, output = run("check", front, "--raw", "--pass")
    told = output.split("\n")[:-1]
    hold([line for line in told if not line.startswith("note ")][:-1] == expected.split("\n")[: sum(not line.startswith("note ") for line in told) - 1], "a front isn't listed so")
    hold(re.fullmatch(f"end {len(front)} pending [0-9]+", told[-1]), "a front is refused:", told[-1])


def try_receipt(pick):
    """Tries a receipt: what `encode` makes of it, and what `check`, `render` and `loop` make of its bytes."""
    whole = written(pick, some_receipt(pick))
    text = pick.choice((whole, whole, spoiled(pick, whole), whole[: pick.randint(0, len(whole))], pick.randbytes(20)))
    status, output = run("encode", text)
    if not re.search(rb"\\u[dD][89a-fA-F]", text):  # what Python takes for a character is half of one
        hold((status, output) == encoded(text), "`encode` should say", encoded(text))
    if status:
        return
    stream = bytes.fromhex(output)
    check_status, lines = lines_of("check", stream)
    hold(check_status == 0 and lines[-1] == f"end {len(stream)} pending 0", "the bytes of a receipt aren't read")
    spellings = [respelled(line, stream) for line in lines[:-1] if not line.startswith("note ")]
    hold(spellings == commands_of(text), "its commands are read as others")
    items = paper_of(stream)
    hold(paper_of(stream + b"\x1b@" + stream) == items * 2, "it prints otherwise the second time")
    if pick.randrange(10) == 0:
        hold(run("loop", text) == (0, "".join(item + "\n" for item in items) + "recorded 0\n"), "`loop` prints otherwise")


class Line:
    """What is known of a line from the events and what `play` prints for them: the host, the bytes on the links, and those that
    the printer took, in parts. A part ends where a half command is dropped; a restart does to the paper what ESC @ does."""

    def __init__(self):
        self.up, self.state, self.next, self.out, self.most_coming = False, "Down", 0, b"", 0
        self.links, self.in_flight, self.records = [], [], []
        self.parts, self.online, self.line, self.sure = [b""], True, "", True

    def host_is_down(self):
        # What a lost link leaves may still be recorded while another is opened, and `play` doesn't tell each record: no more is known then.
        self.sure = self.sure and not self.in_flight
        self.up, self.state, self.in_flight, self.out, self.most_coming = False, "Down", [], b"", 0

    def leave(self):
        if self.links:
            self.up = self.up and len(self.links) > 1
            self.links.pop(0)

    def put_mark(self, before=b""):
        """Puts a mark out after these bytes, if one is left; returns what is printed."""
        if self.next >= MARKS and self.line == "refused 2 MarksUsedUp":
            return self.line  # the id may still be out
        self.out += before + mark(self.next)
        self.next += 1
        return "ok"

    def submit(self, text):
        status, line = encoded(text)
        if status:
            return "receipt " + line[:-1]
        if self.state not in ("Ready", "Sending"):
            return "refused 1 NotReady"
        if len(self.in_flight) == 4:
            return "refused 6 InFlightFull"
        told = self.put_mark(b"\x1b@" + bytes.fromhex(line))
        if told == "ok":
            self.in_flight.append(text)
            self.state = "Sending"
        return told

    def deliver(self, most, told):
        """Takes what is printed for a delivery, which is compared with what it may be."""
        first = self.links[0] if self.links else b""
        _, count, stop, *why = told.split(" ")
        count = int(count)
        hold(count <= min(most, len(first)) and (stop == "all") == (count == min(most, len(first))), "it can't be so far:", told)
        hold(stop != "offline" or not self.online, "the printer is online:", told)
        self.parts[-1] += first[:count]
        if self.links:
            self.links[0] = first[count:]
        if stop == "fault":
            refused = self.parts[-1] + first[count : count + 1]
            hold(lines_of("check", refused)[1][-1] == f"fault {len(self.parts[-1])} {' '.join(why)}", "`check` refuses otherwise than", told)
            self.parts.append(b"")
            self.leave()
        return told

    def hear(self, most, told):
        """Takes what is printed for answers, which is compared with what it may be."""
        _, count, last, *value = told.split(" ")
        hold(int(count) <= min(most, self.most_coming), "it can't be so many:", told)
        self.most_coming -= int(count)
        hold(last != "bad", "an answer that is bad")
        hold(last != "opened" or self.state == "Opening", "a host that isn't opening is opened")
        if last == "recorded":
            while len(self.records) <= int(value[0]):
                hold(self.in_flight, "a record of no receipt:", told)
                self.records.append(self.in_flight.pop(0))
            hold(len(self.records) == int(value[0]) + 1, "a wrong number:", told)
        if last in ("opened", "recorded"):
            self.state = "Sending" if self.in_flight else "Ready"
        return told

    def told(self, event, line):
        """Lets an event happen for which this line is printed; returns the line that should have been printed."""
        self.line = line
        word, _, value = event.partition(b" ")
        word, number = word.decode(), int(value) if value.isdigit() else 0
        if word == "linkup":
            if self.state != "Down":
                return "refused 3 AlreadyUp"
            told = self.put_mark()
            if told == "ok":
                self.links.append(b"")
                self.up, self.state = True, "Opening"
            return told
        if word == "nudge":
            return self.put_mark() if self.state == "Opening" else "refused 1 NotReady"
        if word == "submit":
            return self.submit(value)
        if word == "ask":
            self.out += b"\x10\x04" + bytes([number]) if self.state == "Ready" else b""
            return "ok" if self.state == "Ready" else "refused 1 NotReady"
        if word == "move":
            some, self.out = self.out[:number], self.out[number:]
            if self.up:
                self.links[-1] += some
            return f"moved {len(some)}"
        if word == "deliver":
            return self.deliver(number, line)
        if word == "handover":
            self.most_coming += 7 * (line == "handed on")
            hold(line != "handed on" or self.up and len(self.links) == 1, "an answer to no host")
            hold(line != "handed lost" or self.links and not (self.up and len(self.links) == 1), "an answer is lost")
            return line
        if word == "answer":
            return self.hear(number, line)
        if word == "host-restart" and number < self.next:
            return f"refused 5 MarkReused {self.next}"
        if word == "host-restart":
            self.next = number
        if word == "condition":
            self.online = value[:1] + value[2:] == b"00"
        if word == "printer-restart":
            self.parts.append(b"\x1b@")
        if word in ("drop", "host-restart"):
            self.host_is_down()
        if word in ("leave", "printer-restart"):
            self.leave()
        return "ok"


UNREADABLE = [b"", b"linkup ", b"move", b"move -1", b"move 4294967296", b"deliver  1", b"condition 2", b"condition 0000", b"ask 5", b"Linkup", b"submit", b"x"]


def some_events(pick):
    """Returns the lines of a script."""
    receipts = [written(pick, some_receipt(pick)) for _ in range(3)]
    amount = lambda: pick.choice((1, 2, 5, 11, 16, 30, 200, 9999999, 9999999))
    flow = lambda answers: [f"move {amount()}", "deliver 9999999", *["handover"] * answers, "answer 9999999"]
    submit = lambda: b"submit " + (pick.choice(receipts) if pick.randrange(20) else spoiled(pick, receipts[0]).replace(b"\n", b" "))
    opened = lambda: ["linkup", *["nudge"] * pick.choice((0, 0, 2, 4)), "move 9999999", "deliver 9999999", *["handover"] * 5, "answer 9999999"]
    restart = lambda: f"host-restart {pick.choice((0, 5, 50, 999, MARKS - 3))}"
    one = lambda: pick.choice(("linkup", "nudge", submit(), f"ask {pick.randint(1, 4)}", f"move {amount()}", f"deliver {amount()}", "handover", f"answer {amount()}"))
    wild = lambda: pick.choice(("leave", "leave", "printer-restart", "drop", "drop", restart(), pick.choice(("condition 100", "condition 011", "condition 000"))))
    events = []
    for _ in range(pick.choice((3, 10, 30))):
        sort = pick.random()
        if sort < 0.15:
            events += opened()
        elif sort < 0.5:
            events += [submit() for _ in range(pick.choice((1, 1, 2, 5)))] + flow(pick.choice((1, 2, 6)))
        elif sort < 0.8:
            events += [one() for _ in range(4)]
        else:
            events += [wild()] + pick.choice(([], ["drop", "leave", "condition 000"] + opened()))
    events = [event if isinstance(event, bytes) else event.encode() for event in events]
    return events + [pick.choice(UNREADABLE), b"linkup"] if pick.randrange(8) == 0 else events


def stands(parts, paper):
    """Returns whether these lists of lines stand on the paper one after another; each is looked for after the one before it."""
    start = 0
    for lines in parts:
        while paper[start : start + len(lines)] != lines:
            start += 1
            if start + len(lines) > len(paper):
                return False
        start += len(lines)
    return True


def try_script(pick):
    """Tries a script: what is printed for each event, what is on the paper at the end, and that the recorded receipts stand there."""
    events = some_events(pick)
    status, output = run("play", b"\n".join(events) + pick.choice((b"", b"\n")))
    told, line, expected = output.split("\n")[:-1], Line(), 0
    for number, event in enumerate(events):
        if event in UNREADABLE:
            hold(told[number] == f"line {number + 1} unreadable", "a line that should be unreadable:", told[number])
            told, expected = told[1:], 1
            events = events[:number]
            break
        right = line.told(event, told[number])
        if not line.sure:
            COUNTS["left"] += 1
            return
        hold(told[number] == right, f"line {number + 1} should be told as", right)
    hold(status == expected, "a wrong status:", status)
    paper = told[len(events) + 1 : -1]
    hold(told[len(events)] == "paper" and told[-1] == f"records {len(line.records)}", "there should be so many records:", len(line.records))
    receipts = {text: paper_of(b"\x1b@" + bytes.fromhex(run("encode", text)[1])) for text in line.records}
    hold(stands([receipts[text] for text in line.records], paper), "A RECORDED RECEIPT ISN'T ON THE PAPER")
    printed = b""
    for part in line.parts:
        word, _, _, half = lines_of("check", part)[1][-1].split(" ")
        hold(word == "end", "the printer took what `check` refuses")
        printed += part[: len(part) - int(half)]
    hold(paper == paper_of(printed), "`render` prints something else of the bytes that the printer took")
    COUNTS["records"] += len(line.records)


TRIED = {"stream": try_stream, "passed": try_passed, "receipt": try_receipt, "script": try_script}
COUNTS = collections.Counter()


def save(path, what):
    """Writes down what doesn't hold, and all that the program was given in this case."""
    os.makedirs(os.path.dirname(path), exist_ok=True)
    with open(path, "w") as it:
        it.write(f"{what}\n")
        for word, text, status, output in RUNS:
            it.write(f"\n{word}: status {status}\n{text!r}\n{output!r}\n")


def main():
    given = dict(enumerate(sys.argv))
    seconds, seed = float(given[1]), given.get(2, "1")
    folder = given.get(3, os.path.join(tempfile.gettempdir(), "fuzz_findings"))
    began, number = time.monotonic(), 0
    while time.monotonic() - began < seconds:
        sort = ("stream", "passed", "receipt", "script")[number % 4]
        RUNS.clear()
        try:
            TRIED[sort](random.Random(f"{seed} {number}"))
        except Exception as what:
            path = f"{folder}/{sort}_{seed}_{number}"
            save(path, repr(what))
            COUNTS["findings"] += 1
            print(f"{path}: {what!r}", flush=True)
        COUNTS[sort] += 1
        COUNTS["runs"] += len(RUNS)
        number += 1
    told = ", ".join(f"{COUNTS[sort]} of {sort}" for sort in TRIED)
    took = time.monotonic() - began
    print(f"{told} with {COUNTS['records']} records; {COUNTS['runs']} runs, {number / took:.1f} cases a second; {COUNTS['findings']} findings")
    return COUNTS["findings"] > 0


sys.exit(main())
