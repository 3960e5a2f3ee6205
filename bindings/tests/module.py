#!/usr/bin/env python3
"""Tests what the Python module adds to the library: its numbers are those of the header, its documentation's examples hold, a library of
another version isn't taken, a handle goes to one call at a time and to no forked process, and each error is an Error.

usage: module.py OTHER      with the package in PYTHONPATH, KOLATENNIS_LIBRARY, and OTHER a library of another version
"""
import copy, doctest, inspect, os, re, subprocess, sys, threading, typing, unittest

import kolatennis
from kolatennis import _errors, _library, _line, _numbers, _texts, _till

HEADER = os.path.join(os.path.dirname(os.path.abspath(__file__)), "../kolatennis.h")
OPENED = b"\x37\x220000\x00"


def header():
    with open(HEADER) as file:
        return file.read()


def enumeration(family):
    """Returns the numbers of a family of the header by their names."""
    return {name: int(number) for name, number in re.findall(rf"^    KOLATENNIS_{family}_(\w+) = (\d+)", header(), re.MULTILINE)}


def keeps(till):
    """Keeps the entry that a till asks for, tells it so, and returns its line."""
    line = till.line()
    till.appended(True)
    if till.asks.ask == "tell":
        till.told()
    return line


def open_host():
    host = kolatennis.Host()
    host.link_up()
    host.take_out()
    assert host.hear(OPENED) == [kolatennis.Event("opened", 0)]
    return host


class Numbers(unittest.TestCase):
    def test_are_those_of_the_header(self):
        self.assertEqual({it.name: it.value for it in _numbers.Status}, enumeration("STATUS"))
        reasons = {
            "RECEIPT": kolatennis.RECEIPT_REASONS, "HOST": kolatennis.HOST_REASONS, "FAULT": kolatennis.FAULT_REASONS,
            "TILL": kolatennis.TILL_REASONS, "LINK": kolatennis.LINK_REASONS,
            "PAUSE": kolatennis.PAUSES,
        }
        for family, names in reasons.items():
            wanted = {number: name.title().replace("_", "") for name, number in enumeration(family).items()}
            self.assertEqual(names, wanted)
            for number, name in names.items():
                self.assertEqual(_library.library.kolatennis_error_name(number).decode(), name)
        others = {
            "EVENT": kolatennis.EVENTS, "STATE": kolatennis.STATES, "STOP": kolatennis.STOPS, "ASK": kolatennis.ASKS, "NOTE": kolatennis.NOTES,
            "STANDS": kolatennis.STANDS,
        }
        for family, names in others.items():
            self.assertEqual(names, {number: name.lower().replace("_", " ") for name, number in enumeration(family).items()})
        every = re.findall(r"^    (KOLATENNIS_\w+) = (\d+)", header(), re.MULTILINE)
        self.assertEqual(len(every), len({number for _, number in every}))

    def test_the_version_is_that_of_the_header(self):
        self.assertIn(f'#define KOLATENNIS_VERSION "{kolatennis.__version__}"\n', header())

    def test_the_limit_is_that_of_the_header(self):
        self.assertIn(f"{_library.LONGEST_TEXT:,} bytes", header())

    def test_the_calls_are_those_of_the_header(self):
        self.assertEqual(sorted(_library._CALLS), sorted(set(re.findall(r"KOLATENNIS_API [^(]*?(kolatennis_\w+)\(", header()))))


class Library(unittest.TestCase):
    def ends(self, library, words):
        """Imports the module with this library, which fails with these words."""
        ran = subprocess.run([sys.executable, "-c", "import kolatennis"], env={**os.environ, "KOLATENNIS_LIBRARY": library}, capture_output=True, text=True)
        self.assertEqual(ran.returncode, 1)
        self.assertRegex(ran.stderr.splitlines()[-1], f"^ImportError: .*{words}")

    def test_another_version_is_refused(self):
        self.ends(sys.argv[1], f"has the version 0.0.1, and this module {kolatennis.__version__}")

    def test_another_library_is_refused(self):
        self.ends("/nowhere/libkolatennis.so", "there is no /nowhere/libkolatennis.so")
        self.ends(__file__, "isn't the library of Kolatennis")


class Hints(unittest.TestCase):
    def test_all_is_typed(self):
        """Each public function and method says the type of each parameter and of its result."""
        found = []
        for it in map(vars(kolatennis).get, kolatennis.__all__):
            members = [it, *vars(it).values()] if inspect.isclass(it) else [it]
            found += [getattr(member, "fget", member) for member in members]
        found = [it for it in found if inspect.isfunction(it) and it.__module__.startswith("kolatennis.") and it.__qualname__[0] != "_"]
        self.assertGreater(len(found), 20)
        for it in found:
            hints = typing.get_type_hints(it)
            self.assertEqual(sorted(hints), sorted({"return", *inspect.signature(it).parameters} - {"self"}), it)


class Errors(unittest.TestCase):
    def test_all_have_one_base(self):
        for it in vars(_errors).values():
            if isinstance(it, type) and it.__module__ == "kolatennis":
                self.assertTrue(issubclass(it, kolatennis.Error))
                self.assertIn(it.__name__, kolatennis.__all__)

    def test_each_is_raised(self):
        closed = kolatennis.Host()
        closed.close()
        closed.close()
        for error, call in [
            (kolatennis.Refused, lambda: kolatennis.encode("[]")),
            (kolatennis.Refused, lambda: open_host().submit("[")),
            (kolatennis.NotNow, lambda: kolatennis.Host().submit([{"line": "Hi"}])),
            (kolatennis.OutOfRange, lambda: kolatennis.Host(-1)),
            (kolatennis.OutOfRange, lambda: kolatennis.Host(2**32)),
            (kolatennis.OutOfRange, lambda: kolatennis.Printer(width=0)),
            (kolatennis.Refused, lambda: kolatennis.Till().queue("[")),
            (kolatennis.NotNow, lambda: kolatennis.Till().deliver()),
            (kolatennis.NotNow, lambda: kolatennis.Till().queue([{"line": "Hi"}], key="sale 7")),
            (kolatennis.NotNow, lambda: kolatennis.Till().line()),
            (kolatennis.NotNow, lambda: kolatennis.Till(b"raised 00000005\n").raise_mark(4)),
            (kolatennis.Damaged, lambda: kolatennis.Till(b"x")),
            (kolatennis.OutOfRange, lambda: kolatennis.Till().raise_mark(2**32)),
            (kolatennis.OutOfRange, lambda: kolatennis.Till().cancel(-1)),
            (kolatennis.OutOfRange, lambda: kolatennis.Till().link_ended("BadAnswer")),
            (kolatennis.Closed, lambda: closed.next_mark),
            (kolatennis.Closed, lambda: closed.hear(b"\x12")),
            (kolatennis.TooLong, lambda: kolatennis.listing(b"\xff" * 16777216)),
        ]:
            with self.assertRaises(error) as raised:
                call()
            self.assertIsInstance(raised.exception, kolatennis.Error)

    def test_a_handle_is_not_copied(self):
        with self.assertRaises(TypeError):
            copy.copy(kolatennis.Host())


class Tills(unittest.TestCase):
    def test_what_is_damaged_is_told(self):
        till = kolatennis.Till()
        till.queue([{"line": "Hi"}])
        line = keeps(till)
        for lines, place in [(b"x", 1), (line + line + line[:-1], 3), (line + b"recorded 0000000000000001\n", 2)]:
            with self.assertRaises(kolatennis.Damaged) as raised:
                kolatennis.Till(lines)
            self.assertEqual(raised.exception.line, place)
        self.assertEqual(kolatennis.Till(bytearray(line + line)).receipts, 2)

    def test_a_long_line_is_whole(self):
        till = kolatennis.Till()
        till.queue([{"line": "A" * 100}] * 1000)
        again = kolatennis.Till(keeps(till))
        self.assertEqual(again.state(1), kolatennis.Standing("waiting", 0))
        self.assertEqual((again.state(0), again.state(2)), (kolatennis.Standing("unknown", 0),) * 2)

    def test_a_key_is_one_receipt(self):
        till, lines = kolatennis.Till(), b""
        till.queue([{"line": "one"}], key="sale-7")
        lines += keeps(till) + keeps(till)
        self.assertEqual(till.receipts, 1)
        for again in (till, kolatennis.Till(lines)):
            while again.asks.ask == "tell":
                again.told()
            again.queue([{"line": "two"}], key="sale-7")
            self.assertEqual(again.asks, kolatennis.Asked("tell", "queued", 1))

    def test_a_receipt_that_waits_can_be_cancelled(self):
        till, lines = kolatennis.Till(), b""
        for receipt in ("one", "two"):
            till.queue([{"line": receipt}])
            lines += keeps(till)
        till.cancel(1)
        self.assertEqual(till.asks, kolatennis.Asked("append"))
        lines += keeps(till)
        self.assertTrue(lines.endswith(b"cancelled 0000000000000001\n"))
        for same in (till, kolatennis.Till(lines)):
            self.assertEqual(same.state(1), kolatennis.Standing("cancelled", 0))
            self.assertEqual(same.state(2), kolatennis.Standing("waiting", 0))
            for number, reason in ((1, "Cancelled"), (3, "NotTaken"), (0, "NotTaken")):
                with self.assertRaises(kolatennis.NotNow) as raised:
                    same.cancel(number)
                self.assertEqual(raised.exception.reason, reason)

    def test_it_fails_where_an_entry_may_not_be_kept(self):
        till = kolatennis.Till()
        till.raise_mark(9)
        till.appended(False)
        self.assertEqual(till.asks, kolatennis.Asked("tell", "not kept"))
        till.told()
        self.assertEqual(list(till.steps()), [])
        with self.assertRaises(kolatennis.NotNow) as raised:
            till.queue([{"line": "Hi"}])
        self.assertEqual(raised.exception.reason, "Failed")

    def test_why_a_receipt_waits(self):
        till = kolatennis.Till()
        till.queue([{"line": "Hi"}])
        keeps(till)
        for tries, why in enumerate(["Ended", "ReadFault", "WriteFault", "TimedOut", "BadAnswer", "TooManyAnswers"], 1):
            till.deliver(openings=1, copy="AGAIN", most=7)
            till.connected(True)
            keeps(till)
            till.take_out()
            if why == "BadAnswer":
                self.assertEqual(till.came(b"\xff\xff"), b"\xff\xff")
            elif why == "TooManyAnswers":
                self.assertEqual(till.came(b"\x12" * 7), b"\x12" * 6)
                self.assertEqual([till.came(b"\x12") for _ in range(6)], [b""] * 6)
            else:
                till.link_ended(why)
            till.hung_up()
            self.assertEqual(till.asks, kolatennis.Asked("tell", "waiting", 1, why))
            till.told()
            self.assertEqual(till.state(1), kolatennis.Standing("waiting", tries))
        till.deliver(copy=b"AGAIN")
        till.connected(False)
        self.assertEqual(till.asks, kolatennis.Asked("tell", "no link", 1))


class Handles(unittest.TestCase):
    def test_hear_is_not_lazy(self):
        host = kolatennis.Host()
        host.link_up()
        host.hear(OPENED)
        self.assertEqual(host.state, "ready")
        self.assertEqual(host.hear(b"\x12\x12"), [kolatennis.Event("status", 18)] * 2)
        self.assertEqual(host.hear(b""), [])

    def test_hear_late_answers_and_blocks(self):
        host = kolatennis.Host(5)
        host.link_up()
        heard = host.hear(b'\x37"0004\x00\x14\x00\x00\x0f\x37"0005\x00')
        self.assertEqual(heard, [kolatennis.Event("late", 4), kolatennis.Event("condition", 0x1400000F), kolatennis.Event("opened", 0)])

    def test_hear_what_is_printed_late(self):
        host = kolatennis.Host()
        host.link_up()
        host.hear(OPENED)
        for _ in range(2):
            host.submit([{"line": "Hi"}])
        host.link_down()
        host.link_up()
        self.assertEqual(host.hear(b'\x37"0002\x00'), [kolatennis.Event("recorded", 1)])
        self.assertEqual(host.records, 2)

    def test_begins_with_any_mark(self):
        for first in 1679616, 1679617, 2**32 - 1:
            self.assertEqual(kolatennis.Host(first_mark=first).next_mark, first)

    def test_made_again(self):
        host = kolatennis.Host(5)
        host.__init__(7)
        self.assertEqual(host.next_mark, 7)
        self.assertRaises(kolatennis.OutOfRange, host.__init__, -1)
        self.assertEqual(host.next_mark, 7)

    def test_a_forked_process_is_refused(self):
        host, printer, till = open_host(), kolatennis.Printer(), kolatennis.Till()
        child = os.fork()
        if child == 0:
            refused = 0
            for call in (lambda: host.next_mark, host.take_out, lambda: host.hear(b"\x12"), lambda: host.submit([{"line": "Hi"}]), printer.paper, till.deliver):
                try:
                    call()
                except kolatennis.Forked:
                    refused += 1
            host.close()
            with kolatennis.Host(3) as own:
                refused += own.next_mark == 3
            os._exit(refused)
        self.assertEqual(os.waitstatus_to_exitcode(os.waitpid(child, 0)[1]), 7)
        host.submit([{"line": "Hi"}])
        self.assertEqual(host.state, "sending")

    def test_any_thread_may_use_it(self):
        printer, failed = kolatennis.Printer(), []

        def feed():
            try:
                for _ in range(200):
                    assert printer.feed(b"AB\n").consumed == 3
            except BaseException as why:
                failed.append(why)

        threads = [threading.Thread(target=feed) for _ in range(4)]
        for it in threads:
            it.start()
        for it in threads:
            it.join()
        self.assertEqual(failed, [])
        self.assertEqual(printer.paper(), "row left AB\nfeed 1\n" * 800)


def load_tests(loader, tests, pattern):
    for module in (kolatennis, _texts, _line, _till):
        tests.addTests(doctest.DocTestSuite(module))
    return tests


if __name__ == "__main__":
    unittest.main(argv=sys.argv[:1])
