"""Tests of tools/check_hostile.py and tools/check_memory.py: that each of them sees a program that
does wrong. What the built program does is their own to tell, when the gate calls them."""
import os
import shutil
import sys
import tempfile
import unittest

from support import tool, write

import check_hostile
import wwt_hostile
import check_memory
from check_memory import LINE, Ran
from worked_rows import row


class HostileTest(unittest.TestCase):
    """A stand-in for the program, in a room of its own."""

    def setUp(self):
        self.folder = tempfile.mkdtemp()
        self.addCleanup(shutil.rmtree, self.folder)
        self.wwt = os.path.join(self.folder, "stand_in")

    def room(self, body):
        write(self.wwt, f"#!{sys.executable}\nimport os, signal, sys, time\n{body}\n")
        os.chmod(self.wwt, 0o755)
        return wwt_hostile.Room(self.wwt, self.folder)

    def differs(self, body, part, *expected, **how):
        with self.assertRaises(wwt_hostile.Differs) as told:
            self.room(body).expect(*expected, **how)
        self.assertIn(part, str(told.exception))

    def test_what_differs_is_told(self):
        good = "sys.stdout.write('a\\n'); sys.exit(7)"
        self.room(good).expect(["run", "m"], 7, b"a\n")
        self.differs(good, "status 7", ["run", "m"], 8, b"a\n")
        self.differs(good, "output b'a\\n'", ["run", "m"], 7, b"b\n")
        self.differs("sys.stderr.write('x')", "error b'x'", ["run", "m"], 0)
        self.differs("os.kill(os.getpid(), signal.SIGKILL)", "status -9", ["run", "m"], 9)

    def test_a_run_by_workers_is_compared_too(self):
        self.differs("sys.exit(3 if '--workers' in sys.argv else 0)", "run --workers 4 m: status 3", ["run", "m"], 0)

    def test_a_run_that_hangs_is_ended(self):
        self.differs("time.sleep(60)", "no end in 0.5 seconds", ["flat"], 0, seconds=0.5)

    def test_memory_is_limited_and_measured(self):
        take = "text = bytearray(200 << 20)"
        self.differs(take, "status 1", ["flat"], 0, mib=150)
        self.differs(take, "not 100", ["flat"], 0, most=100)
        self.room(take).expect(["flat"], 0, most=400)

    def test_each_case_refuses_a_program_that_says_nothing(self):
        ran = tool("check_hostile.py", "--wwt", "/bin/false")
        self.assertEqual((ran.returncode, ran.stderr), (1, ""))
        self.assertNotIn("as wanted", ran.stdout)

    def test_words_choose_cases(self):
        ran = tool("check_hostile.py", "--wwt", self.wwt, "no such case")
        self.assertIn("skipped", ran.stdout)
        self.room("sys.exit(0)")
        ran = tool("check_hostile.py", "--wwt", self.wwt, "no such case")
        self.assertEqual((ran.returncode, ran.stdout), (2, ""))


class Stored:
    """A command of which each run is told in advance: the end of the one that is refused at `at`."""
    title = "stored"

    def __init__(self, asked, ends):
        self.asked, self.ends, self.row = asked, ends, row("flat", "one letter is printed")

    def run(self, at, rest=False, what="allocations"):
        own = Ran(self.row.status, self.row.out, self.row.error, self.asked)
        if at == 0 or at > self.asked:
            return own
        return self.ends.get(at, Ran(10, self.row.out[:at], LINE, at))

    answer = check_memory.Command.answer


class MemoryTest(unittest.TestCase):
    def check(self, asked, ends, what="allocations"):
        with check_memory.concurrent.futures.ThreadPoolExecutor(2) as pool:
            return check_memory.refuse_each(Stored(asked, ends), pool, 2, False, what)

    def test_each_request_is_refused_once(self):
        for asked in (1, 15, 16, 17, 40):
            answers, wrong = self.check(asked, {})
            self.assertEqual((dict(answers), wrong), ({"out of memory": asked}, []))

    def test_a_wrong_end_is_seen(self):
        told = row("flat", "one letter is printed")
        for end in (Ran(10, b"outcome budget\n", LINE, 3), Ran(10, told.out[:5], b"", 3), Ran(8, b"", LINE, 3),
                    Ran(0, told.out[:-1], b"", 3), Ran(-11, b"", b"", 3), Ran("none in 60 seconds", b"", b"", 0)):
            self.assertEqual(self.check(5, {3: end})[1], [(3, end)])
        self.assertEqual(self.check(5, {3: Ran(0, told.out, b"", 5)})[1], [])

    def test_a_refused_thread_may_change_nothing(self):
        self.assertEqual(len(self.check(1, {}, "threads")[1]), 1)


if __name__ == "__main__":
    unittest.main()
