"""Tests of tools/run.py, with a stand-in for the program: it needs a given time for a cycle."""
import os
import shutil
import signal
import subprocess
import sys
import tempfile
import time
import unittest

from support import EXAMPLES, TOOLS, ToolTest, program, simulate, tool, write

STAND_IN = """#!{python}
import sys, time
from wwt_trace import COUNTERS
budget = int(sys.argv[3])
ends = budget > {end}
time.sleep(min(budget, {end}) * {seconds})
print("outcome", "finished" if ends else "budget")
print("events 7\\ntime", {end} if ends else budget - 1, "\\nquanta 7")
counts = " ".join(name + " 1" for name in COUNTERS)
print("node 0", "exit 0" if ends else "waiting 0x80000020", "pc 0x00000010 clock 7")
print("count 0", counts, "\\nout 0 0\\ntotal", counts)
sys.exit(0 if ends else 3)
"""


class RunTest(ToolTest):
    name = "run.py"

    def setUp(self):
        self.room = tempfile.mkdtemp()
        self.addCleanup(shutil.rmtree, self.room)
        self.wwt = os.path.join(self.room, "wwt")
        self.machine = os.path.join(self.room, "machine.json")
        write(self.machine, '{"version": 1, "nodes": 1, "images": [{"hex": ""}]}')
        self.environment = {**os.environ, "PYTHONPATH": TOOLS}

    def stand_in(self, end, seconds):
        write(self.wwt, STAND_IN.format(python=sys.executable, end=end, seconds=seconds))
        os.chmod(self.wwt, 0o700)

    def start(self, *words):
        command = [sys.executable, os.path.join(TOOLS, self.name), "--wwt", self.wwt,
                   *map(str, words), self.machine]
        return subprocess.Popen(command, stdout=subprocess.PIPE, stderr=subprocess.PIPE, text=True,
                                env=self.environment)

    def ended(self, *words):
        with self.start(*words) as ran:
            output, told = ran.communicate(timeout=60)
            return ran.returncode, output, told

    def test_help_and_wrong_words(self):
        self.assertIn("usage:", self.told("--help"))
        self.refused("there is no built program", "--wwt", "/nothing", self.machine)
        self.stand_in(10, 0)
        self.refused("cannot read", "--wwt", self.wwt, "missing.json")
        write(self.machine, '{"version": 1,\n"nodes": 2,, }')
        self.refused("machine.json, line 2, column 12", "--wwt", self.wwt, self.machine)

    def test_a_run_that_ends(self):
        self.stand_in(2000000, 0)
        status, output, told = self.ended("--timeout", 50)
        self.assertEqual((status, told), (0, ""))
        self.assertTrue(output.startswith("outcome finished\nevents 7\ntime 2000000"))

    def test_a_run_that_takes_too_long(self):
        self.stand_in(10 ** 9, 0.6e-6)
        begun = time.monotonic()
        status, output, told = self.ended("--timeout", 3, "--every", 0.7)
        self.assertLess(time.monotonic() - begun, 30)
        self.assertEqual(status, 3)
        self.assertIn("outcome budget\nevents 7\ntime ", output)
        self.assertIn("node 0 waiting 0x80000020 at 0x00000010", told)
        self.assertIn("since cycle 10000 no node ended", told)
        self.assertRegex(told, r"stopped after 3 seconds: the report is of the run up to cycle \d+")

    def test_stopped_by_hand(self):
        self.stand_in(10 ** 9, 0.6e-6)
        with self.start("--every", 0.7) as ran:
            while "events, " not in ran.stderr.readline():
                pass  # no run has ended so far
            ran.send_signal(signal.SIGINT)
            output, told = ran.communicate(timeout=20)
        self.assertEqual(ran.returncode, 3)
        self.assertIn("outcome budget", output)
        self.assertIn("stopped by Ctrl-C: the report is of the run up to cycle", told)

    def test_a_budget(self):
        self.stand_in(10 ** 9, 0)
        status, output, _ = self.ended("--budget", 5000)
        self.assertEqual(status, 3)
        self.assertIn("\ntime 4999", output)

    def test_of_a_run(self):
        words = ["--wwt", program(), "stencil.json"]
        self.assertEqual(self.told(*words, folder=EXAMPLES), simulate("run", "stencil.json"))
        ran = tool(self.name, "--wwt", program(), "missing.json", folder=EXAMPLES)
        self.assertEqual(ran.returncode, 2)


if __name__ == "__main__":
    unittest.main()
