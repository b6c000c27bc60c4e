"""Tests of tools/report.py."""
import csv
import json
import os
import subprocess
import sys
import unittest

from support import EXAMPLES, MEET, TOOLS, ToolTest, read, simulate

ILLEGAL = """outcome finished
events 6
time 5
quanta 6
node 0 illegal 0x00000000 pc 0x00000014 clock 5
count 0 steps 6 messages 0 done 5 hits 3 misses 1 upgrades 0 replaced 0 checkins 0 invs 0 traps 0 \
trap_cycles 0 barriers 0 stray 0 sent 0
out 0 3 41ff0a
total steps 6 messages 0 done 5 hits 3 misses 1 upgrades 0 replaced 0 checkins 0 invs 0 traps 0 \
trap_cycles 0 barriers 0 stray 0 sent 0
"""


class ReportTest(ToolTest):
    name = "report.py"

    def test_surroundings(self):
        self.surroundings()

    def test_of_a_node_that_was_stopped(self):
        text = self.told(given=ILLEGAL)
        self.assertTrue(text.startswith("The run finished: every node ended, but 1 of 1 badly."))
        self.assertIn("node 0 met a word that is no instruction 0x00000000 at pc 0x00000014\n",
                      text)
        self.assertIn("node 0 printed 3 bytes:\nA\\xff\n", text)

    def test_of_a_report_without_events(self):
        line = next(line for line in self.told(given=ILLEGAL).splitlines() if " 25.00%" in line)
        self.assertEqual(line.split(), ["0", "5", "5", "1.000", "4", "25.00%", "0", "0.00%", "-"])

    def test_of_events(self):
        rows = list(csv.DictReader(self.told("--csv", MEET).splitlines()))
        self.assertEqual([row["node"] for row in rows], ["0", "1", "2", "all"])
        # node 0 waits from 1 to 21 and from 1057 to 1532, by the lines of meet.txt
        waited = [20 + 475, 475 + 485, 940, 20 + 475 + 475 + 485 + 940]
        self.assertEqual([int(row["waited"]) for row in rows], waited)
        self.assertEqual(rows[0]["trap_share"], str(round(765 / 1538, 4)))
        self.assertEqual((rows[3]["cycles"], rows[3]["sent"]), (str(1538 + 1638 + 1150), "27"))

    def test_json(self):
        told = json.loads(self.told("--json", given=ILLEGAL))
        self.assertEqual((told["outcome"], told["time"], told["total"]["hits"]), ("finished", 5, 3))
        self.assertEqual(told["nodes"][0]["output"], "41ff0a")

    def test_of_a_summary(self):
        lines = [line for line in ILLEGAL.splitlines(True) if line.split()[0] not in
                 ("node", "count", "out")]
        told = self.told(given="".join(lines))
        self.assertTrue(told.startswith("The run finished: every node ended. 6 events, 5 cycles"))

    def test_input_that_could_harm_a_terminal(self):
        self.refused("is no line of a report: '?[2J'", given="\x1b[2J\n")

    def test_a_full_disk(self):
        with open("/dev/full", "w", encoding="ascii") as full:
            command = [sys.executable, os.path.join(TOOLS, self.name), MEET]
            ran = subprocess.run(command, stdout=full, stderr=subprocess.PIPE, text=True,
                                 check=False)
        self.assertEqual(ran.stderr, "report.py: cannot write: No space left on device\n")
        self.assertEqual(ran.returncode, 2)

    def test_of_a_cut_report(self):
        head = "".join(ILLEGAL.splitlines(True)[:-1])
        self.refused("ends before its line 'total'", given=head)
        self.refused("has no line 'outcome'", given="")

    def test_places(self):
        elf = os.path.join(EXAMPLES, "stencil.elf")
        text = simulate("run", "--budget", "2000", "stencil.json")
        told = self.told("--image", elf, given=text)
        self.assertIn("The run was cut off by its budget", told)
        self.assertRegex(told, r"node 1 waited for the block 0x80000600 at pc 0x000001b0\n")

    def test_of_a_run(self):
        told = self.told(given=simulate("run", "stencil.json"))
        self.assertIn("every node ended by its own exit 0. 35006 events, 39223 cycles", told)
        self.assertIn(read(os.path.join(EXAMPLES, "stencil.txt")), told)


if __name__ == "__main__":
    unittest.main()
