"""Tests of tools/timeline.py."""
import json
import os
import re
import subprocess
import sys
import tempfile
import unittest

from support import EXAMPLES, MEET, TOOLS, ToolTest, read, simulate, tool

MESSAGES = 27  # that meet.txt has
# makes a timeline, and tells how much memory that took at most
PEAK = """
import sys, timeline
timeline.main()
with open("/proc/self/status") as status:
    print(*(line for line in status if line.startswith("VmHWM")), file=sys.stderr)
"""


def overlaps(slices):
    """Pairs of slices of one track of which one begins before the other one ends."""
    ordered = sorted(slices, key=lambda piece: (piece["ts"], -piece["dur"]))
    return [pair for pair in zip(ordered, ordered[1:])
            if pair[0]["ts"] + pair[0]["dur"] > pair[1]["ts"] + 1e-9]


def big_trace(count):
    head = "outcome finished\n"
    return head + "".join(f"event {number // 2} {number % 2} step 0x00000004 0x00500893\n"
                          for number in range(count))


class TimelineTest(ToolTest):
    name = "timeline.py"

    def pieces(self, *words, given=None):
        return json.loads(self.told(*words, given=given))["traceEvents"]

    def slices(self, pieces, node, track):
        return [piece for piece in pieces if piece["ph"] == "X"
                and (piece["pid"], piece["tid"]) == (node, track)]

    def states(self, pieces, node):
        """(name, begin, end, args) of each state of a processor."""
        mine = [piece for piece in pieces if piece["ph"] in "BE" and piece["pid"] == node]
        self.assertEqual([piece["ph"] for piece in mine], ["B", "E"] * (len(mine) // 2))
        return [(begin["name"], begin["ts"], end["ts"], end["args"])
                for begin, end in zip(mine[::2], mine[1::2])]

    def test_surroundings(self):
        self.surroundings()

    def test_states(self):
        states = self.states(self.pieces(MEET), 2)
        self.assertEqual([state[:3] for state in states], [
            ("running", 0, 2), ("waiting for 0x80000000", 2, 941), ("running", 941, 947),
            ("in the barrier", 947, 1146), ("running", 1146, 1151),
            ("stopped: exit 0", 1151, 1739)])
        self.assertEqual(states[1][3], {
            "kind": "write", "block": "0x80000000", "home": 0, "pc": "0x00000004",
            "instruction": "sw x10, 0(x5)", "had by": "node 0 to write", "cycle": 2,
            "cycles": 939})

    def test_arrows(self):
        pieces = self.pieces(MEET)
        for kind in "sf":
            ids = [piece["id"] for piece in pieces if piece["ph"] == kind]
            self.assertEqual((len(ids), len(set(ids))), (MESSAGES, MESSAGES))

    def test_messages_of_one_cycle_stand_side_by_side(self):
        pieces = self.pieces(MEET)
        for node in range(3):
            self.assertEqual(overlaps(self.slices(pieces, node, 2)), [])
        shared = [piece for piece in self.slices(pieces, 0, 2) if piece["args"]["cycle"] == 101]
        self.assertEqual([(piece["ts"], piece["dur"]) for piece in shared],
                         [(101, 0.5), (101.5, 0.5)])

    def test_steps(self):
        steps = self.slices(self.pieces(MEET), 2, 1)
        self.assertEqual(len(steps), 8)
        self.assertEqual(steps[5]["name"], "addi x10, x0, 0")
        self.assertEqual(steps[4]["args"], {
            "pc": "0x00000010", "word": "0x0002a303", "did": "load 0x80000000 0x00000002",
            "cycle": 1147, "cycles": 1})

    def test_traps(self):
        traps = self.slices(self.pieces(MEET), 0, 3)
        self.assertEqual([(piece["ts"], piece["dur"]) for piece in traps],
                         [(101, 255), (386, 255), (1067, 255)])

    def test_window(self):
        pieces = self.pieces("--from", 400, "--to", 900, MEET)
        times = [piece["ts"] for piece in pieces if "ts" in piece]
        self.assertGreaterEqual(min(times), 400)
        self.assertLessEqual(max(times), 901)
        # the wait of node 2 from cycle 2 on is seen in part
        self.assertEqual(self.states(pieces, 2)[0][:2], ("waiting for 0x80000000", 400))
        self.assertEqual(self.states(pieces, 2)[0][3]["cycle"], 2)

    def test_node_and_no_steps(self):
        pieces = self.pieces("--node", 1, "--no-steps", MEET)
        self.assertEqual({piece["pid"] for piece in pieces}, {1})
        self.assertEqual(self.slices(pieces, 1, 1), [])
        self.assertEqual(len(self.slices(pieces, 1, 2)), 4)

    def test_a_report_without_events(self):
        report = "".join(line for line in read(MEET).splitlines(True) if line[:5] != "event")
        ran = tool(self.name, given=report)
        self.assertIn("has no events; `wwt run --trace` writes them", ran.stderr)
        self.assertEqual(json.loads(ran.stdout), {"traceEvents": []})

    def test_the_stored_timeline(self):
        stored = read(os.path.join(EXAMPLES, "meet_timeline.json"))
        self.assertEqual(self.told(MEET), stored)

    def test_memory_does_not_grow_with_the_trace(self):
        with tempfile.NamedTemporaryFile("w+") as trace:
            trace.write(big_trace(200000))
            trace.flush()
            ran = subprocess.run([sys.executable, "-c", PEAK, trace.name], text=True,
                                 stdout=subprocess.DEVNULL, stderr=subprocess.PIPE, check=False,
                                 env={**os.environ, "PYTHONPATH": TOOLS})
        kilobytes = re.search(r"VmHWM:\s+(\d+) kB", ran.stderr)
        self.assertTrue(kilobytes, ran.stderr)
        self.assertLess(int(kilobytes[1]), 60000)

    def test_of_a_run(self):
        trace = simulate("run", "--trace", "stencil.json")
        pieces = self.pieces(given=trace)
        self.assertEqual(sum(piece["ph"] == "f" for piece in pieces), 940)
        self.assertEqual(sum(piece["ph"] == "X" and piece["tid"] == 1 for piece in pieces), 34066)
        for node in range(4):
            self.assertEqual(overlaps(self.slices(pieces, node, 2)), [])
        self.assertEqual(simulate("run", "--trace", "meet.json"), read(MEET))


if __name__ == "__main__":
    unittest.main()
