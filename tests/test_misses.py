"""Tests of tools/misses.py."""
import unittest

from support import MEET, ToolTest, read, simulate, tool

from worked_rows import row

MEET_TEXT = read(MEET)
# node 0 stores, and node 1 loads the same word, once before and once after a barrier
RACE = """event 0 0 step 0x00000000 0x00a2a023 > 0 GetX 0x80000000 at 10 #0
event 10 0 from 0 #0 GetX 0x80000000 > 0 DataX 0x80000000 00000000000000000000000000000000 at 20 #1
event 20 0 from 0 #1 DataX 0x80000000 00000000000000000000000000000000 store 0x80000000 4 0x00000001
{between}event 200 1 step 0x00000010 0x0002a303 > 0 GetS 0x80000000 at 300 #1
event 700 1 from 0 #2 DataS 0x80000000 01000000000000000000000000000000 load 0x80000000 0x00000001
"""
BARRIER = """event 24 0 step 0x00000004 0x00000073 > 0 Arrive at 34 #6
event 25 1 step 0x00000004 0x00000073 > 0 Arrive at 125 #0
event 34 0 from 0 #6 Arrive
event 125 0 from 1 #0 Arrive > 0 Go at 135 #7 > 1 Go at 225 #8
event 135 0 from 0 #7 Go
event 199 1 from 0 #8 Go
"""


class MissesTest(ToolTest):
    name = "misses.py"

    def told(self, *words, given=None, folder=None):
        # collapses the columns
        text = super().told(*words, given=given, folder=folder)
        return "\n".join(" ".join(line.split()) for line in text.splitlines())

    def test_surroundings(self):
        self.surroundings()
        self.surroundings("--races")

    def test_tables(self):
        text = self.told(MEET)
        # by the lines of meet.txt: stores wait 20, 475 and 940 cycles, loads 475 and 485
        self.assertIn("2395 cycles waited in 5 waits, mean 479.0, greatest 940", text)
        self.assertIn("write 3 1435 478.3 940 0x00000004 sw x10, 0(x5)\n", text)
        self.assertIn("read 2 960 480.0 485 0x00000010 lw x6, 0(x5)\n", text)
        self.assertIn("write 3 1435 478.3 940 0x80000000 0\n", text)

    def test_life(self):
        hops = self.told("--life", 2, 1, given=MEET_TEXT).splitlines()
        self.assertEqual(hops[0], "wait 1 of node 2: 940 cycles for a write")
        self.assertEqual([hop.split()[:2] for hop in hops[1:]], [
            ["1", "+0"], ["101", "+100"], ["101", "+0"], ["366", "+265"], ["376", "+10"],
            ["386", "+10"], ["741", "+355"], ["841", "+100"], ["941", "+100"]])
        self.assertIn("keeps it waiting", hops[3])
        self.assertIn("sends InvAck to node 0, there at 841", hops[7])

    def test_longest_life(self):
        self.assertIn("wait 2 of node 1: 485 cycles for a read", self.told("--life", 1,
                                                                            given=MEET_TEXT))

    def test_life_of_an_upgrade_at_a_list(self):
        worked = row("pointers", "two pointers")
        hops = self.told("--life", 1, 2, given=worked.out.decode()).splitlines()
        self.assertEqual(hops[0], "wait 2 of node 1: 220 cycles for an upgrade")
        self.assertIn("GetX+ from node 1 (had by node 0 to read), sends Inv to node 0", hops[2])
        self.assertEqual([hop.split()[:2] for hop in hops[1:]], [
            ["205", "+0"], ["305", "+100"], ["315", "+10"], ["325", "+10"], ["425", "+100"]])

    def test_words_of_a_life(self):
        self.assertEqual(self.told("--life", 2, 1, MEET), self.told(MEET, "--life", 2))
        self.refused("--life takes NODE and K, two numbers, and not 'x'", "--life", "x", MEET)
        self.refused("and not '1 2 3'", "--life", 1, 2, 3, MEET)

    def test_life_of_a_wait_that_is_not_there(self):
        self.refused("node 2 waited for a block 1 times", "--life", 2, 7, given=MEET_TEXT)

    def test_a_wait_without_end(self):
        cut = "".join(MEET_TEXT.splitlines(True)[:20])
        ran = self.told_with_warning(given=cut)
        self.assertIn("node 2 still waits for block 0x80000000, since cycle 1", ran)

    def told_with_warning(self, given):
        ran = tool(self.name, given=given)
        self.assertIn("ends before its line 'total'", ran.stderr)
        return ran.stdout

    def test_races(self):
        text = self.told("--races", MEET)
        self.assertIn("races: 1 pair of places", text)
        self.assertIn("0x80000000, 2 times; first\nnode 0 stores at pc 0x00000004, cycle 21\n"
                      "node 1 stores at pc 0x00000004, cycle 476", text)

    def test_a_barrier_orders(self):
        end = "".join(MEET_TEXT.splitlines(True)[-10:])
        without = self.told("--races", given=RACE.format(between="") + end)
        self.assertIn("node 0 stores at pc 0x00000000, cycle 20\nnode 1 loads at pc 0x00000010",
                      without)
        ordered = self.told("--races", given=RACE.format(between=BARRIER) + end)
        self.assertIn("races: none was seen", ordered)

    def test_of_runs(self):
        stencil = simulate("run", "--trace", "stencil.json")
        self.assertIn("57110 cycles waited in 322 waits", self.told(given=stencil))
        self.assertIn("races: none was seen", self.told("--races", given=stencil))


if __name__ == "__main__":
    unittest.main()
