"""Tests of tools/chart.py."""
import re
import unittest
from xml.dom import minidom

from support import MEET, ToolTest

BLOCK = ("--block", "0x80000000")


class ChartTest(ToolTest):
    name = "chart.py"

    def texts(self, *words):
        drawn = minidom.parseString(self.told(*BLOCK, *words, MEET))
        return ["".join(node.data for node in text.childNodes)
                for text in drawn.getElementsByTagName("text")]

    def test_surroundings(self):
        self.surroundings(*BLOCK)

    def test_what_is_drawn(self):
        texts = self.texts()
        self.assertEqual([text for text in texts if text.startswith("node")],
                         ["node 0", "node 1", "node 2"])
        self.assertEqual([text for text in texts if text.startswith(("stores", "loads"))],
                         ["stores 0", "stores 1", "stores 2", "loads 2", "loads 2", "loads 2"])
        self.assertEqual(texts.count("traps for 255 cycles"), 3)
        self.assertEqual([texts.count(name) for name in ("GetX", "GetS", "DataX", "DataS", "Inv",
                                                         "InvAck", "Wake")], [3, 2, 3, 2, 3, 3, 2])

    def test_a_part(self):
        texts = self.texts("--from", "100", "--to", "400", "--nodes", "0")
        self.assertEqual([text for text in texts if text.isdigit()],
                         ["101", "366", "376", "386"])
        self.assertNotIn("node 1", texts)

    def test_lines_within_the_picture(self):
        drawn = self.told(*BLOCK, MEET)
        width, height = map(int, re.search(r'viewBox="0 0 (\d+) (\d+)"', drawn).groups())
        for x, y in re.findall(r'<circle cx="(\d+)" cy="(\d+)"', drawn):
            self.assertTrue(0 < int(x) < width and 0 < int(y) < height)

    def test_nothing_there(self):
        self.refused("no event of block 0x80000020", "--block", "0x80000020", MEET)


if __name__ == "__main__":
    unittest.main()
