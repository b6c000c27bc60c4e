"""Broken reports: whatever stands in one, a tool ends with an answer or with one line."""
import contextlib
import io
import os
import random
import sys
import tempfile
import unittest
from unittest import mock

from support import MEET, read, write

import misses
import page
import report
import timeline
from wwt_tool import ToolError

TOOLS = [(report, []), (report, ["--json"]), (report, ["--csv"]), (misses, []),
         (misses, ["--races"]), (misses, ["--life", "0", "--top", "3"]), (timeline, []),
         (timeline, ["--from", "300", "--to", "900"]), (page, ["--from", "200"])]
ODD = ("x", "-1", "9" * 20, "0x", "#", "GetS", ">", "DataX", "é", "1", "from", "step", "stop", "")


def broken_line(line):
    words = line.split(" ")
    place = random.randrange(len(words))
    what = random.randrange(4)
    if what == 0:
        del words[place]
    elif what == 1:
        words[place] = random.choice(ODD)
    elif what == 2:
        words.insert(place, random.choice(words))
    else:
        return line[:random.randrange(len(line) + 1)]
    return " ".join(words)


def broken(lines):
    """The lines with up to three of them lost, doubled or broken."""
    lines = list(lines)
    for _ in range(random.randint(1, 3)):
        place = random.randrange(len(lines))
        what = random.randrange(6)
        if what == 0:
            del lines[place]
        elif what == 1:
            lines.insert(place, random.choice(lines))
        else:
            lines[place] = broken_line(lines[place])
    return "".join(lines)


class BrokenTest(unittest.TestCase):
    def test_broken_reports(self):
        random.seed(7)
        lines = read(MEET).splitlines(True)
        with tempfile.TemporaryDirectory() as room:
            path = os.path.join(room, "report")
            for _ in range(150):
                text = broken(lines)
                write(path, text)
                for tool, words in TOOLS:
                    with self.subTest(tool=tool.__name__, words=words, text=text):
                        self.call(tool, [path, *words])

    def call(self, tool, words):
        with mock.patch.object(sys, "argv", ["tool", *words]), \
                contextlib.redirect_stdout(io.StringIO()), \
                contextlib.redirect_stderr(io.StringIO()):
            try:
                tool.main()
            except ToolError as error:
                self.assertNotIn("\n", str(error))

    def test_a_node_without_counts(self):
        lines = [line for line in read(MEET).splitlines(True) if not line.startswith("count 1")]
        with tempfile.TemporaryDirectory() as room:
            path = os.path.join(room, "report")
            write(path, "".join(lines))
            with self.assertRaisesRegex(ToolError, "has no line 'count 1'"):
                report.read(path)


if __name__ == "__main__":
    unittest.main()
