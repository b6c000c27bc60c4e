"""Tests of tools/check_docs.py, on small documents."""
import os
import shutil
import tempfile
import unittest

from support import write

import check_docs

GOOD = """Text.

```sh
echo one   # a comment
echo two \\
    three
```
```
one
two ..
```

```sh
false                        # status 1
cd /
pwd
```

Between them stands text, so this is no output:

```
anything
```

```sh
.ci/run
```
"""


class CheckDocsTest(unittest.TestCase):
    def setUp(self):
        self.room = tempfile.mkdtemp()
        self.addCleanup(shutil.rmtree, self.room)
        self.clone = os.path.join(self.room, "clone")
        os.mkdir(self.clone)

    def faults(self, text):
        write(os.path.join(self.clone, "page.md"), text)
        session = check_docs.Session("page.md", self.clone, self.room)
        session.run()
        return session.faults

    def test_blocks(self):
        blocks = check_docs.blocks_of(GOOD)
        self.assertEqual([len(block.commands) for block in blocks], [2, 3, 1])
        self.assertEqual([block.wanted for block in blocks], [["one", "two .."], None, None])
        self.assertEqual(blocks[0].commands[1], (5, "echo two \\\n    three"))

    def test_all_as_told(self):
        self.assertEqual(self.faults(GOOD), [])

    def test_another_output(self):
        self.assertEqual(len(self.faults(GOOD.replace("two ..", "two"))), 1)
        self.assertEqual(len(self.faults(GOOD.replace("one\ntwo", "two\none"))), 1)

    def test_another_status(self):
        self.assertIn("status 1 of: false", self.faults(GOOD.replace("# status 1", ""))[0])
        self.assertIn("status 0 of: pwd", self.faults(GOOD.replace("pwd", "pwd # status 3"))[0])

    def test_a_session_that_ends(self):
        self.assertIn("ended before it", self.faults(GOOD.replace("cd /", "exit 0"))[0])

    def test_links(self):
        self.assertEqual(self.faults("[this](page.md) and [that](https://example.org)"), [])
        self.assertEqual(self.faults("![a picture](picture.svg)"),
                         ["page.md: there is no picture.svg"])

    def test_patterns(self):
        for told, printed, same in (("a", "a\n", True), ("a", "b\n", False), ("a", "a\nb\n", False),
                                    ("a\n..\nd", "a\nb\nc\nd\n", True), ("..\nd", "d\n", True),
                                    ("a .. c", "a b b c\n", True), ("a.c", "abc\n", False)):
            with self.subTest(told=told, printed=printed):
                found = check_docs.pattern_of(told.split("\n")).fullmatch(printed)
                self.assertEqual(found is not None, same)


if __name__ == "__main__":
    unittest.main()
