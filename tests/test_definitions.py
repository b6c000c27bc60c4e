"""Tests of tools/definitions.py: on a repository of a few lines, and on this one."""
import os
import shutil
import tempfile
import unittest

from support import TOP, ToolTest, write

import definitions

FILES = {
    "crates/wwt_run/src/top.rt": """ghost use Rattle.wwt_run.specs.Answer.{Headline, Other};

pub fn wwt<R: Wait>(rt: &R) -> u32
    ensures headline { Headline result }
{
    0
}

pub fn wwt_plain<S>() -> u32
    ensures other { Other result → Headline result }
{
    0
}
""",
    "crates/wwt_run/specs/Answer.antt": """use Rattle.low.specs.Words.{word_of, ◌>>=◌}
use Rattle.low.specs.declared.kind.Kind.TheVariants.{One}

-- a comment that names unused
abbrev pub Headline : Type 0
Headline n = word_of n
    >>= One

abbrev pub Other : Type 0
Other n = deep n

unfoldable pub deep : Type 0
deep n = n
""",
    "crates/low/specs/Words.antt": """abbrev pub word_of : Type 0
word_of n = n

infixl 10 ◌>>=◌
abbrev pub ◌>>=◌ : Type 0
a >>= b = a

abbrev pub unused : Type 0
unused n = word_of n
""",
}


class DefinitionsTest(ToolTest):
    name = "definitions.py"

    def test_a_small_repository(self):
        room = tempfile.mkdtemp()
        self.addCleanup(shutil.rmtree, room)
        for name, text in FILES.items():
            os.makedirs(os.path.join(room, os.path.dirname(name)), exist_ok=True)
            write(os.path.join(room, name), text)
        found = definitions.Definitions(room)
        kinds, types = definitions.kinds_of(found, definitions.clauses(room, found))
        self.assertEqual({name: kind for (_, _, name), kind in kinds.items()},
                         {"Headline": "headline", "word_of": "headline", "◌>>=◌": "headline",
                          "Other": "beside", "deep": "beside", "unused": "inner"})
        self.assertEqual(types, 1)
        self.assertEqual(found.lines(("wwt_run", "Answer", "Headline")), 3)

    def test_the_docs(self):
        self.assertEqual(self.told("--check"), "")

    def test_faults(self):
        found = definitions.Definitions(TOP)
        kinds, types = definitions.kinds_of(found, definitions.clauses(TOP, found))
        rows = definitions.table(found, kinds, 2)
        told = definitions.figures(definitions.sums(rows), types)
        self.assertEqual(definitions.check(TOP, rows, told), [])
        wrong = {words: 2 * count for words, count in told.items()}
        self.assertGreater(len(definitions.check(TOP, rows, wrong)), 5)
        del rows["dir1sw", "Table"]
        self.assertTrue(any("directory table" in fault
                            for fault in definitions.check(TOP, rows, told)))


if __name__ == "__main__":
    unittest.main()
