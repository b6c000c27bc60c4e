"""Tests of tools/check_machine.py."""
import json
import os
import shutil
import struct
import subprocess
import tempfile
import unittest

from support import EXAMPLES, ToolTest, program, simulate, tool, write

import check_machine
from wwt_code import Elf, sections_of_code
from wwt_machine import COSTS, fields_of, value_of

GOOD = {"version": 1, "nodes": 4, "images": [{"hex": "73000000"}]}
# what is changed, and a part of the sentence; None takes a member away
BAD = [
    ({"nodes": 33}, "nodes is 33; it has to be from 1 to 32, or 256 in version 2"),
    ({"version": 2, "nodes": 257}, "nodes is 257; it has to be from 1 to 256"),
    ({"nodes": None}, "nodes is missing"),
    ({"nodes": "4"}, "nodes has to be a whole number"),
    ({"nodes": 4.0}, "nodes has to be a whole number"),
    ({"nodes": True}, "nodes has to be a whole number"),
    ({"version": 3}, "version is 3; it has to be 1 or 2"),
    ({"version": True}, "version is true; it has to be 1 or 2"),
    ({"version": None}, "version is missing"),
    ({"hop": 5}, "hop is no field of a description of version 1; version 2 has it"),
    ({"version": 2, "hop": 101}, "hop is 101; it has to be from 0 to 100"),
    ({"version": 2, "width": 0}, "width is 0; it has to be from 1 to 256"),
    ({"version": 2, "pointers": 5}, "pointers is 5; it has to be from 0 to 4"),
    ({"private_bytes": 4100}, "it has to be a multiple of 4096"),
    ({"block_bytes": 48}, "block_bytes is 48; it has to be one of 16, 32, 64, 128"),
    ({"blocks": 65537}, "blocks is 65537; it has to be from 0 to 65536"),
    ({"sets": 0}, "sets is 0"),
    ({"sets": 1024, "ways": 5}, "ways is 5; with 1024 sets it has to be at most 4"),
    ({"latency": 10001}, "latency is 10001; it has to be from 1 to 10000"),
    ({"self_latency": 0}, "self_latency is 0"),
    ({"latency": 50, "quantum": 51}, "quantum is 51; it has to be from 1 to the least latency"),
    ({"version": 2, "hop": 5, "quantum": 106}, "to the least latency between nodes, 105"),
    ({"version": 2, "hop": 5, "nodes": 1, "quantum": 101}, "between nodes, 100"),
    ({"event_limit": 0}, "event_limit is 0"),
    ({"budget": 1 << 41}, "it has to be from 1 to 1099511627776"),
    ({"budget": 1 << 70}, "budget has to be a whole number"),
    ({"costs": {"op": 0}}, "costs.op is 0; it has to be from 1 to 4096"),
    ({"costs": {"trap": 5000}}, "costs.trap is 5000"),
    ({"costs": {"top": 1}}, "costs.top is no cost"),
    ({"costs": 3}, "costs has to be an object"),
    ({"node": 4}, "node is no field of a description"),
    ({"images": None}, "images is missing"),
    ({"images": {}}, "images has to be a list"),
    ({"images": [{"hex": ""}] * 3}, "images has 3 entries"),
    ({"images": [3]}, "images.0 has to be an object"),
    ({"images": [{}]}, "images.0 has to have either hex or file"),
    ({"images": [{"hex": "", "file": "a"}]}, "images.0 has to have either hex or file"),
    ({"images": [{"hex": "", "name": "a"}]}, "images.0.name is no field of an image"),
    ({"images": [{"file": 3}]}, "images.0.file has to be a text"),
    ({"images": [{"hex": "", "format": "flat"}]}, "images.0.format stands beside hex"),
    ({"images": [{"file": "a", "format": "bin"}]}, "images.0.format has to be elf or flat"),
    ({"images": [{"hex": "", "at": 2}]}, "images.0.at has to be a multiple of 4"),
    ({"images": [{"hex": "abc"}]}, "images.0.hex has to be an even number"),
    ({"images": [{"hex": "zz"}]}, "images.0.hex has to be an even number"),
    ({"images": [{"hex": "73000000", "at": 1 << 30}]}, "where there is no memory"),
    ({"images": [{"hex": "73000000" * 2, "at": 1048572}]}, "private memory ends at 0x00100000"),
    ({"images": [{"hex": "73000000", "at": 0x80000000}]}, "no word of private memory"),
    ({"images": [{"file": "missing"}]}, "can't be read"),
]


class CheckMachineTest(ToolTest):
    name = "check_machine.py"

    def setUp(self):
        self.room = tempfile.mkdtemp()
        self.addCleanup(shutil.rmtree, self.room)
        self.machine = os.path.join(self.room, "machine.json")
        with open(os.path.join(EXAMPLES, "stencil.elf"), "rb") as file:
            self.elf = file.read()

    def describe(self, changes):
        machine = {key: value for key, value in {**GOOD, **changes}.items() if value is not None}
        write(self.machine, json.dumps(machine))

    def check(self):
        return tool(self.name, self.machine, folder=self.room)

    def found(self, part, elf=None, changes=None):
        """Something is wrong, and a line says so."""
        if elf is not None:
            with open(os.path.join(self.room, "a.elf"), "wb") as file:
                file.write(elf)
            path = os.path.join(self.room, "a.elf")
            changes = {"images": [{"file": path}], **(changes or {})}
        self.describe(changes)
        self.assertIn(part, "\n".join(check_machine.faults_of(self.machine)))

    def patched(self, offset, form, value):
        return self.elf[:offset] + struct.pack(form, value) \
            + self.elf[offset + struct.calcsize(form):]

    def test_help_and_files_that_are_none(self):
        self.assertIn("usage:", self.told("--help"))
        self.refused("cannot read missing.json", "missing.json")
        self.refused("cannot read", self.room)
        for content, part in ((b'{"nodes": 1,\n "b": ]}', "line 2, column 7"),
                              (b'{"a": 1,\n"\xff"}', "line 2, column 2: no UTF-8"),
                              (b"[1]", "isn't an object"), (b'{"a": NaN}', "no JSON")):
            with open(self.machine, "wb") as file:
                file.write(content)
            self.refused(part, self.machine)

    def test_good_ones(self):
        for changes in ({}, {"images": [{"hex": ""}] * 4}, {"quantum": 100, "latency": 100},
                        {"costs": {"fill": 0}}, {"images": [{"hex": "00", "at": 1048572}]},
                        {"sets": 1024, "ways": 4}, {"version": 2, "nodes": 256, "width": 16},
                        {"version": 2, "hop": 5, "quantum": 105, "pointers": 4}):
            self.describe(changes)
            self.assertEqual(self.check().stdout, "machine.json: nothing is wrong\n")

    def test_standard_input(self):
        self.assertEqual(self.told(given=json.dumps(GOOD)), "standard input: nothing is wrong\n")
        self.refused("standard input, line 1, column 2", given="{")

    def test_status(self):
        self.describe({"nodes": 33})
        ran = self.check()
        self.assertEqual((ran.stdout, ran.stderr, ran.returncode),
                         ("machine.json: nodes is 33; it has to be from 1 to 32, or 256 in version "
                          "2\n", "", 1))

    def test_bad_ones(self):
        for changes, part in BAD:
            with self.subTest(changes=changes):
                self.found(part, changes=changes)

    def test_images(self):
        self.found("is no ELF file", b"\x00" * 60)
        self.found("is too short", self.elf[:40])
        self.found("of 64 bits", self.patched(4, "B", 2))
        self.found("another processor", self.patched(18, "<H", 62))
        self.found("no executable of fixed addresses", self.patched(16, "<H", 1))
        self.found("cut off", self.elf[:300])
        self.found("raise blocks to 64", self.elf, {"blocks": 60})
        self.found("begins at 0x00000002", self.patched(24, "<I", 2))

    def test_instructions(self):
        content = sections_of_code(Elf(self.elf))[0][1]
        at = self.elf.index(content) + 16
        for word, part in ((0x02A50533, "multiply"), (0x100526AF, "atomic"),
                           (0x00050001, "compressed"), (0x0005F553, "floating point"),
                           (0xC0002573, "control register")):
            self.found(f"{part} instructions: 0x", self.patched(at, "<I", word))

    def test_layout(self):
        header = struct.unpack_from("<I", self.elf, 28)[0]
        moved = self.patched(header + 32 + 8, "<I", 0x10000)
        self.found("isn't laid out by examples/machine.ld: it begins at 0x00010000", moved)

    def test_of_the_program(self):
        """The program refuses and accepts as the tool does, and has the same defaults."""
        wwt = program()
        for changes, part in BAD:
            with self.subTest(changes=changes):
                self.describe(changes)
                ran = subprocess.run([wwt, "check", "machine.json"], cwd=self.room, text=True,
                                     capture_output=True, check=False)
                self.assertIn(ran.returncode, (6, 7, 8), part)
        for described in (GOOD, {**GOOD, "version": 2}, {**GOOD, "version": 2, "hop": 5}):
            self.describe(described)
            shown = [line.split() for line in simulate("check", self.machine).splitlines()]
            names = [*fields_of(described), *(f"costs.{name}" for name in COSTS)]
            self.assertEqual([[name, int(value)] for name, value in shown[:-1]],
                             [[name, value_of(described, name)] for name in ("version", *names)])


if __name__ == "__main__":
    unittest.main()
