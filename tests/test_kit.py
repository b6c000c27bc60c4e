"""Tests of the kit for programs in examples/: what its headers, scripts and Makefile do."""
import os
import shutil
import subprocess
import tempfile
import unittest

from support import EXAMPLES, program, read, simulate, tool, write

GCC = "riscv64-unknown-elf-gcc"
COMPILE = (GCC, "-march=rv32i", "-mabi=ilp32", "-O2", "-ffreestanding", "-nostdlib")
MEMORY = """#include <stddef.h>
#include "text.h"
void *memset(void *, int, size_t);
void *memcpy(void *restrict, const void *restrict, size_t);
void *memmove(void *, const void *, size_t);
int memcmp(const void *, const void *, size_t);
static unsigned char a[40], b[40];
int main(void)
{
    memset(a, 7, 40);
    for (int at = 0; at < 20; at++)
        b[at] = (unsigned char)at;
    memcpy(a + 1, b, 20);
    put_text(a[0] == 7 && a[1] == 0 && a[20] == 19 && a[21] == 7 ? "copied " : "? ");
    memmove(b + 3, b, 20);
    put_text(memcmp(b + 3, a + 1, 20) == 0 ? "up " : "? ");
    memmove(b, b + 3, 20);
    put_text(memcmp(b, a + 1, 20) == 0 ? "down " : "? ");
    put_text(memcmp(b, a, 2) < 0 && memcmp(a, b, 2) > 0 && memcmp(a, b, 0) == 0 ? "compared" : "?");
    return 0;
}
"""
LARGE = """#include "text.h"
struct cell { volatile uint32_t value; } WWT_ALIGNED;
WWT_SHARED static struct cell cells[2048] = {{0}};
int main(void)
{
    cells[2047].value = sizeof cells / 1024;
    wwt_barrier();
    if (wwt_node() == 0)
        put_decimal(cells[2047].value);
    return 0;
}
"""


class StoredTest(unittest.TestCase):
    def test_each_machine_runs(self):
        """Every description in the folder, with what is stored there alone."""
        machines = [name for name in sorted(os.listdir(EXAMPLES))
                    if name.endswith(".json") and '"version"' in read(os.path.join(EXAMPLES, name))]
        self.assertGreater(len(machines), 12)
        for name in machines:
            with self.subTest(name):
                report = simulate("run", name)
                self.assertTrue(report.startswith("outcome finished\n"), report[:200])
                for line in report.splitlines():
                    if line.startswith("node "):
                        self.assertIn(" exit 0 ", line)


    def test_the_texts_are_told(self):
        told = read(os.path.join(EXAMPLES, "README.md"))
        for name in os.listdir(EXAMPLES):
            if name.endswith(".txt"):
                self.assertIn(f"`{read(os.path.join(EXAMPLES, name)).strip()}`", told)


class KitTest(unittest.TestCase):
    def setUp(self):
        for name in (GCC, "make"):
            if not shutil.which(name):
                self.skipTest(f"{name} isn't installed")
        self.room = tempfile.mkdtemp()
        self.addCleanup(shutil.rmtree, self.room)
        self.here = os.path.join(self.room, "examples")
        shutil.copytree(EXAMPLES, self.here, ignore=shutil.ignore_patterns("build"))

    def link(self, *words):
        return subprocess.run([*COMPILE, "-o", "x.elf", *words, "-lgcc"], cwd=self.here,
                              capture_output=True, text=True, timeout=60, check=False)

    def make(self, *words):
        """What a run by the Makefile tells."""
        tools = os.path.dirname(os.path.abspath(program()))
        path = f"{tools}:{os.path.join(os.path.dirname(EXAMPLES), 'tools')}:{os.environ['PATH']}"
        ran = subprocess.run(["make", "-s", "run", *words], cwd=self.here, capture_output=True,
                             text=True, timeout=120, check=False, env={**os.environ, "PATH": path})
        self.assertEqual((ran.returncode, ran.stderr), (0, ""), ran.stdout)
        return ran.stdout

    def test_without_the_script(self):
        ran = self.link("start.s", "sum.c")
        self.assertNotEqual(ran.returncode, 0)
        self.assertIn("link_with_T_machine_ld_or_T_flat_ld", ran.stderr)

    def test_without_the_start(self):
        for script in ("machine.ld", "flat.ld"):
            ran = self.link("-T", script, "sum.c")
            self.assertNotEqual(ran.returncode, 0)
            self.assertIn("name start.s on the line that links it", ran.stderr)

    def test_without_both(self):
        # the linker takes it, so the image is looked at
        self.assertEqual(self.link("sum.c").returncode, 0)
        write(os.path.join(self.here, "x.json"),
              '{"version": 1, "nodes": 4, "images": [{"file": "x.elf"}]}')
        ran = tool("check_machine.py", "x.json", folder=self.here)
        self.assertEqual(ran.returncode, 1)
        self.assertIn("isn't laid out by examples/machine.ld", ran.stdout)
        self.assertIn("has its section .shared at", ran.stdout)

    def test_too_much_shared_memory(self):
        ran = self.link("-T", "machine.ld", "-Wl,--defsym=WWT_SHARED_BYTES=2048", "start.s",
                        "sum.c")
        self.assertIn("will not fit in region `shared'", ran.stderr)

    def test_the_lock(self):
        for nodes in (2, 3, 8, 32):
            self.assertIn(f"counted {25 * nodes} of {25 * nodes}\n",
                          self.make("P=count", f"N={nodes}"))
        self.assertIn("counted 100 of 100\n", self.make("P=count", "DEFS=-DSUM"))
        self.assertNotIn("counted 100 of 100\n", self.make("P=count", "DEFS=-DNO_LOCK"))

    def test_the_widest_mesh(self):
        self.assertIn("2560 numbers read by 256\n", self.make(
            "P=mesh", "N=256", 'MACHINE="hop": 1, "width": 16, "private_bytes": 65536,'))

    def test_block_sizes(self):
        for size in (16, 64, 128):
            for name, text in (("sharing", "each counted 100\n"), ("matmul", "sum 380674048\n"),
                               ("radix", "sorted weight 2139864126\n"), ("sum", "sum 524800\n"),
                               ("stencil", "sum 527270 first 5299 last 5796\n"),
                               ("ring", "passed 40 times by 4\n")):
                self.assertIn(text, self.make(f"P={name}", f"BLOCK={size}", "BLOCKS=2048"))

    def test_larger_shared_memory(self):
        write(os.path.join(self.here, "large.c"), LARGE)
        self.assertIn("\n64\n", self.make("P=large", "BLOCKS=2048"))

    def test_memory_functions(self):
        write(os.path.join(self.here, "memory.c"), MEMORY)
        self.assertIn("\ncopied up down compared\n", self.make("P=memory", "N=2"))

    def test_a_machine_of_ones_own(self):
        self.assertIn("sum 524800", self.make("P=sum", "N=2", 'MACHINE="latency": 7,'))


if __name__ == "__main__":
    unittest.main()
