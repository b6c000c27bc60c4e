"""Tests of tools/sweep.py. A stand-in for the program counts how often it is called."""
import csv
import os
import shutil
import subprocess
import sys
import tempfile
import unittest
from xml.dom import minidom

from support import EXAMPLES, TOOLS, ToolTest, program, read, tool, write

from wwt_trace import COUNTERS

# takes 1000 / nodes + latency cycles, and on 4 nodes puts out another byte; refuses 7 nodes, what
# version 1 hasn't, and a quantum past the latency between neighbours
STAND_IN = """#!{python}
import json, sys
machine = json.load(open("machine.json"))
nodes, latency = machine["nodes"], machine.get("latency", 100)
open({calls!r}, "a").write(f"{{nodes}} {{latency}} {{machine['blocks']}}\\n")
if nodes == 7:
    sys.exit("wwt: machine: range nodes 7")
if machine["version"] == 1 and (nodes > 32 or "hop" in machine):
    sys.exit("wwt: machine: no version 1")
if machine.get("quantum", 1) > latency + (machine.get("hop", 0) if nodes > 1 else 0):
    sys.exit("wwt: machine: range quantum")
print("outcome finished\\nevents 5\\ntime", 1000 // nodes + latency, "\\nquanta 5")
names = {counters!r}
counts = " ".join(f"{{name}} {{number}}" for number, name in enumerate(names))
for node in range(nodes):
    print(f"node {{node}} exit 0 pc 0x00000000 clock 5\\ncount {{node}} {{counts}}")
    print(f"out {{node}}", "0" if node else "1 42" if nodes == 4 else "1 41")
print("total", counts)
"""


class SweepTest(ToolTest):
    name = "sweep.py"

    def setUp(self):
        self.room = tempfile.mkdtemp()
        self.addCleanup(shutil.rmtree, self.room)
        self.calls = os.path.join(self.room, "calls")
        self.wwt = os.path.join(self.room, "wwt")
        write(self.wwt, STAND_IN.format(python=sys.executable, calls=self.calls,
                                        counters=COUNTERS))
        os.chmod(self.wwt, 0o700)
        write(os.path.join(self.room, "a.bin"), "....")

    def sweep(self, *words, images=("a.bin",), wwt=None):
        return tool(self.name, *words, "--images", *images, "--wwt", wwt or self.wwt,
                    folder=self.room)

    def rows(self, ran):
        return list(csv.DictReader(ran.stdout.splitlines()))

    def test_help_and_wrong_words(self):
        self.assertIn("usage:", self.told("--help"))
        self.refused("which programs?", "--wwt", self.wwt)
        self.refused("'node' is no field", "--set", "node=1")
        self.refused("aren't whole numbers", "--set", "nodes=1,x")
        self.refused("cannot read", "--images", "missing", "--wwt", self.wwt)
        self.refused("there is no built program", "--images", "a.bin", "--wwt", "/nothing")
        self.refused("no whole blocks of 64", "--images", "a.bin", "--wwt", self.wwt, "--set",
                     "block_bytes=64", "--shared-bytes", 100, folder=self.room)

    def test_columns(self):
        ran = self.sweep("--set", "nodes=1,2", "--columns", "nodes,time,latency")
        self.assertEqual((ran.stdout, ran.returncode),
                         ("nodes,time,latency\n1,1100,100\n2,600,100\n", 0))
        self.refused("'tim' is no column", "--columns", "tim", "--images", "a.bin", "--wwt",
                     self.wwt, folder=self.room)

    def test_a_base(self):
        base = os.path.join(self.room, "base.json")
        write(base, '{"version": 1, "latency": 7, "costs": {"op": 3}, "images": []}')
        rows = self.rows(self.sweep("--base", base, "--set", "costs.mem=2,4"))
        self.assertEqual([[row[name] for name in ("latency", "costs.op", "costs.mem", "nodes")]
                          for row in rows], [["7", "3", "2", "1"], ["7", "3", "4", "1"]])
        write(base, '{"version": 1, "blocks": "many"}')
        self.refused("base.json: blocks has to be a whole number", "--base", base, "--images",
                     os.path.join(self.room, "a.bin"), "--wwt", self.wwt)

    def test_product_and_speedup(self):
        ran = self.sweep("--set", "nodes=1,2", "--set", "latency=10,100")
        self.assertEqual((ran.returncode, ran.stderr), (0, ""))
        rows = self.rows(ran)
        told = [(row["nodes"], row["latency"], row["time"], row["speedup"]) for row in rows]
        self.assertEqual(told, [("1", "10", "1010", "1.0"), ("1", "100", "1100", "1.0"),
                                ("2", "10", "510", str(round(1010 / 510, 4))),
                                ("2", "100", "600", str(round(1100 / 600, 4)))])
        self.assertEqual((rows[0]["sent"], rows[0]["quantum"], rows[3]["quantum"]),
                         ("13", "10", "100"))
        self.assertEqual(len({row["hash"] for row in rows}), 4)

    def test_speedup_without_a_row_of_one_node(self):
        rows = self.rows(self.sweep("--set", "nodes=2"))
        self.assertEqual([row["speedup"] for row in rows], [str(round(1100 / 600, 4))])

    def test_a_mesh(self):
        rows = self.rows(self.sweep("--set", "nodes=2,64", "--set", "hop=5", "--set",
                                    "quantum=105"))
        names = ("status", "hop", "width", "pointers", "quantum", "speedup")
        self.assertEqual([[row[name] for name in names] for row in rows], [
            ["0", "5", "2", "0", "105", str(round(1100 / 600, 4))],
            ["0", "5", "64", "0", "105", str(round(1100 / 115, 4))]])

    def test_shared_memory_keeps_its_size(self):
        self.sweep("--set", "block_bytes=16,32,128", "--shared-bytes", 4096)
        self.assertEqual([line.split()[2] for line in read(self.calls).splitlines()],
                         ["256", "128", "32"])

    def test_a_failed_run_is_a_row(self):
        ran = self.sweep("--set", "nodes=1,7,2")
        rows = self.rows(ran)
        self.assertEqual([(row["status"], row["error"]) for row in rows], [
            ("0", ""), ("1", "wwt: machine: range nodes 7"), ("0", "")])

    def test_outputs_that_differ_are_named(self):
        ran = self.sweep("--set", "nodes=1,4")
        self.assertEqual(ran.stderr, "sweep.py: outputs differ: a.bin nodes=4 puts out something "
                         "else than a.bin nodes=1\n")

    def test_goes_on_where_it_was(self):
        first = self.sweep("--set", "nodes=1,2")
        again = self.sweep("--set", "nodes=1,2,3")
        self.assertEqual(again.stdout.splitlines()[:3], first.stdout.splitlines())
        self.assertEqual(read(self.calls).splitlines(), ["1 100 1024", "2 100 1024", "3 100 1024"])
        # the last line of a log may be cut off
        log = os.path.join(self.room, "sweep.log")
        write(log, read(log)[:-20])
        self.sweep("--set", "nodes=1,2,3")
        self.sweep("--set", "nodes=1,2,3")
        self.assertEqual(len(read(self.calls).splitlines()), 4)
        self.assertEqual(len(read(log).splitlines()), 3)

    def test_timeout(self):
        write(self.wwt, "#!/bin/sh\nsleep 20\n")
        rows = self.rows(self.sweep("--set", "nodes=1", "--timeout", 0.3))
        self.assertEqual(rows[0]["status"], "timeout")

    def test_plot(self):
        study = os.path.join(self.room, "study.csv")
        ran = self.sweep("--set", "nodes=1,2,8", "--set", "latency=10,100", "--jobs", 2)
        write(study, ran.stdout)
        drawn = self.told("--csv", study, "--plot", "X=nodes", "Y=speedup", "BY=latency")
        picture = minidom.parseString(drawn)
        self.assertEqual(len(picture.getElementsByTagName("polyline")), 2)
        self.assertEqual(len(picture.getElementsByTagName("circle")), 6)
        self.assertIn(">latency 100<", drawn)
        self.refused("is no column", "--csv", study, "--plot", "X=node", "Y=time")
        self.refused("takes X=COLUMN", "--csv", study, "--plot", "X=nodes")

    def test_quiet_end(self):
        self.ends_quietly("--images", os.path.join(self.room, "a.bin"), "--wwt", self.wwt, "--log",
                          os.path.join(self.room, "log"), "--set", "nodes=1,2,3")

    def test_of_runs(self):
        wwt = program()
        images = [os.path.join(EXAMPLES, name) for name in ("stencil.elf", "stencil_plain.elf")]
        ran = self.sweep("--set", "nodes=1,4", images=images, wwt=wwt)
        rows = self.rows(ran)
        self.assertEqual(ran.stderr, "")
        self.assertEqual([row["traps"] for row in rows if row["nodes"] == "4"], ["18", "176"])
        self.assertEqual(len({row["output"] for row in rows}), 1)
        self.assertEqual(rows[1]["time"], "39223")

    def test_on_a_cluster(self):
        python = with_dask()
        with subprocess.Popen([python, "-c", CLUSTER], stdin=subprocess.PIPE, cwd=self.room,
                              stdout=subprocess.PIPE, stderr=subprocess.DEVNULL,
                              text=True) as cluster:
            address = cluster.stdout.readline().strip()
            command = [python, os.path.join(TOOLS, self.name), "--set", "nodes=1,2,3", "--set",
                       "latency=1,10", "--images", "a.bin", "--wwt", self.wwt, "--dask", address]
            ran = subprocess.run(command, cwd=self.room, capture_output=True, text=True,
                                 timeout=120, check=False)
            cluster.communicate()
        self.assertEqual(ran.returncode, 0, ran.stderr)
        alone = self.sweep("--set", "nodes=1,2,3", "--set", "latency=1,10", "--log", "other.log")
        without = [[value for key, value in row.items() if key != "wall"]
                   for row in self.rows(ran)]
        self.assertEqual(without, [[value for key, value in row.items() if key != "wall"]
                                   for row in self.rows(alone)])
        self.assertEqual(len(without), 6)


CLUSTER = """
import sys
from distributed import LocalCluster
if __name__ == "__main__":
    cluster = LocalCluster(n_workers=2, threads_per_worker=1, processes=True, protocol="tcp://",
                           dashboard_address=None)
    print(cluster.scheduler_address, flush=True)
    sys.stdin.read()
    cluster.close()
"""


def with_dask():
    """A Python that has Dask; where there is none, the test is skipped."""
    for python in (sys.executable, "/usr/bin/python3"):
        if os.path.exists(python) and subprocess.run(
                [python, "-c", "import distributed"], capture_output=True, check=False
        ).returncode == 0:
            return python
    raise unittest.SkipTest("distributed isn't installed")


if __name__ == "__main__":
    unittest.main()
