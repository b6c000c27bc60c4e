#!/usr/bin/env python3
"""Measures how fast wwt simulates.

    tools/benchmark.py [--workers] [WWT..]

Each WWT is a built program, crates/wwt/out/wwt if none is given. Several are called by turns, so that what else the
machine does tells on all of them alike. No compiler is needed: the programs that are simulated are made here, word by
word, or by `wwt load`.

With `--workers`, what is measured is how much faster the same run gets by 2 and by 4 workers: arithmetic of private
registers, as many instructions in all whatever the nodes, on 8 and on 32 nodes, at latencies, which are the quanta
too, of 10 to 10000 cycles. The best of five calls by the wall clock counts.

Without, what is measured: a whole call, from its start to the end of its report, of each of these.

  flat: arithmetic, flat: memory     `wwt flat` on a program that never ends, so that it runs into the budget of a
                                     million cycles, which is a million instructions. One does arithmetic alone, each of
                                     RV32I's operations on registers and on numbers in turn; the other only loads and
                                     stores, of each width in turn. Both jump back once a round.
  flat: start                        a call that simulates one step alone: the part that isn't simulation
  run: 1 node, run: 8 nodes          the arithmetic by `wwt run`, on one node and on 8, a million instructions in all
  run: misses                        8 nodes that write the same blocks in turn, so that nearly every access is a miss,
                                     which the home serves by a trap
  run: sharing                       16 nodes that read 16 blocks of 128 bytes and write each fourth of them
  run: readers on 2, 256 nodes       nodes that read a block of their own and one of their neighbour's and check them in,
                                     again and again, on a mesh: what an event costs on few nodes and on many
  load 92, load 93                   the generated machines of these numbers: all to all on 32 nodes, and a stencil

Each is called RUNS times, and the best call counts, since a single call takes so little time that what else the machine
does would tell. A program that refuses the words has no line. Two times are taken: the wall clock's, and the processor
time of the call, which says more on a machine that is busy with other things too. Each is the best of its own. An event
is an instruction or a message.
"""
import json
import os
import subprocess
import sys
import tempfile
import time

RUNS = 50
# Of runs by workers: how often each is called, and how many instructions all its nodes do together
CALLS_BY_WORKERS = 5
WORK = 4000000
PIPES = {"stdout": subprocess.PIPE, "stderr": subprocess.DEVNULL}


def register_op(funct3, funct7=0):
    """x5 = x6 op x7."""
    return funct7 << 25 | 7 << 20 | 6 << 15 | funct3 << 12 | 5 << 7 | 0x33


def number_op(funct3, number):
    """x6 = x5 op number."""
    return number << 20 | 5 << 15 | funct3 << 12 | 6 << 7 | 0x13


def load(funct3):
    """x5 = what lies at the address 2048."""
    return 7 << 15 | funct3 << 12 | 5 << 7 | 0x03


def store(funct3):
    """What lies at the address 2048 = x5."""
    return 5 << 20 | 7 << 15 | funct3 << 12 | 0x23


def jump_back(count):
    """Goes on that many instructions before this one: jal x0."""
    offset = -4 * count & 0x1FFFFF
    low = (offset >> 1 & 0x3FF) << 21 | (offset >> 11 & 1) << 20
    return offset >> 20 << 31 | low | (offset >> 12 & 0xFF) << 12 | 0x6F


# x7 = 2048 = 1024 + 1024
BEGIN = [1024 << 20 | 7 << 7 | 0x13, 1024 << 20 | 7 << 15 | 7 << 7 | 0x13]
# x7 = 0x80000000, where shared memory begins
BEGIN_SHARED = [0x80000 << 12 | 7 << 7 | 0x37]

ARITHMETIC = [
    *(register_op(funct3) for funct3 in range(8)),  # add, sll, slt, sltu, xor, srl, or, and
    register_op(0, 0x20),  # sub
    register_op(5, 0x20),  # sra
    *(number_op(funct3, 3) for funct3 in range(8)),  # addi, slli, slti, sltiu, xori, srli, ori, andi
    number_op(5, 0x403),  # srai
    0x12345 << 12 | 6 << 7 | 0x37,  # lui x6
    0x12345 << 12 | 6 << 7 | 0x17,  # auipc x6
]
MEMORY = [
    store(2), load(2),  # sw, lw
    store(1), load(1), load(5),  # sh, lh, lhu
    store(0), load(0), load(4),  # sb, lb, lbu
]
# The word 0 is no instruction: the program stops at it.
NOTHING = [0]
# A store to each of the first 16 blocks of shared memory, of 32 bytes each: sw x5, 32 * block(x7)
MISSES = [5 << 20 | 7 << 15 | 2 << 12 | 0x23 | block << 25 for block in range(16)]


BLOCKS = 16


def load_of(block, size):
    """x5 = the first word of a block of so many bytes."""
    return block * size << 20 | 7 << 15 | 2 << 12 | 5 << 7 | 0x03


def store_of(block, size):
    """The first word of a block = x5."""
    offset = block * size
    return offset >> 5 << 25 | 5 << 20 | 7 << 15 | 2 << 12 | (offset & 31) << 7 | 0x23


def check_in_of(block, size):
    return block * size << 20 | 7 << 15 | 2 << 12 | 0x0B


SHARING = [*(load_of(block, 128) for block in range(BLOCKS)), *(store_of(block, 128) for block in range(0, BLOCKS, 4))]
# The address of block i, at node i: x6 = x10 * 32, x7 = x7 + x6. The next block's home is the next node.
BEGIN_OWN = [*BEGIN_SHARED, 5 << 20 | 10 << 15 | 1 << 12 | 6 << 7 | 0x13, 6 << 20 | 7 << 15 | 7 << 7 | 0x33]
READERS = [word for block in (0, 1) for word in (load_of(block, 32), check_in_of(block, 32))] * 8


def endless(begin, body):
    return [*begin, *body, jump_back(len(body))]


def image(words):
    return b"".join(word.to_bytes(4, "little") for word in words)


def machine(nodes, budget, words, version=1, **numbers):
    """The description of a machine all of whose nodes run these words until the budget is spent."""
    images = [{"hex": image(words).hex()}]
    return json.dumps({"version": version, "nodes": nodes, "budget": budget, "images": images, **numbers}).encode()


class Case:
    """A call: its name, its words, the bytes of standard input, those of the file that the words name `machine.json`, and
    the outcome that its report tells."""

    def __init__(self, name, words, outcome, given=b"", described=b""):
        self.name, self.words, self.outcome = name, words, outcome
        self.given, self.described = given, described

    def call(self, wwt, room):
        """Calls it once in a folder, and returns the number of events, the wall clock's time and the processor time; None
        where the program, perhaps an older one, refuses the words."""
        for name, content in (("given", self.given), ("machine.json", self.described)):
            with open(f"{room}/{name}", "wb") as file:
                file.write(content)
        with open(f"{room}/given", "rb") as given:
            began = time.perf_counter()
            with subprocess.Popen([wwt, *self.words], stdin=given, cwd=room, **PIPES) as ran:
                report = ran.stdout.read().decode()
                _, status, used = os.wait4(ran.pid, 0)
                took = time.perf_counter() - began
                ran.returncode = os.waitstatus_to_exitcode(status)
        if ran.returncode == 2:
            return None
        entries = dict(line.partition(" ")[::2] for line in report.splitlines())
        if entries.get("outcome") != self.outcome:
            sys.exit(f"{wwt}, {self.name}: status {ran.returncode}, and not the outcome {self.outcome}: {report[:500]}")
        return int(entries["events"]), took, used.ru_utime + used.ru_stime


def run_case(name, nodes, budget, words, **numbers):
    return Case(name, ["run", "machine.json"], "budget", described=machine(nodes, budget, words, **numbers))


def readers_case(nodes, budget, width):
    name = f"run: readers on {nodes} nodes"
    words = endless(BEGIN_OWN, READERS)
    return run_case(name, nodes, budget, words, version=2, private_bytes=4096, hop=10, width=width)


CASES = [
    Case("flat: arithmetic", ["flat"], "budget", image(endless(BEGIN, ARITHMETIC))),
    Case("flat: memory", ["flat"], "budget", image(endless(BEGIN, MEMORY))),
    Case("flat: start", ["flat"], "finished", image(NOTHING)),
    run_case("run: 1 node", 1, 1000000, endless(BEGIN, ARITHMETIC)),
    run_case("run: 8 nodes", 8, 125000, endless(BEGIN, ARITHMETIC)),
    run_case("run: misses", 8, 2000000, endless(BEGIN_SHARED, MISSES)),
    run_case("run: sharing", 16, 1000000, endless(BEGIN_SHARED, SHARING), block_bytes=128),
    readers_case(2, 15000000, 2),
    readers_case(256, 120000, 16),
    Case("load 92", ["load", "92"], "finished"),
    Case("load 93", ["load", "93"], "finished"),
]


def measure(programs, case):
    """Says in one line for each program how fast the case is simulated."""
    best = {}
    with tempfile.TemporaryDirectory() as room:
        for _ in range(RUNS):
            for wwt in programs:
                called = case.call(wwt, room)
                if called is not None:
                    events, *times = called
                    best[wwt] = list(map(min, times, best.get(wwt, times)))
    for wwt in best:
        wall, processor = best[wwt]
        rates = f": {events / wall / 1e6:.1f} and {events / processor / 1e6:.1f} million a second" if events > 1 else ""
        times = f"{wall * 1000:.2f} ms, {processor * 1000:.2f} ms of processor time"
        by = f" by {wwt}" if len(programs) > 1 else ""
        print(f"{case.name}{by}: {events} event{'s' * (events > 1)} in {times}{rates}", flush=True)


def measure_workers(wwt, nodes, latency):
    """Says in one line how long a run takes by 1, 2 and 4 workers."""
    words = endless(BEGIN, ARITHMETIC)
    description = machine(nodes, WORK // nodes, words, latency=latency, quantum=latency)
    best = {}
    with tempfile.TemporaryDirectory() as room:
        for _ in range(CALLS_BY_WORKERS):
            for workers in (1, 2, 4):
                call = Case(f"{workers} workers", ["run", "--workers", str(workers), "machine.json"], "budget",
                            described=description)
                called = call.call(wwt, room)
                if called is None:
                    sys.exit(f"{wwt} refuses --workers {workers}")
                best[workers] = min(called[1], best.get(workers, called[1]))
    one = best.pop(1)
    others = "".join(f", {took * 1000:.0f} by {workers} ({one / took:.2f} times as fast)" for workers, took in best.items())
    print(f"{nodes} nodes, latency {latency}: {one * 1000:.0f} ms by 1 worker{others}", flush=True)


def main():
    top = os.path.dirname(os.path.dirname(os.path.abspath(__file__)))
    by_workers = "--workers" in sys.argv[1:]
    given = [word for word in sys.argv[1:] if word != "--workers"]
    programs = list(map(os.path.abspath, given)) or [f"{top}/crates/wwt/out/wwt"]
    for wwt in programs:
        if not os.access(wwt, os.X_OK):
            sys.exit(f"there is no built program {wwt}: run `rt run` in crates/wwt, or `rt ci` at the top")
    if by_workers:
        for wwt in programs:
            for nodes in (8, 32):
                for latency in (10, 100, 1000, 10000):
                    measure_workers(wwt, nodes, latency)
    else:
        for case in CASES:
            measure(programs, case)


main()
