#!/usr/bin/env python3
"""Runs a machine under growing budgets, and tells meanwhile where it is.

    tools/run.py --timeout 60 machine.json >report

`wwt run` says nothing until it ends. So the machine is run up to a first cycle, then again from the
start up to a later one, and so on, until it ends by itself: about three times the work of one run.
Every few seconds a line on standard error tells the time of the machine, the events that a second
of the host handles, and where each node is. The last report goes to standard output, also where the
time is over or Ctrl-C stops the tool. The status is then that of `wwt run` with a budget that is
spent, 3, and else that of the run.
"""
import subprocess
import sys
import time

from check_machine import read_description
from wwt_code import Images
from wwt_machine import value_of
from wwt_tool import ToolError, add_program, call, parser_of, program_of
from wwt_trace import Report

FIRST, GROWTH = 10000, 1.5
QUICK = 0.3  # seconds: a run that takes less is followed by a much longer one
SPENT = 3  # the status of a run whose budget is spent


class Known:
    """What the last run that ended told."""

    def __init__(self, budget, took, text, report, before):
        self.budget, self.took, self.text, self.report = budget, took, text, report
        self.since = self.last_change(before)

    def marks(self):
        """What a program that goes on changes: barriers, output and nodes that have ended."""
        return [(node.counts["barriers"], node.output, node.state.startswith("exit"))
                for node in self.report.nodes]

    def last_change(self, before):
        """The latest budget from which on nothing of that is known to have changed."""
        if before and before.marks() == self.marks():
            return before.since
        return self.budget


def where(node, images):
    place = images.place(node.number, node.pc)
    return f"{node.number} {node.state} at 0x{node.pc:08x}" + (f" {place}" if place else "")


def tell(known, budget, passed, images):
    """The lines of what is known, and up to where the next run goes."""
    if known is None:
        return f"{passed:.0f} s: the first run, up to cycle {budget}, hasn't ended"
    report = known.report
    rate = report.count / known.took if known.took else 0
    lines = [f"{passed:.0f} s: cycle {report.time}, {report.count} events, {rate / 1e6:.2f} "
             f"million a second; now up to cycle {budget}"]
    if known.since < known.budget:
        lines[0] += (f"; since cycle {known.since} no node ended, put a byte out or came out of a "
                     "barrier")
    lines += ["  node " + where(node, images) for node in report.nodes]
    return "\n".join(lines)


def images_of(description):
    """The images that are executables, for functions and lines. None where one isn't."""
    entries = description.get("images") or []
    try:
        return Images([entry["file"] for entry in entries])
    except (KeyError, TypeError, ToolError):
        return Images(None)


class Runner:
    def __init__(self, words, images, limit):
        self.words, self.images, self.limit = words, images, limit
        self.begun, self.told = time.monotonic(), time.monotonic()
        self.known, self.child = None, None

    def passed(self):
        return time.monotonic() - self.begun

    def is_over(self):
        return self.words.timeout is not None and self.passed() >= self.words.timeout

    def watch(self, budget):
        """Tells something every few seconds."""
        if time.monotonic() - self.told >= self.words.every:
            self.told = time.monotonic()
            print(tell(self.known, budget, self.passed(), self.images), file=sys.stderr)

    def run_to(self, budget):
        """A run up to this cycle: its status and output, or None where the time is over."""
        command = [self.words.wwt, "run", "--budget", str(budget), self.words.machine]
        self.child = subprocess.Popen(command, stdout=subprocess.PIPE, text=True)
        while True:
            try:
                output, _ = self.child.communicate(timeout=0.05)
                return self.child.returncode, output
            except subprocess.TimeoutExpired:
                self.watch(budget)
                if self.is_over():
                    return None

    def stop(self):
        if self.child and self.child.poll() is None:
            self.child.kill()
            self.child.communicate()

    def next_budget(self, budget, took):
        growth = 10 if took < QUICK else GROWTH
        return min(int(budget * growth), self.limit)

    def run(self):
        """Runs until the machine ends or the time is over, and returns the status."""
        budget = min(FIRST, self.limit)
        while True:
            begun = time.monotonic()
            ended = self.run_to(budget)
            if ended is None:
                return None
            status, output = ended
            if status < 0 or not output:
                return status
            took = time.monotonic() - begun
            report = Report(output.splitlines(), "the report").read_to_end()
            self.known = Known(budget, took, output, report, self.known)
            if status != SPENT or budget == self.limit:
                return status
            budget = self.next_budget(budget, took)
            self.watch(budget)


def words_of():
    parser = parser_of(__doc__)
    parser.add_argument("machine", metavar="MACHINE", help="the description")
    parser.add_argument("--timeout", type=float, metavar="SECONDS", help="when to stop")
    parser.add_argument("--every", type=float, default=3, metavar="SECONDS",
                        help="how often to tell (3)")
    parser.add_argument("--budget", type=int, metavar="B", help="no event at or past this cycle")
    add_program(parser)
    return parser.parse_args()


def main():
    words = words_of()
    words.wwt = program_of(words.wwt)
    description = read_description(words.machine)
    limit = words.budget or value_of(description, "budget")
    if not isinstance(limit, int) or limit < 1:
        raise ToolError(f"{words.machine}: the budget is no number; see check_machine.py")
    runner = Runner(words, images_of(description), limit)
    try:
        status = runner.run()
        why = f"after {runner.passed():.0f} seconds" if status is None else ""
    except KeyboardInterrupt:
        status, why = None, "by Ctrl-C"
    finally:
        runner.stop()
    if why:
        known = runner.known
        what = f"the report is of the run up to cycle {known.budget}" if known else "no run ended"
        print(f"run.py: stopped {why}: {what}", file=sys.stderr)
    if runner.known:
        sys.stdout.write(runner.known.text)
    return SPENT if status is None else status


if __name__ == "__main__":
    call(main)
