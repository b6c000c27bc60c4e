#!/usr/bin/env python3
"""Refuses memory to the built program, one allocation after the other.

    tools/check_memory.py [--wwt WWT] [--jobs N]

A few worked commands of crates/wwt_rows/data/ are run by the built program, again and again. In the
first run each allocation is granted, and they are counted. Then each is refused in turn, once alone
and once with all later ones. Threads are refused so, too. Each run has to end by itself in
SECONDS: by the row's own status, output and error line; or by the status 10, with the line `wwt: out
of memory`, and what was written is then a first part of the row's output. By several workers the
count may differ from run to run: there is no end until a run has asked for fewer than are granted.
A refused thread has to change nothing.

Says for each command how many requests there were and how the runs ended, and fails where one ended
otherwise, and where no refusal was told by the status 10. Memory is refused by tools/refuse.c, which
is loaded before the C library. Where there is no C compiler, or the program isn't built, one line
says so, and nothing fails. It takes some minutes, so it isn't a part of the gate.
"""
import collections
import concurrent.futures
import os
import struct
import subprocess
import sys
import tempfile

from worked_rows import row
from wwt_tool import ToolError, add_program, call, parser_of, program_of

HERE = os.path.dirname(os.path.abspath(__file__))
SECONDS = 60
LINE = b"wwt: out of memory\n"
MOST = 1000000  # a command that asks more often is a mistake here
# file of rows, row, and further words
COMMANDS = (
    ("flat", "one letter is printed", ()),
    ("shared_load", "traced, each write fails", ()),
    ("shared_load", "traced, with its memory", ("--workers", "4")),
    ("images", "a header cut short (run)", ()),
    ("images", "more bytes than memory (run)", ()),
    ("images", "a dynamic executable (run)", ()),
    ("images", "an entry off its place (run)", ()),
    ("images", "less memory than the executable wants (run)", ()),
    ("ends", "an executable file", ()),
    ("load", "load 0", ("--workers", "2")),
    ("blocks", "two writers of a block", ("--workers", "2")),
    ("listings", "a machine whose numbers all differ, with two images", ()),
    ("images", "the words of flat bytes", ()),
    ("words", "refused: run --workers 0 m", ()),
    ("names", "no image whose name has blanks at its ends", ()),
)

Ran = collections.namedtuple("Ran", "status out error asked")


class Command:
    """A worked command, with its files in a folder, and the ways in which memory is refused to it."""

    def __init__(self, wwt, library, folder, told, more):
        self.wwt, self.library, self.folder, self.row = wwt, library, folder, told
        self.words = [*told.words, *more]
        self.title = " ".join((told.name, *more))
        told.write(folder)

    def run(self, at, rest=False, what="allocations"):
        """What it came to where this request is refused, and how many there were."""
        with tempfile.NamedTemporaryFile(dir=self.folder) as count:
            count.write(bytes(8))
            count.flush()
            environment = {**os.environ, "LD_PRELOAD": self.library, "REFUSE_AT": str(at),
                           "REFUSE_WHAT": what, "REFUSE_COUNT": count.name}
            if rest:
                environment["REFUSE_REST"] = "1"
            try:
                ran = subprocess.run([self.wwt, *self.words], input=self.row.given, cwd=self.folder,
                                     env=environment, capture_output=True, timeout=SECONDS,
                                     check=False)
            except subprocess.TimeoutExpired:
                return Ran(f"none in {SECONDS} seconds", b"", b"", 0)
            count.seek(0)
            return Ran(ran.returncode, ran.stdout, ran.stderr, *struct.unpack("Q", count.read(8)))

    def answer(self, ran, what):
        """How a run ended, as a word; None if it may not end so."""
        told = self.row
        if (ran.status, ran.out, ran.error) == (told.status, told.out, told.error):
            return "its own answer"
        if (ran.status, ran.error) == (10, LINE) and told.out.startswith(ran.out):
            return "out of memory" if what == "allocations" else None
        return None


def refuse_each(command, pool, jobs, rest, what):
    """Refuses each request in turn. How the runs ended, and what went wrong."""
    answers, wrong, first, over = collections.Counter(), [], 1, False
    while not over and not wrong:
        if first > MOST:
            raise ToolError(f"{command.title}: there is no end to its {what}")
        numbers = range(first, first + 8 * jobs)
        first = numbers.stop
        for at, ran in zip(numbers, pool.map(lambda at: command.run(at, rest, what), numbers)):
            if ran.asked < at and isinstance(ran.status, int):
                # nothing was refused
                over = True
                if command.answer(ran, what) != "its own answer":
                    wrong.append((at, ran))
            else:
                answers[command.answer(ran, what)] += 1
                if command.answer(ran, what) is None:
                    wrong.append((at, ran))
    return answers, wrong


def check(command, pool, jobs):
    """Says how a command ended, and whether each of its runs ended as it may."""
    ran = command.run(0)
    if command.answer(ran, "allocations") != "its own answer":
        print(f"memory: '{command.title}' differs with all memory granted: status {ran.status}, "
              f"output {ran.out!r}, error {ran.error!r}")
        return False
    good = True
    for what, rest in (("allocations", False), ("allocations", True), ("threads", False),
                       ("threads", True)):
        answers, wrong = refuse_each(command, pool, jobs, rest, what)
        count = sum(answers.values())
        ends = ", ".join(f"{number} by {word or 'another'}" for word, number in answers.items())
        if count or what == "allocations":
            print(f"memory: '{command.title}': {count} {what} refused in turn"
                  f"{', each with all later ones' if rest else ''}: {ends or 'none'}", flush=True)
        if what == "allocations" and not answers["out of memory"]:
            print(f"memory: '{command.title}': no refusal was told by the status 10")
            good = False
        for at, ran in wrong:
            good = False
            print(f"memory: '{command.title}', number {at} of the {what} refused: status "
                  f"{ran.status}, output {ran.out!r}, error {ran.error!r}")
    return good


def library_in(folder):
    """tools/refuse.c, compiled; None where there is no compiler."""
    path = os.path.join(folder, "refuse.so")
    source = os.path.join(HERE, "refuse.c")
    try:
        made = subprocess.run([os.environ.get("CC", "cc"), "-O2", "-shared", "-fPIC", "-o", path,
                               source, "-ldl", "-lpthread"], capture_output=True, check=False)
    except FileNotFoundError:
        return None
    if made.returncode:
        raise ToolError(f"{source} can't be compiled: {made.stderr.decode(errors='replace')}")
    return path


def main():
    parser = parser_of(__doc__)
    add_program(parser)
    parser.add_argument("--jobs", type=int, default=os.cpu_count() or 1, metavar="N",
                        help="how many runs at a time (one for each processor)")
    words = parser.parse_args()
    try:
        wwt = program_of(words.wwt)
    except ToolError as error:
        print(f"memory: skipped, {error}")
        return 0
    with tempfile.TemporaryDirectory() as room:
        library = library_in(room)
        if library is None:
            print("memory: skipped, there is no C compiler")
            return 0
        good = True
        with concurrent.futures.ThreadPoolExecutor(words.jobs) as pool:
            for number, (file, name, more) in enumerate(COMMANDS):
                folder = os.path.join(room, str(number))
                os.mkdir(folder)
                command = Command(wwt, library, folder, row(file, name), more)
                good = check(command, pool, words.jobs) and good
    return 0 if good else 1


if __name__ == "__main__":
    call(main)
