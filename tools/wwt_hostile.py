"""What the hostile cases of tools/check_hostile.py share: a room in which the program is run, with
limits, and compared; and the files that they make.
"""
import collections
import json
import os
import resource
import struct
import subprocess
import tempfile
import threading
import time

WORKERS = "4"
SECONDS = 20  # for a run, unless a case says otherwise
MOST = 16777216  # the bytes that a read may give
MIB = 1 << 20
USAGE = (b"wwt: usage: run [--workers W] [--trace] [--memory] [--budget B] MACHINE, check MACHINE, "
         b"load NUMBER [--workers W], dis IMAGE, flat\n")
FAILED = b"wwt: write failed\n"
NO_MEMORY = b"wwt: out of memory\n"
SYNTAX = b"wwt: machine: syntax\n"
EXIT = bytes.fromhex("9308d00573000000")  # addi x17, x0, 93; ecall
OTHER = bytes.fromhex("73001000")  # ebreak
FOREVER = bytes.fromhex("6f000000")  # jal x0, 0
PUT_FOREVER = bytes.fromhex("9308100073000000" + "6ff0dfff")  # puts a byte, again and again

Ran = collections.namedtuple("Ran", "status out error seconds mib")


class Skipped(Exception):
    """Why a case can't be made on this machine."""


class Differs(Exception):
    """What came in place of what is wanted."""


def short(text):
    """The begin of a text, for a line."""
    return repr(text[:200]) + (f" and {len(text) - 200} bytes" if len(text) > 200 else "")


class Room:
    """A folder for one case, in which the program is run."""

    def __init__(self, wwt, folder):
        self.wwt, self.folder = wwt, folder

    def path(self, name):
        return os.path.join(self.folder, name)

    def put(self, name, content):
        with open(self.path(name), "wb") as file:
            file.write(content)

    def run(self, words, given=b"", seconds=SECONDS, mib=None, before=None, at_start=None, into=None):
        """A run, with its standard input: bytes, a file, or None where it is closed. `mib` limits
        the memory that it can ask for, `before` is called in its process and `at_start` beside it.
        Its output is a file of its own, or what is given."""
        with tempfile.TemporaryFile() as own, tempfile.TemporaryFile() as error, \
                tempfile.TemporaryFile() as source:
            if isinstance(given, bytes):
                source.write(given)
                source.seek(0)

            def begin():
                if given is None:
                    os.close(0)
                if mib is not None:
                    resource.setrlimit(resource.RLIMIT_AS, (mib * MIB, mib * MIB))
                if before is not None:
                    before()

            begun = time.monotonic()
            process = subprocess.Popen(  # pylint: disable=subprocess-popen-preexec-fn
                [self.wwt, *words], cwd=self.folder, stdout=own if into is None else into, stderr=error,
                stdin=source if given is None or isinstance(given, bytes) else given, preexec_fn=begin)
            late = threading.Timer(seconds, process.kill)
            late.start()
            try:
                if at_start is not None:
                    at_start(process)
                _, ended, used = os.wait4(process.pid, 0)
            finally:
                late.cancel()
            took = time.monotonic() - begun
            process.returncode = os.waitstatus_to_exitcode(ended)
            own.seek(0)
            error.seek(0)
            if took >= seconds:
                raise Differs(f"{' '.join(map(str, words))[:100]}: no end in {seconds} seconds")
            return Ran(process.returncode, own.read(), error.read(), took, used.ru_maxrss / 1024)

    def each(self, words):
        """The words, and those of the same run by several workers."""
        yield words
        if words and words[0] in ("run", "load"):
            yield [words[0], "--workers", WORKERS, *words[1:]]

    def expect(self, words, status, out=b"", error=b"", most=None, given=b"", **how):
        """Runs the words, by several workers too, and compares. `out` is all of the output, or a
        test of it; `most` is how many MiB it may take."""
        for line in self.each(words):
            if callable(given):
                ran = self.run(line, given=given(), **how)
            else:
                ran = self.run(line, given=given, **how)
            self.compare(line, ran, status, out, error, most)

    def compare(self, words, ran, status, out=b"", error=b"", most=None):
        right = ran.out == out if isinstance(out, bytes) else out(ran.out)
        wanted = status if isinstance(status, tuple) else (status,)
        if ran.status not in wanted or not right or ran.error != error:
            raise Differs(f"{' '.join(map(str, words))[:100]}: status {ran.status}, output "
                          f"{short(ran.out)}, error {short(ran.error)}")
        if most is not None and ran.mib > most:
            raise Differs(f"{' '.join(map(str, words))[:100]}: {ran.mib:.0f} MiB, not {most}")


def machine(images, nodes=1, **fields):
    """A description."""
    return json.dumps({"version": 1, "nodes": nodes, "images": images, **fields}).encode()


def flat(name, **more):
    return {"file": name, "format": "flat", **more}


def first_line(line):
    return lambda out: out.startswith(line + b"\n")


FINISHED = first_line(b"outcome finished")
CHECKED = first_line(b"version 1")


def elf(headers, content=b"", entry=0, length=None):
    """An executable with these program headers (type, offset, address, bytes in the file, bytes in
    memory), then its content. It is filled with zeros to a length."""
    made = b"\x7fELF\x01\x01\x01" + bytes(9) + struct.pack(
        "<HHIIIIIHHHHHH", 2, 243, 1, entry, 52, 0, 0, 52, 32, len(headers), 40, 0, 0)
    made += b"".join(struct.pack("<8I", kind, offset, at, at, own, size, 5, 4)
                     for kind, offset, at, own, size in headers) + content
    return made if length is None else made.ljust(length, b"\0")


CASES = []


def case(title):
    """Names a function that plays a case in a room."""
    def add(play):
        CASES.append((title, play))
        return play
    return add
