"""Hostile cases of tools/check_hostile.py: outputs that are full, closed, slow, or whose reader goes away."""
import os
import resource
import signal
import subprocess
import threading
import time

from worked_rows import row
from wwt_hostile import (
    EXIT, FAILED, FOREVER, MIB, SECONDS, SYNTAX, WORKERS, Differs, Skipped, case, flat,
    machine, short)


def long_trace(room, command=("run", "--trace", "--budget", "20000", "m")):
    """Words whose output has 20000 lines and more."""
    room.put("m", machine([{"hex": FOREVER.hex()}]))
    return list(command)


@case("a reader that goes away after a line, at once, and after many")
def _(room):
    room.put("i", bytes(MIB))
    for words in (long_trace(room), ["dis", "i"]):
        for line in room.each(words):
            for lines in (0, 1, 1000):
                reader, writer = os.pipe()

                def read(_, reader=reader, writer=writer, lines=lines):
                    os.close(writer)
                    with open(reader, "rb", buffering=0) as pipe:
                        got = b""
                        while got.count(b"\n") < lines:
                            got += pipe.read(1)

                room.compare(line, room.run(line, into=writer, at_start=read,
                                            before=lambda reader=reader: os.close(reader)), 9, error=FAILED)


@case("a reader that is slow loses nothing")
def _(room):
    words = long_trace(room)
    whole = room.run(words).out
    for line in room.each(words):
        reader, writer = os.pipe()
        taken = []

        def read(_, reader=reader, writer=writer, taken=taken):
            os.close(writer)

            def go():
                with open(reader, "rb", buffering=0) as pipe:
                    while piece := pipe.read(3001):
                        taken.append(piece)
                        time.sleep(0.001)
            taken.append(threading.Thread(target=go))
            taken[0].start()

        ran = room.run(line, into=writer, at_start=read, before=lambda reader=reader: os.close(reader))
        taken[0].join()
        room.compare(line, ran, 3)
        if b"".join(taken[1:]) != whole:
            raise Differs("what was read isn't what is written to a file")


@case("a pipe that doesn't wait, when it is full")
def _(room):
    words = long_trace(room)
    whole = room.run(words).out
    for line in room.each(words):
        reader, writer = os.pipe()
        os.set_blocking(writer, False)
        try:
            room.compare(line, room.run(line, into=writer), 9, error=FAILED)
            os.close(writer)
            with open(reader, "rb", closefd=False) as pipe:
                got = pipe.read()
            if not got or not whole.startswith(got):
                raise Differs("what was written is no first part of the report")
        finally:
            os.close(reader)


@case("a full disk, from the first byte on")
def _(room):
    if not os.access("/dev/full", os.W_OK):
        raise Skipped("there is no /dev/full")
    room.put("i", EXIT)
    room.put("m", machine([{"hex": EXIT.hex()}]))
    for words, given in ((["run", "m"], b""), (["run", "--trace", "--memory", "m"], b""), (["check", "m"], b""),
                         (["load", "7"], b""), (["dis", "i"], b""), (["flat"], EXIT)):
        with open("/dev/full", "wb") as full:
            room.expect(words, 9, error=FAILED, into=full, given=given)


@case("a disk that is full in the midst of a report")
def _(room):
    told = row("shared_load", "traced, with its memory")
    told.write(room.folder)
    # a file may not grow past so many bytes
    for limit in (1, 15, 16, 17, 700, 1500, len(told.out) - 1):
        for line in room.each(told.words):
            def before(limit=limit):
                signal.signal(signal.SIGXFSZ, signal.SIG_IGN)
                resource.setrlimit(resource.RLIMIT_FSIZE, (limit, limit))

            with open(room.path("out"), "w+b") as out:
                ran = room.run(line, into=out, before=lambda before=before: before())
                out.seek(0)
                got = out.read()
            # (the file of the error line is as short)
            if ran.status != 9 or ran.error != FAILED[:limit] or got != told.out[:limit]:
                raise Differs(f"at {limit}: status {ran.status}, error {short(ran.error)}, written {short(got)}")


@case("a small disk that is full in the midst of a report")
def _(room):
    os.mkdir(room.path("disk"))
    long_trace(room)
    for words in ("run", f"run --workers {WORKERS}"):
        script = (f"mount -t tmpfs -o size=64k none disk || exit 77; "
                  f"'{room.wwt}' {words} --trace --budget 20000 m >disk/out; status=$?; cat disk/out; exit $status")
        try:
            ran = subprocess.run(["unshare", "-rm", "sh", "-c", script], cwd=room.folder, capture_output=True,
                                 timeout=SECONDS, check=False)
        except FileNotFoundError:
            raise Skipped("there is no unshare") from None
        if ran.returncode == 77 or ran.stderr.startswith(b"unshare: "):
            raise Skipped("a small disk can't be made")
        whole = room.run(["run", "--trace", "--budget", "20000", "m"]).out
        if ran.returncode != 9 or ran.stderr != FAILED or ran.stdout != whole[:65536]:
            raise Differs(f"status {ran.returncode}, error {short(ran.stderr)}, {len(ran.stdout)} bytes written")


@case("closed outputs")
def _(room):
    told = row("shared_load", "whole")
    told.write(room.folder)
    room.put("bad", b"{")
    room.expect(["run", "m"], 9, error=FAILED, before=lambda: os.close(1))
    room.expect(["run", "m"], 0, told.out, before=lambda: os.close(2))
    room.expect(["run", "m"], 9, before=lambda: (os.close(1), os.close(2)))
    room.expect(["run", "m"], 9, before=lambda: (os.close(0), os.close(1), os.close(2)))
    room.expect(["run", "bad"], 6, before=lambda: os.close(2))
    room.expect(["run", "bad"], 6, error=SYNTAX, before=lambda: os.close(1))
    room.expect(["run", "none"], 8, before=lambda: (os.close(0), os.close(1), os.close(2)))
    room.expect(["run"], 2, before=lambda: (os.close(0), os.close(1), os.close(2)))
    for name in ("m", "bad"):
        if open(room.path(name), "rb").read() != {"m": told.files["m"], "bad": b"{"}[name]:
            raise Differs(f"{name} was written")


@case("an output that can only be read")
def _(room):
    told = row("shared_load", "whole")
    told.write(room.folder)
    with open(room.path("m"), "rb") as out:
        room.expect(["run", "m"], 9, error=FAILED, into=out)


@case("an error output that takes nothing changes no status")
def _(room):
    if not os.access("/dev/full", os.W_OK):
        raise Skipped("there is no /dev/full")
    room.put("bad", b"{")
    room.put("m", machine([flat("none")]))
    room.put("n", machine([{"hex": "00", "at": 4194304}]))

    def before():
        os.dup2(os.open("/dev/full", os.O_WRONLY), 2)

    for words, status in ((["run"], 2), (["run", "bad"], 6), (["run", "n"], 7), (["run", "m"], 8),
                          (["run", "none"], 8)):
        room.expect(words, status, before=before)
