"""Hostile cases of tools/check_hostile.py: words and names, standard input, and input that doesn't end,
or not in time.
"""
import contextlib
import os
import pty
import signal
import socket
import threading
import time

from worked_rows import row
from wwt_hostile import (
    CHECKED, EXIT, FINISHED, MIB, MOST, OTHER, SYNTAX, USAGE, Differs, Skipped, case, elf,
    flat, machine, short)


@case("words that aren't text")
def _(room):
    for words in ([b"\xff"], [b"run", b"m\xff"], [b"run", b"--budget", b"\xff", b"m"], [b"dis", b"\xff"],
                  [b"load", b"\xff"], [b"check", b"\xed\xa0\x80"], [b"flat", b"\xff"]):
        room.compare(words, room.run(words), 2, error=USAGE)


@case("a hundred thousand words, and a word of 130000 bytes")
def _(room):
    room.expect(["run", *["m"] * 100000], 2, error=USAGE)
    room.expect(["run", "--" + "x" * 130000], 2, error=USAGE)
    name = "x" * 130000
    room.expect(["run", name], 8, error=b"wwt: cannot read " + name.encode() + b"\n")
    room.expect(["load", "9" * 130000], 2, error=USAGE)


@case("names with blanks at their ends, and the like")
def _(room):
    names = (" m ", " m", "m ", "m\t", "\tm", "M", "\u00e9", "e\u0301", "m\n", "m\\", "%s", "*", "~", "$m", "'m'")
    room.put("m", b"no description")
    for name in names:
        if os.path.exists(room.path(name)):
            raise Skipped("files whose names differ in case are one here")
        line = b"wwt: cannot read " + name.encode() + b"\n"
        room.expect(["check", name], 8, error=line)
        room.expect(["dis", name], 8, error=line)
        room.put("x", machine([flat(name)]))
        room.expect(["run", "x"], 8, error=line)
        room.put(name, machine([{"hex": EXIT.hex()}]))
        room.expect(["run", name], 0, FINISHED)
        room.put(name, EXIT)
        room.expect(["run", "x"], 0, FINISHED)
        room.expect(["dis", name], 0, b"0x00000000 0x05d00893 addi x17, x0, 93\n0x00000004 0x00000073 ecall\n")


@case("a name of no characters")
def _(room):
    room.put("m", machine([flat("")]))
    for words in (["run", ""], ["check", ""], ["dis", ""], ["run", "m"]):
        room.expect(words, 8, error=b"wwt: cannot read \n")


@case("a name with a zero byte, of which a file has the begin")
def _(room):
    room.put("a", EXIT)
    room.put("m", machine([flat("a\0b")]))
    room.expect(["run", "m"], 8, error=b"wwt: cannot read a\0b\n")


@case("names that are too long for the host")
def _(room):
    for length in (256, 4095, 4096, 5000, MOST - 1000):
        name = "n" * length
        room.put("m", machine([flat(name)]))
        room.expect(["run", "m"], 8, error=b"wwt: cannot read " + name.encode() + b"\n")


@case("links in a circle, a socket, a link to nothing, a folder that isn't there")
def _(room):
    os.symlink("circle", room.path("circle"))
    os.symlink("nothing", room.path("link"))
    with socket.socket(socket.AF_UNIX) as bound:
        here = os.getcwd()
        os.chdir(room.folder)  # a socket's name is short
        try:
            bound.bind("socket")
        finally:
            os.chdir(here)
    for name in ("circle", "link", "socket", "none/m", "m/m"):
        room.put("m", machine([flat(name)]))
        for words in (["run", name], ["dis", name], ["run", "m"]):
            room.expect(words, 8, error=b"wwt: cannot read " + name.encode() + b"\n")


@case("a folder as description, as image, as operand, as standard input")
def _(room):
    for name in (".", "..", "/"):
        for form in ("flat", "elf"):
            room.put("m", machine([{"file": name, "format": form}]))
            room.expect(["run", "m"], 8, error=b"wwt: cannot read " + name.encode() + b"\n")
        for command in ("run", "check", "dis"):
            room.expect([command, name], 8, error=b"wwt: cannot read " + name.encode() + b"\n")
    for words in (["flat"], ["run", "-"], ["dis", "-"]):
        folder = os.open(room.folder, os.O_RDONLY)
        try:
            room.expect(words, 8, error=b"wwt: cannot read -\n", given=folder)
        finally:
            os.close(folder)



@case("- as description, as image, as operand of dis")
def _(room):
    room.expect(["run", "-"], 0, FINISHED, given=machine([{"hex": EXIT.hex()}]))
    room.expect(["check", "-"], 0, CHECKED, given=machine([{"hex": EXIT.hex()}]))
    room.put("m", machine([flat("-")]))
    room.expect(["run", "m"], 0, FINISHED, given=EXIT)
    room.put("m", machine([{"file": "-"}]))
    room.expect(["run", "m"], 0, FINISHED, given=elf([(1, 84, 0, 8, 8)], EXIT))
    room.expect(["dis", "-"], 0, b"0x00000000 0x00100073 ebreak\n", given=OTHER)


@case("- as description and as image, which is then empty; as two images")
def _(room):
    room.expect(["run", "-"], 7, error=b"wwt: image 0: short\n", given=machine([{"file": "-"}]))
    room.expect(["run", "-"], 1, lambda out: b"\nnode 0 illegal 0x00000000 pc 0x00000000 clock 0\n" in out,
                given=machine([flat("-")]))
    room.put("m", machine([flat("-"), flat("-")], nodes=2))
    room.expect(["run", "m"], 1, lambda out: b"\nnode 0 exit 0 pc 0x00000004 clock 1\n" in out
                and b"\nnode 1 illegal 0x00000000 pc 0x00000000 clock 0\n" in out, given=EXIT)


@case("a file that is called -")
def _(room):
    room.put("-", OTHER)
    room.expect(["dis", "-"], 0, b"", given=b"")
    room.expect(["dis", "./-"], 0, b"0x00000000 0x00100073 ebreak\n")


@case("standard input is closed, empty, or a device")
def _(room):
    for words in (["flat"], ["run", "-"], ["check", "-"], ["dis", "-"]):
        room.expect(words, 8, error=b"wwt: cannot read -\n", given=None)
    room.expect(["run", "-"], 6, error=SYNTAX)
    room.expect(["dis", "-"], 0)
    for device in ("/dev/null", "/proc/self/mem"):
        if not os.access(device, os.R_OK):
            raise Skipped(f"there is no {device}")
    with open("/dev/null", "rb") as null:
        room.expect(["run", "-"], 6, error=SYNTAX, given=null)


# Input that doesn't end, or not in time

@case("/dev/zero as description, as image, as operand, as standard input")
def _(room):
    for name in ("/dev/zero", "/dev/full"):
        if not os.access(name, os.R_OK):
            raise Skipped(f"there is no {name}")
        for command in ("run", "check"):
            room.expect([command, name], 6, error=b"wwt: machine: too long\n", mib=128)
        room.expect(["dis", name], 7, error=b"wwt: image 0: too long\n", mib=128)
        for form in ("flat", "elf"):
            room.put("m", machine([{"hex": ""}, {"file": name, "format": form}], nodes=2))
            room.expect(["run", "m"], 7, error=b"wwt: image 1: too long\n", mib=128)

        def zeros(name=name):
            return open(name, "rb")

        room.expect(["flat"], 7, error=b"wwt: image 0: too long\n", mib=128, given=zeros)
        room.expect(["run", "-"], 6, error=b"wwt: machine: too long\n", mib=128, given=zeros)


@case("a device that fails when it is read")
def _(room):
    if not os.path.exists("/proc/self/mem"):
        raise Skipped("there is no /proc/self/mem")
    room.put("m", machine([flat("/proc/self/mem")]))
    for words in (["run", "/proc/self/mem"], ["dis", "/proc/self/mem"], ["run", "m"]):
        room.expect(words, 8, error=b"wwt: cannot read /proc/self/mem\n")


def feed(path, pieces):
    """Writes pieces into a pipe of the file system, beside the run that reads it."""
    def write(_):
        def go():
            with contextlib.suppress(OSError), open(path, "wb", buffering=0) as pipe:
                for piece in pieces:
                    pipe.write(piece)
        threading.Thread(target=go, daemon=True).start()
    return write


@case("a description and an image from pipes, whole and byte by byte")
def _(room):
    told = row("ends", "an executable file")
    description, image = told.files["m"], told.files["a.elf"]
    for name in ("pipe", "a.elf"):
        os.mkfifo(room.path(name))
    for pieces in ((lambda text: [text]), (lambda text: [text[at:at + 1] for at in range(len(text))])):
        def both(process, pieces=pieces):
            feed(room.path("pipe"), pieces(description))(process)
            feed(room.path("a.elf"), pieces(image))(process)
        room.expect(["run", "pipe"], 0, told.out, at_start=both)
    room.expect(["dis", "a.elf"], 0, lambda out: out.count(b"\n") == 35, at_start=feed(room.path("a.elf"), [image]))


@case("a pipe whose writer ends too early, or says nothing")
def _(room):
    told = row("shared_load", "whole")
    os.mkfifo(room.path("pipe"))
    room.expect(["run", "pipe"], 6, error=SYNTAX, at_start=feed(room.path("pipe"), [told.files["m"][:50]]))
    room.expect(["run", "pipe"], 6, error=SYNTAX, at_start=feed(room.path("pipe"), []))
    room.put("m", machine([{"file": "pipe"}]))
    room.expect(["run", "m"], 7, error=b"wwt: image 0: short\n", at_start=feed(room.path("pipe"), [b"\x7fELF"]))


@case("a pipe of more than 16 MiB")
def _(room):
    os.mkfifo(room.path("pipe"))

    def endless(_):
        def go():
            with contextlib.suppress(OSError), open(room.path("pipe"), "wb", buffering=0) as pipe:
                while True:
                    pipe.write(b" " * 65536)
        threading.Thread(target=go, daemon=True).start()

    room.expect(["run", "pipe"], 6, error=b"wwt: machine: too long\n", mib=128, at_start=endless)
    room.expect(["dis", "pipe"], 7, error=b"wwt: image 0: too long\n", mib=128, at_start=endless)


@case("/dev/stdin as description, from a file and from a pipe")
def _(room):
    if not os.path.exists("/dev/stdin"):
        raise Skipped("there is no /dev/stdin")
    told = row("shared_load", "whole")
    told.write(room.folder)
    room.expect(["run", "/dev/stdin"], 0, told.out, given=told.files["m"])
    for words in room.each(["run", "/dev/stdin"]):
        reader, writer = os.pipe()

        def write(_, reader=reader, writer=writer):
            os.close(reader)
            os.write(writer, told.files["m"])
            os.close(writer)

        room.compare(words, room.run(words, given=reader, at_start=write,
                                     before=lambda writer=writer: os.close(writer)), 0, told.out)


@case("a run that is stopped and continued while it reads")
def _(room):
    told = row("shared_load", "whole")
    for words in room.each(["run", "-"]):
        reader, writer = os.pipe()

        def halting(process, reader=reader, writer=writer):
            os.close(reader)
            for at in range(0, len(told.files["m"]), 40):
                process.send_signal(signal.SIGSTOP)
                os.write(writer, told.files["m"][at:at + 40])
                time.sleep(0.01)
                process.send_signal(signal.SIGCONT)
                time.sleep(0.01)
            os.close(writer)

        room.compare(words, room.run(words, given=reader, at_start=halting,
                                     before=lambda writer=writer: os.close(writer)), 0, told.out)


@case("a standard input that doesn't wait, and has nothing yet")
def _(room):
    reader, writer = os.pipe()
    os.set_blocking(reader, False)
    try:
        for words in (["flat"], ["run", "-"], ["dis", "-"]):
            room.expect(words, 8, error=b"wwt: cannot read -\n", given=reader)
    finally:
        os.close(reader)
        os.close(writer)


@case("a terminal that goes away")
def _(room):
    for words in (["flat"], ["run", "-"]):
        for line in room.each(words):
            host, guest = pty.openpty()
            try:
                ran = room.run(line, given=guest, at_start=lambda _, host=host: os.close(host))
            finally:
                os.close(guest)
            # a read that fails, or the end of input
            if ran.status == 8:
                room.compare(line, ran, 8, error=b"wwt: cannot read -\n")
            elif words == ["flat"]:
                room.compare(line, ran, 1, FINISHED)
            else:
                room.compare(line, ran, 6, error=SYNTAX)


@case("a file that grows while it is read")
def _(room):
    description = machine([{"hex": EXIT.hex()}])

    def growing(process):
        def go():
            with open(room.path("m"), "ab", buffering=0) as file:
                for _ in range(64):
                    if process.returncode is not None:
                        return
                    file.write(b" " * MIB)
        threading.Thread(target=go, daemon=True).start()

    for words in room.each(["run", "m"]):
        for _ in range(10):
            room.put("m", description)
            ran = room.run(words, at_start=growing, mib=128)
            # blanks after a description are no part of it; there are too many, or not yet
            if ran.status == 0:
                room.compare(words, ran, 0, FINISHED)
            else:
                room.compare(words, ran, 6, error=b"wwt: machine: too long\n")


@case("files of 16777216 bytes are read, and one byte more is too long")
def _(room):
    description = machine([{"hex": EXIT.hex()}])
    room.put("m", description.ljust(MOST))
    room.put("n", description.ljust(MOST + 1))
    room.expect(["run", "m"], 0, FINISHED, mib=256)
    room.expect(["run", "n"], 6, error=b"wwt: machine: too long\n", mib=256)
    room.expect(["run", "-"], 0, FINISHED, given=description.ljust(MOST), mib=256)
    room.expect(["run", "-"], 6, error=b"wwt: machine: too long\n", given=description.ljust(MOST + 1), mib=256)
    for form, content, status, error in (
            ("elf", elf([(1, 84, 0, 8, 8)], EXIT), 0, b""),
            ("flat", EXIT, 7, b"wwt: image 0: outside 0x00100000\n")):
        room.put("x", machine([{"file": "i", "format": form}]))
        room.put("i", content.ljust(MOST, b"\0"))
        room.expect(["run", "x"], status, FINISHED if status == 0 else b"", error, mib=256)
        room.put("i", content.ljust(MOST + 1, b"\0"))
        room.expect(["run", "x"], 7, error=b"wwt: image 0: too long\n", mib=256)
        room.expect(["dis", "i"], 7, error=b"wwt: image 0: too long\n", mib=256)
    room.expect(["flat"], 7, error=b"wwt: image 0: outside 0x00100000\n", given=EXIT.ljust(MOST, b"\0"), mib=256)
    room.expect(["flat"], 7, error=b"wwt: image 0: too long\n", given=EXIT.ljust(MOST + 1, b"\0"), mib=256)


@case("the words of a file of 16777216 bytes, up to the last")
def _(room):
    room.put("i", OTHER.ljust(MOST, b"\0"))
    ran = room.run(["dis", "i"], seconds=60, mib=256)
    room.compare(["dis", "i"], ran, 0, lambda out: out.count(b"\n") == MOST // 4
                 and out.startswith(b"0x00000000 0x00100073 ebreak\n")
                 and out.endswith(b"\n0x00fffffc 0x00000000 illegal\n"))
