"""What the tools of this folder do alike: read a file or standard input, say in one line what is
wrong, show on a terminal how far they have come, and end quietly when their reader closes the pipe.
"""
import argparse
import contextlib
import io
import os
import sys
import threading
import time

STATUS_OF_WRONG_INPUT = 2
BUILT = os.path.join(os.path.dirname(os.path.dirname(os.path.abspath(__file__))),
                     "crates/wwt/out/wwt")
BATCH = 1 << 20  # characters that are read at once
PATIENCE = 2  # seconds before the first progress line


class ToolError(Exception):
    """What is wrong with the input, as one line for the user."""


def parser_of(text, **options):
    """A parser of words whose help begins with a tool's own text."""
    return argparse.ArgumentParser(
        description=text, formatter_class=argparse.RawDescriptionHelpFormatter, **options)


def add_input(parser, what="a report with event lines, as `wwt run --trace` writes it"):
    parser.add_argument("input", nargs="?", default="-", metavar="REPORT",
                        help=f"{what}; standard input if it isn't given, or is -")


def add_program(parser):
    parser.add_argument("--wwt", metavar="WWT", default=os.environ.get("WWT") or BUILT,
                        help="the built program (crates/wwt/out/wwt, or $WWT)")


def program_of(path):
    if not os.path.isfile(path) or not os.access(path, os.X_OK):
        raise ToolError(f"there is no built program {path}")
    return os.path.abspath(path)


def open_text(path):
    """A text file to read, standard input for -."""
    try:
        if path == "-":
            if sys.stdin is None:
                raise ToolError("standard input is closed")
            return io.TextIOWrapper(sys.stdin.buffer, encoding="ascii", errors="replace")
        return open(path, encoding="ascii", errors="replace")
    except OSError as error:
        raise ToolError(f"cannot read {path}: {error.strerror}") from None


def name_of(path):
    """What a file is called in a message."""
    return "standard input" if path == "-" else path


def read_bytes(path):
    """All bytes of a file, of standard input for -."""
    try:
        if path != "-":
            with open(path, "rb") as file:
                return file.read()
        if sys.stdin is None:
            raise ToolError("standard input is closed")
        return sys.stdin.buffer.read()
    except OSError as error:
        raise ToolError(f"cannot read {name_of(path)}: {error.strerror}") from None


def open_output(path):
    """A text file to write, standard output for -."""
    try:
        if path == "-":
            return contextlib.nullcontext(sys.stdout)
        return open(path, "w", encoding="utf-8")
    except OSError as error:
        raise ToolError(f"cannot write {path}: {error.strerror}") from None


class Progress:
    """A line on a terminal that says how far a tool has come, after the first two seconds."""

    def __init__(self, stream=None):
        self.stream = stream or sys.stderr
        self.begun = self.last = time.monotonic()
        self.shown = 0
        self.on = self.stream.isatty()

    def show(self, text):
        now = time.monotonic()
        if not self.on or now - self.begun < PATIENCE or now - self.last < 0.5:
            return
        self.last = now
        self.stream.write("\r" + text.ljust(self.shown))
        self.stream.flush()
        self.shown = len(text)

    def end(self):
        if self.shown:
            self.stream.write("\r" + " " * self.shown + "\r")
            self.stream.flush()
            self.shown = 0


@contextlib.contextmanager
def shown(text_of):
    """Shows what a function tells, again and again, while something else goes on."""
    progress, over = Progress(), threading.Event()

    def tell():
        while not over.wait(0.5):
            progress.show(text_of())

    teller = threading.Thread(target=tell, daemon=True)
    if progress.on:
        teller.start()
    try:
        yield
    finally:
        over.set()
        if progress.on:
            teller.join()
        progress.end()


def printable(text):
    """What can't harm a terminal: other characters stand as ?."""
    return "".join(one if one.isprintable() else "?" for one in text)


def lines_of(path):
    """The lines of a text file, read in batches, with a progress line on a terminal."""
    progress, count = Progress(), 0
    try:
        with open_text(path) as source:
            while batch := source.readlines(BATCH):
                yield from batch
                count += len(batch)
                progress.show(f"{count} lines read")
    except IsADirectoryError:
        raise ToolError(f"cannot read {path}: it is a folder") from None
    finally:
        progress.end()


def warn(text):
    print(f"{os.path.basename(sys.argv[0])}: {printable(str(text))}", file=sys.stderr)


def call(main):
    """Calls a tool's main, and ends the process by its status. A pipe that its reader closed ends
    it without a word; wrong input ends it with one line, and so does a full disk."""
    if sys.stdout is None:
        sys.stdout = open(os.devnull, "w", encoding="utf-8")
    sys.stdout.reconfigure(errors="backslashreplace")
    try:
        status = main() or 0
        sys.stdout.flush()
    except ToolError as error:
        warn(error)
        status = STATUS_OF_WRONG_INPUT
    except BrokenPipeError:
        # what is still buffered goes nowhere, so that the end of the process can't complain
        os.dup2(os.open(os.devnull, os.O_WRONLY), sys.stdout.fileno())
        status = 0
    except OSError as error:
        warn(f"cannot write: {error.strerror}")
        os.dup2(os.open(os.devnull, os.O_WRONLY), sys.stdout.fileno())
        status = STATUS_OF_WRONG_INPUT
    except KeyboardInterrupt:
        status = 130
    sys.exit(status)
