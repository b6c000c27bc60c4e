#!/usr/bin/env python3
"""Runs programs on many machines, and writes a row of CSV for each run.

    tools/sweep.py --set nodes=1,2,4,8 --set latency=10,100 --images a.elf b.elf >study.csv
    tools/sweep.py --csv study.csv --plot X=nodes Y=speedup BY=latency >study.svg

The machines are all combinations of the values, on top of the machine of --base or the defaults. A
row has the fields of the machine, the status and outcome of `wwt run`, the head of its report, the
sums of the counters, the seconds that the run took, a hash of the description with its image, one
of the output, and the speed-up: how many times faster than the same image is on one node of a
machine that is else the same, which is run for it. A run that fails is a row, too.

What is done stands in a log, so that a sweep that was stopped goes on where it was.
"""
import concurrent.futures
import csv
import hashlib
import itertools
import json
import os
import sys

from check_machine import field_faults, read_description
from wwt_machine import NAMES, lookahead_of, value_of, with_value
from wwt_plot import plot
from wwt_tool import (ToolError, add_program, call, name_of, open_output, parser_of, program_of,
                      read_bytes, shown, warn)
from wwt_trace import COUNTERS, HEAD, Report

RESULTS = ("status", *HEAD, *COUNTERS, "wall", "hash", "output", "speedup", "error")
COLUMNS = ("image", *NAMES, *RESULTS)


def run_alone(program, files, words, seconds):
    """A run in a folder of its own, wherever it takes place: its status, what it wrote on standard
    output and standard error, and how many seconds it took. `program` is a path, or the bytes of
    the program where it isn't here. (It stands alone, so that it can be sent to another machine.)
    """
    import os
    import subprocess
    import tempfile
    import time
    with tempfile.TemporaryDirectory() as room:
        for name, content in files.items():
            with open(os.path.join(room, name), "wb") as file:
                file.write(content)
        if isinstance(program, bytes):
            path = os.path.join(room, "wwt")
            with open(path, "wb") as file:
                file.write(program)
            os.chmod(path, 0o700)
            program = path
        begun = time.perf_counter()
        try:
            ran = subprocess.run([program, *words], cwd=room, capture_output=True, text=True,
                                 timeout=seconds, check=False)
            told = ran.returncode, ran.stdout, ran.stderr.strip()
        except subprocess.TimeoutExpired:
            told = "timeout", "", f"stopped after {seconds} seconds"
        except OSError as error:
            told = "no run", "", str(error)
        return (*told, round(time.perf_counter() - begun, 3))


class Run:
    """A machine with an image: its description, and the files that the run needs."""

    def __init__(self, image, content, description, words, program):
        self.image, self.content, self.description = image, content, description
        self.words, self.program = ["run", *words, "machine.json"], program
        named = {**description, "images": [hashlib.sha256(content).hexdigest()]}
        self.hash = hashlib.sha256(json.dumps(named, sort_keys=True).encode()).hexdigest()[:16]

    def files(self):
        entry = {"file": "image"}
        if not self.content.startswith(b"\x7fELF"):
            entry["format"] = "flat"
        described = json.dumps({**self.description, "images": [entry]}).encode()
        return {"machine.json": described, "image": self.content}

    def key(self):
        """What names this run in a log: the program that runs it, too."""
        return " ".join([self.program, self.hash, *self.words])

    def alone(self):
        """The same on one node. There a quantum, which changes no result, may have to be shorter."""
        description = {**self.description, "nodes": 1}
        if "quantum" in description:
            description["quantum"] = min(description["quantum"], lookahead_of(description))
        return Run(self.image, self.content, description, self.words[1:-1], self.program)

    def name(self, keys):
        values = [f"{key}={value_of(self.description, key)}" for key in keys]
        return " ".join([os.path.basename(self.image), *values])


def results_of(run, told):
    """The columns that a run's answer gives, but for the speed-up."""
    status, output, error, wall = told
    result = {"status": status, "wall": wall, "hash": run.hash, "error": error}
    if output:
        try:
            report = Report(output.splitlines(), "the report").read_to_end()
        except ToolError as fault:
            return {**result, "error": str(fault)}
        printed = b"".join(node.output for node in report.nodes)
        result.update(outcome=report.outcome, time=report.time, quanta=report.quanta,
                      events=report.count, output=hashlib.sha256(printed).hexdigest()[:16],
                      **report.total)
    return result


class Log:
    """The results of runs that are done, a line of JSON each."""

    def __init__(self, path):
        self.path, self.done = path, {}
        try:
            with open(path, encoding="utf-8") as file:
                for line in file:
                    self.take(line)
        except FileNotFoundError:
            pass
        except OSError as error:
            raise ToolError(f"cannot read {path}: {error.strerror}") from None

    def take(self, line):
        try:
            key, result = json.loads(line)
            if isinstance(result["status"], int):
                self.done[key] = result
        except (ValueError, TypeError, KeyError):
            if line.endswith("\n"):
                raise ToolError(f"{self.path} is no log of a sweep: '{line[:40].strip()}'") \
                    from None
            # else the sweep was stopped within this line

    def add(self, key, result):
        self.done[key] = result
        begun = os.path.exists(self.path)
        with open(self.path, "a+", encoding="utf-8") as file:
            if begun:
                self.end_line(file)
            file.write(json.dumps([key, result]) + "\n")

    def end_line(self, file):
        """A line that was cut off ends here."""
        with open(self.path, "rb") as tail:
            tail.seek(max(os.path.getsize(self.path) - 1, 0))
            if tail.read(1) not in (b"\n", b""):
                file.truncate(self.whole())

    def whole(self):
        """How many bytes the whole lines have."""
        with open(self.path, "rb") as file:
            return file.read().rfind(b"\n") + 1


class Here:
    """Runs on this machine, some at once."""

    def __init__(self, jobs, program, seconds):
        self.pool = concurrent.futures.ThreadPoolExecutor(max_workers=max(jobs, 1))
        self.program, self.seconds = program, seconds

    def submit(self, run):
        return self.pool.submit(run_alone, self.program, run.files(), run.words, self.seconds)

    def completed(self, futures):
        return concurrent.futures.as_completed(futures)

    def end(self):
        self.pool.shutdown(wait=False, cancel_futures=True)


class Cluster:
    """Runs on the workers of a Dask cluster, to which the program is sent."""

    def __init__(self, address, program, seconds):
        try:
            import distributed
        except ImportError:
            raise ToolError("--dask needs the package distributed (Debian: python3-distributed)") \
                from None
        try:
            self.client = distributed.Client(address, timeout=10)
        except (OSError, ValueError) as error:
            raise ToolError(f"no Dask cluster at {address}: {error}") from None
        self.completed, self.seconds = distributed.as_completed, seconds
        with open(program, "rb") as file:
            self.program = self.client.scatter(file.read(), broadcast=True)

    def submit(self, run):
        return self.client.submit(run_alone, self.program, run.files(), run.words, self.seconds,
                                  pure=False)

    def end(self):
        self.client.close()


def answer_of(future):
    """The answer of a run, which may have been lost with its worker."""
    try:
        return future.result()
    except Exception as error:  # whatever another machine says
        return "no run", "", " ".join(str(error).split()), 0


def run_all(runs, words, log):
    """Runs what isn't in the log, each once, and yields whenever one is done. The machines of one
    node come first, since the speed-ups of others need them."""
    needed = {run.key(): run for run in [*(run.alone() for run in runs), *runs]}
    missing = {key: run for key, run in needed.items() if key not in log.done}
    if not missing:
        return
    place = Cluster(words.dask, words.wwt, words.timeout) if words.dask else \
        Here(words.jobs, words.wwt, words.timeout)
    begun = len(log.done)
    try:
        with shown(lambda: f"{len(log.done) - begun} of {len(missing)} runs done"):
            futures = {place.submit(run): run for run in missing.values()}
            for future in place.completed(list(futures)):
                run = futures[future]
                log.add(run.key(), results_of(run, answer_of(future)))
                yield run
    finally:
        place.end()


def speedup_of(result, alone):
    finished = result.get("outcome") == alone.get("outcome") == "finished"
    return round(alone["time"] / result["time"], 4) if finished and result["time"] else ""


def row_of(run, log):
    result, alone = log.done[run.key()], log.done[run.alone().key()]
    fields = {name: value_of(run.description, name) for name in NAMES}
    return {**fields, **result, "image": run.image, "speedup": speedup_of(result, alone)}


def tell_differences(runs, log, keys):
    """Names the runs of an image that put out something else than its first run that finished."""
    first = {}
    for run in runs:
        result = log.done[run.key()]
        if result.get("outcome") != "finished":
            continue
        other = first.setdefault(run.image, run)
        if result["output"] != log.done[other.key()]["output"]:
            warn(f"outputs differ: {run.name(keys)} puts out something else than "
                 f"{other.name(keys)}")


def sweep(words, runs):
    log, keys = Log(words.log), [key for key, _ in words.set]
    writer = csv.DictWriter(sys.stdout, words.columns, lineterminator="\n", extrasaction="ignore")
    writer.writeheader()
    rows, waiting = [], list(runs)
    for _ in itertools.chain([None], run_all(runs, words, log)):
        while waiting and waiting[0].key() in log.done and waiting[0].alone().key() in log.done:
            rows.append(row_of(waiting.pop(0), log))
            writer.writerow(rows[-1])
            sys.stdout.flush()
    tell_differences(runs, log, keys)
    return rows


def read_setting(text):
    """NAME=VALUE,VALUE.. as a pair."""
    name, _, values = text.partition("=")
    if name not in NAMES:
        raise ToolError(f"--set {text}: '{name}' is no field of a machine")
    try:
        return name, [int(value) for value in values.split(",")]
    except ValueError:
        raise ToolError(f"--set {text}: the values aren't whole numbers") from None


def read_columns(text):
    """The names of columns, as a list."""
    names = text.split(",")
    for name in names:
        if name not in COLUMNS:
            raise ToolError(f"--columns: '{name}' is no column of a study")
    return names


def read_base(path):
    if path is None:
        return {"version": 1, "nodes": 1}
    base = read_description(path)
    base.setdefault("nodes", 1)
    faults = field_faults(base)
    if faults:
        raise ToolError(f"{path}: {faults[0]}")
    return base


def fit_blocks(description, shared_bytes):
    """Sets `blocks` so that shared memory has as many bytes as asked."""
    size = value_of(description, "block_bytes")
    if size < 1 or shared_bytes % size:
        raise ToolError(f"{shared_bytes} bytes of shared memory are no whole blocks of {size}")
    return with_value(description, "blocks", shared_bytes // size)


def runs_of(words):
    """All combinations, image by image."""
    base = read_base(words.base)
    keys = [key for key, _ in words.set]
    shared = words.shared_bytes
    if shared is None:
        shared = value_of(base, "blocks") * value_of(base, "block_bytes")
    budget = ["--budget", str(words.budget)] if words.budget is not None else []
    program = hashlib.sha256(read_bytes(words.wwt)).hexdigest()[:8]
    runs = []
    for image in words.images:
        content = read_bytes(image)
        for values in itertools.product(*(values for _, values in words.set)):
            description = {key: value for key, value in base.items() if key != "images"}
            for key, value in zip(keys, values):
                description = with_value(description, key, value)
            if "blocks" not in keys:
                description = fit_blocks(description, shared)
            runs.append(Run(image, content, description, budget, program))
    return runs


def numbers_of(rows, x, y):
    for row in rows:
        try:
            yield row, float(row[x]), float(row[y])
        except (KeyError, ValueError):
            continue


def plot_of(rows, words):
    """An SVG: a panel an image, a line a value of BY."""
    asked = dict(text.partition("=")[::2] for text in words.plot)
    if set(asked) - {"X", "Y", "BY"} or not {"X", "Y"} <= set(asked):
        raise ToolError("--plot takes X=COLUMN Y=COLUMN and, if wanted, BY=COLUMN")
    for column in asked.values():
        if column not in COLUMNS:
            raise ToolError(f"--plot: '{column}' is no column of a study")
    panels = {}
    for row, x, y in numbers_of(rows, asked["X"], asked["Y"]):
        line = f"{asked['BY']} {row[asked['BY']]}" if "BY" in asked else asked["Y"]
        lines = panels.setdefault(os.path.basename(row["image"]), {})
        lines.setdefault(line, []).append((x, y))
    if not panels:
        raise ToolError(f"no row has numbers for {asked['X']} and {asked['Y']}")
    return plot(panels, asked["X"], asked["Y"])


def words_of():
    parser = parser_of(__doc__)
    parser.add_argument("--set", action="append", default=[], metavar="FIELD=V,V..",
                        help="values of a field of the machine, as nodes=1,2,4 or costs.trap=0,250")
    parser.add_argument("--images", nargs="+", default=[], metavar="IMAGE",
                        help="the programs, each for all nodes: ELF, or else flat bytes")
    parser.add_argument("--base", metavar="MACHINE", help="a description with the other fields")
    parser.add_argument("--shared-bytes", type=int, metavar="N",
                        help="how large shared memory is, whatever block_bytes is (as in the base)")
    parser.add_argument("--columns", metavar="NAME,NAME..", default=",".join(COLUMNS),
                        help="only these columns, in this order")
    parser.add_argument("--jobs", type=int, default=1, metavar="N", help="runs at once (1)")
    parser.add_argument("--budget", type=int, metavar="B", help="no event at or past this cycle")
    parser.add_argument("--timeout", type=float, metavar="SECONDS", help="for each run")
    parser.add_argument("--log", default="sweep.log", metavar="FILE",
                        help="where done runs are kept (sweep.log)")
    parser.add_argument("--dask", metavar="ADDRESS", help="runs on the Dask cluster there")
    parser.add_argument("--csv", metavar="STUDY", help="runs nothing: plots the rows of this file")
    parser.add_argument("--plot", nargs="+", metavar="X=..",
                        help="X=COLUMN Y=COLUMN BY=COLUMN: an SVG, to --svg or standard output")
    parser.add_argument("--svg", metavar="FILE", help="where the plot of a sweep goes")
    add_program(parser)
    words = parser.parse_args()
    words.set = [read_setting(text) for text in words.set]
    words.columns = read_columns(words.columns)
    return words


def read_rows(path):
    text = read_bytes(path).decode("utf-8", "replace")
    rows = list(csv.DictReader(text.splitlines()))
    if not rows or "image" not in rows[0]:
        raise ToolError(f"{name_of(path)} is no study of this tool")
    return rows


def main():
    words = words_of()
    if words.csv:
        if not words.plot:
            raise ToolError("--csv needs --plot")
        drawn = plot_of(read_rows(words.csv), words)
    else:
        if not words.images:
            raise ToolError("which programs? --images names them")
        if words.plot and not words.svg:
            raise ToolError("--plot of a sweep needs --svg FILE, since rows go to standard output")
        words.wwt = program_of(words.wwt)
        rows = sweep(words, runs_of(words))
        if not words.plot:
            return
        drawn = plot_of(rows, words)
    with open_output(words.svg or "-") as file:
        file.write(drawn)


if __name__ == "__main__":
    call(main)
