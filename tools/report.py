#!/usr/bin/env python3
"""Tells a report of `wwt run` or `wwt flat` as a person would: how the run ended, what was printed,
and a table of the nodes.

    wwt run stencil.json | tools/report.py --image stencil.elf

The columns of the table: instructions finished, cycles, instructions a cycle; accesses to shared
memory (check-outs that wait among them) and the part of them that missed (upgrades among them);
cycles of directory traps and their share of the node's cycles; cycles that the node's processor
waited for blocks, where the report has events. A node's cycles are its clock at the end.
"""
import csv
import json
import sys

from wwt_code import Images, add_images
from wwt_tool import add_input, call, parser_of
from wwt_trace import COUNTERS, Waits, open_report

OUTCOMES = {
    "finished": "The run finished: every node ended",
    "budget": "The run was cut off by its budget of cycles: raise `budget`, or see where nodes are",
    "events": "The run was cut off: a node has handled as many events as event_limit allows",
    "stalled": "The run stalled: nothing can happen any more, but some node still waits",
}
CAUSES = {
    "illegal": "met a word that is no instruction",
    "fetch": "ran out of private memory",
    "target": "jumped to an address that is no multiple of 4",
    "address": "used an address in no memory",
    "misaligned": "used an address that is no multiple of the width",
    "call": "made an environment call that there isn't",
    "break": "met an ebreak",
    "exit": "ended itself with the code",
}
STATES = {"running": "was running", "barrier": "stood in the barrier",
          "waiting": "waited for the block"}
COLUMNS = ("node", "done", "cycles", "ipc", "accesses", "miss_rate", "trap_cycles", "trap_share",
           "waited")
TITLES = ("node", "instructions", "cycles", "per cycle", "shared", "missed", "trap cycles",
          "trapping", "waited")


def sentence(report):
    """The outcome in a sentence, with the nodes that didn't end well."""
    text = OUTCOMES.get(report.outcome, f"The run ended as '{report.outcome}'")
    odd = [node for node in report.nodes if node.state != "exit 0"]
    if report.outcome == "finished" and report.nodes:
        badly = f", but {len(odd)} of {len(report.nodes)} badly"
        text += badly if odd else " by its own exit 0"
    return f"{text}. {report.count} events, {report.time} cycles, {report.quanta} quanta."


def fate(node, images):
    """Where a node that didn't exit with 0 is, and why."""
    word, _, rest = node.state.partition(" ")
    what = CAUSES.get(word) or STATES.get(word) or node.state
    place = images.place(node.number, node.pc)
    where = f"pc 0x{node.pc:08x}" + (f", {place}" if place else "")
    return f"node {node.number} {what}{' ' + rest if rest else ''} at {where}"


def row_of(name, counts, cycles, waited):
    accesses = counts["hits"] + counts["misses"] + counts["upgrades"]
    missed = counts["misses"] + counts["upgrades"]
    return {
        "node": name, "done": counts["done"], "cycles": cycles,
        "ipc": round(counts["done"] / cycles, 3) if cycles else 0,
        "accesses": accesses, "miss_rate": round(missed / accesses, 4) if accesses else 0,
        "trap_cycles": counts["trap_cycles"],
        "trap_share": round(counts["trap_cycles"] / cycles, 4) if cycles else 0,
        "waited": waited,
    }


def read(path):
    """The report of a file, and the cycles that each node waited: None where it has no events."""
    report, waits, waited = open_report(path), Waits(), {}
    for event in report.events():
        if event.sends or event.body:
            ended = waits.handle(event)
            if ended:
                cycles = event.time - ended.begun
                waited[ended.node] = waited.get(ended.node, 0) + cycles
    report.read_to_end()
    for wait in waits.open.values():
        waited[wait.node] = waited.get(wait.node, 0) + max(report.time - wait.begun, 0)
    return report, waited if report.seen else None


def rows_of(report, waited):
    rows = [row_of(node.number, node.counts, node.clock,
                   None if waited is None else waited.get(node.number, 0))
            for node in report.nodes]
    cycles = sum(node.clock for node in report.nodes)
    if report.nodes:
        waits = None if waited is None else sum(waited.values())
        rows.append(row_of("all", report.total, cycles, waits))
    return rows


def cells_of(row):
    shown = dict(row, miss_rate=f"{row['miss_rate']:.2%}", trap_share=f"{row['trap_share']:.2%}",
                 ipc=f"{row['ipc']:.3f}", waited="-" if row["waited"] is None else row["waited"])
    return [str(shown[column]) for column in COLUMNS]


def print_table(rows):
    table = [TITLES, *map(cells_of, rows)]
    widths = [max(len(line[at]) for line in table) for at in range(len(COLUMNS))]
    for line in table:
        print("  ".join(cell.rjust(width) for cell, width in zip(line, widths)))


def text_of_output(output):
    """Bytes as text: what isn't printable stands as an escape."""
    text = output.decode("utf-8", "backslashreplace")
    return "".join(one if one.isprintable() or one in "\n\t" else f"\\x{ord(one):02x}"
                   for one in text)


def print_report(report, rows, images):
    print(sentence(report))
    for node in report.nodes:
        if node.state != "exit 0":
            print(fate(node, images))
    for node in report.nodes:
        if node.output:
            print(f"\nnode {node.number} printed {len(node.output)} bytes:")
            text = text_of_output(node.output)
            print(text if not text.endswith("\n") else text[:-1])
    print()
    if rows:
        print_table(rows)
        if rows[0]["waited"] is None:
            print("cycles waited are known where the report has events (--trace)")
    print("\n" + ", ".join(f"{name} {report.total[name]}" for name in COUNTERS))


def facts(report, rows, images):
    """The report as one object of JSON."""
    nodes = [dict(row, state=node.state, pc=node.pc, place=images.place(node.number, node.pc),
                  output=node.output.hex(), text=text_of_output(node.output), counts=node.counts)
             for node, row in zip(report.nodes, rows)]
    return {"outcome": report.outcome, "sentence": sentence(report), "events": report.count,
            "time": report.time, "quanta": report.quanta, "nodes": nodes, "total": report.total}


def print_csv(report, rows, images):
    writer = csv.writer(sys.stdout, lineterminator="\n")
    writer.writerow([*COLUMNS, "state", "pc", "place",
                     *(name for name in COUNTERS if name not in COLUMNS)])
    for row, node in zip(rows, [*report.nodes, None]):
        counts = node.counts if node else report.total
        end = [""] * 3
        if node:
            end = [node.state, f"0x{node.pc:08x}", images.place(node.number, node.pc)]
        writer.writerow([*(row[column] for column in COLUMNS), *end,
                         *(counts[name] for name in COUNTERS if name not in COLUMNS)])


def main():
    parser = parser_of(__doc__)
    add_input(parser, "a report of `wwt run`, `wwt flat` or `wwt load`")
    add_images(parser)
    form = parser.add_mutually_exclusive_group()
    form.add_argument("--csv", action="store_true", help="a row a node, as CSV")
    form.add_argument("--json", action="store_true", help="all of it as one object of JSON")
    words = parser.parse_args()
    images = Images(words.images)
    report, waited = read(words.input)
    rows = rows_of(report, waited)
    if words.json:
        json.dump(facts(report, rows, images), sys.stdout, indent=1)
        print()
    elif words.csv:
        print_csv(report, rows, images)
    else:
        print_report(report, rows, images)


if __name__ == "__main__":
    call(main)
