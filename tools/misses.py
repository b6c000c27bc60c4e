#!/usr/bin/env python3
"""Tells from a trace where processors waited for blocks of shared memory.

    wwt run --trace stencil.json | tools/misses.py --image stencil.elf
    wwt run --trace stencil.json | tools/misses.py --life 2 5
    wwt run --trace stencil.json | tools/misses.py --races --image stencil.elf

Two tables: waits by instruction, and by block. Reads, writes and upgrades (a write by a node that
had a copy to read) stand apart, and so do annotations that wait. The columns are the number of
waits, the cycles in sum, mean and greatest.
"""
from wwt_code import Images, add_images, is_annotation, text_of
from wwt_races import Races, print_races
from wwt_tool import ToolError, add_input, call, parser_of
from wwt_trace import REQUESTS, Waits, open_report


class Sum:
    """The waits of one place and kind."""
    __slots__ = ("count", "cycles", "greatest", "example")

    def __init__(self, example):
        self.count = self.cycles = self.greatest = 0
        self.example = example

    def add(self, cycles):
        self.count += 1
        self.cycles += cycles
        self.greatest = max(self.greatest, cycles)

    def cells(self):
        return [self.count, self.cycles, f"{self.cycles / self.count:.1f}", self.greatest]


def kind_of(wait):
    return wait.kind + (" (check-out)" if is_annotation(wait.word) else "")


class Tables:
    """Waits by instruction and by block. An instruction is a pc of an image: of one node, where
    each has its own."""

    def __init__(self, apart):
        self.places, self.blocks, self.apart = {}, {}, apart
        self.all = Sum(None)

    def add(self, wait, cycles):
        place = kind_of(wait), wait.pc, wait.node if self.apart else None
        block = wait.kind, wait.block
        for table, key in ((self.places, place), (self.blocks, block)):
            if key not in table:
                table[key] = Sum(wait)
            table[key].add(cycles)
        self.all.add(cycles)


def print_table(titles, rows, left):
    """Columns of numbers on the right of their place; those from `left` on are texts."""
    table = [titles, *rows]
    widths = [max(len(str(line[at])) for line in table) for at in range(len(titles))]
    for line in table:
        cells = [str(cell).ljust(width) if at == 0 or at >= left else str(cell).rjust(width)
                 for at, (cell, width) in enumerate(zip(line, widths))]
        print("  " + "  ".join(cells).rstrip())


def first_of(table, top):
    ordered = sorted(table.values(), key=lambda one: (-one.cycles, one.example.pc))
    return ordered if top == 0 else ordered[:top]


def print_open(waits):
    """The waits that had no end."""
    for wait in sorted(waits.open.values(), key=lambda one: one.node):
        print(f"node {wait.node} still waits for block 0x{wait.block:08x}, since cycle "
              f"{wait.begun}, at pc 0x{wait.pc:08x}")


def print_tables(tables, images, top):
    whole = tables.all
    if not whole.count:
        print("no processor waited for a block until it came")
        return
    print(f"{whole.cycles} cycles waited in {whole.count} waits, mean "
          f"{whole.cycles / whole.count:.1f}, greatest {whole.greatest}")
    titles = ["kind", "waits", "cycles", "mean", "greatest"]
    places = first_of(tables.places, top)
    images.find_lines({(one.example.node, one.example.pc) for one in places})
    print(f"\nby instruction, {len(places)} of {len(tables.places)}")
    own = ["node"] if tables.apart else []
    print_table(titles + own + ["pc", "instruction", "where"], [
        [kind_of(one.example), *one.cells(), *([one.example.node] if own else []),
         f"0x{one.example.pc:08x}", text_of(one.example.word),
         images.place(one.example.node, one.example.pc)] for one in places], 5)
    blocks = first_of(tables.blocks, top)
    print(f"\nby block, {len(blocks)} of {len(tables.blocks)}")
    print_table(titles + ["block", "home", "variable"], [
        [one.example.kind, *one.cells(), f"0x{one.example.block:08x}", one.example.home,
         images.object_at(one.example.block)] for one in blocks], 5)


class Life:
    """The life of one wait of a node: of the K-th, counted from 1, or of the longest."""

    def __init__(self, node, number):
        self.node, self.number, self.count = node, number, 0
        self.log, self.wait, self.kept = [], None, None

    def handle(self, event, waits, ended):
        if self.wait is None:
            if event.node == self.node and event.pc is not None and self.node in waits.open:
                self.wait, self.log = waits.open[self.node], [event]
            return
        if event.block == self.wait.block:
            self.log.append(event)
        if ended is self.wait:
            self.finish()

    def finish(self):
        self.count += 1
        length = self.log[-1].time - self.wait.begun
        longest = self.number is None and (self.kept is None or length > self.kept[0])
        if longest or self.count == self.number:
            self.kept = length, self.count, self.wait, self.log
        self.wait, self.log = None, []

    def hops(self):
        """The events that brought the block, in their order: back from the last one, each by what
        sent it, up to the request; and the request's coming to the home."""
        _, _, wait, log = self.kept
        sent = {(event.node, send.sequence): event for event in log for send in event.sends}
        chain, event = [log[-1]], log[-1]
        while event.pc is None and (event.source, event.sequence) in sent:
            event = sent[event.source, event.sequence]
            chain.append(event)
        return [event for event in log if event in chain or event is log[0]
                or (event.source, event.sequence) == (wait.node, wait.sequence)]


def tell_sends(event):
    told = [f"{send.body} to node {send.to}, there at {send.time}" for send in event.sends]
    if len(told) > 3:
        told = [*told[:2], f"and {len(told) - 2} more, the last there at {event.sends[-1].time}"]
    return ", ".join(told)


def tell_hop(event, wait, images):
    if event.pc is not None:
        place = images.place(event.node, event.pc)
        return (f"node {event.node} asks node {wait.home} to {wait.kind} block "
                f"0x{wait.block:08x}: {text_of(event.word)} at pc 0x{event.pc:08x}"
                + (f", {place}" if place else ""))
    text = f"node {event.node} gets {event.body} from node {event.source}"
    if event.trap:
        text += f", traps for {event.trap} cycles"
    if event.deed:
        text += f", and does its {event.deed[0]}"
    elif event.body in ("DataS", "DataX"):
        text += ", and goes on"
    if event.body in REQUESTS:
        text += f" (had by {wait.had})" if event.source == wait.node else ""
        if not event.sends:
            text += ", and keeps it waiting: the block's entry is busy"
    return text + (f", sends {tell_sends(event)}" if event.sends else "")


def print_life(life, images):
    if life.kept is None:
        raise ToolError(f"node {life.node} waited for a block {life.count} times in this trace")
    length, number, wait, _ = life.kept
    article = "an" if wait.kind == "upgrade" else "a"
    print(f"wait {number} of node {life.node}: {length} cycles for {article} {wait.kind}")
    before = wait.begun
    for event in life.hops():
        print(f"{event.time:>10} {'+' + str(event.time - before):>7}  "
              f"{tell_hop(event, wait, images)}")
        before = event.time


def words_of():
    parser = parser_of(__doc__)
    add_input(parser)
    add_images(parser)
    parser.add_argument("--top", type=int, default=20, metavar="N",
                        help="rows of each table, 0 for all of them (20)")
    what = parser.add_mutually_exclusive_group()
    what.add_argument("--life", nargs="+", metavar=("NODE", "K"),
                      help="tells the K-th wait of a node hop by hop, the longest without K")
    what.add_argument("--races", action="store_true",
                      help="accesses of different nodes to the same bytes, one of them a store, "
                           "that no barrier and no flag orders")
    words = parser.parse_args()
    if words.life:
        read_life(words)
    return words


def read_life(words):
    """NODE and K as numbers. A last word that is none is the input, which may stand there too."""
    if words.input == "-" and len(words.life) > 1 and not words.life[-1].isdigit():
        words.input = words.life.pop()
    if len(words.life) > 2 or not all(word.isdigit() for word in words.life):
        raise ToolError(f"--life takes NODE and K, two numbers, and not '{' '.join(words.life)}'")
    words.life = list(map(int, words.life))


def main():
    words = words_of()
    images, report = Images(words.images), open_report(words.input)
    if words.races:
        races = Races()
        for event in report.events():
            if event.deed or event.sends or event.body:
                races.handle(event)
        report.warn_of_end()
        print_races(races, images)
        return
    waits, tables = Waits(), Tables(len(images.sources) > 1)
    life = Life(*(words.life + [None])[:2]) if words.life else None
    for event in report.events():
        if not event.sends and not event.body:
            continue
        ended = waits.handle(event)
        if life:
            life.handle(event, waits, ended)
        elif ended:
            tables.add(ended, event.time - ended.begun)
    report.warn_of_end()
    if life:
        print_life(life, images)
    else:
        print_tables(tables, images, words.top)
        print_open(waits)


if __name__ == "__main__":
    call(main)
