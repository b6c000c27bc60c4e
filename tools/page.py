#!/usr/bin/env python3
"""Makes one HTML file of a trace: what each node does over time, and an arrow for each message.

    wwt run --trace stencil.json | tools/page.py --image stencil.elf >stencil.html

The page needs nothing from elsewhere: any browser opens it, also without a network. A lane for each
node shows when it ran, waited for which block, stood in the barrier or trapped. Below stands the
directory entry of the block that is chosen; that it lists readers is known by --machine alone, from
the machine's `pointers`. A click or a key goes to the next event of a block.

All messages from --from to --to are in the page. Of steps there are as many as --steps allows,
the first ones, and those that ask for a block or stop. Where there are more messages than the page
shows well at once, it opens with a first part of them, and the cycles can be chosen in it.
"""
import json
import os
import sys

from check_machine import field_faults, read_description
from wwt_code import Images, add_images, text_of
from wwt_directory import Entries
from wwt_machine import value_of
from wwt_tool import ToolError, add_input, call, parser_of, warn
from wwt_trace import SHARED, Waits, deed_text, open_report

AT_ONCE = 100000  # events that a page shows at once
HERE = os.path.dirname(os.path.abspath(__file__))


class Numbers:
    """Gives each of some values a number, in the order in which they come."""

    def __init__(self):
        self.values, self.numbers = [], {}

    def of(self, value):
        number = self.numbers.get(value)
        if number is None:
            number = self.numbers[value] = len(self.values)
            self.values.append(value)
        return number


class States:
    """What the processors do, as [node, begin, end, kind, text]."""

    def __init__(self):
        self.done, self.now = [], {}

    def turn(self, node, time, kind, text):
        if node in self.now:
            begin, before, told = self.now[node]
            if before == kind and kind == "running":
                return
            self.done.append([node, begin, time, before, told])
        self.now[node] = time, kind, text

    def end(self, last):
        for node in self.now:
            begin, kind, text = self.now[node]
            self.done.append([node, begin, last + 1, kind, text])
        return self.done

    def handle(self, event, ended):
        """The state that an event brings its node into, where it brings it into another one."""
        if event.pc is not None:
            if event.node not in self.now:
                self.turn(event.node, event.time, "running", "")
            asked = event.asks() if event.sends else None
            if event.deed and event.deed[0] == "stop":
                self.turn(event.node, event.time + 1, "stopped", event.deed[1])
            elif asked:
                text = f"{asked.body} 0x{asked.block:08x}"
                self.turn(event.node, event.time + 1, "waiting", text)
            elif event.sends and event.sends[0].body == "Arrive":
                self.turn(event.node, event.time + 1, "barrier", "barrier")
        elif ended or event.body == "Go" and self.now.get(event.node, ("", ""))[1] == "barrier":
            self.turn(event.node, event.time, "running", "")


class Page:
    """Gathers what a page shows, event after event."""

    def __init__(self, begin, end, most, pointers):
        self.begin, self.end, self.most = begin, end, most
        self.events, self.states, self.traps, self.entries = [], States(), [], {}
        self.texts, self.blocks, self.homes, self.uses = Numbers(), Numbers(), {}, {}
        self.waits, self.directory = Waits(), Entries(pointers)
        self.sent, self.busy, self.steps, self.left_out = {}, {}, 0, 0
        self.block_bytes, self.nodes, self.last = 0, 0, 0

    def handle(self, event):
        ended = self.waits.handle(event) if event.sends or event.body else None
        self.states.handle(event, ended)
        self.nodes = max(self.nodes, event.node + 1)
        self.last = event.time
        if event.pc is None:
            self.handle_message(event)
        elif event.time >= self.begin:
            self.handle_step(event)
        for send in event.sends:
            self.sent[event.node, send.sequence] = event.time

    def handle_step(self, event):
        asked = event.asks() if event.sends else None
        stops = event.deed is not None and event.deed[0] == "stop"
        if self.steps >= self.most and not asked and not stops:
            self.left_out += 1
            return
        self.steps += 1
        block = asked.block if asked else self.block_of(event.deed)
        self.add(event, event.pc, text_of(event.word), block, [])

    def handle_message(self, event):
        sent = self.sent.pop((event.source, event.sequence), -1)
        self.block_bytes = max(self.block_bytes, event.size)
        entry = self.directory.handle(event)
        if entry:
            block = self.blocks.of(event.block)
            self.homes[block] = event.node
            states, text = self.entries.setdefault(block, []), entry.text()
            if not states or states[-1][1] != text:
                states.append([event.time, text])
        if event.trap:
            begin = max(self.busy.get(event.node, 0), event.time)
            self.busy[event.node] = begin + event.trap
            self.traps.append([event.node, begin, begin + event.trap])
        if event.time >= self.begin:
            self.add(event, -1, event.body, event.block, [event.source, sent, event.trap])

    def block_of(self, deed):
        """The block of shared memory that a step read or wrote."""
        if deed is None or deed[0] == "stop" or deed[1] < SHARED or not self.block_bytes:
            return None
        return deed[1] - deed[1] % self.block_bytes

    def add(self, event, pc, text, block, rest):
        deed = deed_text(event.deed) if event.deed else 0
        number = -1
        if block is not None:
            number = self.blocks.of(block)
            self.uses[number] = self.uses.get(number, 0) + 1
        self.events.append([event.time, event.node, pc, self.texts.of(text), deed, number, *rest])

    def window(self):
        """The cycles that the page opens with: all, or those of the first events it shows well."""
        begin = self.events[0][0] if self.events else 0
        if self.begin == 0:
            begin = 0
        last = self.events[min(AT_ONCE, len(self.events)) - 1][0] if self.events else 0
        return begin, last + 1

    def data(self, name, images, report):
        begin, end = self.window()
        places = {}
        if images.sources:
            pcs = {event[2]: event[1] for event in self.events if event[2] >= 0}
            images.find_lines({(node, pc) for pc, node in pcs.items()})
            places = {pc: ", " + images.place(node, pc) for pc, node in pcs.items()}
        summary = f"{report.seen} events up to cycle {self.last}, {self.nodes} nodes"
        if self.left_out:
            summary += (f"; {self.left_out} further steps are left out: "
                        "choose others by --from and --to")
        return {
            "name": name, "summary": summary, "nodes": self.nodes, "last": self.last,
            "from": begin, "to": end, "events": self.events, "states": self.states.end(self.last),
            "traps": self.traps, "texts": self.texts.values, "blocks": self.blocks.values,
            "homes": self.homes, "entries": self.entries, "places": places,
            "order": sorted(self.uses, key=lambda number: -self.uses[number]),
            "names": [images.object_at(block) for block in self.blocks.values],
        }


def page_of(data):
    """The page's text. Whatever stands in the data can't end its script."""
    with open(os.path.join(HERE, "page.html"), encoding="utf-8") as file:
        text = file.read()
    told = json.dumps(data, separators=(",", ":")).replace("<", "\\u003c")
    return text.replace("/*DATA*/", told, 1)


def pointers_of(path):
    """How many readers an entry of a described machine can list; none without a description."""
    if path is None:
        return 0
    description = read_description(path)
    faults = field_faults(description)
    if faults:
        raise ToolError(f"{path}: {faults[0]}")
    return value_of(description, "pointers")


def words_of():
    parser = parser_of(__doc__)
    add_input(parser)
    add_images(parser)
    parser.add_argument("--machine", metavar="MACHINE",
                        help="the description that was run, for its `pointers`")
    parser.add_argument("--from", type=int, default=0, metavar="CYCLE", dest="begin",
                        help="no event before this cycle")
    parser.add_argument("--to", type=int, metavar="CYCLE", dest="end",
                        help="no event after this cycle")
    parser.add_argument("--steps", type=int, default=AT_ONCE, metavar="N",
                        help=f"the most steps in the page ({AT_ONCE})")
    return parser.parse_args()


def main():
    words = words_of()
    images, report = Images(words.images), open_report(words.input)
    page = Page(words.begin, words.end, words.steps, pointers_of(words.machine))
    for event in report.events():
        if words.end is not None and event.time > words.end:
            break
        page.handle(event)
    else:
        report.warn_of_end()
    if page.left_out:
        warn(f"{page.left_out} steps are left out; choose others by --from and --to")
    name = "wwt" if words.input == "-" else os.path.basename(words.input)
    sys.stdout.write(page_of(page.data(name, images, report)))


if __name__ == "__main__":
    call(main)
