#!/usr/bin/env python3
"""Turns a report with event lines into a timeline that Perfetto and chrome://tracing open.

    tools/timeline.py [REPORT] > timeline.json

Nothing is read but the report, and it is written as it is read. A cycle of the machine is shown as
a microsecond; `cycle` and `cycles` among the arguments of a slice say when it begins and how long
it takes. Each node is a process with three tracks:

- processor: running, waiting for which block (with kind, home, pc, and which nodes had the block
  when the request came to the home), in the barrier, stopped and why. Its steps stand inside, each
  up to the next one, as instructions with what they loaded or stored.
- messages: each message that the node handled. A cycle is shared out among the messages of it.
- traps: how long each directory trap keeps the node busy. A trap begins when the one before it has
  ended.

An arrow leads from the event that sent a message to the event that handled it. A message that was
never handled has none, nor has one whose other end isn't shown.
"""
import functools
import json
import sys

from wwt_code import is_annotation, text_of
from wwt_tool import add_input, call, parser_of
from wwt_trace import Waits, deed_text, open_report

PROCESSOR, MESSAGES, TRAPS = 1, 2, 3
TRACKS = ((PROCESSOR, "processor"), (MESSAGES, "messages"), (TRAPS, "traps"))
BUFFER = 20000  # pieces that are written at once


class Writer:
    """Writes pieces of a timeline as they come."""

    def __init__(self, stream):
        self.stream, self.pieces, self.begun = stream, [], False

    def add(self, piece):
        self.pieces.append(piece)
        if len(self.pieces) >= BUFFER:
            self.flush()

    def flush(self):
        if self.pieces:
            self.stream.write(",\n" if self.begun else '{"traceEvents":[\n')
            self.stream.write(",\n".join(self.pieces))
            self.begun, self.pieces = True, []

    def end(self):
        self.flush()
        self.stream.write("\n]}\n" if self.begun else '{"traceEvents":[]}\n')


def slice_of(node, track, name, begin, length, args):
    return json.dumps({"ph": "X", "pid": node, "tid": track, "name": name, "ts": begin,
                       "dur": length, "args": args})


def arrow_end(kind, node, track, time, source, sequence):
    binding = ',"bp":"e"' if kind == "f" else ""
    return (f'{{"ph":"{kind}","pid":{node},"tid":{track},"name":"message","cat":"message",'
            f'"ts":{time},"id":"{source}.{sequence}"{binding}}}')


@functools.lru_cache(maxsize=None)
def step_texts(pc, word):
    """What a step's piece says of its place: the name, and the first of its arguments."""
    told = "" if word is None else f'"word":"0x{word:08x}",'
    return text_of(word), f'"pc":"0x{pc:08x}",{told}'


class Processor:
    """What a processor does. A state is written where it begins and where it ends, so that its
    steps, which are written when the next one begins, stand between."""

    def __init__(self, node, writer, begin, steps):
        self.node, self.writer, self.begin, self.steps = node, writer, begin, steps
        self.state, self.since, self.is_open, self.args = None, 0, False, {}
        self.step = None

    def open(self):
        if self.state and not self.is_open:
            self.is_open = True
            at = max(self.since, self.begin)
            self.writer.add(f'{{"ph":"B","pid":{self.node},"tid":{PROCESSOR},'
                            f'"name":{json.dumps(self.state)},"ts":{at}}}')

    def close_step(self, time):
        step, self.step = self.step, None
        if step is None or step.time < self.begin:
            return
        if not self.is_open:
            self.open()
        name, args = step_texts(step.pc, step.word)
        did = f'"did":"{deed_text(step.deed)}",' if step.deed else ""
        begin, length = step.time, time - step.time
        self.writer.add(
            f'{{"ph":"X","pid":{self.node},"tid":1,"name":"{name}","ts":{begin},"dur":{length},'
            f'"args":{{{args}{did}"cycle":{begin},"cycles":{length}}}}}')

    def turn(self, time, state, args=None):
        """From this time on the processor does something else. None ends the timeline."""
        if state == self.state:
            return
        if self.step:
            self.close_step(time)
        if self.state and time > self.begin:
            self.open()
            told = json.dumps({**self.args, "cycle": self.since, "cycles": time - self.since})
            self.writer.add(f'{{"ph":"E","pid":{self.node},"tid":{PROCESSOR},"ts":{time},'
                            f'"args":{told}}}')
        self.state, self.since, self.is_open, self.args = state, time, False, args or {}

    def take_step(self, event):
        if self.state != "running":
            self.turn(event.time, "running")
        if self.steps:
            if self.step:
                self.close_step(event.time)
            self.step = event


def wait_args(wait):
    kind = wait.kind + (" by check-out" if is_annotation(wait.word) else "")
    return {"kind": kind, "block": f"0x{wait.block:08x}", "home": wait.home,
            "pc": f"0x{wait.pc:08x}", "instruction": text_of(wait.word), "had by": wait.had}


class Timeline:
    """Turns events into pieces, one event after another."""

    def __init__(self, stream, begin, nodes, steps):
        self.writer = Writer(stream)
        self.begin, self.nodes, self.steps = begin, nodes, steps
        self.processors, self.busy, self.sent = {}, {}, {}
        self.group, self.waits, self.last = [], Waits(), 0

    def shows(self, node):
        return self.nodes is None or node in self.nodes

    def processor(self, node):
        found = self.processors.get(node)
        if found is None:
            found = self.processors[node] = Processor(node, self.writer, self.begin, self.steps)
        return found

    def handle(self, event):
        if self.group and (event.pc is not None or event.time != self.group[0].time
                           or event.node != self.group[0].node):
            self.end_group()
        self.last = event.time
        if event.pc is not None:
            if self.nodes is None or event.node in self.nodes:
                self.handle_step(event)
            elif event.sends:
                self.waits.handle(event)
        else:
            self.group.append(event)

    def handle_step(self, event):
        processor = self.processor(event.node)
        processor.take_step(event)
        if not event.sends and (event.deed is None or event.deed[0] != "stop"):
            return
        self.waits.handle(event)
        self.send(event, PROCESSOR, event.time)
        if event.deed and event.deed[0] == "stop":
            processor.turn(event.time + 1, f"stopped: {event.deed[1]}")
        elif event.asks():
            block = event.asks().block
            processor.turn(event.time + 1, f"waiting for 0x{block:08x}")
        elif event.sends[0].body == "Arrive":
            processor.turn(event.time + 1, "in the barrier")

    def send(self, event, track, time):
        """Keeps where the arrows of an event begin, until their messages are handled."""
        if event.time >= self.begin:
            for send in event.sends:
                self.sent[event.node, send.sequence] = time, track

    def end_group(self):
        """Writes the messages of one node and cycle, side by side."""
        count = len(self.group)
        for number, event in enumerate(self.group):
            begin = 1000 * number // count
            length = 1000 * (number + 1) // count - begin
            self.handle_message(event, event.time + begin / 1000 if begin else event.time,
                                length / 1000 if length < 1000 else 1)
        self.group = []

    def handle_message(self, event, begin, length):
        ended = self.waits.handle(event)
        arrow = self.sent.pop((event.source, event.sequence), None)
        if not self.shows(event.node):
            return
        processor = self.processor(event.node)
        if ended:
            processor.args = wait_args(ended)
            processor.turn(event.time, "running")
        elif event.body == "Go" and processor.state == "in the barrier":
            processor.turn(event.time, "running")
        if event.trap:
            self.add_trap(event)
        if event.time < self.begin:
            return
        args = {"from": event.source, "number": event.sequence, "cycle": event.time}
        if event.block is not None:
            args["block"] = f"0x{event.block:08x}"
        if event.deed:
            args["did"] = deed_text(event.deed)
        name = f"{event.body} from {event.source}"
        self.writer.add(slice_of(event.node, MESSAGES, name, begin, length, args))
        self.send(event, MESSAGES, begin)
        if arrow and self.shows(event.source):
            for end in (arrow_end("s", event.source, arrow[1], arrow[0], event.source,
                                  event.sequence),
                        arrow_end("f", event.node, MESSAGES, begin, event.source, event.sequence)):
                self.writer.add(end)

    def add_trap(self, event):
        begin = max(self.busy.get(event.node, 0), event.time)
        end = self.busy[event.node] = begin + event.trap
        if end > self.begin:
            shown = max(begin, self.begin)
            args = {"cause": event.body, "from": event.source, "block": f"0x{event.block:08x}",
                    "cycle": begin, "cycles": event.trap}
            self.writer.add(slice_of(event.node, TRAPS, "trap", shown, end - shown, args))

    def end(self):
        if self.group:
            self.end_group()
        for node, wait in self.waits.open.items():
            if self.shows(node):
                self.processors[node].args = wait_args(wait)
        for processor in self.processors.values():
            processor.turn(self.last + 1, None)
        for node in self.processors:
            self.name("process_name", node, None, {"name": f"node {node}"})
            self.name("process_labels", node, None, {"labels": "1 us is 1 cycle"})
            for track, name in TRACKS:
                self.name("thread_name", node, track, {"name": name})
        self.writer.end()

    def name(self, kind, node, track, args):
        self.writer.add(json.dumps({"ph": "M", "pid": node, "name": kind, "args": args,
                                    **({"tid": track} if track else {})}))


def words_of():
    parser = parser_of(__doc__)
    add_input(parser)
    parser.add_argument("--from", type=int, default=0, metavar="CYCLE", dest="begin",
                        help="nothing before this cycle")
    parser.add_argument("--to", type=int, metavar="CYCLE", dest="end",
                        help="nothing after this cycle")
    parser.add_argument("--node", type=int, action="append", metavar="NODE", dest="nodes",
                        help="this node alone; may be given several times")
    parser.add_argument("--no-steps", action="store_true",
                        help="no instructions: states, messages and traps alone")
    return parser.parse_args()


def main():
    words = words_of()
    report = open_report(words.input)
    nodes = set(words.nodes) if words.nodes else None
    timeline = Timeline(sys.stdout, words.begin, nodes, not words.no_steps)
    handle, end = timeline.handle, words.end
    for event in report.events():
        if end is not None and event.time > end:
            break
        handle(event)
    else:
        report.warn_of_end()
    timeline.end()


if __name__ == "__main__":
    call(main)
