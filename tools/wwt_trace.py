"""Reads what `wwt run` writes: the lines of a report, and with --trace its events.

The lines are those of docs/formats.md, The report and Event lines. Each fact about them that the
tools need stands here and nowhere else.
"""
import re

from wwt_tool import ToolError, lines_of, name_of, warn

COUNTERS = ("steps", "messages", "done", "hits", "misses", "upgrades", "replaced", "checkins",
            "invs", "traps", "trap_cycles", "barriers", "stray", "sent")
HEAD = ("outcome", "events", "time", "quanta")
SHARED = 0x80000000  # where shared memory begins
REQUESTS = {"GetS": "read", "GetX": "write", "GetX+": "upgrade"}
GRANTS = ("DataS", "DataX")
# what goes to the directory at a block's home
TO_HOME = ("GetS", "GetX", "GetX+", "PutS", "PutX", "InvAck", "Wake")
EVENT_WITHOUT_BLOCK = ("Arrive", "Leave", "Go")


class Send:
    """A message that an event sends."""
    __slots__ = ("to", "body", "block", "time", "sequence")

    def __init__(self, to, body, block, time, sequence):
        self.to, self.body, self.block = to, body, block
        self.time, self.sequence = time, sequence


class Event:
    """An event line. A step has a pc, and a word where it has one; a message has a source, a
    sequence, a body, a block and as many bytes as `size` says. `deed` is None, ('load', address,
    value), ('store', address, width, value) or ('stop', cause); `trap` is the cycles of a directory
    trap, or 0."""
    __slots__ = ("time", "node", "pc", "word", "source", "sequence", "body", "block", "size",
                 "deed", "trap", "sends")

    def __init__(self, time, node):
        self.time, self.node = time, node
        self.pc = self.word = self.source = self.sequence = self.body = self.block = None
        self.deed = None
        self.size = self.trap = 0
        self.sends = ()

    def asks(self):
        """The request that a step sends before its processor waits, or None."""
        for send in self.sends:
            if send.body in REQUESTS:
                return send
        return None

    def is_granted(self):
        """Whether this is a block's coming that the processor waited for: a stray one goes back to
        its home at once."""
        return self.body in GRANTS and not any(
            send.block == self.block and send.body.startswith("Put") for send in self.sends)


def take_body(words, at):
    """The kind of a message, its block, how many bytes it has, and where the words after it
    begin."""
    body = words[at]
    if body in EVENT_WITHOUT_BLOCK:
        return body, None, 0, at + 1
    block, at = int(words[at + 1], 16), at + 2
    if at < len(words) and len(words[at]) >= 32:
        return body, block, len(words[at]) // 2, at + 1
    return body, block, 0, at


def take_deed(words, at):
    """What a processor did, and where the words after it begin."""
    kind = words[at]
    if kind == "load":
        return ("load", int(words[at + 1], 16), int(words[at + 2], 16)), at + 3
    if kind == "store":
        number = int(words[at + 2])
        return ("store", int(words[at + 1], 16), number, int(words[at + 3], 16)), at + 4
    if kind == "stop":
        end = at + 1
        while end < len(words) and words[end] not in ("trap", ">"):
            end += 1
        return ("stop", " ".join(words[at + 1:end])), end
    return None, at


def take_sends(words, at):
    sends = []
    while at < len(words):
        if words[at] != ">":
            raise ValueError
        body, block, _, after = take_body(words, at + 2)
        if words[after] != "at" or words[after + 2][0] != "#":
            raise ValueError
        sends.append(Send(int(words[at + 1]), body, block, int(words[after + 1]),
                          int(words[after + 2][1:])))
        at = after + 3
    return sends


def read_event(words):
    """The event of a line's words. ValueError or IndexError where they are none."""
    event = Event(int(words[1]), int(words[2]))
    if words[3] == "step":
        event.pc, at = int(words[4], 16), 5
        if len(words) > 5 and words[5][:2] == "0x":
            event.word, at = int(words[5], 16), 6
    elif words[3] == "from":
        event.source, event.sequence = int(words[4]), int(words[5][1:])
        event.body, event.block, event.size, at = take_body(words, 6)
    else:
        raise ValueError
    if at < len(words):
        event.deed, at = take_deed(words, at)
        if at < len(words) and words[at] == "trap":
            event.trap, at = int(words[at + 1]), at + 2
        if at < len(words):
            event.sends = take_sends(words, at)
    return event


def deed_text(deed):
    """What a processor did, as its line says it."""
    if deed[0] == "load":
        return f"load 0x{deed[1]:08x} 0x{deed[2]:08x}"
    if deed[0] == "store":
        return f"store 0x{deed[1]:08x} {deed[2]} 0x{deed[3]:08x}"
    return f"stop {deed[1]}"


class Node:
    """What a report says of a node at the end."""

    def __init__(self, number, state, pc, clock):
        self.number, self.state, self.pc, self.clock = number, state, pc, clock
        self.counts, self.output = {}, b""


def read_counts(words):
    names, numbers = words[::2], words[1::2]
    if tuple(names) != COUNTERS:
        raise ValueError
    return dict(zip(names, map(int, numbers)))


NODE = re.compile(r"node (\d+) (.+) pc 0x([0-9a-f]{8}) clock (\d+)$")


class Report:
    """The lines of a report but for its events, which `events` yields one after another."""

    def __init__(self, lines, name="the input"):
        self.lines, self.name = lines, name
        self.outcome = self.time = self.quanta = self.count = None
        self.nodes, self.total, self.seen = [], None, 0

    def events(self):
        """The events in their order. The other lines are kept in passing."""
        number = 0
        for line in self.lines:
            number += 1
            words = line.split()
            try:
                if words[0] == "event":
                    self.seen += 1
                    if len(words) == 6 and words[3] == "step":
                        # most lines are so, and are read without further calls
                        event = Event(int(words[1]), int(words[2]))
                        event.pc, event.word = int(words[4], 16), int(words[5], 16)
                        yield event
                    else:
                        yield read_event(words)
                else:
                    self.take_line(words, line.rstrip("\n"))
            except (ValueError, IndexError):
                raise ToolError(self.fault(number, line)) from None

    def fault(self, number, line):
        text = line.strip()
        shown = text if len(text) <= 60 else text[:57] + "..."
        return f"{self.name}, line {number} is no line of a report: '{shown}'"

    def take_line(self, words, line):
        first = words[0]
        if first in HEAD:
            self.take_head(first, words)
        elif first == "node":
            number, state, pc, clock = NODE.match(line).groups() if NODE.match(line) else ()
            if int(number) != len(self.nodes):
                raise ValueError
            self.nodes.append(Node(int(number), state, int(pc, 16), int(clock)))
        elif first == "count":
            self.nodes[int(words[1])].counts = read_counts(words[2:])
        elif first == "out":
            output = bytes.fromhex(words[3] if len(words) > 3 else "")
            if len(output) != int(words[2]):
                raise ValueError
            self.nodes[int(words[1])].output = output
        elif first == "total":
            self.total = read_counts(words[1:])
        elif first not in ("regs", "mem", "shared"):
            raise ValueError

    def take_head(self, first, words):
        if first == "outcome":
            self.outcome = words[1]
        else:
            setattr(self, "count" if first == "events" else first, int(words[1]))

    def read_to_end(self):
        """Reads all lines, and says what is missing."""
        for _ in self.events():
            pass
        for name in ("outcome", "count", "time", "quanta"):
            if getattr(self, name) is None:
                line = "events" if name == "count" else name
                raise ToolError(f"{self.name} is no report: it has no line '{line}'")
        if self.total is None:
            raise ToolError(f"{self.name} ends before its line 'total'")
        for node in self.nodes:
            if not node.counts:
                raise ToolError(f"{self.name} has no line 'count {node.number}'")
        return self

    def warn_of_end(self):
        """After its events: says where there were none, or where the input was cut off."""
        if not self.seen:
            warn(f"{self.name} has no events; `wwt run --trace` writes them")
        elif self.total is None:
            warn(f"{self.name} ends before its line 'total'; what follows is of a first part")


def open_report(path):
    return Report(lines_of(path), name_of(path))


class Wait:
    """A processor's wait for a block, from the step that asked for it."""
    __slots__ = ("node", "kind", "block", "home", "pc", "word", "begun", "had", "sequence")

    def __init__(self, event, send):
        self.node, self.pc, self.word, self.begun = event.node, event.pc, event.word, event.time
        self.kind, self.block, self.home = REQUESTS[send.body], send.block, send.to
        self.sequence, self.had = send.sequence, ""


class Copies:
    """Which nodes have a copy of which block, by the events so far."""

    def __init__(self):
        self.readers, self.writers = {}, {}

    def handle(self, event):
        """What an event makes of the copies at its node. Only messages and sends change them."""
        for send in event.sends:
            if send.body in ("PutS", "PutX", "GetX+"):
                self.drop(event.node, send.block)
        if event.body == "Inv":
            self.drop(event.node, event.block)
        elif event.body in GRANTS and event.is_granted():
            if event.body == "DataX":
                self.writers[event.block] = event.node
            else:
                self.readers.setdefault(event.block, set()).add(event.node)

    def drop(self, node, block):
        if self.writers.get(block) == node:
            del self.writers[block]
        self.readers.get(block, set()).discard(node)

    def text(self, block, but):
        """Which other nodes have a copy of the block, in words."""
        writer = self.writers.get(block)
        if writer is not None and writer != but:
            return f"node {writer} to write"
        readers = sorted(self.readers.get(block, set()) - {but})
        if not readers:
            return "nobody"
        nodes = ", ".join(map(str, readers))
        return f"node{'s' * (len(readers) > 1)} {nodes} to read"


class Waits:
    """The waits for blocks, told from the events: each begins with the step that asks, and ends
    with the message that brings the block."""

    def __init__(self):
        self.open, self.copies = {}, Copies()

    def handle(self, event):
        """The wait that this event ends, or None. Where it begins one, that stands in `open`."""
        ended = None
        if event.pc is not None:
            send = event.asks()
            if send:
                self.open[event.node] = Wait(event, send)
        elif event.body in GRANTS:
            if event.is_granted():
                ended = self.open.pop(event.node, None)
        elif event.body in REQUESTS:
            wait = self.open.get(event.source)
            if wait and wait.block == event.block:
                wait.had = self.copies.text(event.block, event.source)
        if event.sends or event.body:
            self.copies.handle(event)
        return ended
