"""The directory entries of blocks along a run, told from the events at their homes.

The states are those of docs/machine.md, The directory. What the home sends tells where its entry
goes, so that neither the number of nodes nor the size of blocks is needed. Whether an entry lists
its readers isn't told by events: that takes the machine's `pointers`.
"""
from wwt_trace import REQUESTS, TO_HOME

IDLE, COPIES, OWNED, BUSY = "Idle", "Shared", "Exclusive", "Busy"


class Entry:
    """A block's entry: its state, with a count of copies or of answers that are left, the node
    that owns it or that it is called back for, and the requests that wait. Who reads is a list as
    long as there are pointers for it, and else None."""

    def __init__(self, pointers):
        self.pointers, self.readers = pointers, None
        self.state, self.count, self.node, self.wants = IDLE, 0, None, ""
        self.waiting = []

    def text(self):
        if self.state == IDLE:
            text = "Idle"
        elif self.state == COPIES:
            text = f"Shared by {self.readers_text()}"
        elif self.state == OWNED:
            text = f"Exclusive of {self.node}"
        else:
            text = f"Busy for {self.node} to {self.wants}, {self.count} left"
        if self.waiting:
            queue = ", ".join(f"{node} to {wants}" for node, wants in self.waiting)
            text += f"; waiting: {queue}"
        return text

    def readers_text(self):
        if self.readers is None:
            return str(self.count)
        return ", ".join(f"node {node}" for node in self.readers)

    def handle(self, event):
        """What a message to the home makes of the entry."""
        asker = event.source, "read" if event.body == "GetS" else "write"
        if event.body == "GetX+" and self.state == COPIES:
            self.lose_copy(event.source)
        if event.body == "Wake" and self.waiting:
            asker = self.waiting.pop(0)
        invs = sum(send.body == "Inv" for send in event.sends)
        grants = [send for send in event.sends if send.body in ("DataS", "DataX")]
        if invs:
            self.state, self.count = BUSY, invs
            self.node, self.wants = asker
        elif grants:
            self.grant(grants[0])
        elif event.body in REQUESTS:
            self.waiting.append(asker)
        else:
            self.take_back(event)

    def grant(self, send):
        if send.body == "DataX":
            self.state, self.count, self.node = OWNED, 0, send.to
        else:
            self.add_copy(send.to)

    def add_copy(self, node):
        if self.state != COPIES:
            self.state, self.count, self.node, self.readers = COPIES, 0, None, []
        self.count += 1
        if self.readers is not None and self.count <= self.pointers:
            self.readers.append(node)
        else:
            self.readers = None

    def take_back(self, event):
        if event.body == "InvAck" and self.state == BUSY:
            self.count -= 1
        elif event.body == "PutS" and self.state == COPIES:
            self.lose_copy(event.source)
        elif event.body == "PutX" and (self.state, self.node) == (OWNED, event.source):
            self.state = IDLE

    def lose_copy(self, node):
        if self.readers is not None:
            if node not in self.readers:
                return
            self.readers.remove(node)
        self.count -= 1
        if self.count == 0:
            self.state = IDLE


class Entries:
    """The entries of all blocks of a machine with so many pointers."""

    def __init__(self, pointers=0):
        self.pointers, self.entries = pointers, {}

    def handle(self, event):
        """The entry that this event changed or left, or None where it is at no home."""
        if event.body not in TO_HOME:
            return None
        entry = self.entries.get(event.block)
        if entry is None:
            entry = self.entries[event.block] = Entry(self.pointers)
        entry.handle(event)
        return entry
