"""Finds accesses of different nodes to the same bytes of shared memory that nothing orders.

Each node has a clock for each node: how much of what that node did is known to have been done. It
learns more at a barrier, and where it loads what another node stored. An access that meets one of
another node that isn't known to have been done is a race, where one of the two is a store. A load
is looked at before what it learns: so a flag's own accesses are told, and what is done after the
flag was seen is in order.
"""
from wwt_code import width_of
from wwt_trace import GRANTS, SHARED

UNSEEN = """What this can't see: races that only another run would have, whose nodes come in
another order; and those that hide behind others, since a load that reads what another node stored
puts all that follows it in order: mend what is told, and look again."""


class Access:
    """The last access of a node to a byte: its kind, node, place, cycle and the node's clock."""
    __slots__ = ("kind", "node", "pc", "time", "clock", "known")

    def __init__(self, kind, node, pc, time, clock):
        self.kind, self.node, self.pc, self.time, self.clock = kind, node, pc, time, clock
        self.known = None


class Race:
    """All races of one pair of places."""

    def __init__(self, first, second, address):
        self.first, self.second, self.address = first, second, address
        self.count, self.addresses = 0, set()


class Cell:
    """A byte: its last store, and the loads since by their nodes."""
    __slots__ = ("store", "loads")

    def __init__(self):
        self.store, self.loads = None, {}


class Races:
    def __init__(self):
        self.cells, self.clocks, self.found = {}, {}, {}
        self.barrier, self.opened = {}, {}
        self.previous, self.spun, self.waiting = {}, set(), {}

    def clock(self, node):
        return self.clocks.setdefault(node, {node: 1})

    def learn(self, clock, other):
        for node, count in other.items():
            if clock.get(node, 0) < count:
                clock[node] = count

    def release(self, node, into):
        """What the node did so far is told to others; what it does from now on isn't."""
        clock = self.clock(node)
        self.learn(into, clock)
        clock[node] += 1

    def handle(self, event):
        deed, node = event.deed, event.node
        accesses = deed is not None and deed[0] != "stop"
        if event.pc is not None:
            if event.sends:
                self.waiting[node] = event.pc, event.word
                if event.sends[0].body in ("Arrive", "Leave"):
                    self.release(node, self.barrier)
            if accesses and deed[1] >= SHARED:
                self.access(event, event.pc, event.word)
        elif event.body in GRANTS:
            if accesses and node in self.waiting:
                self.access(event, *self.waiting[node])
        elif event.body == "Go":
            self.learn(self.clock(node), self.opened)
        elif event.sends and event.sends[0].body == "Go":
            self.opened = dict(self.barrier)

    def access(self, event, pc, word):
        kind, address = event.deed[0], event.deed[1]
        width = event.deed[2] if kind == "store" else width_of(word)
        now = Access(kind, event.node, pc, event.time, self.clock(event.node)[event.node])
        place = kind, address, pc
        if kind == "load" and self.previous.get(event.node) == place:
            self.spun.add((address, pc))
        self.previous[event.node] = place
        before = {}
        for at in range(address, address + width):
            cell = self.cells.get(at)
            if cell is None:
                cell = self.cells[at] = Cell()
            self.compare(cell, now, before)
        for earlier in before.values():
            self.add(earlier, now, address)
        if kind == "store":
            self.publish(now)

    def compare(self, cell, now, before):
        """Gathers the accesses to this byte that race with the one that is done now."""
        clock, store = self.clocks[now.node], cell.store
        if store and store.node != now.node and store.clock > clock.get(store.node, 0):
            before[id(store)] = store
        if now.kind == "load":
            cell.loads[now.node] = now
            if store and store.node != now.node:
                self.learned_from(store, before, clock)
            return
        for load in cell.loads.values():
            if load.node != now.node and load.clock > clock.get(load.node, 0):
                before[load.kind, load.node] = load
        cell.store, cell.loads = now, {}

    def learned_from(self, store, before, clock):
        """A load learns what its store's node knew; only where it raced is there anything new."""
        if id(store) in before:
            self.learn(clock, store.known)

    def publish(self, now):
        """A store tells what its node knew to those who will load it."""
        clock = self.clocks[now.node]
        now.known = dict(clock)
        clock[now.node] += 1

    def add(self, first, second, address):
        key = first.kind, first.pc, second.kind, second.pc
        race = self.found.get(key)
        if race is None:
            race = self.found[key] = Race(first, second, address)
        race.count += 1
        race.addresses.add(address)

    def is_flag(self, race):
        """Whether a load of this race is one that a node repeats until another one has stored."""
        return any(one.kind == "load" and (race.address, one.pc) in self.spun
                   for one in (race.first, race.second))


def text_of(race, images):
    name = images.object_at(race.address)
    more = len(race.addresses) - 1
    where = f"0x{race.address:08x}" + (f" {name}" if name else "")
    where += f" and {more} more" if more else ""
    ends = []
    for one in (race.first, race.second):
        place = images.place(one.node, one.pc)
        ends.append(f"node {one.node} {one.kind}s at pc 0x{one.pc:08x}"
                    + (f", {place}" if place else "") + f", cycle {one.time}")
    times = "once" if race.count == 1 else f"{race.count} times"
    return f"  {where}, {times}; first\n    " + "\n    ".join(ends)


def print_races(races, images):
    found = sorted(races.found.values(), key=lambda race: -race.count)
    images.find_lines({(one.node, one.pc) for race in found for one in (race.first, race.second)})
    flags = [race for race in found if races.is_flag(race)]
    plain = [race for race in found if not races.is_flag(race)]
    pairs = f"{len(plain)} pair{'s' * (len(plain) > 1)} of places"
    print(f"races: {pairs}" if plain else "races: none was seen")
    for race in plain:
        print(text_of(race, images))
    if flags:
        print("flags, where a node loads again and again until another has stored (they put what "
              "follows\nthem in order, and have to be volatile):")
    for race in flags:
        print(text_of(race, images))
    print(UNSEEN)
