"""The fields of a machine, with their defaults and ranges, and descriptions that have them.

They are those of docs/machine.md, Parameters. A test holds them to `wwt check`.
"""
LONG = 1 << 40
# name: default (None: required, or by other fields), least, greatest
FIELDS = {
    "nodes": (None, 1, 256),
    "private_bytes": (1048576, 4096, 4194304),
    "block_bytes": (32, 16, 128),
    "blocks": (1024, 0, 65536),
    "sets": (64, 1, 1024),
    "ways": (4, 1, 8),
    "latency": (100, 1, 10000),
    "self_latency": (10, 1, 10000),
    "hop": (0, 0, 100),
    "width": (None, 1, 256),
    "pointers": (0, 0, 4),
    "quantum": (None, 1, None),
    "event_limit": (1 << 32, 1, LONG),
    "budget": (1 << 32, 1, LONG),
}
COSTS = {
    "op": (1, 1, 4096), "taken": (2, 1, 4096), "mem": (1, 1, 4096), "hit": (1, 1, 4096),
    "cico": (1, 1, 4096), "call": (1, 1, 4096), "fill": (4, 0, 4096), "trap": (250, 0, 4096),
    "trap_each": (5, 0, 4096),
}
SECOND = ("hop", "width", "pointers")  # the fields that came with version 2
MOST_NODES = {1: 32, 2: 256}  # by version
MOST_LINES = 4096  # of a cache: sets * ways
BLOCK_BYTES = (16, 32, 64, 128)
PAGE = 4096  # private_bytes is a multiple of it
NAMES = (*FIELDS, *(f"costs.{name}" for name in COSTS))


def is_whole(value):
    return isinstance(value, int) and not isinstance(value, bool)


def version_of(description):
    """The version by which a description is read."""
    version = description.get("version")
    return 2 if is_whole(version) and version == 2 else 1


def fields_of(description):
    """The fields that a description of this version may have, but for the costs."""
    return [name for name in FIELDS if name not in SECOND or version_of(description) == 2]


def lookahead_of(description):
    """The least latency between different nodes: that of neighbours. A default where a number of
    it can't be read."""
    nodes, latency, hop = (value_of(description, name) for name in ("nodes", "latency", "hop"))
    if not is_whole(latency):
        return FIELDS["latency"][2]
    return latency + hop if is_whole(hop) and is_whole(nodes) and nodes > 1 else latency


def value_of(description, name):
    """A field of a description, by its default where it isn't there."""
    group, _, inner = name.rpartition(".")
    if group:
        return description.get(group, {}).get(inner, COSTS[inner][0])
    if name in description:
        return description[name]
    if name == "quantum":
        return lookahead_of(description)
    if name == "width":
        return value_of(description, "nodes")
    return FIELDS[name][0]


def with_value(description, name, value):
    """The description with this field, of version 2 where one of version 1 can't have it."""
    group, _, inner = name.rpartition(".")
    if group:
        return {**description, group: {**description.get(group, {}), inner: value}}
    changed = {**description, name: value}
    if name in SECOND or name == "nodes" and value > MOST_NODES[1]:
        changed["version"] = 2
    return changed
