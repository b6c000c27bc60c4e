#!/usr/bin/env python3
"""Looks at the description of a machine and its images before a run, and says in sentences what is
wrong.

    tools/check_machine.py machine.json

What `wwt check` refuses is told with the range that it has, and a syntax error with its line and
column. Of images are told, too, instructions that the nodes haven't (compressed, multiply, atomic,
floating point), and what shows that examples/machine.ld didn't lay them out. The status is 0 where
nothing was found, 1 where something was, and 2 where the description can't be read.
"""
import json
import os
import sys

from wwt_code import (ELF_FAULTS, Elf, ElfFault, Source, foreign_words, sections_of_code)
from wwt_machine import (BLOCK_BYTES, COSTS, FIELDS, MOST_LINES, MOST_NODES, PAGE, fields_of,
                         is_whole, lookahead_of, value_of, version_of)
from wwt_tool import ToolError, call, name_of, parser_of, read_bytes
from wwt_trace import SHARED

WHOLE = (1 << 64) - 1  # the greatest whole number that is read as one
IMAGE_KEYS = ("hex", "file", "format", "at")


def whole_number(text):
    """A number as it is read: one with a sign or past 64 bits is none that a field takes."""
    number = int(text)
    return number if not text.startswith("-") and number <= WHOLE else float(text)


def no_constant(text):
    raise ValueError(text)


def read_description(path):
    """The object of a description. ToolError where it can't be read or isn't one."""
    content = read_bytes(path)
    path = name_of(path)
    try:
        return parse(content.decode("utf-8"), path)
    except UnicodeDecodeError as error:
        line = content.count(b"\n", 0, error.start) + 1
        column = error.start - content.rfind(b"\n", 0, error.start)
        raise ToolError(f"{path}, line {line}, column {column}: no UTF-8") from None


def parse(text, path):
    try:
        value = json.loads(text, parse_int=whole_number, parse_constant=no_constant)
    except json.JSONDecodeError as error:
        raise ToolError(f"{path}, line {error.lineno}, column {error.colno}: {error.msg}") from None
    except (ValueError, RecursionError) as error:
        raise ToolError(f"{path}: no JSON: {error}") from None
    if not isinstance(value, dict):
        raise ToolError(f"{path}: the description isn't an object")
    return value


def range_of(name, description):
    """The range of a field: least, greatest, and in words."""
    _, least, greatest = FIELDS[name] if name in FIELDS else COSTS[name.partition(".")[2]]
    if name == "quantum":
        greatest = lookahead_of(description)
        return least, greatest, f"from 1 to the least latency between nodes, {greatest}"
    if name == "nodes":
        greatest = MOST_NODES[version_of(description)]
        more = f", or {MOST_NODES[2]} in version 2" if greatest < MOST_NODES[2] else ""
        return least, greatest, f"from {least} to {greatest}{more}"
    if name == "block_bytes":
        return least, greatest, "one of " + ", ".join(map(str, BLOCK_BYTES))
    if name == "private_bytes":
        return least, greatest, f"a multiple of {PAGE} from {least} to {greatest}"
    return least, greatest, f"from {least} to {greatest}"


def number_faults(name, value, description):
    """What is wrong with the value of a field."""
    if not is_whole(value):
        return [f"{name} has to be a whole number without quotes, sign or point"]
    least, greatest, words = range_of(name, description)
    good = least <= value <= greatest
    if name == "block_bytes":
        good = value in BLOCK_BYTES
    elif name == "private_bytes":
        good = good and value % PAGE == 0
    return [] if good else [f"{name} is {value}; it has to be {words}"]


def field_faults(description):
    faults = []
    for name in fields_of(description):
        if name in description:
            faults += number_faults(name, description[name], description)
        elif name == "nodes":
            faults.append(f"{name} is missing: it has to be given")
    sets, ways = value_of(description, "sets"), value_of(description, "ways")
    if is_whole(sets) and is_whole(ways) and sets * ways > MOST_LINES and not faults:
        faults.append(f"ways is {ways}; with {sets} sets it has to be at most "
                      f"{MOST_LINES // max(sets, 1)}, as sets * ways is at most {MOST_LINES}")
    costs = description.get("costs", {})
    if not isinstance(costs, dict):
        return faults + ["costs has to be an object"]
    faults += [f"costs.{key} is no cost; there are {', '.join(COSTS)}"
               for key in sorted(set(costs) - set(COSTS))]
    for name in COSTS:
        if name in costs:
            faults += number_faults(f"costs.{name}", costs[name], description)
    return faults


def description_faults(description):
    known = ("version", *fields_of(description), "costs", "images")
    faults = [unknown_fault(key, known) for key in sorted(set(description) - set(known))]
    version = description.get("version")
    if "version" not in description:
        faults.append("version is missing: it has to be 1 or 2")
    elif not is_whole(version) or version not in MOST_NODES:
        faults.append(f"version is {json.dumps(version)}; it has to be 1 or 2")
    return faults + field_faults(description) + images_faults(description)


def unknown_fault(key, known):
    if key in FIELDS:
        return f"{key} is no field of a description of version 1; version 2 has it"
    return f"{key} is no field of a description; there are {', '.join(known)}"


def images_faults(description):
    images, nodes = description.get("images"), description.get("nodes")
    if "images" not in description:
        return ["images is missing: it has to be a list of one image, or of one for each node"]
    if not isinstance(images, list):
        return ["images has to be a list"]
    faults = []
    if len(images) not in (1, nodes):
        faults.append(f"images has {len(images)} entries; it has to have 1, or one for each of the "
                      f"{nodes} nodes")
    for number, entry in enumerate(images):
        faults += entry_faults(f"images.{number}", entry)
    return faults


def entry_faults(name, entry):
    if not isinstance(entry, dict):
        return [f"{name} has to be an object with a file or hex"]
    faults = [f"{name}.{key} is no field of an image; there are {', '.join(IMAGE_KEYS)}"
              for key in sorted(set(entry) - set(IMAGE_KEYS))]
    if ("hex" in entry) == ("file" in entry):
        return faults + [f"{name} has to have either hex or file"]
    key = "hex" if "hex" in entry else "file"
    if not isinstance(entry[key], str):
        return faults + [f"{name}.{key} has to be a text"]
    if "format" in entry and key == "hex":
        faults.append(f"{name}.format stands beside hex, which has none")
    elif entry.get("format", "elf") not in ("elf", "flat"):
        faults.append(f"{name}.format has to be elf or flat")
    at = entry.get("at", 0)
    if not is_whole(at) or at % 4 or at >= 1 << 32:
        faults.append(f"{name}.at has to be a multiple of 4 below 2^32")
    if key == "hex" and (len(entry["hex"]) % 2 or set(entry["hex"]) - set(HEX)):
        faults.append(f"{name}.hex has to be an even number of hexadecimal digits")
    return faults


HEX = "0123456789abcdefABCDEF"


def place_faults(name, description, at, size):
    """A segment in no memory."""
    private = value_of(description, "private_bytes")
    blocks, block_bytes = value_of(description, "blocks"), value_of(description, "block_bytes")
    end, shared_end = at + size, SHARED + blocks * block_bytes
    if size == 0 or end <= private or SHARED <= at and end <= shared_end:
        return []
    if SHARED <= at:
        needed = -(-(end - SHARED) // block_bytes)
        return [f"{name} has shared data up to 0x{end:08x}, but the {blocks} blocks of "
                f"{block_bytes} bytes end at 0x{shared_end:08x}: raise blocks to {needed}"]
    if at < private:
        return [f"{name} reaches up to 0x{end:08x}, but private memory ends at 0x{private:08x}: "
                "raise private_bytes"]
    return [f"{name} has bytes at 0x{at:08x}, where there is no memory: private memory ends at "
            f"0x{private:08x}, and shared memory begins at 0x{SHARED:08x}"]


def entry_point_faults(name, description, entry):
    if entry % 4 == 0 and entry < value_of(description, "private_bytes"):
        return []
    return [f"{name} begins at 0x{entry:08x}, which is no word of private memory"]


def layout_faults(name, elf):
    """What shows that examples/machine.ld didn't lay an executable out."""
    faults = []
    first = min((segment.at for segment in elf.segments if segment.size), default=0)
    if first:
        faults.append(f"{name} isn't laid out by examples/machine.ld: it begins at 0x{first:08x}, "
                      "not at 0 (link with -T machine.ld)")
    at = elf.section_at(".shared")
    if at is not None and at != SHARED:
        faults.append(f"{name} has its section .shared at 0x{at:08x}, not at 0x{SHARED:08x}, so "
                      "that each node has its own copy (link with -T machine.ld)")
    return faults


def code_faults(name, elf, path):
    """Instructions that the nodes haven't, the first of each kind."""
    faults, source = [], Source(path)
    for kind, found in foreign_words(elf).items():
        address, word = found[0]
        place = source.place(address)
        told = f"0x{word:08x}" if word & 3 == 3 else f"0x{word & 0xFFFF:04x}"
        more = f" and {len(found) - 1} more" if len(found) > 1 else ""
        faults.append(f"{name} has {kind} instructions: {told} at 0x{address:08x}"
                      + (f", {place}" if place else "") + f"{more} (build with -march=rv32i "
                      "-mabi=ilp32)")
    return faults


def flat_faults(name, description, entry, size):
    at = entry.get("at", 0)
    return place_faults(name, description, at, size) + entry_point_faults(name, description, at)


def image_faults(number, entry, description):
    if "hex" in entry:
        return flat_faults(f"image {number}", description, entry, len(entry["hex"]) // 2)
    path = entry["file"]
    name = f"image {number}, {path},"
    try:
        with open(path, "rb") as file:
            content = file.read()
    except OSError as error:
        return [f"{name} can't be read: {error.strerror}"]
    if entry.get("format") == "flat":
        return flat_faults(name, description, entry, len(content))
    try:
        elf = Elf(content)
    except ElfFault as fault:
        return [f"{name} {ELF_FAULTS[str(fault)]}"]
    faults = []
    for segment in elf.segments:
        faults += place_faults(name, description, segment.at, segment.size)
    faults += entry_point_faults(name, description, elf.entry)
    if not sections_of_code(elf):
        return faults + layout_faults(name, elf)
    return faults + layout_faults(name, elf) + code_faults(name, elf, path)


def faults_of(path):
    """All that is wrong with the description of this name. Images are looked at where the
    description itself is right."""
    description = read_description(path)
    faults = description_faults(description)
    if not faults:
        for number, entry in enumerate(description["images"]):
            faults += image_faults(number, entry, description)
    return faults


def main():
    parser = parser_of(__doc__)
    parser.add_argument("machine", nargs="?", default="-", metavar="MACHINE",
                        help="the description; standard input if it isn't given, or is -")
    words = parser.parse_args()
    faults = faults_of(words.machine)
    for fault in faults or ["nothing is wrong"]:
        print(f"{name_of(os.path.basename(words.machine))}: {fault}")
    sys.stdout.flush()
    return 1 if faults else 0


if __name__ == "__main__":
    call(main)
