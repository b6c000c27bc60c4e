"""Programs: instruction words as text, and addresses as functions and lines of the source.

The instructions are those of docs/formats.md, RV32I and the annotations; the texts are those that
`wwt dis` prints.
"""
import functools
import os
import shutil
import struct
import subprocess

from wwt_tool import ToolError, read_bytes

LOADS = {0: "lb", 1: "lh", 2: "lw", 4: "lbu", 5: "lhu"}
STORES = {0: "sb", 1: "sh", 2: "sw"}
BRANCHES = {0: "beq", 1: "bne", 4: "blt", 5: "bge", 6: "bltu", 7: "bgeu"}
WITH_NUMBER = {0: "addi", 2: "slti", 3: "sltiu", 4: "xori", 6: "ori", 7: "andi"}
SHIFTS = {(1, 0): "slli", (5, 0): "srli", (5, 32): "srai"}
OPERATIONS = {(0, 0): "add", (0, 32): "sub", (1, 0): "sll", (2, 0): "slt", (3, 0): "sltu",
              (4, 0): "xor", (5, 0): "srl", (5, 32): "sra", (6, 0): "or", (7, 0): "and"}
ANNOTATIONS = {0: "check_out_s", 1: "check_out_x", 2: "check_in"}
WHOLE = {0x73: "ecall", 0x100073: "ebreak"}


def signed(number, bits):
    return number - (1 << bits) if number >> bits - 1 & 1 else number


def offset_of_branch(word):
    low = (word >> 8 & 15) << 1 | (word >> 25 & 63) << 5
    return signed(low | (word >> 7 & 1) << 11 | word >> 31 << 12, 13)


def offset_of_jump(word):
    low = (word >> 21 & 1023) << 1 | (word >> 20 & 1) << 11
    return signed(low | (word >> 12 & 255) << 12 | word >> 31 << 20, 21)


@functools.lru_cache(maxsize=None)
def text_of(word):
    """The instruction of a word as text, 'illegal' where it has none, 'fetch' where there is no
    word."""
    if word is None:
        return "fetch"
    opcode, funct3, funct7 = word & 127, word >> 12 & 7, word >> 25
    rd, rs1, rs2 = f"x{word >> 7 & 31}", f"x{word >> 15 & 31}", f"x{word >> 20 & 31}"
    number = signed(word >> 20, 12)
    if opcode in (0x37, 0x17):
        return f"{'lui' if opcode == 0x37 else 'auipc'} {rd}, {word >> 12:#x}"
    if opcode == 0x6F:
        return f"jal {rd}, {offset_of_jump(word)}"
    if opcode == 0x67 and funct3 == 0:
        return f"jalr {rd}, {number}({rs1})"
    if opcode == 0x63 and funct3 in BRANCHES:
        return f"{BRANCHES[funct3]} {rs1}, {rs2}, {offset_of_branch(word)}"
    if opcode == 0x03 and funct3 in LOADS:
        return f"{LOADS[funct3]} {rd}, {number}({rs1})"
    if opcode == 0x23 and funct3 in STORES:
        offset = signed(funct7 << 5 | word >> 7 & 31, 12)
        return f"{STORES[funct3]} {rs2}, {offset}({rs1})"
    if opcode == 0x13 and funct3 in WITH_NUMBER:
        return f"{WITH_NUMBER[funct3]} {rd}, {rs1}, {number}"
    if opcode == 0x13 and (funct3, funct7) in SHIFTS:
        return f"{SHIFTS[funct3, funct7]} {rd}, {rs1}, {word >> 20 & 31}"
    if opcode == 0x33 and (funct3, funct7) in OPERATIONS:
        return f"{OPERATIONS[funct3, funct7]} {rd}, {rs1}, {rs2}"
    if opcode == 0x0B and funct3 in ANNOTATIONS and word >> 7 & 31 == 0:
        return f"{ANNOTATIONS[funct3]} {number}({rs1})"
    return WHOLE.get(word, "fence" if opcode == 0x0F and funct3 == 0 else "illegal")


def is_annotation(word):
    return word is not None and word & 127 == 0x0B


def width_of(word):
    """How many bytes a load or store of this word reads or writes."""
    return 1 << (word >> 12 & 3) if word is not None else 4


class ElfFault(Exception):
    """Why bytes are no executable, by the words of docs/formats.md, ELF32."""


ELF_FAULTS = {
    "short": "is too short for an executable",
    "magic": "is no ELF file (flat bytes need \"format\": \"flat\")",
    "class": "is an ELF file of 64 bits, not of 32 (build with -march=rv32i -mabi=ilp32)",
    "order": "is big-endian",
    "type": "is no executable of fixed addresses: an object file, or linked with -pie",
    "machine": "is for another processor than RISC-V",
    "entries": "has program headers of another size than 32",
    "table": "is cut off: its program headers reach past its end",
    "dynamic": "wants a dynamic linker (link with -nostdlib -static)",
    "segment": "is cut off: a segment reaches past its end",
    "size": "has a segment with more bytes than its size",
    "noload": "has nothing to load",
}
EXTENSIONS = {0x2F: "atomic", 0x07: "floating point", 0x27: "floating point",
              0x43: "floating point", 0x47: "floating point", 0x4B: "floating point",
              0x4F: "floating point", 0x53: "floating point", 0x73: "control register"}


def foreign_kind(word):
    """The kind of a word that is no instruction of the nodes, None where it is one."""
    if word & 3 != 3:
        return "compressed"
    if text_of(word) != "illegal":
        return None
    if word & 127 == 0x33 and word >> 25 == 1:
        return "multiply"
    return EXTENSIONS.get(word & 127, "unknown")


def sections_of_code(elf):
    """(address, bytes) of the sections that hold instructions."""
    return [(at, elf.content[offset:offset + size])
            for _, kind, flags, at, offset, size, _ in elf.sections() if kind == 1 and flags & 4]


def foreign_words(elf):
    """The (address, word) of each kind of instructions that the nodes haven't."""
    found = {}
    for at, content in sections_of_code(elf):
        place = 0
        while place + 2 <= len(content):
            word = int.from_bytes(content[place:place + 4], "little")
            kind = foreign_kind(word)
            if kind:
                found.setdefault(kind, []).append((at + place, word))
            place += 2 if word & 3 != 3 else 4
    return found


class Segment:
    def __init__(self, at, size, content, flags):
        self.at, self.size, self.content, self.flags = at, size, content, flags


class Elf:
    """An ELF32 executable: its entry, segments and functions."""

    def __init__(self, content):
        self.content = content
        self.test_head()
        self.entry, self.table = struct.unpack_from("<II", content, 24)
        size, self.headers = struct.unpack_from("<HH", content, 42)
        if size != 32:
            raise ElfFault("entries")
        if self.table + 32 * self.headers > len(content):
            raise ElfFault("table")
        self.segments = self.read_segments()

    def test_head(self):
        content = self.content
        tests = (("short", len(content) >= 52), ("magic", content[:4] == b"\x7fELF"),
                 ("class", content[4:5] == b"\1"), ("order", content[5:6] == b"\1"),
                 ("type", content[16:18] == b"\2\0"), ("machine", content[18:20] == b"\xf3\0"))
        for fault, good in tests:
            if not good:
                raise ElfFault(fault)

    def read_segments(self):
        headers = [struct.unpack_from("<8I", self.content, self.table + 32 * number)
                   for number in range(self.headers)]
        if any(header[0] in (2, 3) for header in headers):
            raise ElfFault("dynamic")
        loads = [header for header in headers if header[0] == 1]
        if any(header[1] + header[4] > len(self.content) for header in loads):
            raise ElfFault("segment")
        if any(header[5] < header[4] for header in loads):
            raise ElfFault("size")
        if not loads:
            raise ElfFault("noload")
        return [Segment(at, memory, self.content[offset:offset + own], flags)
                for _, offset, at, _, own, memory, flags, _ in loads]

    def sections(self):
        """The section headers: name offset, type, flags, address, offset, size, link."""
        at = struct.unpack_from("<I", self.content, 32)[0]
        size, count = struct.unpack_from("<HH", self.content, 46)
        if not at or size != 40 or at + size * count > len(self.content):
            return []
        return [struct.unpack_from("<7I", self.content, at + size * number)
                for number in range(count)]

    def section_at(self, name):
        """The address of the section of this name, or None."""
        table = struct.unpack_from("<H", self.content, 50)[0]
        sections = self.sections()
        if table >= len(sections):
            return None
        names = sections[table][4]
        for offset, _, _, at, _, _, _ in sections:
            begin = names + offset
            if self.content[begin:begin + len(name) + 1] == name.encode() + b"\0":
                return at
        return None

    def symbols(self, kinds):
        """(address, size, name) of the named symbols of these kinds: 1 object, 2 function."""
        sections, found = self.sections(), []
        for _, kind, _, _, offset, size, link in sections:
            if kind != 2 or link >= len(sections):
                continue
            names = sections[link][4]
            for at in range(offset, offset + size - 15, 16):
                name, value, length, info, _, _ = struct.unpack_from("<IIIBBH", self.content, at)
                end = self.content.find(b"\0", names + name)
                if name and info & 15 in kinds:
                    text = self.content[names + name:end].decode("ascii", "replace")
                    found.append((value, length, text))
        return sorted(found)


def read_elf(path):
    """The executable of a file. ToolError where it can't be read, or is none."""
    content = read_bytes(path)
    try:
        return Elf(content)
    except ElfFault as fault:
        raise ToolError(f"{path} is no executable that wwt reads: {fault}") from None
    except struct.error:
        raise ToolError(f"{path} is a broken executable") from None


ADDR2LINE = ("riscv64-unknown-elf-addr2line", "riscv64-linux-gnu-addr2line", "llvm-addr2line",
             "addr2line")


class Source:
    """Where an image's addresses stand: function and offset by its symbols, file and line by
    addr2line, where one is installed that reads it."""

    def __init__(self, path):
        self.path, self.elf, self.lines = path, read_elf(path), {}
        named = [symbol for symbol in self.elf.symbols((0, 2)) if symbol[0] < 0x80000000]
        self.functions = [symbol for symbol in named if not symbol[2].startswith((".", "$"))]
        self.objects = self.elf.symbols((1,))
        self.program = next(filter(shutil.which, ADDR2LINE), None)

    def function(self, address):
        """Function and offset of an address, or ''."""
        best = None
        for begin, _, name in self.functions:
            if begin <= address and (best is None or begin >= best[0]):
                best = begin, name
        if best is None:
            return ""
        return best[1] + (f"+{address - best[0]}" if address > best[0] else "")

    def object_at(self, address):
        """The variable that an address lies in, with the offset, or ''."""
        for begin, size, name in self.objects:
            if begin <= address < begin + max(size, 1):
                return name + (f"+{address - begin}" if address > begin else "")
        return ""

    def find_lines(self, addresses):
        """Asks addr2line for all of these at once."""
        wanted = [address for address in sorted(set(addresses)) if address not in self.lines]
        if not wanted or not self.program:
            return
        asked = "\n".join(map(hex, wanted)) + "\n"
        told = subprocess.run([self.program, "-e", self.path], input=asked, text=True,
                              capture_output=True, check=False).stdout.splitlines()
        for address, line in zip(wanted, told):
            file, _, number = line.split(" (")[0].rpartition(":")
            known = number.isdigit() and number != "0" and not file.startswith("?")
            self.lines[address] = f"{os.path.basename(file)}:{number}" if known else ""

    def place(self, address):
        """Function and line of an address as text, '' where nothing is known."""
        self.find_lines([address])
        function, line = self.function(address), self.lines.get(address, "")
        return f"{function} ({line})" if function and line else function or line


class Images:
    """The images of a machine: one for all nodes, or one for each. None may be given."""

    def __init__(self, paths):
        by_path = {path: Source(path) for path in paths or ()}
        self.sources = [by_path[path] for path in paths or ()]

    def of(self, node):
        if not self.sources:
            return None
        return self.sources[node if len(self.sources) > 1 and node < len(self.sources) else 0]

    def find_lines(self, places):
        """Prepares the lines of (node, pc) pairs, so that addr2line is called once an image."""
        for source in set(self.sources):
            source.find_lines(pc for node, pc in places if self.of(node) is source)

    def place(self, node, pc):
        source = self.of(node)
        return source.place(pc) if source else ""

    def object_at(self, address):
        return next(filter(None, (source.object_at(address) for source in self.sources)), "")


def add_images(parser):
    parser.add_argument("--image", action="append", metavar="ELF", dest="images",
                        help="the executable of all nodes, for functions and lines; "
                             "given once a node where each has its own")
