#!/usr/bin/env python3
"""Draws the pictures of the docs that no run makes: the machine, its mesh, the states of a directory
entry, the pipe of a node and a block, a quantum of two nodes, and the layers of the proof.

    tools/pictures.py               writes docs/machine.svg, pipe.svg, mesh.svg, directory.svg,
                                    quantum.svg and layers.svg
    tools/pictures.py --check       says which of them differ from what is stored
"""
import os
import sys
from html import escape

from wwt_tool import call, parser_of

DOCS = os.path.join(os.path.dirname(os.path.dirname(os.path.abspath(__file__))), "docs")
INK, SOFT, BLUE, GREEN, RED, PURPLE = "#222", "#666", "#1f6fd0", "#208040", "#c02020", "#7a4fb5"
PALE = {BLUE: "#e8f0fb", GREEN: "#e8f5ec", RED: "#fbeaea", PURPLE: "#f1ebf8", SOFT: "#f4f4f4"}


class Picture:
    """An SVG that grows."""

    def __init__(self, width, height):
        self.width, self.height, self.parts, self.names = width, height, [], []

    def box(self, x, y, width, height, colour, title="", lines=(), corner=4):
        self.parts.append(f'<rect x="{x}" y="{y}" width="{width}" height="{height}" rx="{corner}" '
                          f'fill="{PALE[colour]}" stroke="{colour}"/>')
        if title:
            self.text(x + width / 2, y + 19, title, size=13, bold=True)
        for number, line in enumerate(lines):
            self.text(x + width / 2, y + (37 if title else 19) + 16 * number, line, size=11)

    def text(self, x, y, content, anchor="middle", colour=INK, size=12, bold=False):
        weight = ' font-weight="bold"' if bold else ""
        self.names.append(
            f'<text x="{x:g}" y="{y:g}" text-anchor="{anchor}" fill="{colour}" font-size="{size}"'
            f'{weight} stroke="#fff" stroke-opacity="0.8" stroke-width="3" paint-order="stroke">'
            f"{escape(content)}</text>")

    def line(self, path, colour=INK, both=False, dashed=False, plain=False):
        ends = "" if plain else ' marker-end="url(#end)"'
        if both:
            ends += ' marker-start="url(#end)"'
        dash = ' stroke-dasharray="5 4"' if dashed else ""
        self.parts.append(f'<path d="{path}" fill="none" stroke="{colour}"{dash}{ends}/>')

    def dot(self, x, y, colour=INK):
        self.parts.append(f'<circle cx="{x}" cy="{y}" r="4.5" fill="{colour}"/>')

    def svg(self):
        return "\n".join([
            f'<svg xmlns="http://www.w3.org/2000/svg" viewBox="0 0 {self.width} {self.height}" '
            f'width="{self.width}" height="{self.height}" font-family="sans-serif">',
            '<defs><marker id="end" viewBox="0 0 10 10" refX="9" refY="5" markerWidth="8" '
            'markerHeight="8" orient="auto-start-reverse"><path d="M0 0L10 5L0 10z" fill="#444"/>'
            "</marker></defs>",
            f'<rect width="{self.width}" height="{self.height}" fill="#fff"/>',
            *self.parts, *self.names, "</svg>", ""])


def node_of(picture, x, number, barrier):
    picture.box(x, 14, 350, 250, SOFT, f"node {number}")
    picture.box(x + 14, 44, 144, 74, BLUE, "processor", ("RV32I, in order", "32 registers, pc"))
    picture.box(x + 192, 44, 144, 74, SOFT, "private memory", ("from 0 on:", "code, variables, stack"))
    picture.line(f"M{x + 158} 80 L{x + 192} 80", both=True)
    picture.box(x + 14, 152, 144, 92, GREEN, "cache",
                ("sets of lines; of each", "block: bytes, and whether", "it may be written"))
    picture.line(f"M{x + 86} 118 L{x + 86} 152", both=True)
    picture.text(x + 92, 140, "shared addresses", "start", SOFT, 11)
    home = f"b mod N = {number}"
    lines = ["memory and entry of the", f"blocks b with {home}"]
    picture.box(x + 192, 152, 144, 92, PURPLE, "directory", lines + (["barrier unit"] if barrier else []))
    for side in (36, 240):
        picture.line(f"M{x + side} 244 L{x + side} 300", both=True)
    picture.text(x + 42, 280, "GetS, GetX, PutS, PutX, InvAck", "start", BLUE, 11)
    picture.text(x + 246, 280, "DataS, DataX, Inv", "start", GREEN, 11)


def machine():
    picture = Picture(860, 372)
    node_of(picture, 10, 0, True)
    node_of(picture, 376, 1, False)
    picture.text(750, 140, "..  up to", "start", size=14)
    picture.text(750, 160, "256 nodes", "start", size=14)
    picture.box(10, 300, 840, 56, SOFT, "messages", (
        "at another node after latency cycles, and hop more for each step of a mesh; at the node itself "
        "after self_latency",))
    return picture


def shade(part):
    """A green that is the darker, the greater a part of 1 is."""
    return "#" + "".join(f"{round(light + (dark - light) * part):02x}"
                         for light, dark in ((0xF2, 0x7C), (0xFA, 0xC4), (0xF4, 0x92)))


def mesh():
    """Eight rows of eight nodes, each with what a message from node 0 takes."""
    side, across, down, latency, hop = 8, 64, 44, 100, 10
    picture = Picture(900, 370)
    for row in range(side):
        for column in range(side):
            x, y = 16 + across * column, 14 + down * row
            if column + 1 < side:
                picture.line(f"M{x + 52} {y + 17} L{x + across} {y + 17}", SOFT, plain=True)
            if row + 1 < side:
                picture.line(f"M{x + 26} {y + 34} L{x + 26} {y + down}", SOFT, plain=True)
            steps = row + column
            picture.parts.append(f'<rect x="{x}" y="{y}" width="52" height="34" rx="4" '
                                 f'fill="{shade(steps / (2 * side - 2))}" stroke="{SOFT}"/>')
            picture.text(x + 26, y + 14, str(side * row + column), size=12, bold=True)
            cycles = latency + hop * steps if steps else 10
            picture.text(x + 26, y + 28, f"{cycles}", size=11, colour=INK)
    for number, (text, colour, bold) in enumerate((
            ("nodes 64, width 8, hop 10, latency 100", INK, True),
            ("Node i stands in column i mod 8 of row i / 8.", INK, False),
            ("The lower number: how many cycles a message", INK, False),
            ("from node 0 takes.", INK, False),
            ("", INK, False),
            ("To its neighbours 1 and 8: 100 + 10 * 1 = 110.", GREEN, False),
            ("To node 63, 7 columns and 7 rows away:", GREEN, False),
            ("100 + 10 * 14 = 240.", GREEN, False),
            ("To itself: self_latency, 10.", GREEN, False),
            ("", INK, False),
            ("No two nodes are nearer than neighbours. So", PURPLE, False),
            ("110 cycles is the lookahead: for so long no", PURPLE, False),
            ("node hears of another.", PURPLE, False))):
        picture.text(546, 40 + 24 * number, text, "start", colour, 13, bold)
    return picture


def state(picture, x, y, title, line, colour):
    picture.box(x - 80, y - 30, 160, 60, colour, title, (line,), 26)


def directory():
    picture = Picture(900, 530)
    state(picture, 120, 260, "Idle", "no copy", SOFT)
    state(picture, 430, 70, "Shared", "readers: a list, or a count", GREEN)
    state(picture, 430, 450, "Exclusive p", "node p has it alone", BLUE)
    state(picture, 730, 260, "Busy", "left answers are awaited", RED)
    picture.line("M140 230 C170 120,240 75,350 68", GREEN)
    picture.text(150, 130, "GetS from r: its first", size=11)
    picture.text(150, 145, "reader; DataS to r", size=11)
    picture.line("M352 84 C290 110,220 170,185 234", PURPLE)
    picture.text(300, 176, "PutS from the last reader", size=11)
    picture.line("M400 40 C385 5,475 5,460 40", GREEN)
    picture.text(500, 18, "GetS from r: a reader more, DataS to r.  PutS: a reader less", "start", size=11)
    picture.line("M140 290 C170 400,240 445,350 452", BLUE)
    picture.text(150, 390, "GetX from r: Exclusive r,", size=11)
    picture.text(150, 405, "DataX to r", size=11)
    picture.line("M352 436 C290 410,220 350,185 286", PURPLE)
    picture.text(300, 350, "PutX from p, with the bytes", size=11)
    picture.line("M510 60 C620 75,720 130,745 230", RED)
    for y, text in ((82, "GetX from r, by a list: Inv to"), (97, "the k others; left k."),
                    (112, "By a count: a trap, Inv to"), (127, "all nodes but r; left N - 1")):
        picture.text(728, y, text, "start", RED, 11)
    picture.line("M690 230 C640 170,560 110,500 90", GREEN)
    picture.text(536, 172, "the last InvAck,", size=11)
    picture.text(536, 187, "for S: Shared, DataS", size=11)
    picture.line("M510 462 C620 445,720 390,745 290", RED)
    picture.text(728, 398, "GetS or GetX from r: a trap,", "start", RED, 11)
    picture.text(728, 413, "Inv to p; left 1", "start", RED, 11)
    picture.line("M690 290 C640 350,560 410,500 430", BLUE)
    picture.text(536, 338, "the last InvAck,", size=11)
    picture.text(536, 353, "for X: Exclusive, DataX", size=11)
    picture.line("M810 250 C860 240,860 280,810 270", RED)
    picture.text(840, 222, "InvAck: left - 1", "end", size=11)
    picture.text(760, 312, "GetS, GetX wait in a list", "start", size=11)
    picture.text(450, 500, "After a grant, a Wake to the home itself takes up the first request that "
                 "waits. A GetX whose sender had a copy does first what its PutS would do.",
                 colour=SOFT, size=11)
    picture.text(450, 516, "Where its sender alone is listed, and on a machine of one node, nobody has "
                 "to be called back: GetX leads from Shared to Exclusive at once.", colour=SOFT, size=11)
    return picture


def quantum():
    picture = Picture(900, 330)
    picture.text(20, 40, "cycle", "start", SOFT)
    for x, time in ((150, "101"), (650, "201"), (720, "205"), (750, "206")):
        picture.text(x, 40, time, colour=SOFT)
    for x in (150, 650):
        picture.line(f"M{x} 50 L{x} 262", SOFT, dashed=True, plain=True)
    picture.text(400, 66, "one quantum, no longer than the latency of 100: nobody hears of another",
                 colour=SOFT)
    picture.text(20, 114, "node 0", "start", bold=True)
    picture.text(20, 130, "the home", "start", SOFT, 11)
    picture.text(20, 214, "node 1", "start", bold=True)
    picture.text(20, 230, "waits for a block", "start", SOFT, 11)
    for y in (110, 210):
        picture.line(f"M150 {y} L650 {y}", BLUE, plain=True)
        picture.line(f"M650 {y} L850 {y}", "#bbb", plain=True)
    picture.dot(150, 110, BLUE)
    picture.text(158, 98, "GetS comes", "start", BLUE)
    for x in (230, 262, 294, 380, 412, 520, 552, 584):
        picture.dot(x, 110)
    picture.text(430, 98, "its own steps, and what it sends to itself")
    picture.line("M150 112 C180 180,480 150,646 206", GREEN)
    picture.text(400, 144, "DataS, sent at 101, to come at 201: handed out", colour=GREEN)
    picture.text(400, 232, "runs up to 201 as well, before or after node 0: here it has no event")
    picture.dot(650, 210, GREEN)
    picture.text(658, 202, "DataS", "start", GREEN)
    picture.dot(720, 210)
    picture.dot(750, 210)
    picture.text(736, 232, "steps", "middle")
    picture.text(150, 282, "the least event", colour=SOFT, size=11)
    picture.text(150, 297, "begins the quantum", colour=SOFT, size=11)
    picture.text(650, 282, "the kept end: what was handed", colour=SOFT, size=11)
    picture.text(650, 297, "out is given to its nodes", colour=SOFT, size=11)
    picture.text(20, 322, "The serial simulation handles the same events one by one in the order of "
                 "their keys, now of one node, now of the other. It comes to the same.", "start",
                 SOFT, 11)
    return picture


def call_of(picture, x, y, crate, code, definition, does, colour):
    """A call in code, the definition that its result equals, and what it does."""
    picture.box(x, y, 270, 76, colour)
    picture.text(x + 135, y + 17, crate, size=11, colour=SOFT)
    picture.text(x + 135, y + 35, code, bold=True)
    picture.text(x + 135, y + 52, f"= {definition}", colour=colour, bold=True)
    picture.text(x + 135, y + 68, does, size=11)


def layers():
    picture = Picture(900, 626)
    call_of(picture, 315, 10, "wwt_run", "wwt, wwt_plain", "output_of, status_of (case_of words files)",
            "what words and files call for", BLUE)
    call_of(picture, 15, 124, "wwt_case", "prepare", "case_of", "the machine, or the first refusal",
            GREEN)
    call_of(picture, 315, 124, "wwt_run", "simulate", "final", "the end of the serial run", BLUE)
    call_of(picture, 615, 124, "wt_report", "write_report", "report", "the lines of that world", GREEN)
    for x in (150, 450, 750):
        picture.line(f"M450 86 L{x} 124")
    call_of(picture, 315, 228, "engine", "round, round_plain", "serial, some steps", "one quantum of all nodes",
            PURPLE)
    call_of(picture, 315, 332, "quantum", "run_to", "local", "one node alone, up to a time", PURPLE)
    call_of(picture, 315, 436, "node", "handle_step, handle_message", "react",
            "one event: the node after it, its messages", BLUE)
    call_of(picture, 15, 540, "rv_exec", "execute", "meaning_of", "what an instruction does", SOFT)
    call_of(picture, 315, 540, "target_cache", "read, write, install ..", "read_of, write_of ..",
            "what becomes of a set of lines", SOFT)
    call_of(picture, 615, 540, "dir1sw", "arrive", "arrive_of", "a row of the directory's tables", SOFT)
    for y in (200, 304, 408):
        picture.line(f"M450 {y} L450 {y + 28}")
    for x in (150, 450, 750):
        picture.line(f"M450 512 L{x} 540")
    picture.box(655, 240, 230, 52, PURPLE, "", ("discrete_events: round_is_serial",
                                                "of every simulation that keeps the laws"))
    picture.line("M655 266 L585 266", PURPLE, dashed=True)
    picture.box(655, 448, 230, 52, PURPLE, "", ("node: machines_are_simulations",
                                                "react keeps the laws"))
    picture.line("M770 448 L770 292", PURPLE, dashed=True)
    picture.text(150, 262, "A call in code", colour=SOFT)
    picture.text(150, 280, "= the definition that it is proved to equal", colour=SOFT)
    picture.text(150, 308, "Full arrows lead to what is called,", colour=SOFT)
    picture.text(150, 326, "dashed ones to what cites a theorem.", colour=SOFT)
    return picture


def pipe_row(picture, y, told, to_home, copy, from_home):
    """A node's pipe: messages to the home, the copy, messages from the home."""
    picture.line(f"M860 {y + 17} L130 {y + 17}", "#bbb")
    for place, body in enumerate(to_home):
        picture.box(150 + 104 * place, y, 90, 34, RED if place == 0 else SOFT, corner=16)
        picture.text(195 + 104 * place, y + 22, body)
    picture.box(402, y - 4, 110, 42, BLUE if copy else SOFT)
    picture.text(457, y + 22, copy or "no copy", colour=INK if copy else SOFT)
    for place, body in enumerate(from_home):
        picture.box(560 + 104 * place, y, 90, 34, GREEN if body != "Inv" else PURPLE, corner=16)
        picture.text(605 + 104 * place, y + 22, body)
    picture.text(20, y + 56, told, "start", SOFT, 11)


def pipe():
    picture = Picture(900, 330)
    picture.text(72, 30, "the home", bold=True)
    picture.text(250, 30, "on the way to the home", bold=True)
    picture.text(457, 30, "the copy", bold=True)
    picture.text(660, 30, "on the way from the home", bold=True)
    for y in (50, 140, 230):
        picture.box(20, y - 4, 104, 42, PURPLE, "", ("entry, memory,", "who waits"))
    pipe_row(picture, 50, "A copy to write was given back, and the processor asks to read the block "
             "again: PutX is the token.", ("PutX", "GetS"), "", ())
    pipe_row(picture, 140, "A copy to read is there and is called back: it is the token. When Inv "
             "comes, the copy goes and InvAck stands in the place of Inv.", (), "to read", ("Inv",))
    pipe_row(picture, 230, "The home has served this node and then calls it back for another: DataS "
             "is the token, and comes first.", (), "", ("DataS", "Inv"))
    picture.text(20, 318, "A token stands in front of its pipe, and nowhere else.", "start", bold=True)
    return picture


PICTURES = {"machine.svg": machine, "pipe.svg": pipe, "mesh.svg": mesh, "directory.svg": directory,
            "quantum.svg": quantum, "layers.svg": layers}


def main():
    parser = parser_of(__doc__)
    parser.add_argument("--check", action="store_true", help="write nothing")
    words = parser.parse_args()
    faults = []
    for name, draw in PICTURES.items():
        path, drawn = os.path.join(DOCS, name), draw().svg()
        if not words.check:
            with open(path, "w", encoding="utf-8") as file:
                file.write(drawn)
            continue
        with open(path, encoding="utf-8") as file:
            if file.read() != drawn:
                faults.append(f"docs/{name} isn't what tools/pictures.py draws")
    print(*faults, sep="\n" if faults else "", end="\n" if faults else "", file=sys.stdout)
    return 1 if faults else 0


if __name__ == "__main__":
    call(main)
