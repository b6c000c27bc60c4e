#!/usr/bin/env python3
"""Draws what happens to one block as a sequence chart: an SVG with a lane for each node, an arrow
for each message, and the loads and stores of the block.

    wwt run --trace exchange.json | tools/chart.py --block 0x80000000 >exchange.svg

Each moment at which something happens has a row, the earliest on top; rows stand close together
whatever the time between them. Of a machine with many nodes, or a long run, --nodes, --from and --to
show a part.
"""
from html import escape

from wwt_tool import ToolError, add_input, call, parser_of
from wwt_trace import GRANTS, REQUESTS, open_report

LANE, ROW, LEFT, TOP = 230, 34, 230, 46
COLOURS = {"Get": "#1f6fd0", "Dat": "#208040", "Inv": "#c02020", "Put": "#7a4fb5", "Wak": "#777"}
MOST_ROWS = 200


class Item:
    """Something that happens at a node: a message that comes, an access, or both."""

    def __init__(self, event, block):
        self.time, self.node, self.event = event.time, event.node, event
        self.texts = texts_of(event, block)


def texts_of(event, block):
    """What a node does in an event of the block."""
    texts = []
    request = event.asks() if event.pc is not None else None
    if request:
        texts.append({"read": "waits to load", "write": "waits to store",
                      "upgrade": "drops its copy, waits to store"}[REQUESTS[request.body]])
    if event.trap:
        texts.append(f"traps for {event.trap} cycles")
    if event.deed and event.deed[0] != "stop":
        place = event.deed[1] - block
        texts.append(f"{'loads' if event.deed[0] == 'load' else 'stores'} {event.deed[-1]}"
                     + (f" at +{place}" if place else ""))
    elif event.body in GRANTS and not event.is_granted():
        texts.append("stray")
    if event.pc is not None and any(send.body.startswith("Put") for send in event.sends):
        texts.append("gives it back")
    return texts


def touches(event, block, size):
    """Whether an event is of the block."""
    if event.block is not None:
        return event.block == block
    if event.deed and event.deed[0] != "stop":
        return block <= event.deed[1] < block + size
    return any(send.block == block for send in event.sends)


def items_of(report, words):
    nodes = None if words.nodes is None else {int(part) for part in words.nodes.split(",")}
    items, size = [], 16
    for event in report.events():
        if event.size:
            size = event.size
        if not words.begin <= event.time <= words.end or not touches(event, words.block, size):
            continue
        if nodes is None or event.node in nodes:
            items.append(Item(event, words.block))
            if len(items) > MOST_ROWS:
                raise ToolError(f"more than {MOST_ROWS} events of this block: take a part by --from "
                                "and --to")
    report.warn_of_end()
    if not items:
        raise ToolError(f"no event of block 0x{words.block:08x} there")
    return items


def places(items):
    """The row of each item: a new one for each time, and for a second event of a node in it."""
    rows, row, last, taken = [], -1, None, set()
    for item in items:
        if item.time != last or item.node in taken:
            row, last, taken = row + 1, item.time, set()
        taken.add(item.node)
        rows.append(row)
    return rows


def text(x, y, content, anchor="start", colour="#222", size=12):
    return (f'<text x="{x:.0f}" y="{y:.0f}" text-anchor="{anchor}" fill="{colour}" '
            f'font-size="{size}" stroke="#fff" stroke-width="3" paint-order="stroke">'
            f"{escape(content)}</text>")


def arrow(x, y, to_x, to_y, label, colour):
    """A message from a lane to another as a line, and its name beside it."""
    if x == to_x:
        path = f"M{x} {y} C{x + 50} {y + 4},{x + 50} {to_y - 4},{x + 6} {to_y}"
        spot = text(x + 46, (y + to_y) / 2 + 4, label, colour=colour)
    else:
        side = 6 if to_x > x else -6
        path = f"M{x} {y} L{to_x - side} {to_y}"
        # near the sender, where lines of different messages are apart
        spot = text(x + (to_x - x) * 0.42, y + (to_y - y) * 0.42 - 5, label, "middle", colour)
    return f'<path d="{path}" fill="none" stroke="{colour}" marker-end="url(#end)"/>', spot


def draw(items):
    lanes = sorted({item.node for item in items})
    x_of = {node: LEFT + place * LANE for place, node in enumerate(lanes)}
    rows = places(items)
    y_of = [TOP + 30 + row * ROW for row in rows]
    arrivals = {(item.event.source, item.event.sequence): (x_of[item.node], y)
                for item, y in zip(items, y_of) if item.event.source is not None}
    height, width = y_of[-1] + 30, LEFT + LANE * len(lanes)
    parts = [f'<svg xmlns="http://www.w3.org/2000/svg" viewBox="0 0 {width} {height}" '
             f'width="{width}" height="{height}" font-family="sans-serif">',
             '<defs><marker id="end" viewBox="0 0 10 10" refX="9" refY="5" markerWidth="8" '
             'markerHeight="8" orient="auto"><path d="M0 0L10 5L0 10z" fill="#555"/></marker></defs>',
             f'<rect width="{width}" height="{height}" fill="#fff"/>', text(8, 24, "cycle")]
    for node, x in x_of.items():
        parts += [text(x, 24, f"node {node}", "middle", size=14),
                  f'<line x1="{x}" y1="34" x2="{x}" y2="{height - 8}" stroke="#aaa"/>']
    shown, names = None, []
    for item, y in zip(items, y_of):
        if item.time != shown:
            names.append(text(8, y + 4, str(item.time), colour="#555"))
            shown = item.time
        x = x_of[item.node]
        for send in item.event.sends:
            end = arrivals.get((item.node, send.sequence))
            if end:
                line, name = arrow(x, y, *end, send.body, COLOURS.get(send.body[:3], "#555"))
                parts.append(line)
                names.append(name)
        parts.append(f'<circle cx="{x}" cy="{y}" r="4" fill="#222"/>')
        # (messages come to the first lane from the right, and to the others mostly from the left)
        side, anchor = (-9, "end") if item.node == lanes[0] else (9, "start")
        names.append(text(x + side, y + 4, ", ".join(item.texts), anchor))
    return "\n".join([*parts, *filter(None, names), "</svg>", ""])


def main():
    parser = parser_of(__doc__)
    add_input(parser)
    parser.add_argument("--block", required=True, type=lambda word: int(word, 0), metavar="ADDRESS",
                        help="the first byte of the block, as 0x80000000")
    parser.add_argument("--nodes", metavar="N,N..", help="only what happens at these nodes")
    parser.add_argument("--from", dest="begin", type=int, default=0, metavar="CYCLE")
    parser.add_argument("--to", dest="end", type=int, default=1 << 62, metavar="CYCLE")
    words = parser.parse_args()
    print(draw(items_of(open_report(words.input), words)), end="")


if __name__ == "__main__":
    call(main)
