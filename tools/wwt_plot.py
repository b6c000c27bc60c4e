"""Draws lines over numbers as an SVG, with no program but this one."""
from html import escape
from math import log10

COLOURS = ("#1f6fd0", "#c02020", "#208040", "#e08a00", "#7a4fb5", "#008b8b", "#8b4513", "#555555")
WIDTH, HEIGHT, LEFT, RIGHT, TOP, BOTTOM = 460, 320, 64, 16, 36, 56


class Axis:
    """Where numbers stand on a line of the picture; by their logarithms where they span much."""

    def __init__(self, values, begin, end, from_zero):
        self.begin, self.end = begin, end
        self.logarithmic = not from_zero and min(values) > 0 and max(values) / min(values) >= 8
        low, high = (0 if from_zero else min(values)), max(values)
        self.low, self.high = self.turn(low), self.turn(high)
        if self.low == self.high:
            self.high = self.low + 1
        self.values = sorted(set(values))

    def turn(self, value):
        return log10(value) if self.logarithmic else value

    def at(self, value):
        part = (self.turn(value) - self.low) / (self.high - self.low)
        return self.begin + part * (self.end - self.begin)

    def ticks(self):
        """The values themselves where they are few, else round numbers."""
        if len(self.values) <= 8 and self.logarithmic or len(self.values) <= 5:
            return self.values
        step = 10 ** int(log10(max(self.high - self.low, 1e-9)))
        while (self.high - self.low) / step < 4:
            step /= 2
        count = int(self.high / step)
        return [round(step * number, 6) for number in range(int(self.low / step), count + 1)]


def short(value):
    return f"{value:.4g}" if value < 100000 else f"{value:.3g}"


def text(x, y, content, anchor="middle", extra=""):
    return (f'<text x="{x:.1f}" y="{y:.1f}" text-anchor="{anchor}"{extra}>'
            f"{escape(str(content))}</text>")


def axes(across, up, x_name, y_name, title):
    parts = [text((LEFT + WIDTH - RIGHT) / 2, 20, title, extra=' font-weight="bold"')]
    for tick in across.ticks():
        x = across.at(tick)
        parts.append(f'<line x1="{x:.1f}" y1="{TOP}" x2="{x:.1f}" y2="{HEIGHT - BOTTOM}" '
                     'stroke="#ddd"/>')
        parts.append(text(x, HEIGHT - BOTTOM + 16, short(tick)))
    for tick in up.ticks():
        y = up.at(tick)
        parts.append(f'<line x1="{LEFT}" y1="{y:.1f}" x2="{WIDTH - RIGHT}" y2="{y:.1f}" '
                     'stroke="#ddd"/>')
        parts.append(text(LEFT - 6, y + 4, short(tick), "end"))
    parts.append(text((LEFT + WIDTH - RIGHT) / 2, HEIGHT - 20, x_name))
    middle = (TOP + HEIGHT - BOTTOM) / 2
    parts.append(text(16, middle, y_name, extra=f' transform="rotate(-90 16 {middle})"'))
    return parts


def curve(points, across, up, colour, name, number):
    placed = [(across.at(x), up.at(y)) for x, y in sorted(points)]
    path = " ".join(f"{x:.1f},{y:.1f}" for x, y in placed)
    parts = [f'<polyline points="{path}" fill="none" stroke="{colour}" stroke-width="2"/>']
    parts += [f'<circle cx="{x:.1f}" cy="{y:.1f}" r="3" fill="{colour}"/>' for x, y in placed]
    y = TOP + 14 + 16 * number
    parts.append(f'<line x1="{LEFT + 8}" y1="{y - 4}" x2="{LEFT + 28}" y2="{y - 4}" '
                 f'stroke="{colour}" stroke-width="3"/>')
    parts.append(text(LEFT + 34, y, name, "start"))
    return parts


def panel(title, lines, names, scales, at):
    """One picture: `lines` has points by name."""
    across, up = scales
    parts = axes(across, up, *names, title)
    for number, (name, points) in enumerate(lines.items()):
        parts += curve(points, across, up, COLOURS[number % len(COLOURS)], name, number)
    return f'<g transform="translate({at[0]} {at[1]})">' + "\n".join(parts) + "</g>"


def plot(panels, x_name, y_name):
    """An SVG of panels side by side, each {line: [(x, y)..]} by its title, with the same axes."""
    points = [point for lines in panels.values() for line in lines.values() for point in line]
    scales = (Axis([x for x, _ in points], LEFT, WIDTH - RIGHT, False),
              Axis([y for _, y in points], HEIGHT - BOTTOM, TOP, True))
    drawn = [panel(title, lines, (x_name, y_name), scales, (WIDTH * number, 0))
             for number, (title, lines) in enumerate(panels.items())]
    width = WIDTH * len(panels)
    return (f'<svg xmlns="http://www.w3.org/2000/svg" width="{width}" height="{HEIGHT}" '
            f'viewBox="0 0 {width} {HEIGHT}" font-family="sans-serif" font-size="12">\n'
            f'<rect width="{width}" height="{HEIGHT}" fill="#fff"/>\n'
            + "\n".join(drawn) + "\n</svg>\n")
