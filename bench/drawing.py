"""Draws how times grow with inputs, as SVG that is read in light and in dark. All axes are logarithmic."""

import math

# What is counted, the title of its panel, what a time is of, what the axis has, and how many of the former are in one
# of the latter.
PANELS = (
    ("letters", "Simulation", "a letter", "letters of the schedule", 1),
    ("records", "Replay", "a record", "records of the script", 1),
    ("turns", "Run by six threads", "a machine's turn", "turns of each machine", 6),
    ("entries", "Audit", "an entry", "entries", 1),
)
UNITS = {what: units for what, *_, units in PANELS}
# How each program is drawn: its class, its dashes, its mark. Where marks meet, the dot is in the square.
PROGRAMS = {
    "proved": ("proved", "none", '<circle cx="{x:.1f}" cy="{y:.1f}" r="3.5"/>'),
    "plain Rust": ("plain", "8 5", '<path d="M{x:.1f} {y:.1f}m-5 -5h10v10h-10z" style="stroke-width: 2"/>'),
}
START = "1 4"
WIDTH, HEIGHT = 330, 215
HEAD = """\
<svg xmlns="http://www.w3.org/2000/svg" viewBox="0 0 900 680" font-family="sans-serif" font-size="14">
<title>How times grow with inputs: the proved programs and plain Rust</title>
<style>
.paper { color: #fff } .ink { color: #1f2328 } .faint { color: #59636e } .grid { color: #d1d9e0 }
.proved { color: #0072b2 } .plain { color: #d55e00 }
@media (prefers-color-scheme: dark) {
.paper { color: #0d1117 } .ink { color: #f0f6fc } .faint { color: #9198a1 } .grid { color: #3d444d }
.proved { color: #56b4e9 } .plain { color: #e69f00 }
}
text, circle, rect { fill: currentColor } path { fill: none; stroke: currentColor }
</style>
<rect class="paper" width="900" height="680" rx="8"/>
"""


def text(x, y, words, look="ink", anchor="start", weight="normal"):
    how = f'text-anchor="{anchor}" font-weight="{weight}"'
    return f'<text class="{look}" x="{x:.0f}" y="{y:.0f}" {how}>{words}</text>\n'


def line(points, look, dashes="none", width=2):
    path = "M" + "L".join(f"{x:.1f} {y:.1f}" for x, y in points)
    return f'<path class="{look}" d="{path}" stroke-dasharray="{dashes}" style="stroke-width: {width}"/>\n'


def mark(x, y, program):
    look, _, shape = PROGRAMS[program]
    return f'<g class="{look}">{shape.format(x=x, y=y)}</g>\n'


def duration(nanoseconds):
    for unit, size in (("ms", 1e6), ("µs", 1e3)):
        if nanoseconds >= size:
            return f"{nanoseconds / size:g} {unit}"
    return f"{nanoseconds:g} ns"


def ticks(least, most):
    """The steps of an axis from below the least figure to above the most: powers of ten, and where the figures are
    close also twice and five times as much."""
    steps = (1,) if most / least > 50 else (1, 2, 5)
    found = [step * 10.0**power for power in range(-2, 10) for step in steps]
    below, above = max(it for it in found if it < least), min(it for it in found if it > most)
    return [it for it in found if below <= it <= above]


class Panel:
    """A panel, with its upper left corner. Its rows have the size of an input, a program, and nanoseconds."""

    def __init__(self, left, top, rows, units):
        self.left, self.top, self.units = left, top, units
        self.starts = {program: time for size, program, time in rows if size == 0}
        self.points = {
            it: [(size, time / size / units) for size, program, time in rows if size and program == it]
            for it in PROGRAMS
        }
        self.sizes = [size for size, _ in self.points["proved"]]
        figures = [figure for points in self.points.values() for _, figure in points]
        figures += [self.start(program, self.sizes[0]) for program in self.starts]
        self.ticks = ticks(min(figures), max(figures))

    def start(self, program, size):
        """The start of a program, divided by the units of an input of this size."""
        return self.starts[program] / size / self.units

    def x(self, size):
        return self.left + WIDTH * math.log(size / self.sizes[0]) / math.log(self.sizes[-1] / self.sizes[0])

    def y(self, figure):
        least, most = self.ticks[0], self.ticks[-1]
        return self.top + HEIGHT * (1 - math.log(figure / least) / math.log(most / least))

    def axes(self):
        for it in self.ticks:
            yield line([(self.left, self.y(it)), (self.left + WIDTH, self.y(it))], "grid", width=1)
            yield text(self.left - 10, self.y(it) + 5, duration(it), "faint", "end")
        for it in self.sizes:
            yield line([(self.x(it), self.top), (self.x(it), self.top + HEIGHT)], "grid", width=1)
            yield text(self.x(it), self.top + HEIGHT + 20, f"{it:,}", "faint", "middle")

    def curves(self):
        for program, start in self.starts.items():
            # (it leaves the panel at the size at which it is as little as the lowest step)
            end = min(self.sizes[-1], start / self.ticks[0] / self.units)
            ends = [(self.x(size), self.y(self.start(program, size))) for size in (self.sizes[0], end)]
            yield line(ends, PROGRAMS[program][0], START)
        for program, points in self.points.items():
            look, dashes, _ = PROGRAMS[program]
            places = [(self.x(size), self.y(figure)) for size, figure in points]
            yield line(places, look, dashes, 2.5)
            yield from (mark(*place, program) for place in places)


def legend(x, y):
    for program, (look, dashes, _) in PROGRAMS.items():
        yield line([(x, y - 5), (x + 50, y - 5)], look, dashes, 2.5)
        yield mark(x + 25, y - 5, program)
        yield text(x + 60, y, program)
        x += 160
    yield line([(x, y - 9), (x + 50, y - 9)], "proved", START)
    yield line([(x, y - 1), (x + 50, y - 1)], "plain", START)
    yield text(x + 60, y, "start of the program alone, divided by as many units")


def picture(rows, machine):
    """The whole picture, of rows with what is counted, the size of an input, a program, and nanoseconds."""
    parts = [HEAD, *legend(80, 36)]
    for number, (what, title, unit, counted, units) in enumerate(PANELS):
        left, top = 90 + number % 2 * 440, 85 + number // 2 * 295
        panel = Panel(left, top, [row[1:] for row in rows if row[0] == what], units)
        parts += [text(left, top - 14, f"{title}: time {unit}", weight="bold"), *panel.axes(), *panel.curves()]
        parts.append(text(left + WIDTH / 2, top + HEIGHT + 42, counted, anchor="middle"))
    parts += [text(90, 668, f"Times of whole programs, and of audits alone. {machine}", "faint"), "</svg>\n"]
    return "".join(parts)
