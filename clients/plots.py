"""Plots of figures as SVG: panels with lines on logarithmic scales, legible on a light and on a dark page."""
import math
from html import escape

WIDTH, HEIGHT, LEFT, RIGHT, TOP, BOTTOM = 470, 320, 58, 122, 44, 46
# A colour and dashes for each server, which it has in every panel; a folder also without a cache, and with a large one.
LOOKS = {"folder": ("#2f7fd6", ""), "bare": ("#2f7fd6", "3 5"), "held": ("#2f7fd6", "12 4"), "file": ("#0f9488", "6 3"),
         "Orthanc": ("#d9730d", "2 3"), "dcmqrscp": ("#8b5cf6", "9 3 2 3")}
STYLE = """<style>
.page { fill: #ffffff }
.grid { stroke: #d8dee4; stroke-width: 1 }
text { font: 12px system-ui, sans-serif; fill: #1f2328 }
.title { font-weight: 600 }
.small { font-size: 11px }
@media (prefers-color-scheme: dark) {
.page { fill: #0d1117 }
.grid { stroke: #30363d }
text { fill: #e6edf3 }
}
</style>
"""


class Scale:
    """A logarithmic scale from a least to a greatest value, over so many pixels."""

    def __init__(self, values, start, end):
        self.least, self.greatest = math.log10(min(values)), math.log10(max(values))
        if self.greatest - self.least < 0.3:
            self.least, self.greatest = self.least - 0.2, self.greatest + 0.2
        self.start, self.end = start, end

    def at(self, value):
        share = (math.log10(value) - self.least) / (self.greatest - self.least)
        return self.start + share * (self.end - self.start)

    def ticks(self):
        """Round numbers on it: 1, 2 and 5 of each power of ten, or the powers alone where these are many."""
        found = [digit * 10.0 ** power for power in range(math.floor(self.least), math.ceil(self.greatest) + 1)
                 for digit in (1, 2, 5)]
        found = [tick for tick in found if self.least - 1e-9 <= math.log10(tick) <= self.greatest + 1e-9]
        return found if len(found) < 8 else [tick for tick in found if math.log10(tick) == round(math.log10(tick))]


def number(value):
    return f"{value:,.0f}" if value >= 1 else f"{value:g}"


def spread(wanted, gap, low, high):
    """Places near those wanted, at least so far from each other."""
    order = sorted(range(len(wanted)), key=lambda i: wanted[i])
    found, last = [0.0] * len(wanted), low - gap
    for i in order:
        found[i] = last = max(wanted[i], last + gap)
    over = max(0.0, last - high)
    return [place - over for place in found]


def text(x, y, words, kind="", anchor="start", more=""):
    return f'<text class="{kind}" x="{x:.1f}" y="{y:.1f}" text-anchor="{anchor}"{more}>{escape(words)}</text>\n'


def axes(across, up, x_ticks, labels):
    out = []
    for tick in up.ticks():
        y = up.at(tick)
        out.append(f'<line class="grid" x1="{across.start}" x2="{across.end}" y1="{y:.1f}" y2="{y:.1f}"/>\n')
        out.append(text(across.start - 8, y + 4, number(tick), "small", "end"))
    for tick, words in x_ticks:
        out.append(text(across.at(tick), up.start + 18, words, "small", "middle"))
    out.append(text((across.start + across.end) / 2, up.start + 36, labels[0], "small", "middle"))
    out.append(text(across.start - 44, up.end - 12, labels[1], "small"))
    return "".join(out)


def line(points, name, across, up):
    colour, dashes = LOOKS[name]
    places = [(across.at(x), up.at(y)) for x, y in points]
    path = " ".join(f"{x:.1f},{y:.1f}" for x, y in places)
    dots = "".join(f'<circle cx="{x:.1f}" cy="{y:.1f}" r="3.5" fill="{colour}"/>' for x, y in places)
    return (f'<polyline fill="none" stroke="{colour}" stroke-width="2" stroke-dasharray="{dashes}" points="{path}"/>\n'
            f"{dots}\n")


def key(x, y, name, label):
    """Which line has this label."""
    colour, dashes = LOOKS[name]
    return (f'<line x1="{x:.1f}" x2="{x + 20:.1f}" y1="{y:.1f}" y2="{y:.1f}" stroke="{colour}" stroke-width="2" '
            f'stroke-dasharray="{dashes}"/>\n' + text(x + 25, y + 4, label, "small"))


def panel(at, title, series, x_ticks, labels):
    """A panel whose left edge is there: `series` has points by label and look."""
    points = [point for _, _, found in series for point in found]
    if not points:
        return text(at + LEFT, TOP, f"{title}: nothing was measured", "title")
    across = Scale([tick for tick, _ in x_ticks], at + LEFT, at + WIDTH - RIGHT)
    up = Scale([y for _, y in points], HEIGHT - BOTTOM, TOP)
    out = [text(at + LEFT - 44, 18, title, "title"), axes(across, up, x_ticks, labels)]
    ends = spread([up.at(found[-1][1]) for _, _, found in series], 15, TOP, HEIGHT - BOTTOM)
    for (label, name, found), y in zip(series, ends):
        out.append(line(found, name, across, up))
        out.append(key(across.end + 10, y, name, label))
    return "".join(out)


def drawn(title, panels):
    """The plot of some panels, each as `panel` has them without its place."""
    width = WIDTH * len(panels)
    body = "".join(panel(place * WIDTH, *each) for place, each in enumerate(panels))
    return (f'<svg xmlns="http://www.w3.org/2000/svg" width="{width}" height="{HEIGHT}" viewBox="0 0 {width} {HEIGHT}" '
            f'role="img">\n<title>{escape(title)}</title>\n{STYLE}'
            f'<rect class="page" width="{width}" height="{HEIGHT}"/>\n{body}</svg>\n')
