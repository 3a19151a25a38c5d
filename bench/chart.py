"""A chart with logarithmic axes as SVG: lines and single points, each with its label at its right end."""

import math
from dataclasses import dataclass
from xml.sax.saxutils import escape

WIDTH, HEIGHT = 760, 420
LEFT, RIGHT, TOP, BOTTOM = 80, 230, 48, 56
COLOURS = ("#1f5fa8", "#b3401a", "#2c7a3f", "#7a3f94", "#8a6d00", "#4d4d4d")
GAP = 15
Point = tuple[float, float]


@dataclass(frozen=True)
class Series:
    """A line through points, or a single point."""

    label: str
    points: list[Point]


@dataclass(frozen=True)
class Axis:
    """The powers of ten that an axis spans, and where it lies in the picture."""

    first: int
    last: int
    begin: float
    end: float

    def at(self, value: float) -> float:
        part = (math.log10(value) - self.first) / (self.last - self.first)
        return self.begin + part * (self.end - self.begin)

    @property
    def powers(self) -> list[int]:
        return list(range(self.first, self.last + 1))


def axis(values: list[float], begin: float, end: float) -> Axis:
    first, last = math.floor(math.log10(min(values))), math.ceil(math.log10(max(values)))
    return Axis(first, max(last, first + 1), begin, end)


def power_text(power: int) -> str:
    return f"{10 ** power:,}" if power >= 0 else f"{10.0 ** power:.{-power}f}"


def text(x: float, y: float, words: str, more: str = "") -> str:
    return f'<text x="{x:.1f}" y="{y:.1f}" {more}>{escape(words)}</text>'


def grid(across: Axis, up: Axis) -> list[str]:
    """A line and a number for each power of ten."""
    parts = []
    for power in across.powers:
        x = across.at(10.0**power)
        parts.append(f'<path d="M{x:.1f} {up.begin:.1f}V{up.end:.1f}" stroke="#d8d8d8"/>')
        parts.append(text(x, up.begin + 18, power_text(power), 'text-anchor="middle"'))
    for power in up.powers:
        y = up.at(10.0**power)
        parts.append(f'<path d="M{across.begin:.1f} {y:.1f}H{across.end:.1f}" stroke="#d8d8d8"/>')
        parts.append(text(across.begin - 8, y + 4, power_text(power), 'text-anchor="end"'))
    return parts


def label_places(series: list[Series], up: Axis) -> list[float]:
    """Where each label stands, moved down until no two overlap."""
    wanted = sorted((up.at(each.points[-1][1]), index) for index, each in enumerate(series))
    places, before = [0.0] * len(series), -math.inf
    for y, index in wanted:
        before = places[index] = max(y, before + GAP)
    return places


def drawn(series: Series, colour: str, label_y: float, across: Axis, up: Axis) -> list[str]:
    """A series: its line, its points, and its label."""
    places = [(across.at(x), up.at(y)) for x, y in series.points]
    parts = []
    if len(places) > 1:
        path = "L".join(f"{x:.1f} {y:.1f}" for x, y in places)
        parts.append(f'<path d="M{path}" fill="none" stroke="{colour}" stroke-width="2"/>')
    parts += [f'<circle cx="{x:.1f}" cy="{y:.1f}" r="3.5" fill="{colour}"/>' for x, y in places]
    last_x, last_y = places[-1]
    middle = across.end + 10
    parts.append(f'<path d="M{last_x:.1f} {last_y:.1f}L{middle:.1f} {label_y:.1f}" stroke="{colour}" opacity=".35"/>')
    parts.append(text(middle + 4, label_y + 4, series.label, f'fill="{colour}"'))
    return parts


def chart(title: str, x_label: str, y_label: str, series: list[Series]) -> str:
    """The whole picture."""
    xs = [x for each in series for x, _ in each.points]
    ys = [y for each in series for _, y in each.points]
    across, up = axis(xs, LEFT, WIDTH - RIGHT), axis(ys, HEIGHT - BOTTOM, TOP)
    middle = (up.begin + up.end) / 2
    parts = [
        f'<svg xmlns="http://www.w3.org/2000/svg" viewBox="0 0 {WIDTH} {HEIGHT}" role="img" '
        f'font-family="sans-serif" font-size="12">',
        f"<title>{escape(title)}</title>",
        f'<rect width="{WIDTH}" height="{HEIGHT}" fill="#ffffff"/>',
        text(LEFT, 26, title, 'font-size="15" font-weight="bold"'),
        *grid(across, up),
        text((across.begin + across.end) / 2, HEIGHT - 14, x_label, 'text-anchor="middle"'),
        text(0, 0, y_label, f'text-anchor="middle" transform="translate(18 {middle:.1f}) rotate(-90)"'),
    ]
    for index, (each, place) in enumerate(zip(series, label_places(series, up))):
        parts += drawn(each, COLOURS[index % len(COLOURS)], place, across, up)
    return "\n".join([*parts, "</svg>"]) + "\n"
