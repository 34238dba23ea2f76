"""Plots of times as SVG, both axes by powers of ten."""
from __future__ import annotations

import math
from typing import Iterable

COLOURS = ["#1f5fa8", "#c0504d", "#4f9a4f", "#8064a2"]
WIDTH, HEIGHT, LEFT, TOP = 360, 260, 60, 40
# The least microseconds that are drawn.
LEAST = 0.01

# A size or number, and the seconds there.
Point = tuple[float, float]
# Points by the name of what they are of.
Series = dict[str, list[Point]]
# A plot: its title, and what it draws.
Panel = tuple[str, Series]


def span(values: list[float]) -> tuple[int, int]:
    """Whole powers of ten round the values."""
    low, high = math.floor(math.log10(min(values))), math.ceil(math.log10(max(values)))
    return low, max(high, low + 1)


class Frame:
    """Where a plot's points lie on the page."""

    def __init__(self, series: Series, across: int) -> None:
        points = [point for those in series.values() for point in those]
        self.x0, self.x1 = span([x for x, _ in points])
        self.y0, self.y1 = span([max(y * 1e6, LEAST) for _, y in points])
        self.left, self.right = across + LEFT, across + WIDTH - 20
        self.top, self.bottom = TOP, HEIGHT - 30

    def over(self, x: float) -> float:
        """How far right a size or number lies."""
        part = (math.log10(x) - self.x0) / (self.x1 - self.x0)
        return self.left + part * (self.right - self.left)

    def down(self, micros: float) -> float:
        """How far down some microseconds lie."""
        part = (math.log10(max(micros, LEAST)) - self.y0) / (self.y1 - self.y0)
        return self.bottom - part * (self.bottom - self.top)

    def grid(self) -> Iterable[str]:
        """Lines and numbers of the powers of ten."""
        for power in range(self.y0, self.y1 + 1):
            down = f"{self.down(10.0**power):.1f}"
            yield (f'<path d="M{self.left} {down}H{self.right}" stroke="#ddd"/>'
                   f'<text x="{self.left - 6}" y="{down}" text-anchor="end">'
                   f'{10.0**power:g}</text>')
        for power in range(self.x0, self.x1 + 1):
            over = f"{self.over(10.0**power):.1f}"
            yield (f'<path d="M{over} {self.top}V{self.bottom}" stroke="#ddd"/>'
                   f'<text x="{over}" y="{self.bottom + 16}" text-anchor="middle">'
                   f'{10.0**power:g}</text>')


def panel(title: str, series: Series, across: int) -> list[str]:
    """One plot, as lines of SVG."""
    frame = Frame(series, across)
    out = [f'<text x="{frame.left}" y="{TOP - 20}">{title}</text>', *frame.grid()]
    for index, (label, points) in enumerate(series.items()):
        colour = COLOURS[index % len(COLOURS)]
        line = " ".join(f"{frame.over(x):.1f},{frame.down(y * 1e6):.1f}" for x, y in points)
        out.append(f'<polyline points="{line}" fill="none" stroke="{colour}" stroke-width="2"/>')
        out.append(f'<text x="{frame.left + 8}" y="{frame.top + 12 + 14 * index}" '
                   f'fill="{colour}">{label}</text>')
    return out


def plot(path: str, panels: list[Panel]) -> None:
    """Writes plots beside each other into a file."""
    lines = [line for index, (title, series) in enumerate(panels)
             for line in panel(title, series, index * WIDTH)]
    head = (f'<svg xmlns="http://www.w3.org/2000/svg" width="{WIDTH * len(panels)}" '
            f'height="{HEIGHT}" font-family="sans-serif" font-size="11">')
    back = '<rect width="100%" height="100%" fill="white"/>'
    with open(path, "w", encoding="utf-8") as out:
        out.write("\n".join([head, back, *lines, "</svg>"]) + "\n")
