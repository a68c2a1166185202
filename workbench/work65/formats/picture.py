"""A picture of memory in SVG: a column for each area, with its segments at their addresses."""
from typing import List
from xml.sax.saxutils import escape

from work65.instrumenting.sizes import AreaSize, SegmentSize, Sizes

HEIGHT, WIDTH, GAP, TOP = 480, 150, 30, 60
COLOURS = ("#7fb3d5", "#f7dc6f", "#82e0aa", "#f1948a", "#bb8fce", "#f0b27a", "#76d7c4", "#d5d8dc")
TEXT = 'font-family="sans-serif" font-size="12"'


def rectangle(x: float, y: float, height: float, colour: str, title: str) -> str:
    """Returns a rectangle of a column's width with a tooltip."""
    shape = f'<rect x="{x:g}" y="{y:.2f}" width="{WIDTH}" height="{height:.2f}" fill="{colour}" stroke="#333">'
    return f"{shape}<title>{escape(title)}</title></rect>"


def text(x: float, y: float, said: str) -> str:
    """Returns a line of text."""
    return f'<text x="{x:g}" y="{y:.2f}" {TEXT}>{escape(said)}</text>'


def begin_in(area: AreaSize, segment: SegmentSize) -> int:
    """Returns the offset of a segment in an area."""
    return (segment.run if segment.area == area.name else segment.load) - area.start


def column(area: AreaSize, x: int) -> List[str]:
    """Returns the column of an area."""
    scale = HEIGHT / area.size if area.size else 0
    lines = [text(x, TOP - 34, area.name), text(x, TOP - 20, f"${area.start:04X}, {area.size} bytes"), text(x, TOP - 6, f"{area.free} free")]
    lines.append(rectangle(x, TOP, HEIGHT, "#ffffff", f"{area.name}: {area.used} used, {area.free} free"))
    for number, it in enumerate(area.segments):
        if it.size:
            y, height = TOP + begin_in(area, it) * scale, it.size * scale
            address = area.start + begin_in(area, it)
            lines.append(rectangle(x, y, height, COLOURS[number % len(COLOURS)], f"{it.name}: ${address:04X}, {it.size} bytes"))
            if height >= 14:
                lines.append(text(x + 4, y + 12, f"{it.name} {it.size}"))
    return lines


def svg(sizes: Sizes) -> str:
    """Returns the picture."""
    areas = [it for it in sizes.areas if it.size]
    width = GAP + len(areas) * (WIDTH + GAP)
    lines = [f'<svg xmlns="http://www.w3.org/2000/svg" width="{width}" height="{TOP + HEIGHT + GAP}">']
    for number, area in enumerate(areas):
        lines += column(area, GAP + number * (WIDTH + GAP))
    return "\n".join([*lines, "</svg>"]) + "\n"
