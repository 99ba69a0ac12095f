"""Panels of lines over the number of threads, drawn as one SVG."""
from typing import NamedTuple

from programs import THREADS

PANEL_WIDTH, PANEL_HEIGHT, GAP, TOP_MARGIN, NAME_WIDTH = 220, 170, 60, 50, 130


class Form(NamedTuple):
    """How the line of a form is drawn."""
    name: str
    colour: str
    dashes: str = ""


class Panel(NamedTuple):
    """Million calls a second, by a form's name and a number of threads."""
    title: str
    speeds: dict


def top_of(speed: float) -> float:
    """A round number, not below the speed, where an axis ends."""
    size = 1.0
    while size * 10 < speed:
        size *= 10
    while size > speed:
        size /= 10
    return next(size * k for k in (1, 1.5, 2, 3, 4, 5, 6, 8, 10) if size * k >= speed)


def text(x: float, y: float, words: str, more: str = "") -> str:
    return f'<text x="{x:.1f}" y="{y:.1f}" {more}>{words}</text>'


def across(threads: int) -> float:
    return PANEL_WIDTH * (threads - 0.5) / THREADS[-1]


def draw_axes(left: float, top: float, most: float, title: str) -> list[str]:
    bottom = top + PANEL_HEIGHT
    parts = [text(left, top - 8, title, 'font-weight="bold"')]
    for step in range(5):
        y = bottom - PANEL_HEIGHT * step / 4
        parts.append(f'<line x1="{left}" y1="{y:.1f}" x2="{left + PANEL_WIDTH}" y2="{y:.1f}" stroke="#ccc"/>')
        parts.append(text(left - 5, y + 4, f"{most * step / 4:g}", 'text-anchor="end"'))
    for threads in THREADS:
        parts.append(text(left + across(threads), bottom + 16, str(threads), 'text-anchor="middle"'))
    return parts


def draw_panel(left: float, top: float, panel: Panel, forms: list[Form]) -> list[str]:
    most = top_of(max(panel.speeds.values()))
    parts = draw_axes(left, top, most, panel.title)
    for form in forms:
        points = [
            (left + across(n), top + PANEL_HEIGHT * (1 - panel.speeds[form.name, n] / most))
            for n in THREADS if (form.name, n) in panel.speeds
        ]
        line = " ".join(f"{x:.1f},{y:.1f}" for x, y in points)
        parts.append(f'<polyline points="{line}" fill="none" stroke="{form.colour}" stroke-width="2" stroke-dasharray="{form.dashes}"/>')
        parts += [f'<circle cx="{x:.1f}" cy="{y:.1f}" r="3" fill="{form.colour}"/>' for x, y in points]
    return parts


def draw_names(y: float, forms: list[Form]) -> list[str]:
    parts = []
    for place, form in enumerate(forms):
        x = GAP + NAME_WIDTH * place
        parts.append(f'<line x1="{x}" y1="{y}" x2="{x + 24}" y2="{y}" stroke="{form.colour}" stroke-width="2" stroke-dasharray="{form.dashes}"/>')
        parts.append(text(x + 28, y + 4, form.name))
    return parts


def draw(title: str, panels: list[Panel], columns: int, forms: list[Form]) -> str:
    """The panels, so many beside each other, under the title and the names of the forms."""
    rows = (len(panels) + columns - 1) // columns
    width = max(GAP + columns * (PANEL_WIDTH + GAP), GAP + NAME_WIDTH * len(forms))
    height = TOP_MARGIN + 20 + rows * (PANEL_HEIGHT + GAP)
    parts = [f'<rect width="{width}" height="{height}" fill="white"/>', text(GAP, 18, title), *draw_names(36, forms)]
    for place, panel in enumerate(panels):
        left = GAP + place % columns * (PANEL_WIDTH + GAP)
        top = TOP_MARGIN + 20 + place // columns * (PANEL_HEIGHT + GAP)
        parts += draw_panel(left, top, panel, forms)
    head = f'<svg xmlns="http://www.w3.org/2000/svg" width="{width}" height="{height}" font-family="sans-serif" font-size="12">'
    return "\n".join([head, *parts, "</svg>", ""])
