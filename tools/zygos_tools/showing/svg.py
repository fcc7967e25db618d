"""Writes SVG: shapes as they are drawn, and the document around them."""
from __future__ import annotations

import html
from collections.abc import Iterable


def escaped(words: str) -> str:
    """Escapes a text for its place between tags."""
    return html.escape(words, quote=False)


class Drawing:
    """A list of shapes: each one covers those before it. `more` has more attributes, after a space."""

    def __init__(self) -> None:
        self.lines: list[str] = []

    def text(self, x: float, y: float, words: str, anchor: str = "start", size: float = 12, colour: str = "",
             more: str = "") -> None:
        fill = f' fill="{colour}"' if colour else ""
        self.lines.append(f'<text x="{x:.1f}" y="{y:.1f}" text-anchor="{anchor}" font-size="{size}"{fill}{more}>'
                          f"{escaped(words)}</text>")

    def box(self, x: float, y: float, width: float, height: float, fill: str, more: str = "") -> None:
        self.lines.append(f'<rect x="{x:.1f}" y="{y:.1f}" width="{width:.1f}" height="{height:.1f}" fill="{fill}"{more}/>')

    def line(self, x: float, y: float, to_x: float, to_y: float, colour: str = "black", more: str = "") -> None:
        self.lines.append(f'<line x1="{x:.1f}" y1="{y:.1f}" x2="{to_x:.1f}" y2="{to_y:.1f}" stroke="{colour}"{more}/>')

    def polyline(self, points: Iterable[tuple[float, float]], colour: str, more: str = "") -> None:
        """Draws a line from each point to the next one."""
        places = " ".join(f"{x:.1f},{y:.1f}" for x, y in points)
        self.lines.append(f'<polyline points="{places}" fill="none" stroke="{colour}"{more}/>')

    def path(self, commands: str, colour: str, fill: str = "none") -> None:
        """Draws a path by its commands."""
        self.lines.append(f'<path d="{commands}" stroke="{colour}" fill="{fill}"/>')

    def group(self, y: float, drawing: Drawing) -> None:
        """Adds another drawing, moved down."""
        self.lines += [f'<g transform="translate(0 {y:.0f})">', *drawing.lines, "</g>"]

    def document(self, width: float, height: float, title: str = "", about: str = "") -> str:
        """Returns the drawing as a document, on white; with a title, screen readers take it as an image."""
        begin = f'<svg xmlns="http://www.w3.org/2000/svg" viewBox="0 0 {width:.0f} {height:.0f}" width="{width:.0f}" ' \
                f'height="{height:.0f}" font-family="sans-serif"'
        head = [f'{begin} role="img">', f"<title>{escaped(title)}</title>", f"<desc>{escaped(about)}</desc>"] if title else \
            [f"{begin}>"]
        white = f'<rect width="{width:.0f}" height="{height:.0f}" fill="white"/>'
        return "\n".join([*head, white, *self.lines, "</svg>"])
