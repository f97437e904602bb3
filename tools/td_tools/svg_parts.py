"""The pieces of which drawings in SVG are made, in a font whose characters have one width."""
from html import escape

from .tables import columns, visible

CHARACTER, LINE = 7.3, 18
CUT = "…"


def width_of(text):
    """The width that a text takes."""
    return columns(text) * CHARACTER


def shown(text, longest):
    """The text with escapes for what has no picture, and not too long."""
    text = visible(text)
    return text if len(text) <= longest else text[: longest - 1] + CUT


def text(x, y, said, kind="", anchor=""):
    """A text at a place, with the name of its style."""
    style = f' class="{kind}"' if kind else ""
    side = f' text-anchor="{anchor}"' if anchor else ""
    return f'<text x="{x:.1f}" y="{y:.1f}"{style}{side}>{escape(said)}</text>'


def rectangle(x, y, width, height, kind, rounding=0):
    corner = f' rx="{rounding}"' if rounding else ""
    return (
        f'<rect class="{kind}" x="{x:.1f}" y="{y:.1f}" width="{width:.1f}" '
        f'height="{height:.1f}"{corner}/>'
    )


def path(kind, points):
    return f'<path class="{kind}" d="{points}"/>'


def label(lines, x, y):
    """Lines of text around a place, on paper."""
    lines = [one for one in lines if one]
    width, height = max(map(width_of, lines)), 15 * len(lines)
    drawn = rectangle(x - width / 2 - 2, y - height / 2, width + 4, height, "paper")
    for number, one in enumerate(lines):
        kind = "faint" if number else ""
        drawn += text(x, y - height / 2 + 12 + 15 * number, one, kind, "middle")
    return drawn
