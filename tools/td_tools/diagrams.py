"""A database's diagram as SVG: relvars as boxes, inclusions as arrows, constraints as notes."""
from html import escape

from .diagram_boxes import note_box, note_drawn, relvar_box, relvar_drawn, types_drawn
from .diagram_words import description, title
from .layers import GAP_COMPONENTS, Route, laid_out
from .schema_graph import End, Link, schema_of
from .svg_parts import label, path, width_of

MARGIN = 16
LABEL_HEIGHT, LOOP_STEP = 32, 40
# What stands at the end of an arrow, in units from the box along the line: a foot for many, a ring
# for none, a bar for one.
GLYPHS = {
    End.ONE: "M6,-5V5M10,-5V5",
    End.AT_MOST_ONE: "M6,-5V5M10,0a4,4 0 1 1 8,0a4,4 0 1 1 -8,0",
    End.SOME: "M0,-6L10,0L0,6M13,-5V5",
    End.ANY: "M0,-6L10,0L0,6M10,0a4,4 0 1 1 8,0a4,4 0 1 1 -8,0",
}
ORIGIN_HEAD = "M0,0L9,-5V5Z"
STUB = 20
CLASSES = {Link.INCLUSION: "inclusion", Link.ORIGIN: "origin", Link.MENTION: "mention"}

# Everything is named below the class of the element, so that a page's own styles are left alone.
STYLE = """
svg.td-diagram {
  --ink: #1b1f24; --faint: #57606a; --paper: #ffffff; --box: #f6f8fa; --head: #ddeaf7;
  --virtual: #f3eefb; --note: #fff8d6; --line: #3b5f86; --edge: #8c959f;
  background: var(--paper);
  font: 12px ui-monospace, Menlo, Consolas, "DejaVu Sans Mono", monospace;
}
@media (prefers-color-scheme: dark) { svg.td-diagram {
  --ink: #e6edf3; --faint: #9da7b1; --paper: #0d1117; --box: #161b22; --head: #1d344d;
  --virtual: #2a2140; --note: #3a3210; --line: #8cbcf0; --edge: #6e7681;
} }
@media print { svg.td-diagram { max-width: 100%; height: auto; } }
svg.td-diagram text { fill: var(--ink); white-space: pre; }
svg.td-diagram .name { font-size: 13px; font-weight: bold; }
svg.td-diagram .faint { fill: var(--faint); }
svg.td-diagram .first-key { text-decoration: underline; }
svg.td-diagram .other-key { text-decoration: underline dashed; }
svg.td-diagram .paper { fill: var(--paper); }
svg.td-diagram .box { fill: var(--box); stroke: var(--edge); }
svg.td-diagram .head { fill: var(--head); }
svg.td-diagram .virtual .head { fill: var(--virtual); }
svg.td-diagram .virtual .box, svg.td-diagram .virtual .rim { stroke-dasharray: 6 4; }
svg.td-diagram .rim { fill: none; stroke: var(--edge); }
svg.td-diagram .note { fill: var(--note); stroke: var(--edge); }
svg.td-diagram .edge { fill: none; stroke: var(--line); stroke-width: 1.5; }
svg.td-diagram .end { fill: var(--paper); stroke: var(--line); stroke-width: 1.5; }
svg.td-diagram .origin .edge { stroke-dasharray: 6 4; }
svg.td-diagram .mention .edge { stroke: var(--faint); stroke-width: 1; stroke-dasharray: 1.5 3; }
"""


def box_of(relvar, edges):
    """The box of a relvar, with room for its loops at the right."""
    loops = [one for one in edges if one.source is relvar and one.target is relvar]
    box = relvar_box(relvar)
    box.margin = max((40 + label_width(one) for one in loops), default=0)
    box.height = max(box.height, 8 + LOOP_STEP * len(loops))
    return box


def label_width(edge):
    return max(width_of(edge.name), width_of(edge.by())) if edge.link is Link.INCLUSION else 0


def routes_of(edges, boxes):
    """The routes of edges between the boxes of what they join."""
    for edge in edges:
        width = label_width(edge)
        height = LABEL_HEIGHT if width else 0
        yield Route(edge, boxes[id(edge.source)], boxes[id(edge.target)], width, height)


def curve(points):
    """The path of a route: straight where it passes a layer, curved between two."""
    (x, y), *rest = points
    said = [f"M{x:.1f},{y:.1f}"]
    for at, (to_x, to_y) in enumerate(rest):
        if abs(to_x - x) < 0.05:
            said.append(f"V{to_y:.1f}")
        else:
            stub = STUB if at == 0 else 0
            end = STUB if at == len(rest) - 2 else 0
            way = 1 if to_y > y else -1
            begin_y, end_y = y + way * stub, to_y - way * end
            middle = (begin_y + end_y) / 2
            said.append(f"V{begin_y:.1f}C{x:.1f},{middle:.1f} {to_x:.1f},{middle:.1f}")
            said.append(f" {to_x:.1f},{end_y:.1f}V{to_y:.1f}")
        x, y = to_x, to_y
    return "".join(said)


def glyph(shape, point, angle=0):
    """What stands at an end of a line, which goes on from the point at the angle."""
    x, y = point
    return f'<path class="end" d="{shape}" transform="translate({x:.1f},{y:.1f}) rotate({angle})"/>'


def ends_drawn(edge, route):
    """What stands at the ends of a route, of which the source is below but where it is turned."""
    angle = 90 if route.is_reversed else -90
    if edge.link is Link.INCLUSION:
        near, far = (GLYPHS[one] for one in edge.ends)
        return glyph(near, route.points[0], angle) + glyph(far, route.points[-1], -angle)
    return glyph(ORIGIN_HEAD, route.points[-1], -angle) if edge.link is Link.ORIGIN else ""


def loop_points(box, number):
    """The points of a loop at the right of a box."""
    x, y = box.x + box.width, box.y + 14 + LOOP_STEP * number
    return x, y, y + LOOP_STEP / 2


def loop_drawn(route, number):
    """A loop at the right of its box, with its label beside."""
    edge, (x, top, bottom) = route.item, loop_points(route.source, number)
    line = path("edge", f"M{x:.1f},{top:.1f}H{x + 28:.1f}V{bottom:.1f}H{x:.1f}")
    if edge.link is not Link.INCLUSION:
        return line
    near, far = (GLYPHS[one] for one in edge.ends)
    ends = glyph(near, (x, bottom)) + glyph(far, (x, top))
    width = label_width(edge)
    return line + ends + label([edge.name, edge.by()], x + 32 + width / 2, (top + bottom) / 2)


def route_drawn(route):
    """A route with its ends and its label."""
    edge = route.item
    drawn = path("edge", curve(route.points)) + ends_drawn(edge, route)
    if edge.link is Link.INCLUSION:
        drawn += label([edge.name, edge.by()], *route.label)
    return drawn


def edges_drawn(routes):
    """All routes, each in a group of its kind."""
    loops = {}
    for route in routes:
        number = loops.setdefault(route.source, 0) if route.is_loop else 0
        loops[route.source] = number + 1 if route.is_loop else loops.get(route.source, 0)
        drawn = loop_drawn(route, number) if route.is_loop else route_drawn(route)
        yield f"<g {named(route.item)}>{drawn}</g>"


def named(edge):
    """What tells of an edge which it is."""
    source, target = edge.source.name, edge.target.name
    names = {"class": CLASSES[edge.link], "data-from": source, "data-to": target}
    if edge.link is Link.INCLUSION:
        names["data-constraint"] = edge.name
    return " ".join(f'{name}="{escape(said)}"' for name, said in names.items())


def schema_svg(schema):
    """The SVG element of a schema's diagram. It has no ids, so that several stand in one page."""
    boxes = {id(one): box_of(one, schema.edges) for one in schema.relvars}
    boxes |= {id(one): note_box(one) for one in schema.notes}
    routes = list(routes_of(schema.edges, boxes))
    width, height = laid_out(list(boxes.values()), routes) if boxes else (0, 0)
    types, types_width, types_height = types_drawn(schema.types, height + GAP_COMPONENTS)
    drawn = [*edges_drawn(routes)]
    drawn += [relvar_drawn(one, boxes[id(one)]) for one in schema.relvars]
    drawn += [note_drawn(one, boxes[id(one)]) for one in schema.notes]
    width = max(width, types_width) + 2 * MARGIN
    height += (types_height + GAP_COMPONENTS if types else 0) + 2 * MARGIN
    inner = "\n".join([*drawn, types])
    return (
        f'<svg xmlns="http://www.w3.org/2000/svg" class="td-diagram" role="img" '
        f'width="{width:.0f}" height="{height:.0f}" viewBox="0 0 {width:.0f} {height:.0f}">\n'
        f"<title>{escape(title(schema))}</title>\n<desc>{escape(description(schema))}</desc>\n"
        f"<style>{STYLE}</style>\n"
        f'<rect class="paper" width="{width:.0f}" height="{height:.0f}"/>\n'
        f'<g transform="translate({MARGIN},{MARGIN})">\n{inner}\n</g>\n</svg>\n'
    )


def diagram_svg(dump_text):
    """The SVG element of the diagram of the database that a dump makes."""
    return schema_svg(schema_of(dump_text))
