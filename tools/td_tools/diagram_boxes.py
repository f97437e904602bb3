"""The boxes of a diagram: relvars with their attributes, notes, and the list of types."""
import textwrap

from .expression_layout import joined, tokens_of
from .layers import Box
from .svg_parts import LINE, path, rectangle, shown, text, width_of

PADDING, HEAD = 10, 26
LONGEST_NAME, LONGEST_TYPE, LONGEST_COUNT = 40, 32, 28
NOTE_WIDTH, NOTE_LINES, FOLD = 36, 6, 10
TYPES_WIDTH = 100


def key_lines(relvar):
    """The keys, in words: where underlining does not tell them all."""
    is_plain = len(relvar.keys) == 1 and relvar.keys[0]
    if is_plain or not relvar.keys:
        return []
    return [shown(f"KEY {{{', '.join(one)}}}", LONGEST_NAME + LONGEST_TYPE) for one in relvar.keys]


def told_count(relvar):
    count = shown(relvar.tuples(), LONGEST_COUNT)
    return f"virtual, {count}" if relvar.is_virtual else count


def name_width(relvar):
    names = [shown(name, LONGEST_NAME) for name, _ in relvar.heading]
    return max(map(width_of, names), default=0)


def relvar_box(relvar):
    """The size of a relvar's box."""
    types = [shown(kind, LONGEST_TYPE) for _, kind in relvar.heading]
    rows = name_width(relvar) + 2 * PADDING + max(map(width_of, types), default=0)
    head = 1.1 * width_of(shown(relvar.name, LONGEST_NAME)) + 2 * PADDING
    head += width_of(told_count(relvar))
    keys = [width_of(one) for one in key_lines(relvar)]
    width = max([rows, head, *keys]) + 2 * PADDING
    height = HEAD + LINE * (len(relvar.heading) + len(keys)) + 8
    return Box(relvar, width, height)


def row_style(relvar, name):
    """How an attribute's name is underlined."""
    if relvar.keys and name in relvar.keys[0]:
        return "first-key"
    return "other-key" if any(name in key for key in relvar.keys) else ""


def relvar_drawn(relvar, box):
    """The box of a relvar: its name and how many tuples it has, its attributes, and its keys."""
    x, y, width = box.x, box.y, box.width
    name = shown(relvar.name, LONGEST_NAME)
    drawn = [
        rectangle(x, y, width, box.height, "box", 4),
        rectangle(x + 0.5, y + 0.5, width - 1, HEAD - 1, "head", 4),
        text(x + PADDING, y + 18, name, "name"),
        text(x + width - PADDING, y + 18, told_count(relvar), "faint", "end"),
    ]
    at, second = y + HEAD + 16, x + 3 * PADDING + name_width(relvar)
    for attribute, kind in relvar.in_order():
        style = row_style(relvar, attribute)
        drawn.append(text(x + PADDING, at, shown(attribute, LONGEST_NAME), style))
        drawn.append(text(second, at, shown(kind, LONGEST_TYPE), "faint"))
        at += LINE
    for line in key_lines(relvar):
        drawn.append(text(x + PADDING, at, line, "faint"))
        at += LINE
    kind = "virtual" if relvar.is_virtual else "base"
    return f'<g class="relvar {kind}">{"".join(drawn)}</g>'


def note_lines(note):
    """The lines of a constraint's expression; what is too long is left out."""
    said = shown(joined(tokens_of(note.expression)), 10_000)
    return textwrap.wrap(said, NOTE_WIDTH, max_lines=NOTE_LINES, placeholder=" …") or [""]


def note_box(note):
    """The size of a note."""
    widths = [1.1 * width_of(shown(note.name, LONGEST_NAME)), *map(width_of, note_lines(note))]
    return Box(note, max(widths) + 2 * PADDING + FOLD, 28 + LINE * len(note_lines(note)))


def note_drawn(note, box):
    """A note: a sheet with a corner that is folded."""
    x, y, right, bottom = box.x, box.y, box.x + box.width, box.y + box.height
    corner = f"H{right - FOLD:.1f}L{right:.1f},{y + FOLD:.1f}"
    outline = f"M{x:.1f},{y:.1f}{corner}V{bottom:.1f}H{x:.1f}Z"
    fold = f"M{right - FOLD:.1f},{y:.1f}V{y + FOLD:.1f}H{right:.1f}"
    drawn = [path("note", outline), path("rim", fold)]
    drawn.append(text(x + PADDING, y + 18, shown(note.name, LONGEST_NAME), "name"))
    for number, line in enumerate(note_lines(note)):
        drawn.append(text(x + PADDING, y + 36 + LINE * number, line))
    return f'<g class="constraint">{"".join(drawn)}</g>'


def types_drawn(types, y):
    """The list of the user types below all else, with its width and its height."""
    if not types:
        return "", 0, 0
    lines = [shown(f"TYPE {one}", TYPES_WIDTH) for one in types]
    drawn = [text(0, y + 12 + LINE * number, line) for number, line in enumerate(lines)]
    return f'<g class="types">{"".join(drawn)}</g>', max(map(width_of, lines)), LINE * len(lines)
