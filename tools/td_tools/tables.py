"""Relations as tables, in columns of a terminal, and as CSV."""
import re
import unicodedata

from .literals import relation_of

# What turns the direction of writing, and would move what stands beside it.
TURNS = {"LRE", "RLE", "LRO", "RLO", "PDF", "LRI", "RLI", "FSI", "PDI"}
UNSAFE = {"Cc", "Cs", "Zl", "Zp"}
WITHOUT_WIDTH = {"Mn", "Me", "Cf"}
# What joins two pictures into one, and what makes a picture of a sign: it takes two columns then.
JOINER, AS_PICTURE = "\u200d", "\ufe0f"
SKINS = range(0x1F3FB, 0x1F400)
SIGNS_WITH_PICTURES = {"So", "Sm"}
PLAIN_CELL = re.compile(r'[^",\r\n]+')
DEE, DUM = "TABLE_DEE", "TABLE_DUM"


def columns(text):
    """How many columns of a terminal the text takes: pictures that are joined take those of one."""
    if text.isascii():
        return len(text)
    total, before, last = 0, " ", 0
    for character in text:
        last = columns_behind(character, before, last)
        total += last
        before = character
    return total


def columns_behind(character, before, last):
    """How many columns a character takes behind another one, which took the last number."""
    if character == AS_PICTURE:
        return 1 if last == 1 and is_picture(before) else 0
    is_joined = before == JOINER and is_picture(character)
    is_skin = ord(character) in SKINS and is_picture(before)
    return 0 if is_joined or is_skin else columns_of_one(character)


def is_picture(character):
    """Whether the character is a picture, or a sign that may be shown as one."""
    is_sign = unicodedata.category(character) in SIGNS_WITH_PICTURES
    return is_sign or character in "#*0123456789\u203c\u2049"


def columns_of_one(character):
    if unicodedata.category(character) in WITHOUT_WIDTH or "\u1160" <= character <= "\u11ff":
        return 0
    return 2 if unicodedata.east_asian_width(character) in "WF" else 1


def visible(text):
    """The text, in which what a terminal would obey stands as an escape: a tab as `\\t`, and a
    byte that is no character as `\\xff`."""
    if text.isascii() and text.isprintable():
        return text
    return "".join(map(visible_one, text))


def visible_one(character):
    if "\udc80" <= character <= "\udcff":
        return f"\\x{ord(character) - 0xDC00:02x}"
    is_unsafe = unicodedata.category(character) in UNSAFE
    if is_unsafe or unicodedata.bidirectional(character) in TURNS:
        return character.encode("unicode_escape", "surrogatepass").decode()
    return character


def cell(value):
    """The lines of a value's cell: a text without quotes, a relation as a table."""
    if value.relation is not None:
        return table(value.relation)
    if value.text is not None:
        return [visible(line) for line in value.text.split("\n")]
    return [visible(value.literal)]


def padded(text, width, is_number):
    blanks = " " * (width - columns(text))
    return blanks + text if is_number else text + blanks


def row(cells, widths, numbers):
    """The lines of a row: as many as its highest cell has."""
    for number in range(max(map(len, cells))):
        texts = [lines[number] if number < len(lines) else "" for lines in cells]
        shown = map(padded, texts, widths, numbers)
        yield "| " + " | ".join(shown) + " |"


def table(relation):
    """The lines of the table of a relation. Rows of several lines have rules between."""
    if not relation.heading:
        return [DEE if relation.tuples else DUM]
    heads = [[name] for name, _ in relation.heading]
    numbers = [kind == "INTEGER" for _, kind in relation.heading]
    rows = [[cell(value) for value in values] for values in relation.tuples]
    widths = [
        max(columns(line) for cells in [heads, *rows] for line in cells[place])
        for place in range(len(heads))
    ]
    rule = "+-" + "-+-".join("-" * width for width in widths) + "-+"
    is_ruled = any(len(lines) > 1 for cells in rows for lines in cells)
    shown = [rule, *row(heads, widths, numbers), rule]
    for cells in rows:
        shown += row(cells, widths, numbers)
        if is_ruled:
            shown.append(rule)
    return shown if is_ruled or not rows else [*shown, rule]


def visible_lines(text):
    """The text, in which a terminal obeys nothing but the ends of lines."""
    return "\n".join(map(visible, text.split("\n")))


def shown(line):
    """A whole line of an answer: the table of a relation, and all else with escapes."""
    relation = relation_of(line)
    if relation is None:
        return visible_lines(line)
    return "".join(f"{one}\n" for one in table(relation))


def csv_cell(value):
    text = value.literal if value.text is None else value.text
    return csv_text(text)


def csv_text(text):
    return text if PLAIN_CELL.fullmatch(text) else '"' + text.replace('"', '""') + '"'


def csv(relation):
    """The relation as CSV, with a line of names. Values that are no texts stand as literals."""
    heads = [csv_text(name) for name, _ in relation.heading]
    rows = [[csv_cell(value) for value in values] for values in relation.tuples]
    return "".join(",".join(cells) + "\n" for cells in [heads, *rows])
