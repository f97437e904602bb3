"""Relations as tables of HTML."""
import html

from .tables import DEE, DUM, visible

STYLE = """\
table.relation { border-collapse: collapse; margin: 0.4rem 0; font-size: 0.92rem;
  font-variant-numeric: tabular-nums; }
table.relation th, table.relation td { border: 1px solid #b9c0c8; padding: 0.15rem 0.55rem;
  text-align: left; vertical-align: top; }
table.relation th { background: #eef1f4; font-weight: 600; }
table.relation td.number, table.relation th.number { text-align: right; }
table.relation td.text { white-space: pre-wrap; }
table.relation table.relation { margin: 0.15rem 0; }
"""


def escaped(text):
    """The text as HTML, in which what a reader's program would obey stands as an escape."""
    return html.escape("\n".join(map(visible, text.split("\n"))))


def cell(value, kind):
    if value.relation is not None:
        return f"<td>{table(value.relation)}</td>"
    if value.text is not None:
        lines = "<br>".join(map(escaped, value.text.split("\n")))
        return f'<td class="text">{lines}</td>'
    name = ' class="number"' if kind == "INTEGER" else ""
    return f"<td{name}>{escaped(value.literal)}</td>"


def head(name, kind):
    of_number = ' class="number"' if kind == "INTEGER" else ""
    return f'<th scope="col"{of_number}>{escaped(name)}</th>'


def table(relation):
    """The relation as a table; without attributes it is TABLE_DEE or TABLE_DUM."""
    if not relation.heading:
        return f"<code>{DEE if relation.tuples else DUM}</code>"
    kinds = [kind for _, kind in relation.heading]
    heads = "".join(head(name, kind) for name, kind in relation.heading)
    rows = "".join(f"<tr>{''.join(map(cell, values, kinds))}</tr>\n" for values in relation.tuples)
    return (
        f'<table class="relation">\n<thead><tr>{heads}</tr></thead>\n'
        f"<tbody>\n{rows}</tbody>\n</table>"
    )
