"""The page of a student: what each answer is, the tuples that tell, and what was refused."""
from .grading_key import SHOWN, some_tuples
from .html_tables import STYLE, escaped, table
from .literals import Relation
from .marks import told
from .verdicts import Outcome

PAGE = """\
<!DOCTYPE html>
<html lang="en">
<head>
<meta charset="utf-8">
<meta name="viewport" content="width=device-width, initial-scale=1">
<title>{title}</title>
<style>
body {{ font: 1rem/1.5 system-ui, sans-serif; color: #1c2127; max-width: 52rem;
  margin: 2rem auto; padding: 0 1rem; }}
h1 {{ font-size: 1.5rem; }} h2 {{ font-size: 1.15rem; margin-top: 2rem; }}
h3 {{ font-size: 1rem; margin-bottom: 0.2rem; }}
.ok {{ color: #1b6b34; }} .wrong {{ color: #a3231f; }}
pre {{ background: #f4f6f8; border-left: 3px solid #a3231f; padding: 0.5rem 0.8rem;
  overflow-x: auto; font-size: 0.88rem; }}
{style}@media print {{
  body {{ margin: 0; max-width: none; }}
  table, pre {{ break-inside: avoid; }}
  pre {{ white-space: pre-wrap; }}
}}
</style>
</head>
<body>
<h1>{title}</h1>
<p><strong>{marks} of {total}</strong> marks.</p>
{parts}
</body>
</html>
"""


def overview(key, databases, graded):
    """A table of the answers with their marks and what is told of each."""
    rows = []
    for name, marks in graded.marks(key).items():
        verdicts = graded.verdicts[name]
        is_right = all(one.outcome is Outcome.OK for one in verdicts)
        look = "ok" if is_right else "wrong"
        rows.append(
            f"<tr><td>{escaped(name)}</td><td>{marks} of {key.worth(name).whole}</td>"
            f'<td class="{look}">{escaped(told(databases, verdicts))}</td></tr>'
        )
    heads = "".join(f'<th scope="col">{one}</th>' for one in ("Answer", "Marks", "What it is"))
    return (
        f'<table class="relation">\n<thead><tr>{heads}</tr></thead>\n<tbody>\n'
        + "\n".join(rows)
        + "\n</tbody>\n</table>"
    )


def difference_shown(says, difference):
    """The first tuples of a difference, if it has one."""
    if not difference.count:
        return ""
    heading, tuples = some_tuples(difference.literal)
    front = f"{difference.count} tuples are" if difference.count > 1 else "One tuple is"
    behind = f", of which these are the first {SHOWN}" if difference.count > SHOWN else ""
    return f"<p>{front} {says}{behind}:</p>\n{table(Relation(heading, tuples))}\n"


def headings_shown(one):
    """Both headings, where they differ."""
    said = [", ".join(map(" ".join, heading)) for heading in (one.wanted, one.heading)]
    return (
        f"<p>The heading is to be <code>{{{escaped(said[0])}}}</code>,"
        f" and is <code>{{{escaped(said[1])}}}</code>.</p>\n"
    )


def answer_shown(name, database, one):
    """What tells of an answer that is not right on a database."""
    parts = [f"<h3>{escaped(name)} on {escaped(database)}: {escaped(one.told)}</h3>\n"]
    if one.outcome is Outcome.HEADING:
        parts.append(headings_shown(one))
    if one.outcome is Outcome.TUPLES:
        parts.append(difference_shown("missing", one.missing))
        parts.append(difference_shown("superfluous", one.superfluous))
    return "".join(parts)


def wrong_shown(key, databases, graded):
    """Each answer that is not right: once where nothing but the verdict tells."""
    parts = []
    for name in key.answers:
        for database, one in zip(databases, graded.verdicts[name]):
            if one.outcome in (Outcome.TUPLES, Outcome.HEADING):
                parts.append(answer_shown(name, database, one))
    return "<h2>What differs</h2>\n" + "".join(parts) if parts else ""


def refused_shown(graded):
    told_once = list(dict.fromkeys(one.told for one in graded.refused))
    if not told_once:
        return ""
    return "<h2>What was refused</h2>\n" + "\n".join(
        f"<pre>{escaped(one.rstrip())}</pre>" for one in told_once
    )


def feedback(key, databases, graded):
    """The page of a student."""
    notes = "".join(f'<p class="wrong">{escaped(one)}</p>\n' for one in graded.notes)
    parts = [
        notes + overview(key, databases, graded),
        wrong_shown(key, databases, graded),
        refused_shown(graded),
    ]
    return PAGE.format(
        title=escaped(graded.name),
        style=STYLE,
        marks=graded.total(key),
        total=key.total,
        parts="\n".join(part for part in parts if part),
    )
