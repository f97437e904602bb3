"""A handout as a page of HTML, which is one file and prints well."""
import re

from . import prose
from .diagrams import diagram_svg
from .handout import Diagram, Exercise, Prose
from .html_tables import STYLE, escaped, table
from .lexemes import is_bad, reserved_words, tokens
from .literals import Relation

PAGE = """\
<!DOCTYPE html>
<html lang="en">
<head>
<meta charset="utf-8">
<meta name="viewport" content="width=device-width, initial-scale=1">
<title>{title}</title>
<style>
body {{ font: 1rem/1.55 Georgia, "Liberation Serif", serif; color: #1c2127; background: #fff;
  max-width: 51rem; margin: 2.5rem auto; padding: 0 1rem; }}
h1, h2, h3, table, .exercise::before {{ font-family: system-ui, "Liberation Sans", sans-serif; }}
h1 {{ font-size: 1.7rem; line-height: 1.2; margin: 0 0 1.2rem; }}
h2 {{ font-size: 1.25rem; margin: 2rem 0 0.6rem; }} h3 {{ font-size: 1.05rem; }}
pre, code {{ font-family: ui-monospace, "Liberation Mono", "DejaVu Sans Mono", monospace; }}
code {{ font-size: 0.9em; }}
p, ul, ol {{ max-width: 44rem; }}
pre {{ font-size: 0.8rem; line-height: 1.5; margin: 0; padding: 0.55rem 0.8rem;
  white-space: pre-wrap; overflow-wrap: anywhere; }}
.step {{ margin: 1rem 0; }}
.step pre.statement, pre.code {{ background: #f4f6f8; border: 1px solid #dde2e7;
  border-radius: 4px; }}
pre.code {{ margin: 0.8rem 0; }}
.statement b {{ color: #17477e; font-weight: 600; }} .statement i {{ color: #5d6773; }}
.statement q {{ color: #7a3e00; quotes: none; }}
.answer {{ margin: 0.35rem 0 0 0.8rem; overflow-x: auto; }}
.answer pre {{ padding: 0.1rem 0; }} .done {{ color: #5d6773; }}
.refused {{ color: #8f1d1d; border-left: 3px solid #c23b3b; margin: 0.35rem 0 0 0.8rem; }}
.exercise {{ border: 1px solid #8a949f; border-radius: 4px; padding: 0.2rem 1rem 0.8rem;
  margin: 1.5rem 0; }}
figure {{ margin: 1.2rem 0; }} figure svg {{ max-width: 100%; height: auto; }}
.room div {{ border-bottom: 1px dotted #8a949f; height: 2rem; }}
{style}@media print {{
  @page {{ margin: 2cm; }}
  body {{ max-width: none; margin: 0; padding: 0; font-size: 11pt; }}
  h1, h2, h3 {{ break-after: avoid; }}
  pre {{ font-size: 8pt; }}
  pre, tr, .room {{ break-inside: avoid; }}
  .exercise > p, .statement {{ break-after: avoid; }}
  thead {{ display: table-header-group; }}
  .answer {{ overflow: visible; }}
}}
</style>
</head>
<body>
{parts}
</body>
</html>
"""
TAGS = {prose.Kind.CODE: "code", prose.Kind.EMPHASIS: "em", prose.Kind.STRONG: "strong"}
COMMENT = re.compile(r"//[^\n]*|/\*.*?\*/", re.DOTALL)


def line(spans):
    said = ((TAGS.get(one.kind), escaped(one.text)) for one in spans)
    return "".join(f"<{tag}>{text}</{tag}>" if tag else text for tag, text in said)


def block(one):
    """A block of prose."""
    match one:
        case prose.Heading(level, spans):
            return f"<h{level}>{line(spans)}</h{level}>"
        case prose.Paragraph(spans):
            return f"<p>{line(spans)}</p>"
        case prose.Code(text):
            return f'<pre class="code">{escaped(text)}</pre>'
        case prose.Items(first, items):
            inner = "".join(f"<li>{line(spans)}</li>\n" for spans in items)
            opener = "<ul>" if first is None else f'<ol start="{first}">'
            return f"{opener}\n{inner}</{opener[1:3]}>"


def blocks(every):
    return "\n".join(map(block, every))


def with_comments(text):
    """What stands between tokens, in which comments are marked."""
    marked, at = [], 0
    for one in COMMENT.finditer(text):
        marked += [escaped(text[at : one.start()]), f"<i>{escaped(one.group())}</i>"]
        at = one.end()
    return "".join([*marked, escaped(text[at:])])


def coloured(code):
    """A statement, in which reserved words, texts and comments are marked."""
    marked, at = [], 0
    for one in tokens(code):
        if is_bad(one.kind):
            break
        text = escaped(code[one.begins : one.ends])
        marked.append(with_comments(code[at : one.begins]))
        tag = "q" if one.kind == "text" else "b" if one.kind in reserved_words() else None
        marked.append(f"<{tag}>{text}</{tag}>" if tag else text)
        at = one.ends
    return "".join([*marked, with_comments(code[at:])])


def answer(one):
    if isinstance(one, Relation):
        return f'<div class="answer">{table(one)}</div>'
    look = "answer done" if one == "OK" else "answer"
    return f'<div class="{look}"><pre>{escaped(one)}</pre></div>'


def step(one):
    """A statement with its answer."""
    shown = [f'<pre class="statement">{coloured(one.code)}</pre>', *map(answer, one.answer)]
    if one.refusal:
        shown.append(f'<pre class="refused">{escaped(one.refusal)}</pre>')
    return '<div class="step">\n' + "\n".join(shown) + "\n</div>"


def room(lines):
    return '<div class="room">' + "<div></div>" * lines + "</div>"


def exercise(one, is_blank):
    inner = room(one.room) if is_blank else "\n".join(part(it, is_blank) for it in one.solution)
    return f'<section class="exercise">\n{blocks(one.blocks)}\n{inner}\n</section>'


def part(one, is_blank):
    if isinstance(one, Exercise):
        return exercise(one, is_blank)
    if isinstance(one, Diagram):
        return f"<figure>\n{diagram_svg(one.dump)}\n</figure>"
    return blocks(one.blocks) if isinstance(one, Prose) else step(one)


def page(name, has_heading, parts, is_blank):
    """The handout. Where its name is no heading of it, it becomes one."""
    shown = [] if has_heading else [f"<h1>{escaped(name)}</h1>"]
    shown += [part(one, is_blank) for one in parts]
    return PAGE.format(title=escaped(name), style=STYLE, parts="\n".join(shown))
