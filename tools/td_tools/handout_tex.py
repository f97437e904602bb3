"""A handout as LaTeX. pdfLaTeX, XeLaTeX and LuaLaTeX compile it, by packages that each has.

A diagram is left out.
"""
import unicodedata

from . import prose
from .handout import Diagram, Exercise, Prose
from .literals import Relation
from .tables import DEE, DUM, visible

PAGE = r"""\documentclass[11pt,a4paper]{article}
\usepackage{iftex,longtable,array}
\ifPDFTeX
  \usepackage[T1]{fontenc}
  \usepackage[utf8]{inputenc}
  \usepackage{textcomp}
  \newcommand{\sign}[2]{\texttt{U+#2}}
\else
  \usepackage{fontspec}
  \newcommand{\sign}[2]{#1}
\fi
\usepackage[margin=25mm]{geometry}
\setlength{\parindent}{0pt}
\setlength{\parskip}{6pt plus 2pt}
\setlength{\LTleft}{12pt}
\setlength{\LTright}{0pt plus 1fill}
\setlength{\LTpre}{4pt}
\setlength{\LTpost}{6pt}
\raggedbottom
% A line of code, which goes on with an indent where it is too long.
\newcommand{\codeline}[1]{{\ttfamily\raggedright\hangindent=3em\hangafter=1 #1\par}}
\newenvironment{code}{\par\addvspace{6pt}\begingroup\parskip=0pt\small}%
  {\par\endgroup\addvspace{4pt}}
\newenvironment{exercise}{\par\addvspace{8pt}\hrule\nobreak\addvspace{4pt}}%
  {\par\addvspace{6pt}\hrule\addvspace{8pt}}
\newcommand{\answerline}[1]{{\small\ttfamily\raggedright\leftskip=12pt #1\par}}
% A line to write on.
\newcommand{\roomline}{\par\noindent\rule{0pt}{9mm}\leaders\hbox to 3pt{\hss.\hss}\hfill\null\par}
\begin{document}
%PARTS%
\end{document}
"""
SIGNS = {
    "\\": r"\textbackslash{}",
    "{": r"\{",
    "}": r"\}",
    "$": r"\$",
    "&": r"\&",
    "#": r"\#",
    "%": r"\%",
    "_": r"\_",
    "^": r"\textasciicircum{}",
    "~": r"\textasciitilde{}",
    "<": r"\textless{}",
    ">": r"\textgreater{}",
    "|": r"\textbar{}",
    '"': r"\textquotedbl{}",
    "[": "{[}",
    "]": "{]}",
    # Of these two in a row would be another sign.
    "-": "{-}",
    ",": "{,}",
    "'": "{'}",
    "`": "{`}",
}
EXACT = {**SIGNS, "'": r"\textquotesingle{}", "`": r"\textasciigrave{}"}
LINE_END = r"\\ "
SECTIONS = {1: "section*", 2: "subsection*", 3: "subsubsection*"}
MARKS = {prose.Kind.EMPHASIS: "emph", prose.Kind.STRONG: "textbf"}


def is_latin(character):
    """Whether the fonts of each LaTeX have the letter."""
    return "\u00c0" <= character <= "\u00ff" and unicodedata.category(character)[0] == "L"


def sign(character, signs):
    if character in signs:
        return signs[character]
    if character.isascii() or is_latin(character):
        return character
    return f"\\sign{{{character}}}{{{ord(character):04X}}}"


def escaped(text, signs=None):
    """The text, in which no sign means anything to TeX."""
    return "".join(sign(one, signs or SIGNS) for one in visible(text))


def verbatim(text):
    """A line as it stands: blanks in front hold together, and between words each is one."""
    body = text.lstrip(" ")
    front = "~" * (len(text) - len(body))
    return front + escaped(body, EXACT).replace(" ", "\\ ")


def code(text, command="codeline"):
    lines = [f"\\{command}{{{verbatim(line) or '~'}}}" for line in text.split("\n")]
    return "\\begin{code}\n" + "\n".join(lines) + "\n\\end{code}"


def span(one):
    if one.kind is prose.Kind.TEXT:
        return escaped(one.text)
    if one.kind is prose.Kind.CODE:
        return f"\\texttt{{{verbatim(one.text)}}}"
    return f"\\{MARKS[one.kind]}{{{escaped(one.text)}}}"


def line(spans):
    return "".join(map(span, spans))


def block(one):
    """A block of prose."""
    match one:
        case prose.Heading(level, spans):
            return f"\\{SECTIONS[level]}{{{line(spans)}}}"
        case prose.Paragraph(spans):
            return line(spans)
        case prose.Code(text):
            return code(text)
        case prose.Items(first, items):
            fronts = ["" if first is None else f"[{first + at}.]" for at in range(len(items))]
            inner = [f"\\item{front} {line(spans)}" for front, spans in zip(fronts, items)]
            return "\\begin{itemize}\n" + "\n".join(inner) + "\n\\end{itemize}"


def cell(value):
    """A value in a cell. A text of several lines is a column of them, and a relation a table."""
    if value.relation is not None:
        return inner_table(value.relation)
    text = value.literal if value.text is None else value.text
    lines = [escaped(line, EXACT) for line in text.split("\n")]
    if len(lines) == 1:
        return lines[0]
    return f"\\begin{{tabular}}[t]{{@{{}}l@{{}}}}{LINE_END.join(lines)}\\end{{tabular}}"


def rows(relation):
    for values in relation.tuples:
        yield " & ".join(map(cell, values)) + r" \\ \hline"


def columns_and_head(relation):
    """How the columns stand, and the line of the names."""
    columns = "|".join("r" if kind == "INTEGER" else "l" for _, kind in relation.heading)
    heads = " & ".join(f"\\textbf{{{escaped(name)}}}" for name, _ in relation.heading)
    return f"|{columns}|", heads + r" \\ \hline"


def without_attributes(relation):
    return f"\\texttt{{{escaped(DEE if relation.tuples else DUM)}}}"


def inner_table(relation):
    """A table in a cell."""
    if not relation.heading:
        return without_attributes(relation)
    columns, head = columns_and_head(relation)
    inner = " ".join([head, *rows(relation)])
    return f"\\begin{{tabular}}[t]{{{columns}}}\\hline {inner}\\end{{tabular}}"


def table(relation):
    """A table that goes over pages, with its head on each."""
    if not relation.heading:
        return f"\\answerline{{{without_attributes(relation)}}}"
    columns, head = columns_and_head(relation)
    inner = "\n".join([f"\\hline {head} \\endhead", *rows(relation)])
    return f"{{\\small\\begin{{longtable}}{{{columns}}}\n{inner}\n\\end{{longtable}}}}"


def answer(one):
    return table(one) if isinstance(one, Relation) else code(one, "answerline")


def step(one):
    """A statement with its answer."""
    shown = [code(one.code), *map(answer, one.answer)]
    return "\n".join([*shown, *([code(one.refusal, "answerline")] if one.refusal else [])])


def exercise(one, is_blank):
    inner = [part(it, is_blank) for it in one.solution]
    inner = ["\\roomline\n" * one.room] if is_blank else inner
    every = "\n\n".join([*map(block, one.blocks), *inner])
    return f"\\begin{{exercise}}\n{every}\n\\end{{exercise}}"


def part(one, is_blank):
    if isinstance(one, Exercise):
        return exercise(one, is_blank)
    if isinstance(one, Diagram):
        return ""
    return "\n\n".join(map(block, one.blocks)) if isinstance(one, Prose) else step(one)


def page(name, has_heading, parts, is_blank):
    """The handout. Where its name is no heading of it, it becomes one."""
    shown = [] if has_heading else [f"\\section*{{{escaped(name)}}}"]
    shown += [part(one, is_blank) for one in parts]
    return PAGE.replace("%PARTS%", "\n\n".join(shown))
