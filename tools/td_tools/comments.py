"""The comments in front of a statement, each as the lines of its text.

Comments of one line, `// ..`, that stand in lines below each other are one comment.
"""
import re
import textwrap

COMMENT = re.compile(r"//(?P<line>[^\n]*)|/\*(?P<block>.*?)\*/", re.DOTALL)
STARRED = re.compile(r"\s*\*(?!\*) ?")


def of_line(text):
    """The text of a line's comment, without the blank behind the sign."""
    return text.rstrip("\r").removeprefix(" ")


def of_block(text):
    """The lines of a comment that may have several. A star that begins each of them counts for
    nothing."""
    first, *rest = text.replace("\r\n", "\n").split("\n")
    behind = [line for line in rest if line.strip()]
    if behind and all(STARRED.match(line) for line in behind):
        first, rest = first.lstrip("*"), [STARRED.sub("", line, 1) for line in rest]
    lines = [first.strip(), *textwrap.dedent("\n".join(rest)).split("\n")]
    return "\n".join(lines).strip("\n").split("\n")


def is_next(between):
    """Whether a comment begins in the line below the one before it."""
    return between.count("\n") == 1 and not between.strip("\ufeff \t\r\n")


def comments(front):
    """The comments in what stands before a statement, which has nothing but blanks beside."""
    found, is_line, at = [], False, 0
    for one in COMMENT.finditer(front):
        if one["block"] is not None:
            found.append(of_block(one["block"]))
        elif is_line and is_next(front[at : one.start()]):
            found[-1].append(of_line(one["line"]))
        else:
            found.append([of_line(one["line"])])
        is_line, at = one["line"] is not None, one.end()
    return found


def note(front):
    """How long the comment is that stands in the line of the statement before, if one does."""
    begins = len(front) - len(front.lstrip(" \t"))
    found = COMMENT.match(front, begins)
    if not found or "\n" in found.group():
        return 0
    ends_line = front[found.end() :].lstrip(" \t\r")[:1] in ("", "\n")
    return found.end() if ends_line else 0
