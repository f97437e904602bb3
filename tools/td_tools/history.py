"""The statements that were typed in a prompt, those of earlier days too, for the arrows.

A file has one on each line. One of several lines stands there as a text of JSON.
"""
import json
import os
from pathlib import Path

try:
    import readline
except ImportError:
    readline = None

MOST = 2000


def written(typed):
    """The line of the file that has what was typed."""
    is_one_line = "\n" not in typed and not typed.startswith('"')
    return typed if is_one_line else json.dumps(typed)


def read(line):
    """What was typed, by its line of the file."""
    try:
        typed = json.loads(line) if line.startswith('"') else line
    except ValueError:
        return line
    return typed if isinstance(typed, str) else line


class History:
    """What the arrows bring back, and the file that keeps it."""

    def __init__(self):
        self.path = Path.home() / ".custardbank_history"
        self.last = None

    def begin(self):
        """Brings back what the file has. A file that has grown long is cut to its last lines."""
        readline.set_auto_history(False)
        if not self.path.exists():
            return
        text = self.path.read_text(encoding="utf-8", errors="surrogateescape")
        lines = text.splitlines()[-MOST:]
        if text.count("\n") > 2 * MOST:
            self.cut(lines)
        for line in lines:
            readline.add_history(read(line))

    def cut(self, lines):
        shorter = self.path.with_name(f"{self.path.name}.{os.getpid()}")
        shorter.write_text("\n".join(lines) + "\n", encoding="utf-8", errors="surrogateescape")
        shorter.replace(self.path)

    def add(self, typed):
        """Keeps what was typed, unless it is what was typed before."""
        typed = typed.strip("\n")
        if not typed.strip() or typed == self.last:
            return
        self.last = typed
        readline.add_history(typed)
        with open(self.path, "a", encoding="utf-8", errors="surrogateescape") as file:
            file.write(written(typed) + "\n")
