"""Shows a text in a terminal: by a pager where it is higher or wider than the screen."""
import os
import shutil
import signal
import subprocess
import sys

from .tables import columns


def is_too_large(text):
    """Whether the screen has no room for the text."""
    size = shutil.get_terminal_size()
    lines = text.split("\n")
    return len(lines) > size.lines or any(columns(line) > size.columns for line in lines)


def pager():
    """The command of PAGER, else less where there is one. An empty PAGER is none."""
    named = os.environ.get("PAGER")
    if named is not None:
        return named.strip()
    return "less -S -F -R -X" if shutil.which("less") else ""


def page(text):
    """Shows the text, and gives back whether a pager did."""
    command = pager()
    if not command or not is_too_large(text):
        return False
    # Ctrl-C is the pager's alone meanwhile.
    heeded = signal.signal(signal.SIGINT, lambda *_: None)
    try:
        settings = {"LESS": "SFRX", **os.environ}
        data = text.encode("utf-8", "surrogateescape")
        ran = subprocess.run(command, shell=True, input=data, env=settings, check=False)
    finally:
        signal.signal(signal.SIGINT, heeded)
    # A shell that finds no such program answers 126 or 127.
    return ran.returncode not in (126, 127)


def show(text, is_typed):
    """Writes the text. Only what answers a line that was typed may go to a pager."""
    sys.stdout.flush()
    if not (is_typed and sys.stdout.isatty() and page(text)):
        print(text, end="", flush=True)
