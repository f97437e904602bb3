"""How a tool is started: what it says of its command line, and with which status it ends.

The statuses are td's: 2 for a wrong command line, 3 where a file, the output or td failed. Either
comes with one line on standard error.
"""
import argparse
import contextlib
import os
import sys
from pathlib import Path

from .tables import visible

# Literals and trees go as deep as td lets expressions go.
DEPTH = 10_000
WRONG_WORDS = 2
FAILED = 3
INTERRUPTED = 130


class Failure(Exception):
    """What ends a tool: the line that it says, and its status."""

    def __init__(self, says, status=FAILED):
        super().__init__(says)
        self.status = status


class CommandLine(argparse.ArgumentParser):
    """The words that a tool takes. Wrong ones are told in one line."""

    def __init__(self, about):
        layout = argparse.RawDescriptionHelpFormatter
        super().__init__(description=about, formatter_class=layout, allow_abbrev=False)

    def error(self, message):
        raise Failure(message, WRONG_WORDS)

    def print_help(self, file=None):
        """As argparse does it, but an output that fails is told."""
        print(self.format_help(), end="", file=file)


def name():
    return Path(sys.argv[0]).name


def why(error):
    """What an error of the system says, with the file, if it has one."""
    said = error.strerror or str(error)
    return f"{error.filename}: {said}" if error.filename else said


def note(says):
    """Says a line on standard error."""
    with contextlib.suppress(OSError):
        print(f"{name()}: {visible(says)}", file=sys.stderr, flush=True)


def standard_input():
    """Standard input, as bytes."""
    if sys.stdin is None:
        raise Failure("standard input is closed")
    return sys.stdin.buffer


def open_closed_streams():
    """Opens what is closed of the three streams as nothing, so that no file takes its number. What
    is said on standard error goes nowhere then."""
    while (opened := os.open(os.devnull, os.O_RDWR)) <= 2:
        pass
    os.close(opened)
    sys.stderr = sys.stderr or open(os.devnull, "w", encoding="utf-8")


def finished(main):
    """The status with which the tool ends, and what it says on standard error."""
    try:
        if sys.stdout is None:
            raise Failure("standard output is closed")
        try:
            status = main()
        except SystemExit as left:
            status = left.code or 0
        sys.stdout.flush()
        return status, None
    except Failure as failure:
        return failure.status, str(failure)
    except BrokenPipeError:
        return FAILED, "the output was closed before all was written"
    except OSError as error:
        return FAILED, why(error)
    except KeyboardInterrupt:
        return INTERRUPTED, None


def run(main):
    """Runs a tool, and ends the process."""
    open_closed_streams()
    sys.setrecursionlimit(DEPTH)
    status, says = finished(main)
    if says is not None:
        note(says)
    if status >= FAILED:
        # What could not be written is let go, so that nothing is said of it a second time.
        os.dup2(os.open(os.devnull, os.O_WRONLY), 1)
    sys.exit(status)
