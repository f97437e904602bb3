"""What runs of td cost, counted: requests for memory by a shim over malloc and realloc, and
instructions by valgrind. Neither depends on what else the machine does."""
import contextlib
import os
import re
import shutil
import subprocess
import sys
import tempfile
from pathlib import Path

TOP = Path(__file__).resolve().parent.parent
sys.path.append(str(TOP / "tools"))

from td_tools import programs  # noqa: E402

SHIM = r"""
#include <stdio.h>
#include <stddef.h>
static long requests;
extern void *__libc_malloc(size_t);
extern void *__libc_realloc(void *, size_t);
void *malloc(size_t bytes) { requests++; return __libc_malloc(bytes); }
void *realloc(void *old, size_t bytes) { requests++; return __libc_realloc(old, bytes); }
__attribute__((destructor)) static void end(void) { fprintf(stderr, "requests %ld\n", requests); }
"""
COUNTED = re.compile(r"Collected : (\d+)")


class Counter:
    """Runs scripts by the td that the tools take, and counts."""

    def __init__(self, folder):
        self.td, self.shim = programs.td(), Path(folder) / "shim.so"
        source = self.shim.with_suffix(".c")
        source.write_text(SHIM, encoding="utf-8")
        subprocess.run(["cc", "-O2", "-shared", "-fPIC", "-o", self.shim, source], check=True)

    def said(self, words, script, **changes):
        """What a run of an accepted script says on standard error."""
        how = {"env": {**os.environ, **changes}, "capture_output": True, "text": True}
        run = subprocess.run([*words, self.td, "run"], input=script, check=True, **how)
        if "REFUSED" in run.stdout:
            sys.exit(f"{script[-200:]}: refused")
        return run.stderr

    def requests(self, script):
        """How many requests for memory the run makes."""
        return int(self.said([], script, LD_PRELOAD=str(self.shim)).split()[-1])

    def instructions(self, script):
        """How many instructions the run takes."""
        valgrind = ["valgrind", "--tool=callgrind", "--callgrind-out-file=/dev/null"]
        return int(COUNTED.search(self.said(valgrind, script))[1])


@contextlib.contextmanager
def counter(*needed):
    """A counter, where the programs that it needs are there."""
    for program in ("cc", *needed):
        if not shutil.which(program):
            sys.exit(f"{program} is missing")
    with tempfile.TemporaryDirectory() as folder:
        yield Counter(folder)


def relation(count, first, second):
    """A relation of so many tuples of two numbers, the second one of seven."""
    rows = (f"TUPLE {{{first} {number}, {second} {number % 7}}}" for number in range(count))
    return "RELATION {" + ", ".join(rows) + "}"
