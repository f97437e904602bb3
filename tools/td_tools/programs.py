"""Which td the tools ask: the one that TD names, the proved one, or the one that ./try keeps."""
import functools
import os
import shutil
import subprocess
import sys

from . import unproved
from .command import Failure, name

TOP = unproved.TOP
PROVED = TOP / "crates" / "td" / "out" / "td"


def named_program(word):
    """The program of TD, whose word is a file or is looked for in PATH."""
    found = shutil.which(word)
    if found is None:
        raise Failure(f"TD names no program: {word}")
    return found


@functools.cache
def td():
    """The td to ask. An hour's build is never begun: without a proved program the unproved one is
    taken, and built where it is missing, which is told."""
    word = os.environ.get("TD")
    if word:
        return named_program(word)
    if subprocess.run([TOP / "tools" / "is-built"], check=False).returncode == 0:
        return str(PROVED)
    found = unproved.program()
    print(f"{name()}: the proved td is not built; this is ./try's", file=sys.stderr, flush=True)
    return str(found)

