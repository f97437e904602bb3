"""What is typed in a prompt, kept in a file for as long as it is saved nowhere else.

Each running prompt has a file of its own, and a lock on it. The file is a script: a comment that
says of which prompt it is, and the statements that brought its database about.
"""
import contextlib
import fcntl
import json
import os
import time
from pathlib import Path

ENDING = ".typed.td"


def folder():
    """Where such files are."""
    state = os.environ.get("XDG_STATE_HOME") or Path.home() / ".local" / "state"
    return Path(state) / "custardbank"


def locked(path):
    """The file, open, or None where a running prompt has it, or it can't be opened."""
    try:
        file = open(path, "r+b")
    except OSError:
        return None
    try:
        fcntl.flock(file, fcntl.LOCK_EX | fcntl.LOCK_NB)
    except BlockingIOError:
        file.close()
        return None
    return file


def left():
    """The files of prompts that run no more, the latest first."""
    found = []
    for path in folder().glob("*" + ENDING):
        file = locked(path)
        if file is not None:
            found.append((os.fstat(file.fileno()).st_mtime, path))
            file.close()
    return [path for _, path in sorted(found, reverse=True)]


class Journal:
    """The file of one prompt. It is there where a statement has been kept since the last save."""

    def __init__(self):
        self.file = None
        self.path = None

    def keep(self, accepted, opened):
        """Writes the last accepted statement, or all of them where there is no file yet."""
        kept = accepted[-1:]
        if self.file is None:
            self.begin(opened)
            kept = accepted
        self.file.write(b"".join(statement.strip(b"\n") + b"\n" for statement in kept))
        self.file.flush()

    def begin(self, opened):
        """Makes the file. Its first line says which file the database was opened from."""
        folder().mkdir(mode=0o700, parents=True, exist_ok=True)
        self.path = folder() / f"{time.time_ns()}-{os.getpid()}{ENDING}"
        made = os.open(self.path, os.O_RDWR | os.O_CREAT | os.O_EXCL, 0o600)
        self.file = open(made, "r+b")
        fcntl.flock(self.file, fcntl.LOCK_EX)
        self.file.write(b"// %b\n" % json.dumps(opened).encode())

    def adopt(self, path):
        """Goes on with the file of a prompt that was closed: which file its database was opened
        from, and the script, or None where another prompt has it."""
        self.file = locked(path)
        if self.file is None:
            return None
        self.path = path
        first = self.file.readline()
        opened = None
        with contextlib.suppress(ValueError):
            opened = json.loads(first.removeprefix(b"//"))
        return opened, self.file.read()

    def cut(self, length):
        """Takes the last bytes off: a statement that was not written whole."""
        self.file.seek(-length, os.SEEK_END)
        self.file.truncate()

    def release(self):
        """Leaves the file where it is, for a prompt that goes on from it."""
        if self.file is not None:
            self.file.close()
        self.file = None

    def forget(self):
        """Removes the file."""
        if self.file is not None:
            self.path.unlink(missing_ok=True)
        self.release()
