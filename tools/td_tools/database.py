"""The database that is open in a prompt: td's run, what brought it about, which files have it."""
import hashlib
import os
import shutil
import signal
import tempfile
from collections import namedtuple
from pathlib import Path

from .answers import Cutter, Session
from .command import note, why

ACCEPTED = b"OK\n"
# Of a file the sum of its bytes when it was opened or saved, and whether they were a dump.
Seen = namedtuple("Seen", "sum is_dump")


def sum_of(data):
    return hashlib.sha256(data).digest()


def write_whole(file, data):
    """Writes a file beside the one that is there, and puts it in its place: it is never half."""
    made, name = tempfile.mkstemp(dir=file.parent, prefix=f".{file.name}.")
    try:
        with open(made, "wb") as new:
            new.write(data)
            new.flush()
            os.fsync(new.fileno())
        if file.exists():
            shutil.copymode(file, name)
        else:
            os.umask(mask := os.umask(0))
            os.chmod(name, 0o666 & ~mask)
        os.replace(name, file)
    except BaseException:
        os.unlink(name)
        raise


class Database:
    """A run of td, with the statements that brought its database about."""

    def __init__(self, journal=None):
        """With a journal each accepted statement is kept there."""
        self.cutter = Cutter()
        self.session = Session()
        self.accepted = []
        self.saved = b""
        self.seen = {}
        self.opened = None
        self.journal = journal

    def leave(self):
        """Ends the runs of td."""
        self.cutter.leave()
        self.session.leave()

    def restore(self):
        """Begins td anew, and brings it to where the last accepted statement left it."""
        heeded = signal.signal(signal.SIGINT, signal.SIG_IGN)
        self.leave()
        self.cutter, self.session = Cutter(), Session()
        for statement in self.accepted:
            self.session.answer(statement)
        signal.signal(signal.SIGINT, heeded)

    def dump(self):
        return self.session.answer(b"DUMP;")

    def is_changed(self):
        """Whether it differs from what was opened or saved last. What is recovered is saved
        nowhere."""
        return self.saved is None or self.dump() != self.saved

    # ---- statements

    def answer(self, statement):
        """What td answers a statement. An accepted one is kept."""
        answer = self.session.answer(statement)
        if answer == ACCEPTED:
            self.accepted.append(statement)
            self.keep()
        return answer

    def keep(self):
        """Keeps the last accepted statement. Without a file, such as on a full disk, it goes on."""
        if self.journal is None:
            return
        try:
            self.journal.keep(self.accepted, self.opened)
        except OSError as error:
            note(f"what is typed is kept in no file: {why(error)}")
            self.journal = None

    def read(self, script, take):
        """Runs a script. Each answer is handed to `take`, with td's run and where it stands."""
        for at, statement, answer in script.answered(self.cutter, self):
            take(self.session, at, statement, answer)

    # ---- files

    def open(self, script, take):
        """Leaves the database for the one that a script makes, once it has run."""
        session, accepted = Session(), []
        try:
            for at, statement, answer in script.answered(self.cutter, session):
                if answer == ACCEPTED:
                    accepted.append(statement)
                take(session, at, statement, answer)
        except BaseException:
            session.leave()
            raise
        self.session.leave()
        self.session, self.accepted = session, accepted
        self.saved = self.dump()
        self.opened = str(Path(script.files[-1][0]).resolve())
        self.seen = {}
        for name, text in script.given:
            self.seen[Path(name).resolve()] = Seen(sum_of(text), text == self.saved)
        self.forget()

    def save(self, name):
        """Writes the dump to a file."""
        file, dump = Path(name).expanduser().resolve(), self.dump()
        try:
            write_whole(file, dump)
        except OSError as error:
            raise OSError(error.errno, error.strerror, name) from error
        self.saved = dump
        self.opened = str(file)
        self.seen[file] = Seen(sum_of(dump), is_dump=True)
        self.forget()

    def lost_by_saving(self, name):
        """What would be gone of a file that is there if it were saved to, or None."""
        file = Path(name).expanduser().resolve()
        try:
            data = file.read_bytes()
        except FileNotFoundError:
            return None
        except OSError as error:
            raise OSError(error.errno, error.strerror, name) from error
        seen = self.seen.get(file)
        if seen is None:
            return f"{name} is there, and was not opened or saved here"
        if seen.sum != sum_of(data):
            return f"{name} has been changed by another program"
        if not seen.is_dump:
            return f"{name} is no dump: its comments and queries would be gone"
        return None

    # ---- what is kept beside

    def forget(self):
        """Removes what is kept of what was typed: it is saved, or is not wanted."""
        if self.journal is not None:
            self.journal.forget()

    def recover(self, path):
        """Goes on from what was typed in a prompt that was closed, unless another prompt does:
        whether it goes on."""
        found = self.journal.adopt(path)
        if found is None:
            return False
        self.opened, text = found
        self.accepted = self.cutter.feed(text)
        rest = bytes(self.cutter.held)
        if rest.strip():
            self.journal.cut(len(rest))
        self.cutter.drop()
        for statement in self.accepted:
            self.session.answer(statement)
        self.saved = None
        return True
