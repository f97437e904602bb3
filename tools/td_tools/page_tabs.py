"""The tabs of a page: each has a run of td of its own, and what brought its database about."""
import contextlib
import os
import secrets
import signal
import threading
import time
from dataclasses import dataclass, field

from .answers import Cutter, Session, decoded, is_refusal
from .catalog import Catalog
from .command import Failure
from .definitions import RELVARS, Kind, definitions
from .diagrams import diagram_svg
from .page_answers import (
    DEFINING, RELATION, answer_of, chosen, first_event, first_kind, place_of, reason_of,
    relvar_written,
)
from .query_steps import steps

ACCEPTED = b"OK\n"
# What the page itself asks for, such as a dump, may be so many times as long as an answer.
WIDER = 16
MOST = 32
STOPPED = "stopped: the database is as before the statement"


class Gone(Exception):
    """There is no such tab, or no such definition."""


class Full(Exception):
    """No more tabs can be opened."""


@dataclass
class Runs:
    """A run of td that has the tab's database, and one that cuts its scripts."""

    session: Session = field(default_factory=Session)
    cutter: Cutter = field(default_factory=Cutter)

    def kill(self):
        """Ends what td is at."""
        for run in (self.session, self.cutter.session):
            with contextlib.suppress(ProcessLookupError):
                os.killpg(run.process.pid, signal.SIGKILL)

    def leave(self):
        self.session.leave()
        self.cutter.leave()


class Tab:
    """A database that statements have brought about, and the run of td that has it."""

    def __init__(self, base):
        """The base is the script of the database with which the tab begins."""
        self.base = base
        self.lock = threading.Lock()
        self.runs = None
        # Each accepted statement, with its number among all that were answered.
        self.accepted = []
        self.count = 0
        self.keys = None
        self.is_stopped = self.is_closed = False
        self.asked_at = time.monotonic()

    # ---- the run of td

    def begin(self):
        """Begins td where it does not run, and brings it to where the last accepted statement left
        it."""
        if self.is_closed:
            raise Gone("the tab is closed")
        if self.runs is None:
            self.runs = Runs()
            try:
                self.fill(self.runs.session, self.accepted)
            except Failure:
                self.rest()
                raise

    def fill(self, session, accepted):
        session.answer(self.base)
        for _, statement in accepted:
            session.answer(statement)

    def rest(self):
        """Ends td. What was accepted is kept, so that the next question begins it again."""
        runs, self.runs, self.keys = self.runs, None, None
        if runs is not None:
            runs.leave()

    def restore(self):
        self.rest()
        if not self.is_closed:
            self.begin()

    def stop(self):
        """Ends the statement that td is at."""
        self.is_stopped = True
        runs = self.runs
        if runs is not None:
            runs.kill()

    def close(self):
        """Ends td, whatever it is at."""
        self.is_closed = True
        self.stop()
        with self.lock:
            self.rest()

    @property
    def session(self):
        return self.runs.session

    @contextlib.contextmanager
    def running(self):
        """That td runs and answers nobody else. Where that fails td is ended, and begun again by
        the next question."""
        with self.lock:
            self.is_stopped = False
            self.begin()
            try:
                yield
            except Failure:
                self.rest()
                raise

    @contextlib.contextmanager
    def wider(self):
        """That the page itself asks td, whose answers may be longer then."""
        session, own = self.session, self.session.limits
        session.limits = own.with_longer_answers(WIDER)
        try:
            yield session
        finally:
            session.limits = own

    @contextlib.contextmanager
    def asking(self):
        with self.running(), self.wider() as session:
            yield session

    # ---- statements

    def run(self, script, is_anew, at=None, is_alone=False):
        """The events of the statements of a script, as td answers them: of all, of those up to a
        place, or of the one there. Anew is from the database with which the tab began."""
        with self.running():
            if is_anew:
                self.go_back(0)
                self.begin()
            for piece in chosen(self.runs.cutter, script, at, is_alone):
                if self.is_stopped:
                    return
                self.count += 1
                for event in self.events(piece):
                    yield {"number": self.count, **event}

    def events(self, piece):
        """The events of a statement, and the database as it leaves it."""
        try:
            answer = answer_of(self.session, piece)
        except Failure as failure:
            said = STOPPED if self.is_stopped else f"{failure}; the database is as before it"
            yield {**first_event(piece, b""), "ended": said}
            self.restore()
            return
        name = relvar_written(piece) if answer.startswith(RELATION) else None
        is_known = name is not None and self.keys is not None
        yield first_event(piece, answer) | (self.keys_of(name) if is_known else {})
        if answer == ACCEPTED:
            self.accept(piece)
        elif is_refusal(answer):
            yield from self.explained(piece, answer)
        elif name is not None and not is_known:
            yield from self.asked_keys(name)

    def accept(self, piece):
        self.accepted.append((self.count, piece.data))
        if first_kind(piece) in DEFINING:
            self.keys = None

    def explained(self, piece, answer):
        """Where the fault of a refused statement stands, and the tuples that break a key."""
        try:
            with self.wider():
                yield place_of(self.session, piece, answer)
                if not self.is_stopped:
                    yield reason_of(self.session, piece)
        except Failure as failure:
            yield {"why": "" if self.is_stopped else f"why is not known: {failure}"}
            self.restore()

    def keys_of(self, name):
        return {"keys": self.keys.get(name, [])}

    def asked_keys(self, name):
        """The keys of a relvar, which are asked for once for all."""
        try:
            with self.wider():
                every = definitions(self.session)
        except Failure:
            self.restore()
            return
        self.keys = {one.name: one.keys for one in every if one.kind in RELVARS}
        yield self.keys_of(name)

    def go_back(self, number):
        """Brings the database to where it was before the statement of that number."""
        kept = [one for one in self.accepted if one[0] < number]
        if len(kept) < len(self.accepted):
            self.accepted = kept
            self.rest()

    def back(self, number):
        with self.running():
            self.go_back(number)
            self.begin()

    # ---- what is defined

    def dump(self):
        with self.asking() as session:
            return decoded(session.answer(b"DUMP;"))

    def listed(self):
        """What is defined. The tuples of a virtual relvar are not counted, which may take long."""
        with self.asking() as session:
            catalog = Catalog(session)
            return [summary(catalog, one) for one in catalog.definitions]

    def shown(self, kind, name):
        """A definition, with what it mentions and what mentions it, and a relvar's tuples."""
        with self.asking() as session:
            catalog = Catalog(session)
            found = [one for one in catalog.named(name) if one.kind.value == kind]
            if not found:
                raise Gone(f"{kind} {name} is not there any more")
            one = found[0]
            told = {
                **summary(catalog, one),
                "heading": catalog.heading(one) if one.kind in RELVARS else [],
                "mentions": [named(other) for other in catalog.mentioned_by(one)],
                "mentioned": [named(other) for other in catalog.mentioning(one)],
            }
            return {**told, **value_of(session, one)}

    def diagram(self):
        return diagram_svg(self.dump())

    def steps(self, number, statement):
        """The steps of the statement of that number, in the database before it."""
        found = self.before(number, lambda session: steps(session, statement))
        return [step_of(one) for one in found]

    def before(self, number, ask):
        """What td is asked in the database before the statement of that number."""
        kept = [one for one in self.accepted if one[0] < number]
        with self.asking() as session:
            if len(kept) == len(self.accepted):
                return ask(session)
            with Session() as earlier:
                self.fill(earlier, kept)
                return ask(earlier)


def step_of(step):
    """A part of a query as data: its text, its answer and the parts in it."""
    return {
        "text": step.text,
        "answer": decoded(step.answer),
        "parts": [step_of(one) for one in step.parts],
        "operands": step.operands,
        "name": step.name,
    }


def named(one):
    return {"kind": one.kind.value, "name": one.name}


def summary(catalog, one):
    """A definition in a few words: of a base relvar, whose value may be long, no statement."""
    is_base = one.kind is Kind.BASE
    return {
        **named(one),
        "keys": one.keys,
        "count": catalog.count(one) if is_base else "",
        "statement": "" if is_base else one.statement,
    }


def value_of(session, one):
    """The tuples of a relvar, or why they are not shown."""
    if one.kind not in RELVARS:
        return {}
    return {"answer": decoded(session.answer(f"WRITE {one.name};".encode()))}


class Tabs:
    """The tabs that are open, each by a word that nobody guesses."""

    def __init__(self, base, idle):
        """A tab of which nothing is asked for so many seconds has its td ended."""
        self.base, self.idle = base, idle
        self.lock = threading.Lock()
        self.by_word = {}

    def open(self, is_empty=False):
        """The word of a new tab, which may begin with an empty database. Where there are too many,
        one that rests makes room."""
        with self.lock:
            if len(self.by_word) >= MOST:
                resting = [word for word, tab in self.by_word.items() if tab.runs is None]
                if not resting:
                    raise Full(f"{MOST} tabs are open: close one of them")
                del self.by_word[min(resting, key=lambda word: self.by_word[word].asked_at)]
            word = secrets.token_urlsafe(16)
            tab = self.by_word[word] = Tab(b"" if is_empty else self.base)
        with tab.lock:
            tab.begin()
        return word

    def tab(self, word):
        found = self.by_word.get(word)
        if found is None:
            raise Gone("the tab is closed")
        found.asked_at = time.monotonic()
        return found

    def close(self, word):
        with self.lock:
            tab = self.by_word.pop(word, None)
        if tab is not None:
            tab.close()

    def rest(self):
        """Ends the td of each tab of which nothing has been asked for long."""
        until = time.monotonic() - self.idle
        with self.lock:
            idle = [tab for tab in self.by_word.values() if tab.runs and tab.asked_at < until]
        for tab in idle:
            # What td is at now is no rest.
            if tab.lock.acquire(blocking=False):
                try:
                    tab.rest()
                finally:
                    tab.lock.release()

    def close_all(self):
        for word in list(self.by_word):
            self.close(word)
