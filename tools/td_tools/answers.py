"""What the tools ask of td: where statements begin and end, and what each is answered.

Each question is a short script, and what td writes of it tells: nothing here knows the tokens.
"""
import os
import re
import signal
import subprocess

from .limits import Limits
from .programs import td

PIECE = re.compile(rb"[^;]*;|[^;]+")
END_OF_COMMENT = re.compile(rb"\*/|\n")
BLANKS = re.compile(rb"(?:[ \t\r\n]|\xef\xbb\xbf)*")
REFUSAL = re.compile(rb"REFUSED \d+ [A-Z_]+(?: [^\n]+)?\n")


def decoded(data):
    return data.decode("utf-8", "surrogateescape")


def encoded(text):
    return text.encode("utf-8", "surrogateescape")


class Session:
    """A run of td that stays open.

    Behind each statement td is asked for a mark, a text that no script knows. An answer ends where
    the mark is answered, however many lines it has: of DUMP there may be many, or none.
    """

    # What a run may take: a tool that answers others sets it.
    limits = Limits()

    def __init__(self, stderr=None):
        """What td says on standard error goes where subprocess's word for it says."""
        mark = os.urandom(16).hex().encode()
        self.asks = b"WRITE '" + mark + b"';"
        self.mark = b"'" + mark + b"'\n"
        # td is no part of the terminal's job: Ctrl-C is for the tool alone. That memory is missing
        # is told by the status, where there is a limit of it.
        self.process = subprocess.Popen(
            [td(), "run"],
            stdin=subprocess.PIPE,
            stdout=subprocess.PIPE,
            stderr=stderr if self.limits.memory is None else subprocess.DEVNULL,
            start_new_session=True,
        )
        try:
            self.limits.hold(self.process.pid)
            self.answer(b"")
        except BaseException:
            self.leave()
            raise

    def answer(self, statement):
        """What td writes of a statement, or of several. The last one is whole."""
        try:
            self.limits.renew(self.process.pid)
            self.process.stdin.write(statement + self.asks)
            self.process.stdin.flush()
        except (BrokenPipeError, ProcessLookupError):
            self.fail()
        lines = []
        for line in self.limits.lines(self.process.stdout):
            if line == self.mark:
                return b"".join(lines)
            lines.append(line)
        return self.fail()

    def end(self, rest=b""):
        """What td writes of the last bytes of a script. The run is over."""
        answer, _ = self.process.communicate(rest)
        if self.process.returncode not in (0, 1):
            self.fail()
        return answer

    def fail(self):
        raise self.limits.failure(self.process.wait())

    def leave(self):
        """Ends td, whatever it does."""
        try:
            if self.process.poll() is None:
                os.killpg(self.process.pid, signal.SIGTERM)
            self.process.stdout.close()
            self.process.stdin.close()
        except (ProcessLookupError, BrokenPipeError):
            pass  # It has ended by itself.
        self.process.wait()

    def __enter__(self):
        return self

    def __exit__(self, *_):
        self.leave()


# Where bytes may end: in a text, in a comment, in a line's comment or between tokens, and behind
# the `;` of a statement. Each is the number of answers that td then has by the end of CLOSERS.
TEXT, COMMENT, WITHIN, ENDED = 1, 2, 3, 4
# Three times `);`, which is refused: behind what ends a line's comment, then behind what ends a
# comment, then behind what ends a text.
CLOSERS = b"\n);*/);/*'*/);"
# What brings td, at the front of a statement, to where the bytes before ended. A statement that
# begins with `)` is refused, so that nothing is carried out.
OPENERS = {TEXT: b")'", COMMENT: b")/*", WITHIN: b")//"}


class Cutter:
    """Cuts a script into its statements, as td does.

    At each `;` td is asked where the bytes end, and how it came there is forgotten: so each byte is
    asked once.
    """

    def __init__(self):
        self.session = Session()
        self.drop()

    def drop(self):
        """Forgets the statement that has not ended."""
        self.held = bytearray()
        self.known = 0
        self.place = ENDED
        self.has_begun = False

    def feed(self, more):
        """The statements that end in these bytes. What is left is held."""
        statements = []
        for piece in PIECE.findall(more):
            self.held += piece
            if not piece.endswith((b";", b"\n")):
                continue
            self.place = self.asked_place()
            if self.place == ENDED:
                statements.append(bytes(self.held))
                self.drop()
            self.known = len(self.held)
        return statements

    def asked_place(self):
        """Where the bytes that are held end, which is behind a `;` or a line feed."""
        opener = b")"
        if self.known:
            opener = OPENERS[self.place] + self.held[self.known - 1 : self.known]
        answer = self.session.answer(opener + self.held[self.known :] + CLOSERS)
        return answer.count(b"\n")

    def drop_blanks(self):
        """Forgets what is held where no token stands in it, and no comment is open."""
        if not self.has_begun:
            self.has_begun = not self.is_accepted(self.held + b"\nWRITE 0;", b"0\n")
        if not self.has_begun:
            self.drop()

    def begin(self, statement):
        """Where the statement's first token begins: behind blanks, and comments that end."""
        begins = 0
        for end in END_OF_COMMENT.finditer(statement):
            front = statement[: end.end()]
            # Behind no token the WRITE is a statement, though a comment may be open before it.
            if not self.is_accepted(front + b"\n/**/WRITE 0;", b"0\n"):
                break
            if self.is_accepted(front + b"\nWRITE 0;", b"0\n"):
                begins = end.end()
        return BLANKS.match(statement, begins).end()

    def is_name(self, word):
        """Whether the word is a name that may be declared."""
        question = b"WRITE RELATION {TUPLE {" + word + b" 0}};"
        return self.is_accepted(question, b"RELATION {%b INTEGER} {TUPLE {%b 0}}\n" % (word, word))

    def is_accepted(self, question, answer):
        """Whether td begins with this answer."""
        return self.session.answer(question + CLOSERS).startswith(answer)

    def leave(self):
        self.session.leave()

    def __enter__(self):
        return self

    def __exit__(self, *_):
        self.leave()


def with_line_feeds(files):
    """The files, with a line feed behind each but the last where none stands there: a comment that
    ends one takes in nothing of the next."""
    for name, text in files[:-1]:
        yield name, text if text.endswith(b"\n") or not text else text + b"\n"
    yield from files[-1:]


class Script:
    """A script that may come from several files, one behind the other."""

    def __init__(self, files, databases=()):
        """Of each file its name and its bytes. The databases come before the files."""
        self.given = [*databases, *files]
        self.of_files = len(files)
        self.files = list(with_line_feeds(self.given))
        self.text = b"".join(text for _, text in self.files)
        self.begins = sum(len(text) for _, text in self.files[: len(databases)])

    def place(self, at):
        """The file and the number of the line of a byte of the script."""
        for name, text in self.files:
            if at < len(text):
                return name, text.count(b"\n", 0, at) + 1
            at -= len(text)
        raise ValueError("behind the script")

    def is_of_files(self, at, statement):
        """Whether the statement at this byte ends in the files, and not in the databases."""
        return at + len(statement) > self.begins

    def answered(self, cutter, session):
        """Each statement with the byte at which it begins and td's answer. What stands behind the
        last `;` is a statement too, where it has a token."""
        at = 0
        for statement in cutter.feed(self.text):
            yield at, statement, session.answer(statement)
            at += len(statement)
        rest = bytes(cutter.held)
        cutter.drop()
        if rest.strip():
            with Session() as last:
                answer = last.end(rest)
            if answer:
                yield at, rest, answer


def is_refusal(answer):
    return REFUSAL.fullmatch(answer) is not None
