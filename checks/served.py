"""A page that is served for a check, and requests to it that are written by hand."""
import contextlib
import json
import os
import re
import signal
import socket
import subprocess
import tempfile
import time
from pathlib import Path

from reading import TOP

PATIENCE = 60
LINK = re.compile(r"(http://127\.0\.0\.1:(\d+)/([\w-]+)/)\n")


class Served:
    """A run of tools/page, and what is asked of it."""

    def __init__(self, *words):
        self.errors = tempfile.TemporaryFile()
        command = [TOP / "tools" / "page", "--no-browser", *words]
        began = time.monotonic()
        streams = {"stdout": subprocess.PIPE, "stderr": self.errors}
        self.process = subprocess.Popen(command, text=True, **streams)
        said = LINK.search(self.process.stdout.readline())
        self.seconds = time.monotonic() - began
        assert said, "no link is printed"
        self.link, self.port, self.secret = said.group(1), int(said.group(2)), said.group(3)

    def raw(self, data, address="127.0.0.1"):
        """The status and the whole of what is answered to these bytes."""
        with socket.create_connection((address, self.port), PATIENCE) as asking:
            with contextlib.suppress(ConnectionError):
                asking.sendall(data)
            told = b""
            with contextlib.suppress(ConnectionError):
                while more := asking.recv(1 << 16):
                    told += more
        front = re.match(rb"HTTP/1\.[01] (\d+) ", told)
        return int(front.group(1)) if front else 0, told

    def asked(self, path, body=None, method=None, **headers):
        """The status and what is answered to a request. A header that is None is left out."""
        data = json.dumps(body).encode() if isinstance(body, dict) else body
        given = {"Host": f"127.0.0.1:{self.port}"}
        if data is not None:
            given |= {"Content-Type": "application/json", "Content-Length": str(len(data))}
        given |= {name.replace("_", "-"): value for name, value in headers.items()}
        method = method or ("GET" if data is None else "POST")
        lines = [f"{method} {path} HTTP/1.1"]
        lines += [f"{name}: {value}" for name, value in given.items() if value is not None]
        return self.raw("\r\n".join([*lines, "", ""]).encode() + (data or b""))

    def posted(self, name, /, **fields):
        """The status of a question, and what is told."""
        status, told = self.asked(f"/{self.secret}/{name}", fields)
        return status, told.partition(b"\r\n\r\n")[2].decode()

    def told(self, name, /, **fields):
        """The object that is answered to a question."""
        status, told = self.posted(name, **fields)
        assert status == 200, f"{name} is answered {status} {told}"
        return json.loads(told)

    def tab(self, **fields):
        return self.told("begin", **fields)["tab"]

    def run(self, tab, script, /, **fields):
        """Of each statement what is told of it, in order."""
        status, told = self.posted("run", tab=tab, script=script, **fields)
        assert status == 200, f"run is answered {status} {told}"
        every = {}
        for line in told.splitlines():
            event = json.loads(line)
            every.setdefault(event["number"], {}).update(event)
        return list(every.values())

    def answers(self, tab, script, **fields):
        return [one["answer"] for one in self.run(tab, script, **fields)]

    def runs(self):
        """The runs of td that the page has."""
        found = subprocess.run(
            ["ps", "-o", "pid=", "--ppid", str(self.process.pid)], capture_output=True, check=False
        )
        return set(found.stdout.split())

    def said(self):
        """What the page has said on standard error."""
        self.errors.seek(0)
        return self.errors.read().decode()

    def end(self):
        """The status with which it ends at a signal."""
        self.process.send_signal(signal.SIGTERM)
        status = self.process.wait(PATIENCE)
        self.process.stdout.close()
        return status

    def __enter__(self):
        return self

    def __exit__(self, *_):
        self.end()
        self.errors.close()


# A server without a page or tabs. It prints its port, its secret and what leads there once.
BARE = """import sys
sys.path.insert(0, 'tools')
from td_tools.page_server import Server
{front}
own = Server(0, '<script></script>', {answers}, lambda: None)
print(own.server_address[1], own.secret, own.once, flush=True)
own.serve_forever()
"""


@contextlib.contextmanager
def bare(front="", answers="{}"):
    """Such a server, with answers that are written in Python: its process and what it prints."""
    code = BARE.format(front=front, answers=answers)
    streams = {"stdout": subprocess.PIPE, "stderr": subprocess.PIPE}
    with subprocess.Popen(["python3", "-B", "-c", code], text=True, cwd=TOP, **streams) as process:
        try:
            yield process, *process.stdout.readline().split()
        finally:
            process.kill()


def exchanged(port, asked):
    """What is answered to a request on a port."""
    with socket.create_connection(("127.0.0.1", int(port)), PATIENCE) as asking:
        asking.sendall(asked.encode())
        return asking.makefile().read()


def soon(holds):
    """Whether something comes to hold."""
    until = time.monotonic() + PATIENCE
    while not holds():
        if time.monotonic() > until:
            return False
        time.sleep(0.02)
    return True


def script(name):
    """A script of examples/, and its output."""
    file = TOP / "examples" / name
    return file.read_text(encoding="utf-8"), file.with_suffix(".out").read_text(encoding="utf-8")


def numbers(count, name="N"):
    """A statement that declares a relvar of so many numbers."""
    tuples = ", ".join(f"TUPLE {{I {one}}}" for one in range(count))
    return f"VAR {name} BASE RELATION {{I INTEGER}} INIT (RELATION {{{tuples}}}) KEY {{I}};"


def is_there(process):
    return Path(f"/proc/{os.fsdecode(process)}").exists()
