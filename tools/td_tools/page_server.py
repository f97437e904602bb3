"""Serves a page to the browsers of this machine, and to nobody who has not its secret.

No request reads or writes a file: what is served was read before the first one.
"""
import base64
import hashlib
import hmac
import itertools
import json
import re
import secrets
import sys
from http import HTTPStatus
from http.server import BaseHTTPRequestHandler, ThreadingHTTPServer

from .command import Failure, note
from .page_tabs import Full, Gone

ADDRESS = "127.0.0.1"
NAMES = (ADDRESS, "localhost")
MOST_BYTES = 1 << 20
LONGEST_PATH = 200
LENGTH = re.compile(r"[0-9]{1,9}")
INLINE = re.compile(r"<(style|script)>(.*?)</\1>", re.DOTALL)
# That whoever asks has gone, or says no more.
LEFT = (ConnectionError, TimeoutError)


def failed(error):
    """What is said of a fault of the page itself, which is told on standard error too."""
    said = f"the page failed: {error!r}"
    note(said)
    return said


class Refused(Exception):
    """A request that is not answered: its status, and what is said."""

    def __init__(self, status, says):
        super().__init__(says)
        self.status = status


def policy(page):
    """What a browser lets the page do: its own style and script, by their sums, and questions to
    where it comes from. Pictures are those that it makes itself."""
    sums = {"style": [], "script": []}
    for kind, inner in INLINE.findall(page):
        digest = base64.b64encode(hashlib.sha256(inner.encode()).digest()).decode()
        sums[kind].append(f"'sha256-{digest}'")
    return "; ".join((
        "default-src 'none'", f"style-src {' '.join(sums['style'])}",
        f"script-src {' '.join(sums['script'])}", "connect-src 'self'", "img-src blob: data:",
        "base-uri 'none'", "form-action 'none'", "frame-ancestors 'none'",
    ))


def is_same(given, secret):
    return hmac.compare_digest(given.encode("latin-1", "replace"), secret.encode())


class Handler(BaseHTTPRequestHandler):
    """A request: whose it is, and what it asks for."""

    timeout = 30
    server_version, sys_version = "Custardbank", ""

    def do_GET(self):
        self.guarded(self.got)

    def do_POST(self):
        self.guarded(self.posted)

    def guarded(self, answer):
        """Answers a request, or says why not."""
        try:
            self.check_host()
            answer()
        except Refused as refused:
            self.put(refused.status, {"says": str(refused)})
        except (Gone, Full, Failure) as failure:
            status = {Gone: HTTPStatus.GONE, Full: HTTPStatus.SERVICE_UNAVAILABLE}
            self.put(status.get(type(failure), HTTPStatus.CONFLICT), {"says": str(failure)})
        except LEFT:
            raise
        except Exception as error:  # Whatever it is, the page goes on.
            self.put(HTTPStatus.INTERNAL_SERVER_ERROR, {"says": failed(error)})

    # ---- whose request it is

    def check_host(self):
        """Refuses what is asked of another name, or by another page."""
        hosts = self.headers.get_all("Host", [])
        if len(hosts) != 1 or hosts[0] not in self.server.hosts:
            raise Refused(HTTPStatus.FORBIDDEN, "this is no name of the page")
        for origin in self.headers.get_all("Origin", []):
            if origin not in self.server.origins:
                raise Refused(HTTPStatus.FORBIDDEN, "another page asks")
        if self.headers.get("Sec-Fetch-Site", "none") not in ("none", "same-origin"):
            raise Refused(HTTPStatus.FORBIDDEN, "another page asks")

    def wanted(self):
        """What is asked for, by a path that has the secret."""
        if len(self.path) > LONGEST_PATH:
            raise Refused(HTTPStatus.REQUEST_URI_TOO_LONG, "the path is too long")
        _, _, rest = self.path.partition("/")
        secret, slash, name = rest.partition("/")
        if not is_same(secret, self.server.secret) or not slash:
            raise Refused(HTTPStatus.FORBIDDEN, "the address has not the secret of this page: "
                          "tools/page says the whole one when it starts")
        return name

    def body(self):
        """The object that is sent with the request."""
        if self.headers.get("Content-Type", "").split(";")[0] != "application/json":
            raise Refused(HTTPStatus.UNSUPPORTED_MEDIA_TYPE, "what is sent is no JSON")
        length = self.headers.get("Content-Length", "")
        if not LENGTH.fullmatch(length):
            raise Refused(HTTPStatus.LENGTH_REQUIRED, "how long it is has to be said")
        if int(length) > MOST_BYTES:
            raise Refused(HTTPStatus.REQUEST_ENTITY_TOO_LARGE, "at most 1 MiB may be sent at once")
        try:
            asked = json.loads(self.rfile.read(int(length)))
        except (ValueError, RecursionError):
            asked = None
        if not isinstance(asked, dict):
            raise Refused(HTTPStatus.BAD_REQUEST, "what is sent is no object of JSON")
        return asked

    # ---- what is answered

    def got(self):
        once, self.server.once = self.server.once, None
        if once and is_same(self.path, f"/{once}"):
            self.put(HTTPStatus.SEE_OTHER, {}, Location=f"/{self.server.secret}/")
            return
        self.server.once = once
        if self.wanted() != "":
            raise Refused(HTTPStatus.NOT_FOUND, "there is nothing here")
        self.put_bytes(HTTPStatus.OK, "text/html; charset=utf-8", self.server.page)

    def posted(self):
        answer = self.server.answers.get(self.wanted())
        if answer is None:
            raise Refused(HTTPStatus.NOT_FOUND, "there is nothing here")
        told = answer(self.body())
        if isinstance(told, dict):
            self.put(HTTPStatus.OK, told)
        else:
            self.put_lines(told)

    def put(self, status, told, **headers):
        self.put_bytes(status, "application/json", json.dumps(told).encode(), **headers)

    def put_bytes(self, status, kind, data, **headers):
        self.put_head(status, kind, {"Content-Length": str(len(data)), **headers})
        self.wfile.write(data)

    def put_lines(self, events):
        """Writes each event as a line, once it is there."""
        first = next(events, None)
        self.put_head(HTTPStatus.OK, "application/x-ndjson", {})
        try:
            for event in itertools.chain([] if first is None else [first], events):
                self.put_line(event)
        except (Gone, Failure) as failure:
            self.put_line({"failed": str(failure)})
        except LEFT:
            raise
        except Exception as error:  # What was begun as lines ends as lines.
            self.put_line({"failed": failed(error)})
        finally:
            events.close()

    def put_line(self, told):
        self.wfile.write(json.dumps(told).encode() + b"\n")

    def put_head(self, status, kind, headers):
        self.close_connection = True
        self.send_response(status)
        headers = {"Content-Type": kind, **self.server.headers, **headers}
        for name, value in headers.items():
            self.send_header(name, value)
        self.end_headers()

    def send_error(self, code, message=None, explain=None):
        """What is no request is answered like one that is refused."""
        self.put(code, {"says": message or HTTPStatus(code).phrase})

    def log_message(self, *_):
        """Says nothing of what is asked."""


class Server(ThreadingHTTPServer):
    """Serves a page on this machine alone. Whoever asks needs the secret in the address."""

    daemon_threads = True

    def __init__(self, port, page, answers, each_moment):
        """The answers are by the last word of the address. At each moment is called every half
        second."""
        super().__init__((ADDRESS, port), Handler)
        self.page, self.answers, self.each_moment = page.encode(), answers, each_moment
        self.secret = secrets.token_urlsafe(24)
        # An address that leads to the page once: other users of the machine may see what a browser
        # is started with.
        self.once = secrets.token_urlsafe(24)
        port = self.server_address[1]
        self.hosts = {f"{name}:{port}" for name in NAMES}
        self.origins = {f"http://{host}" for host in self.hosts}
        self.front = f"http://{ADDRESS}:{port}"
        self.headers = {
            "Content-Security-Policy": policy(page),
            "X-Content-Type-Options": "nosniff",
            "X-Frame-Options": "DENY",
            "Referrer-Policy": "no-referrer",
            "Cross-Origin-Opener-Policy": "same-origin",
            "Cross-Origin-Resource-Policy": "same-origin",
            "Cache-Control": "no-store",
        }

    @property
    def link(self):
        return f"{self.front}/{self.secret}/"

    @property
    def link_once(self):
        return f"{self.front}/{self.once}"

    def service_actions(self):
        self.each_moment()

    def handle_error(self, request, client_address):
        """A browser that has gone is told nothing. Any other fault is told in a line."""
        error = sys.exc_info()[1]
        if not isinstance(error, LEFT):
            failed(error)
