"""Serves the page on the loopback: to whoever has the token in the address, and to no page but this one."""
import contextlib
import json
import re
import secrets
import threading
from http import HTTPStatus
from http.server import BaseHTTPRequestHandler, ThreadingHTTPServer
from pathlib import Path
from urllib.parse import parse_qsl, urlsplit

from conversation.files import NOWHERE
from conversation.history import NotKept, keep, kept_lines
from conversation.journal import JournalFault
from conversation.program import Ended, Stopped, TooMuch

from .desk import Refused
from .view import View

HOST = "127.0.0.1"
PAGE = Path(__file__).with_name("page")
KINDS = {".html": "text/html", ".js": "text/javascript", ".css": "text/css", ".svg": "image/svg+xml"}
MOST_BYTES = 64 << 20
NAME = re.compile(r"e\d+(\.[mposj]\d+)?|\$\w+", re.ASCII)
HEADERS = {
    "Content-Security-Policy": "default-src 'none'; script-src 'self'; style-src 'self'; img-src 'self' data:; "
    "connect-src 'self'; base-uri 'none'; form-action 'none'; frame-ancestors 'none'",
    "X-Content-Type-Options": "nosniff", "Referrer-Policy": "no-referrer", "Cache-Control": "no-store",
    "Cross-Origin-Resource-Policy": "same-origin", "Cross-Origin-Opener-Policy": "same-origin",
}


class Forbidden(Exception):
    """A request that is none of this page's."""


class Workbench(ThreadingHTTPServer):
    """The server of one desk, with a token of its own. Requests reach the desk one after another."""

    daemon_threads = True

    def __init__(self, desk, port=0):
        super().__init__((HOST, port), Handler)
        self.desk, self.view = desk, View(desk)
        self.lock, self.token = threading.RLock(), secrets.token_urlsafe(24)

    @property
    def origin(self):
        return f"http://{HOST}:{self.server_address[1]}"

    @property
    def address(self):
        return f"{self.origin}/{self.token}/"


def is_set(words, name):
    return words.get(name) == "1"


def named(words, key="name"):
    """The name of something, or a label, which stands alone in a command."""
    if not NAME.fullmatch(words[key]):
        raise ValueError(words[key])
    return words[key]


def since(words):
    """How many rows of the transcript the page has."""
    count = str(words.get("since", 0))
    return int(count) if count.isdigit() else 0


def text_of(words):
    if not isinstance(words["text"], str):
        raise ValueError(words["text"])
    return words["text"]


def pulse(bench, words):
    """Whether the program runs, and how much has happened."""
    desk = bench.desk
    desk.look_whether_it_runs()
    return {"ended": desk.ended, "version": desk.version, "count": len(desk.rows), "atWork": desk.is_at_work}


def do(bench, words):
    """Does what was typed; tells what more lines it wants where it is not whole. A `stop` waits for nothing."""
    desk, text = bench.desk, text_of(words)
    if desk.ended is not None:
        raise Refused("The program has ended.")
    if text.strip() == "stop":
        return desk.stop("")
    more = desk.type(text, words.get("whole", True))
    if more is None and words.get("kept"):
        with contextlib.suppress(NotKept):
            keep(text)
    desk.advance()
    return {"more": more}


def load(bench, words):
    """Does the commands of a file, in a session of their own."""
    text = text_of(words)
    bench.desk.clear()
    bench.desk.type(text, files=NOWHERE)
    bench.desk.advance()


def history(bench, words):
    """The lines that were typed before."""
    try:
        return kept_lines()
    except NotKept:
        return []


def picture_of(bench, words):
    return bench.view.picture(not is_set(words, "all"), is_set(words, "causes"))


def svg_of(bench, words):
    options = not is_set(words, "all"), is_set(words, "causes")
    return bench.view.svg(words.get("look", "light"), words.get("cone"), *options).encode()


# What is read: the answer to each by its name. What is done: each answers with the state of then. What is saved.
READ = {
    "pulse": pulse,
    "state": lambda bench, words: bench.desk.state(since(words)),
    "picture": picture_of,
    "cone": lambda bench, words: bench.view.cone(named(words)),
    "redo": lambda bench, words: bench.view.redo(named(words)),
    "why": lambda bench, words: bench.view.why(named(words, "first"), named(words, "second")),
    "told": lambda bench, words: bench.view.told_of(named(words)),
    "words": lambda bench, words: bench.view.words_for(words["before"], words["text"]),
    "history": history,
}
DONE = {
    "do": do,
    "wait": lambda bench, words: bench.desk.advance(),
    "stop": lambda bench, words: bench.desk.stop(""),
    "again": lambda bench, words: bench.desk.begin_again(),
    "load": load,
}
FILES = {"session.evats": ("text/plain", lambda bench, words: bench.desk.saved()), "picture.svg": ("image/svg+xml", svg_of)}


class Handler(BaseHTTPRequestHandler):
    """Answers one request after another of a connection."""

    protocol_version = "HTTP/1.1"

    def do_GET(self):
        self.answer(self.read)

    def do_POST(self):
        self.answer(self.done)

    def answer(self, how):
        """Answers by a function, or says in words why not."""
        try:
            status, kind, body = HTTPStatus.OK, *how(*self.checked())
        except Forbidden as fault:
            self.close_connection = True
            status, kind, body = HTTPStatus.FORBIDDEN, "text/plain", str(fault).encode()
        except (Refused, Stopped, JournalFault, TooMuch, MemoryError) as fault:
            told = str(fault) or "There is not memory enough for this."
            status, kind, body = HTTPStatus.CONFLICT, "application/json", json.dumps({"fault": told}).encode()
        except Ended as ended:
            self.server.desk.end(ended)
            told = {"fault": "The program has ended."}
            status, kind, body = HTTPStatus.CONFLICT, "application/json", json.dumps(told).encode()
        except (KeyError, ValueError):
            self.close_connection = True
            status, kind, body = HTTPStatus.BAD_REQUEST, "text/plain", b"this is no request of the page"
        self.put(status, kind, body)

    def put(self, status, kind, body):
        self.send_response(status)
        for name, value in {**HEADERS, "Content-Type": f"{kind}; charset=utf-8", "Content-Length": str(len(body))}.items():
            self.send_header(name, value)
        # A page that was left hears nothing.
        with contextlib.suppress(ConnectionError):
            self.end_headers()
            self.wfile.write(body)

    def checked(self):
        """What is asked for, and its words; refused are other hosts, other pages, and whoever has not the token."""
        if self.headers.get("Host") != self.server.origin.removeprefix("http://"):
            raise Forbidden("this is not the host of the workbench")
        origin, site = self.headers.get("Origin"), self.headers.get("Sec-Fetch-Site", "none")
        if origin not in (None, self.server.origin) or site not in ("none", "same-origin"):
            raise Forbidden("another page asks this")
        parts = urlsplit(self.path)
        token, _, name = parts.path.removeprefix("/").partition("/")
        if not secrets.compare_digest(token.encode(), self.server.token.encode()):
            raise Forbidden("the address has not the token that the workbench told as it began")
        return name, dict(parse_qsl(parts.query, keep_blank_values=True))

    def read(self, name, words):
        if name in READ or name in FILES:
            with self.server.lock:
                if name in FILES:
                    kind, how = FILES[name]
                    return kind, how(self.server, words)
                return "application/json", json.dumps(READ[name](self.server, words)).encode()
        file = PAGE / (name or "index.html")
        if file.parent != PAGE or not file.is_file():
            raise KeyError(name)
        return KINDS[file.suffix], file.read_bytes()

    def done(self, name, words):
        """Does something. A page has to name its origin, and to say that it sends JSON, which no form of another page can."""
        if self.headers.get("Origin") != self.server.origin or self.headers.get("Content-Type") != "application/json":
            raise Forbidden("another page asks this")
        length = int(self.headers.get("Content-Length", ""))
        if length > MOST_BYTES:
            raise ValueError(length)
        told = json.loads(self.rfile.read(length) or b"{}")
        if not isinstance(told, dict):
            raise ValueError(told)
        words.update(told)
        with self.server.lock:
            told = DONE[name](self.server, words) or {}
            state = self.server.desk.state(since(words))
        return "application/json", json.dumps({**state, **told}).encode()

    def log_message(self, *_):
        """Nothing is written for requests."""
