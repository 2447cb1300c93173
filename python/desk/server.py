"""The desk for a browser on this computer alone: the page, what it asks for, and changes as they are made."""
import hmac
import json
import os
import secrets
import sys
from http.server import BaseHTTPRequestHandler, ThreadingHTTPServer
from pathlib import Path
from urllib.parse import urlsplit

from .engine import Gone
from .ground import ground_of
from .requests import CHANGES, body_of, name_in
from .trials import Fault, Stale

PAGE = Path(__file__).resolve().parent / "page"
KINDS = {".html": "text/html", ".js": "text/javascript", ".css": "text/css", ".svg": "image/svg+xml"}
# nothing else is served from the disk
FILES = {"/": PAGE / "index.html", **{f"/{path.name}": path for path in sorted(PAGE.iterdir()) if path.suffix in KINDS}}
POLICY = "; ".join(
    (
        "default-src 'none'",
        *(f"{kind}-src 'self'" for kind in ("script", "style", "img", "connect")),
        *(f"{kind} 'none'" for kind in ("base-uri", "form-action", "frame-ancestors")),
    )
)
HEADERS = {
    "Content-Security-Policy": POLICY,
    "X-Content-Type-Options": "nosniff",
    "X-Frame-Options": "DENY",
    "Referrer-Policy": "no-referrer",
    "Cross-Origin-Resource-Policy": "same-origin",
    "Cache-Control": "no-store",
}
NO_SUCH_PAGE = {"fault": "there is no such page"}
ENGINE_ENDS = "the engine ends each time it is started; nothing of the trial is lost, its journal is on the disk"


class Handler(BaseHTTPRequestHandler):
    """One request."""

    server_version, sys_version = "desk", ""
    timeout = 60

    def log_message(self, *_):
        """The desk keeps no list of requests: the journals have every change."""

    # ---- answers

    def begin(self, status, kind, length=None):
        """The head of an answer."""
        self.send_response(status)
        self.send_header("Content-Type", f"{kind}; charset=utf-8")
        for name, value in HEADERS.items():
            self.send_header(name, value)
        if length is not None:
            self.send_header("Content-Length", str(length))
        self.end_headers()

    def send(self, kind, body, status=200):
        """A whole answer."""
        self.begin(status, kind, len(body))
        self.wfile.write(body)

    def json(self, value, status=200):
        """A whole answer as JSON."""
        self.send("application/json", json.dumps(value).encode("ascii"), status)

    def stream(self, parts):
        """Text as it comes. It ends with the line `end`, so that a reader sees whether it is whole; what cannot be met is said before the head."""
        parts = iter(parts)
        first = next(parts)
        self.begin(200, "text/plain")
        try:
            self.put(first)
            for part in parts:
                self.put(part)
        except OSError:
            # the page is gone; what was asked is still made
            for _ in parts:
                pass
        except Gone:
            self.close_connection = True

    def put(self, part):
        """A part of a stream, at once."""
        self.wfile.write(part.encode("utf-8"))
        self.wfile.flush()

    # ---- who asks

    def is_ours(self):
        """Whether the request is from this desk's own page on this computer."""
        port = self.server.server_address[1]
        hosts = {f"{name}:{port}" for name in ("127.0.0.1", "localhost")}
        origin, site = self.headers.get("Origin"), self.headers.get("Sec-Fetch-Site", "same-origin")
        if self.headers.get("Host") not in hosts or site not in ("same-origin", "none"):
            return False
        if origin is not None and origin not in {f"http://{host}" for host in hosts}:
            return False
        return urlsplit(self.path).path in FILES and self.command == "GET" or self.has_token()

    def has_token(self):
        """Whether the request has the token that only the page has."""
        return hmac.compare_digest(self.headers.get("X-Desk-Token", "").encode("latin-1"), self.server.token.encode("ascii"))

    def do_GET(self):
        """A request that changes nothing."""
        self.answered(self.get)

    def do_POST(self):
        """A request that changes a trial."""
        self.answered(self.post)

    def answered(self, how):
        """The answer to a request by what answers it, or in words why there is none."""
        try:
            if not self.is_ours():
                self.json({"fault": "this is not from the desk's own page"}, 403)
            else:
                how(urlsplit(self.path).path)
        except Stale:
            self.json({"fault": "this trial has moved on in another window"}, 409)
        except Fault as fault:
            self.json({"fault": str(fault)}, 422)
        except Gone:
            self.json({"fault": ENGINE_ENDS}, 503)
        except (ConnectionError, TimeoutError):
            self.close_connection = True
        except OSError as why:
            self.json({"fault": f"a file cannot be read or written: {why.strerror}"}, 500)

    # ---- what is asked

    def get(self, path):
        """A file of the page, or what it asks for."""
        if path in FILES:
            self.page(path)
        elif path == "/api/desk":
            self.json(self.server.evening.told())
        elif path == "/api/ground":
            self.json(self.server.ground)
        elif path == "/api/season":
            self.send("text/plain", self.server.evening.season_frame().encode("ascii"))
        elif path.startswith("/api/trial/") and path.count("/") == 4:
            self.trial(*path.split("/")[3:])
        else:
            self.json(NO_SUCH_PAGE, 404)

    def page(self, path):
        """A file of the page; the page itself comes with the token."""
        body = FILES[path].read_bytes()
        if path == "/":
            body = body.replace(b"@token@", self.server.token.encode("ascii"))
        self.send(KINDS[FILES[path].suffix], body)

    def trial(self, key, what):
        """What the page asks of a trial."""
        trial = self.server.evening.trial(key)
        if what == "frames":
            self.stream(trial.all())
        elif what == "arrows":
            self.stream(trial.arrows())
        elif what == "cautions":
            self.json(trial.cautions())
        elif what == "log":
            self.send("text/plain", trial.log().encode("ascii"))
        elif what == "journal":
            self.send("text/plain", trial.journal.path.read_bytes())
        else:
            self.json(NO_SUCH_PAGE, 404)

    def post(self, path):
        """A new trial, a trial dropped, or a change of one."""
        evening, asked, parts = self.server.evening, body_of(self.headers, self.rfile), path.split("/")[1:]
        if parts == ["api", "trials"]:
            copied = asked.get("copy")
            self.json(evening.new(name_in(asked), copied if copied is None else str(copied)).told())
        elif parts[:2] != ["api", "trial"] or len(parts) != 4:
            self.json(NO_SUCH_PAGE, 404)
        elif parts[3] == "drop":
            evening.drop(parts[2])
            self.json({})
        elif parts[3] in CHANGES:
            self.stream(evening.trial(parts[2]).change(asked.get("at"), parts[3], *CHANGES[parts[3]](asked)))
        else:
            self.json(NO_SUCH_PAGE, 404)


class Server(ThreadingHTTPServer):
    """The desk of an evening on the loopback, at a port or, for 0, at one that is free."""

    daemon_threads = True
    request_queue_size = 32

    def __init__(self, port, evening):
        super().__init__(("127.0.0.1", port), Handler)
        self.evening, self.ground = evening, ground_of(evening.season)
        self.token = token_in(evening.folder / "token")

    def address(self):
        """Where the page is."""
        return f"http://127.0.0.1:{self.server_address[1]}/"

    def handle_error(self, request, client_address):
        """A connection that broke says nothing; every other fault is told."""
        if not isinstance(sys.exc_info()[1], ConnectionError):
            super().handle_error(request, client_address)


def token_in(path):
    """The token of an evening, which its pages keep over a restart; nobody else may read it."""
    try:
        with open(os.open(path, os.O_WRONLY | os.O_CREAT | os.O_EXCL, 0o600), "w", encoding="ascii") as file:
            file.write(secrets.token_urlsafe(24))
    except FileExistsError:
        pass
    return path.read_text(encoding="ascii")
