"""Pages of this machine alone: GET, by the names 127.0.0.1 and localhost, and without a way to have anything done."""
import threading
from http.server import BaseHTTPRequestHandler, ThreadingHTTPServer
from urllib.parse import urlsplit

import tundelca
from ctl import WORDS, Fault

PATIENCE = 10  # seconds for a request to come, and for an answer to be taken
MOST_AT_ONCE = 32  # connections
POLICY = "; ".join(["default-src 'none'", "script-src 'self'", "style-src 'self'", "connect-src 'self'",
                    "img-src 'self'", "base-uri 'none'", "form-action 'none'", "frame-ancestors 'none'"])
HEADERS = {
    "Content-Security-Policy": POLICY,
    "X-Content-Type-Options": "nosniff",
    "X-Frame-Options": "DENY",
    "Cross-Origin-Resource-Policy": "same-origin",
    "Cross-Origin-Opener-Policy": "same-origin",
    "Referrer-Policy": "no-referrer",
    "Cache-Control": "no-store",
}


class Pages(ThreadingHTTPServer):
    """A server of pages. `routes` has for each path what makes its type and its bytes of the query."""

    daemon_threads = True

    def __init__(self, port, routes):
        self.routes, self.room = routes, threading.BoundedSemaphore(MOST_AT_ONCE)
        try:
            super().__init__((tundelca.LOOPBACK, port), Handler)
        except (OSError, OverflowError) as error:
            raise Fault(WORDS, f"port {port} can't be had: {tundelca.words_of(error)}") from None
        port = self.server_address[1]
        self.names = {f"{name}:{port}" for name in ("127.0.0.1", "localhost")}

    def process_request(self, request, client_address):
        if self.room.acquire(blocking=False):
            super().process_request(request, client_address)
        else:
            self.shutdown_request(request)

    def process_request_thread(self, request, client_address):
        try:
            super().process_request_thread(request, client_address)
        finally:
            self.room.release()

    def handle_error(self, request, client_address):
        """A browser that went away is nothing to tell."""


class Handler(BaseHTTPRequestHandler):
    """A request. A page of elsewhere that has a name of its own for this machine is refused by its `Host`."""

    timeout = PATIENCE
    protocol_version = "HTTP/1.1"
    server_version, sys_version = "tundelca-ctl", ""

    def do_GET(self):
        address = urlsplit(self.path)
        make = self.server.routes.get(address.path)
        if self.headers.get("Host") not in self.server.names:
            self.reply(421, "text/plain; charset=utf-8", b"ask by 127.0.0.1 or localhost\n")
        elif make is None:
            self.reply(404, "text/plain; charset=utf-8", b"no such page\n")
        else:
            self.reply(200, *make(address.query))

    do_HEAD = do_GET

    def refuse(self):
        self.close_connection = True
        self.reply(405, "text/plain; charset=utf-8", b"GET alone\n", {"Allow": "GET, HEAD"})

    do_POST = do_PUT = do_DELETE = do_PATCH = do_OPTIONS = refuse

    def reply(self, status, kind, text, more=None):
        self.send_response(status)
        self.send_header("Content-Type", kind)
        self.send_header("Content-Length", str(len(text)))
        for name, value in {**HEADERS, **(more or {})}.items():
            self.send_header(name, value)
        self.end_headers()
        if self.command != "HEAD":
            self.wfile.write(text)

    def log_message(self, *_):
        pass
