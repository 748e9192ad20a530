"""A page for one user of this machine: a server on 127.0.0.1 that serves one page and answers its questions, to nobody
who does not have the token of its address."""
import json
import secrets
import sys
from http.server import BaseHTTPRequestHandler, ThreadingHTTPServer
from urllib.parse import parse_qs

HOST = "127.0.0.1"
# The most bytes of a question and of a request's first line, and how many seconds a client may take to say it.
MAX_QUESTION, MAX_LINE, PATIENCE = 1000, 1000, 30
HEADERS = {"Cache-Control": "no-store", "Cross-Origin-Opener-Policy": "same-origin",
           "Cross-Origin-Resource-Policy": "same-origin",
           "Referrer-Policy": "no-referrer", "X-Content-Type-Options": "nosniff", "X-Frame-Options": "DENY"}
# What a page may fetch: its own answers, and what stands in it under the number of its serving.
POLICY = ("default-src 'none'; connect-src 'self'; img-src data:; script-src 'nonce-{0}'; style-src 'nonce-{0}'; "
          "base-uri 'none'; form-action 'none'; frame-ancestors 'none'")


class Refused(Exception):
    """A status, and why a request gets no other answer."""


class PageServer(ThreadingHTTPServer):
    """Serves a page whose text has NONCE where a script or a style begins. A question is an object of JSON, `answer`
    gives the value for it, and ValueError where it is none."""

    daemon_threads = True

    def __init__(self, page, answer):
        super().__init__((HOST, 0), Exchange)
        self.page, self.answer, self.token = page, answer, secrets.token_urlsafe(24)
        self.name = f"{HOST}:{self.server_address[1]}"
        self.origin = f"http://{self.name}"
        self.address = f"{self.origin}/?token={self.token}"

    def handle_error(self, request, client_address):
        """A client that goes away is no fault."""
        if not isinstance(sys.exc_info()[1], OSError):
            super().handle_error(request, client_address)


class Exchange(BaseHTTPRequestHandler):
    timeout = PATIENCE
    server_version, sys_version = "cachesim", ""

    def do_GET(self):
        self.reply(self.page)

    def do_POST(self):
        self.reply(self.answer)

    def reply(self, make):
        try:
            self.check()
            status, (kind, data, more) = 200, make()
        except Refused as refused:
            status, text = refused.args
            kind, data, more = "text/plain; charset=utf-8", text.encode(), {}
        self.send_response(status)
        for name, value in {**HEADERS, "Content-Type": kind, "Content-Length": len(data), **more}.items():
            self.send_header(name, str(value))
        self.end_headers()
        self.wfile.write(data)

    def check(self):
        """Refuses what does not come from the page, or from who has its address."""
        if len(self.requestline) > MAX_LINE:
            raise Refused(414, "the address is too long")
        path, _, query = self.path.partition("?")
        given = self.headers.get("X-Token") if self.command == "POST" else parse_qs(query).get("token", [""])[0]
        if self.headers.get_all("Host") != [self.server.name]:
            raise Refused(403, "another host is meant")
        if self.headers.get_all("Origin", [self.server.origin] * (self.command == "GET")) != [self.server.origin]:
            raise Refused(403, "another page asks")
        if not secrets.compare_digest((given or "").encode(), self.server.token.encode()):
            raise Refused(403, "the address has another token")
        if path != "/":
            raise Refused(404, "there is one page here")

    def page(self):
        nonce = secrets.token_urlsafe(16)
        text = self.server.page.replace("NONCE", nonce)
        return "text/html; charset=utf-8", text.encode(), {"Content-Security-Policy": POLICY.format(nonce)}

    def answer(self):
        length = self.headers.get("Content-Length", "")
        if not (length.isascii() and length.isdigit() and len(length) < 9) or "Transfer-Encoding" in self.headers:
            raise Refused(411, "a question has a length")
        if int(length) > MAX_QUESTION:
            raise Refused(413, "the question is too long")
        try:
            asked = json.loads(self.rfile.read(int(length)))
            answer = self.server.answer(asked)
        except (ValueError, RecursionError):
            raise Refused(400, "this is no question") from None
        return "application/json", json.dumps(answer, separators=(",", ":")).encode(), {}

    def log_message(self, *_):
        """Says nothing: standard error is for faults."""
