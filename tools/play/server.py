"""The server of the page: for this machine alone, and for whoever has the address that zplay prints."""

import json
import secrets
import threading
from http.server import BaseHTTPRequestHandler, ThreadingHTTPServer
from itertools import chain
from urllib.parse import parse_qs, urlsplit

import bench
from play import beside, desk, searching, verdict
from prompt.session import Fault

HOST = '127.0.0.1'

NO_TOKEN = 'open the address that zplay has printed'

# What a browser shows that has no token: most likely someone has opened a link that a colleague sent.
STRANGER = """This page opens with the address that zplay printed when it started.

Is this a link that somebody sent you? What follows the # in it is a whole run. To see it, start a zplay of your own with the link:

    ./zplay 'LINK'

Or put the # and what follows it behind the address that your own zplay printed.
"""

# The longest question, in bytes. A scenario has at most 4 MiB.
LONGEST = 5 << 20

# How much is read of one that is refused.
MOST = 64 << 20

# At most this many questions are at work at a time; others wait.
ROOM = threading.BoundedSemaphore(8)

ANSWERS = {'/run': desk.whole_run, '/pieces': desk.drawn, '/outcomes': desk.outcomes_of, '/nodes': desk.nodes_of, '/until': desk.until, '/migrate': desk.migrated, '/save': desk.saved,
           '/verdict': verdict.verdict_of, '/beside': beside.beside, '/find': searching.found}

# The page takes nothing from elsewhere, sends nothing there, and stands in no other page.
HEADERS = {
    'Content-Security-Policy': "default-src 'none'; script-src 'self'; style-src 'self'; connect-src 'self'; img-src data:; "
                               "form-action 'none'; base-uri 'none'; frame-ancestors 'none'",
    'X-Content-Type-Options': 'nosniff', 'Referrer-Policy': 'no-referrer', 'Cross-Origin-Resource-Policy': 'same-origin',
    'Cross-Origin-Opener-Policy': 'same-origin', 'Cache-Control': 'no-store'}


def new_token():
    return secrets.token_urlsafe(24)


class Server(ThreadingHTTPServer):
    """Gives some files, each by its path as its kind and its bytes, and the answers of the desk."""

    daemon_threads = True

    def __init__(self, port, files):
        super().__init__((HOST, port), Handler)
        self.files, self.token, self.once, self.port = files, new_token(), set(), self.server_address[1]
        self.hosts = ['%s:%d' % (name, self.port) for name in (HOST, 'localhost')]
        self.cookie = 'zplay_%d' % self.port

    def address(self):
        """The address that lets a browser in."""
        return 'http://%s:%d/?token=%s' % (HOST, self.port, self.token)

    def address_once(self):
        """An address that lets a browser in a single time, for a command line, which other users of the machine can read."""
        token = new_token()
        self.once.add(token)
        return 'http://%s:%d/?token=%s' % (HOST, self.port, token)

    def lets_in(self, token):
        """Whether this token of an address lets a browser in."""
        try:
            self.once.remove(token)
            return True
        except KeyError:
            return self.is_token(token)

    def is_token(self, word):
        return secrets.compare_digest(word.encode(), self.token.encode())

    def handle_error(self, request, client_address):
        """A browser that goes away is no fault."""


class Handler(BaseHTTPRequestHandler):
    """One request. Who asks shows the token once, in the address, and then as a cookie."""

    server_version, sys_version, timeout = 'zplay', '', 60

    def log_message(self, *words):
        """Nothing is logged."""

    def refusal(self):
        """Why a request is not answered: it names another host (a name that was turned to this machine), or comes from another page, or has
        no token; '' where it is answered."""
        host, origin = self.headers.get('Host', ''), self.headers.get('Origin')
        if host not in self.server.hosts:
            return 'no such host'
        if origin != 'http://' + host and (origin or self.command == 'POST'):
            return 'not for this page'
        if not self.has_token():
            return NO_TOKEN
        return ''

    def has_token(self):
        """Whether the cookie of this server is there, among those of others on this machine."""
        pairs = [pair.strip().partition('=') for pair in self.headers.get('Cookie', '').split(';')]
        return any(name == self.server.cookie and self.server.is_token(word) for name, _, word in pairs)

    def do_GET(self):
        path, query = urlsplit(self.path)[2:4]
        token = parse_qs(query).get('token', [''])[0]
        if path == '/' and self.headers.get('Host') in self.server.hosts and self.server.lets_in(token):
            cookie = '%s=%s; HttpOnly; SameSite=Lax; Path=/' % (self.server.cookie, self.server.token)
            return self.send(303, 'text/plain', b'', {'Location': '/', 'Set-Cookie': cookie})
        refusal = self.refusal()
        if refusal:
            return self.send(403, 'text/plain', (STRANGER if path == '/' and refusal == NO_TOKEN else refusal).encode())
        if path not in self.server.files:
            return self.send(404, 'text/plain', b'no such file')
        return self.send(200, *self.server.files[path])

    def do_POST(self):
        refusal, size = self.refusal(), self.headers.get('Content-Length', '')
        if refusal or not size.isdecimal() or int(size) > LONGEST:
            self.send(403 if refusal else 413, 'text/plain', (refusal or 'too long').encode())
            return self.pass_over(int(size) if size.isdecimal() else 0)
        try:
            asked = json.loads(self.rfile.read(int(size)))
            with ROOM:
                return self.search(asked) if self.path == '/search' else self.send_json(ANSWERS[self.path](asked))
        except bench.Refused as refused:
            return self.send_json({'fault': desk.fault_of(refused)})
        except (Fault, SystemExit) as fault:  # a program that cannot be started ends a script
            return self.send_json({'fault': {'line': 0, 'words': str(fault)}})
        except (LookupError, TypeError, ValueError, AttributeError, RecursionError):
            return self.send(400, 'text/plain', b'no such question')

    def pass_over(self, size):
        """Reads a question that was refused, up to a bound: who still sends it would not hear why if the line were cut."""
        left = min(size, MOST)
        while left > 0:
            piece = self.rfile.read(min(left, 1 << 16))
            left = left - len(piece) if piece else 0

    def search(self, asked):
        """Sends what a search reports as it comes, a line each; a browser that goes away ends it."""
        reports = searching.searched(asked)
        first = next(reports)
        self.send_head(200, 'application/x-ndjson', {})
        try:
            for report in chain([first], reports):
                self.wfile.write(json.dumps(report).encode() + b'\n')
        except OSError:
            pass
        finally:
            reports.close()

    def send_json(self, value):
        self.send(200, 'application/json', json.dumps(value, separators=(',', ':')).encode())

    def send(self, status, kind, content, more=None):
        self.send_head(status, kind, {'Content-Length': str(len(content)), **(more or {})})
        self.wfile.write(content)

    def send_head(self, status, kind, more):
        self.send_response(status)
        for name, value in {'Content-Type': kind + '; charset=utf-8', **HEADERS, **more}.items():
            self.send_header(name, value)
        self.end_headers()
