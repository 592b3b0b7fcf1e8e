"""The server of the playground: a page, and what it asks, on the loopback interface alone."""
import json
import socket
import sys
import threading
from http.server import BaseHTTPRequestHandler, ThreadingHTTPServer

from gate import HEADERS, NO_METHOD, Gate, Refused
from workers import Ended

LOOPBACK = '127.0.0.1'
# How long a connection may say nothing, and how many may be open: where one more comes, the one that has waited longest is closed.
SECONDS_OF_SILENCE = 20
MOST_CONNECTIONS = 40
JSON = 'application/json; charset=utf-8'


class Server(ThreadingHTTPServer):
    """Answers with the files of the page, and with what the workers say of a document."""

    daemon_threads = True
    request_queue_size = 128
    allow_reuse_address = True

    def __init__(self, port, files, workers):
        super().__init__((LOOPBACK, port), Handler)
        self.files, self.workers, self.gate = files, workers, Gate(self.server_address[1])
        self.waiting, self.lock = [], threading.Lock()

    def process_request(self, request, client_address):
        with self.lock:
            self.waiting.append(request)
            last = self.waiting[0] if len(self.waiting) > MOST_CONNECTIONS else None
        if last:
            self.close_down(last)
        super().process_request(request, client_address)

    @staticmethod
    def close_down(connection):
        """Ends a connection, whose own thread then sees the end and closes it."""
        try:
            connection.shutdown(socket.SHUT_RDWR)
        except OSError:
            pass

    def is_at_work(self, connection, works):
        """Notes that a connection has asked something, or waits again, as the last of those that wait."""
        with self.lock:
            if connection in self.waiting:
                self.waiting.remove(connection)
            if not works:
                self.waiting.append(connection)

    def shutdown_request(self, request):
        self.is_at_work(request, True)
        super().shutdown_request(request)

    def handle_error(self, request, client_address):
        """A connection that breaks off is nobody's fault, and isn't told."""
        if not isinstance(sys.exc_info()[1], (ConnectionError, TimeoutError)):
            super().handle_error(request, client_address)


class Handler(BaseHTTPRequestHandler):
    """One connection."""

    protocol_version = 'HTTP/1.1'
    server_version, sys_version = 'kube_replay-playground', ''
    timeout = SECONDS_OF_SILENCE
    disable_nagle_algorithm = True
    wbufsize = -1

    def do_GET(self):
        self.guarded(self.give_file)

    def do_POST(self):
        self.guarded(self.give_answer)

    def guarded(self, act):
        """Answers a request that the gate lets through, and refuses any other."""
        self.server.is_at_work(self.connection, True)
        try:
            self.server.gate.see_host(self.headers)
            act()
        except Refused as refused:
            self.close_connection = True
            self.reply(refused.status, 'text/plain; charset=utf-8', ('%s\n' % refused).encode())
        self.server.is_at_work(self.connection, False)

    def give_file(self):
        if self.server.gate.is_once(self.path):
            return self.reply(303, 'text/plain; charset=utf-8', b'', {'Location': '/%s/' % self.server.gate.secret})
        name = self.server.gate.name(self.path)
        if name not in self.server.files:
            raise Refused(404, 'nothing is here')
        return self.reply(200, *self.server.files[name])

    def give_answer(self):
        if self.server.gate.name(self.path) != 'run':
            raise Refused(404, 'nothing is here')
        length = self.server.gate.length(self.headers)
        document = self.rfile.read(length)
        if len(document) < length:
            self.close_connection = True
            return
        at = self.headers.get('Objects-At', '0')
        try:
            self.reply(200, JSON, self.server.workers.ask(document, int(at) if at.isascii() and at.isdigit() and len(at) < 10 else 0, self.connection))
        except Ended as ended:
            self.reply(200, JSON, json.dumps({'ended': str(ended)}).encode())

    def log_message(self, *_):
        """Nothing is told of requests: their paths have the secret."""

    def send_error(self, code, message=None, explain=None):
        """What http.server itself refuses: the same short words, with no page."""
        self.close_connection = True
        self.reply(NO_METHOD if code == 501 else code, 'text/plain; charset=utf-8', b'this is not answered\n')

    def reply(self, status, kind, body, more=None):
        self.send_response_only(status)
        headers = {'Content-Type': kind, 'Content-Length': str(len(body)), **HEADERS, **(more or {})}
        for name, value in headers.items():
            self.send_header(name, value)
        if self.close_connection:
            self.send_header('Connection', 'close')
        self.end_headers()
        self.wfile.write(body)
        self.wfile.flush()
