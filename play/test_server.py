#!/usr/bin/env python3
"""Attacks the server of the playground, and sees that it answers its own page alone, one run at a time, and ends at once.

    python3 play/test_server.py

It needs Python's standard library alone, and the built programs (or KUBE_REPLAY_PROGRAM and KUBE_LENS_PROGRAM). The exit status is 1 where
anything is wrong.
"""
import http.client
import json
import os
import signal
import socket
import subprocess
import sys
import tempfile
import threading
import time
import unittest

HERE = os.path.dirname(os.path.realpath(__file__))
TOP = os.path.dirname(HERE)
sys.path.insert(0, HERE)
from driver import Playground, spent, tree
from gate import MOST_BYTES, POLICY

SMALL = b'{"version":1,"settings":{"endBeat":60},"controllers":[{"name":"c1"}]}'
# What docs/library.md has of this document.
TRACE = ('trace 1 beat=100 end=60 premise=yes\n0 c1_1 start\n3 c1_1 create election v=1 t=0\n4 c1_1 lead v=1\n7 c1_1 update election v=2 t=0\n'
         '31 c1_1 update election v=3 t=0\n55 c1_1 update election v=4 t=0\n')
# Nine controllers and a delay, with beats of a millisecond for hours: millions of lines.
LONG = json.dumps({'version': 1, 'settings': {'beatMillis': 1, 'endBeat': 600_000_000, 'retryPeriodMillis': 1},
                   'controllers': [{'name': 'c%d' % i} for i in range(9)]}).encode()


def own_address():
    """An address of this machine that isn't the loopback, if it has one."""
    with socket.socket(socket.AF_INET, socket.SOCK_DGRAM) as probe:
        try:
            probe.connect(('192.0.2.1', 9))
        except OSError:
            return None
        return probe.getsockname()[0]


class ServerTest(unittest.TestCase):
    def setUp(self):
        self.served = Playground()
        self.addCleanup(lambda: self.served.process.poll() is None and self.served.end())

    def ask(self, path='run', method='POST', body=SMALL, secret=None, timeout=60, without=(), **headers):
        """The status, the headers and the body of a request; names of headers with _ for -."""
        connection = http.client.HTTPConnection('127.0.0.1', self.served.port, timeout=timeout)
        named = {'Origin': self.served.origin, 'Content-Type': 'application/json', **{name.replace('_', '-'): value for name, value in headers.items()}}
        named = {name: value for name, value in named.items() if name not in without and (method == 'POST' or name not in ('Origin', 'Content-Type') or name in headers)}
        whole = path if path.startswith('/') else '/%s/%s' % (self.served.secret if secret is None else secret, path)
        try:
            connection.request(method, whole, body if method == 'POST' else None, named)
            reply = connection.getresponse()
            return reply.status, dict(reply.getheaders()), reply.read()
        finally:
            connection.close()

    def raw(self, text, seconds=5):
        """All that the server says to these bytes."""
        with socket.create_connection(('127.0.0.1', self.served.port), timeout=seconds) as connection:
            connection.sendall(text)
            said = b''
            try:
                while part := connection.recv(65536):
                    said += part
            except TimeoutError:
                pass
            return said

    def answers(self):
        """That the page's own question is answered, with the trace that is known."""
        status, _, body = self.ask()
        self.assertEqual((status, json.loads(body)['trace']), (200, TRACE))

    def test_page(self):
        status, headers, body = self.ask('', 'GET')
        self.assertEqual((status, headers['Content-Security-Policy'], headers['Cache-Control'], headers['X-Content-Type-Options'], headers['Referrer-Policy']),
                         (200, POLICY, 'no-store', 'nosniff', 'no-referrer'))
        self.assertNotIn(b'http://', body)
        self.assertNotIn(b'https://', body)
        self.assertNotIn(b' style=', body)
        for name in ('picture.js', 'picture.css', 'playground.js', 'playground.css', 'beginning', 'document'):
            self.assertEqual(self.ask(name, 'GET')[0], 200, name)
        self.answers()

    def test_wrong_secret(self):
        for secret in ('', 'x', self.served.secret[:-1], self.served.secret + 'x', self.served.secret.swapcase(), 'é' * 24, '%2e%2e'):
            for path, method in (('', 'GET'), ('document', 'GET'), ('run', 'POST')):
                quoted = secret.encode().decode('latin-1')
                with self.subTest(secret=secret, path=path):
                    said = self.raw(('%s /%s/%s HTTP/1.1\r\nHost: 127.0.0.1:%d\r\nOrigin: %s\r\nContent-Type: application/json\r\nContent-Length: 2\r\nConnection: close\r\n\r\n{}'
                                     % (method, quoted, path, self.served.port, self.served.origin)).encode('latin-1'))
                    self.assertIn(said.split(b' ')[1], (b'404', b'400'))
                    self.assertNotIn(self.served.secret.encode(), said)
        self.assertEqual(self.ask('/', 'GET')[0], 404)
        self.answers()

    def test_wrong_host(self):
        """A name that was made to point to the loopback address gets nothing, nor does a missing one, nor two."""
        for host in ('evil.example', 'evil.example:%d' % self.served.port, '127.0.0.1', '127.0.0.1:1', 'localhost', '[::1]:%d' % self.served.port, '0.0.0.0:%d' % self.served.port,
                     'localhost.:%d' % self.served.port, '127.1:%d' % self.served.port):
            for path, method in (('', 'GET'), ('run', 'POST')):
                self.assertEqual(self.ask(path, method, Host=host)[0], 403, host)
        own = b'Host: 127.0.0.1:%d\r\n' % self.served.port
        for hosts in (b'', own + own, own + b'Host: evil.example\r\n'):
            said = self.raw(b'GET /%s/ HTTP/1.1\r\n%sConnection: close\r\n\r\n' % (self.served.secret.encode(), hosts))
            self.assertEqual(said.split(b' ')[1], b'403', hosts)
        self.assertEqual(self.ask('', 'GET', Host='localhost:%d' % self.served.port)[0], 200)

    def test_other_origin(self):
        other = 'http://127.0.0.1:%d' % (self.served.port % 65535 + 1)
        for origin in ('null', 'http://evil.example', 'https://127.0.0.1:%d' % self.served.port, other, 'http://127.0.0.1', self.served.origin + '/'):
            self.assertEqual(self.ask(Origin=origin)[0], 403, origin)
            self.assertEqual(self.ask('document', 'GET', Origin=origin)[0], 403, origin)
        self.assertEqual(self.ask(without=('Origin',))[0], 403)
        for site in ('cross-site', 'same-site', 'nonsense'):
            self.assertEqual(self.ask('', 'GET', Sec_Fetch_Site=site)[0], 403, site)
            self.assertEqual(self.ask(Sec_Fetch_Site=site)[0], 403, site)
        for kind in ('text/plain', 'application/x-www-form-urlencoded', 'multipart/form-data', 'application/json; charset=utf-8'):
            self.assertEqual(self.ask(Content_Type=kind)[0], 415, kind)
        _, headers, _ = self.ask(Origin='http://evil.example')
        self.assertEqual([name for name in headers if name.lower().startswith('access-control')], [])
        self.answers()

    def test_other_paths(self):
        for path in ('../main.py', '..%2fmain.py', 'main.py', 'index.html', 'web/playground.js', 'playground.js/', './playground.js', 'run', '%00', 'document%20'):
            self.assertEqual(self.ask(path, 'GET')[0], 404, path)
        self.assertEqual(self.ask('document')[0], 404)
        for method in ('PUT', 'DELETE', 'OPTIONS', 'HEAD', 'TRACE', 'CONNECT', 'BREW'):
            said = self.raw(b'%s /%s/ HTTP/1.1\r\nHost: 127.0.0.1:%d\r\nConnection: close\r\n\r\n' % (method.encode(), self.served.secret.encode(), self.served.port))
            self.assertEqual(said.split(b' ')[1], b'405', method)
        for text in (b'\r\n\r\n', b'GET\r\n\r\n', b'GET / HTTP/9.9\r\n\r\n', b'\x16\x03\x01\x02\x00' * 40 + b'\r\n\r\n', b'GET /' + b'a' * 70000 + b' HTTP/1.1\r\n\r\n',
                     b'GET / HTTP/1.1\r\n' + b'X: y\r\n' * 200 + b'\r\n'):
            said = self.raw(text)
            self.assertFalse(said.startswith(b'HTTP/1.1 200'), text[:40])
            self.assertNotIn(self.served.secret.encode(), said)
        self.answers()

    def test_too_long(self):
        """17 MB are refused by their length, before they are read; so is a document without a length."""
        begin = time.monotonic()
        for length in (MOST_BYTES + 1, 17_000_000, 10**30):
            said = self.raw(self.head(b'Content-Length: %d' % length))
            self.assertEqual(said.split(b' ')[1], b'413', length)
        self.assertLess(time.monotonic() - begin, 3)
        for line in (b'X: y', b'Content-Length: -1', b'Content-Length: x', b'Content-Length: 1\r\nContent-Length: 2', b'Content-Length: ' + '٣'.encode(), b'Transfer-Encoding: chunked',
                     b'Content-Length: 2\r\nTransfer-Encoding: chunked'):
            self.assertEqual(self.raw(self.head(line)).split(b' ')[1], b'411', line)
        status, _, body = self.ask(body=SMALL + b' ' * (MOST_BYTES - len(SMALL)), timeout=120)
        self.assertEqual((status, json.loads(body)['trace']), (200, TRACE))

    def head(self, line):
        return (b'POST /%s/run HTTP/1.1\r\nHost: 127.0.0.1:%d\r\nOrigin: %s\r\nContent-Type: application/json\r\n%s\r\n\r\n'
                % (self.served.secret.encode(), self.served.port, self.served.origin.encode(), line))

    def test_17_megabytes(self):
        """A client that sends them all the same, whatever it is told, stops nobody."""
        try:
            self.raw(self.head(b'Content-Length: 17000000') + b' ' * 17_000_000)
        except ConnectionError:
            pass
        self.answers()

    def test_broken_documents(self):
        for body in (b'', b'{', b'[]', b'null', b'\xff\xfe', b'{"version":1', b'[' * 200_000, b'{"version":1,"settings":{"endBeat":NaN},"controllers":[]}', b'0' * 100_000, b'"\\ud800"',
                     b'{"version":1,"settings":{},"controllers":[]}', SMALL[:-1]):
            status, _, told = self.ask(body=body)
            read = json.loads(told)
            self.assertEqual((status, list(read)), (200, ['refused']), (body[:30], told[:200]))
            self.assertTrue(read['refused']['why'].strip(), body[:30])
        self.answers()

    def test_short_body(self):
        """A body that breaks off runs nothing."""
        with socket.create_connection(('127.0.0.1', self.served.port)) as connection:
            connection.sendall(self.head(b'Content-Length: 1000') + SMALL)
        self.answers()

    def test_open_connections(self):
        """50 connections that say nothing, and 50 that say half a head, keep nobody out; all end by themselves."""
        for text in (b'', b'GET /x HTTP/1.1\r\nHost: 127.0'):
            held = [socket.create_connection(('127.0.0.1', self.served.port)) for _ in range(50)]
            for connection in held:
                self.addCleanup(connection.close)
                connection.sendall(text)
            time.sleep(.3)
            begin = time.monotonic()
            self.answers()
            self.assertLess(time.monotonic() - begin, 5)
            for connection in held:
                connection.close()

    def test_loopback_alone(self):
        own = own_address()
        if own is None or own.startswith('127.'):
            self.skipTest('this machine has no other address')
        with self.assertRaises(OSError):
            socket.create_connection((own, self.served.port), timeout=2).close()

    def test_newer_question_ends_the_older(self):
        old = []
        thread = threading.Thread(target=lambda: old.append(self.ask(body=LONG)))
        thread.start()
        time.sleep(1)
        begin = time.monotonic()
        self.answers()
        self.assertLess(time.monotonic() - begin, 5)
        thread.join(5)
        self.assertFalse(thread.is_alive())
        self.assertEqual(list(json.loads(old[0][2])), ['ended'])
        self.answers()

    def test_reader_that_goes_ends_its_run(self):
        with socket.create_connection(('127.0.0.1', self.served.port)) as connection:
            connection.sendall(self.head(b'Content-Length: %d' % len(LONG)) + LONG)
            time.sleep(1)
            self.assertTrue(self.busy())
        time.sleep(1.5)
        self.assertFalse(self.busy())
        self.answers()

    def children(self):
        """The processes that the playground started, and those that these did."""
        return tree(self.served.process.pid)[1:]

    def busy(self):
        """Whether the playground and what it started use the processor for some time of a second."""
        before = spent(self.served.process.pid)
        time.sleep(1)
        return spent(self.served.process.pid) - before > .03

    def test_ends_at_once(self):
        """Ctrl-C ends it, also while it runs something long, and nothing of it goes on."""
        for number in (signal.SIGINT, signal.SIGTERM, signal.SIGHUP):
            served = self.served
            thread = threading.Thread(target=self.swallow, args=[LONG])
            thread.start()
            time.sleep(1)
            held = [socket.create_connection(('127.0.0.1', served.port)) for _ in range(5)]
            started = self.children()
            self.assertGreater(len(started), 1)
            seconds, status = served.end(number)
            self.assertEqual(status, 0)
            self.assertLess(seconds, 1.5)
            time.sleep(.5)
            self.assertEqual([pid for pid in started if os.path.exists('/proc/' + pid) and not self.is_dead(pid)], [])
            thread.join(10)
            for connection in held:
                connection.close()
            self.served = Playground()

    @staticmethod
    def is_dead(pid):
        try:
            with open('/proc/%s/stat' % pid, encoding='utf-8') as file:
                return file.read().rpartition(')')[2].split()[0] == 'Z'
        except OSError:
            return True

    def swallow(self, body):
        try:
            self.ask(body=body)
        except OSError:
            pass
        except http.client.HTTPException:
            pass


class CommandTest(unittest.TestCase):
    """The words of ./playground."""

    def run_words(self, *words, **place):
        return subprocess.run([os.path.join(TOP, 'playground'), *words], capture_output=True, text=True, env={**os.environ, **place}, timeout=60, check=False)

    def test_words_at_fault(self):
        for words, status, said in ((['nowhere.json'], 1, "nowhere.json can't be read"), (['--kubectl', 'x.json'], 2, 'two beginnings'), (['--', '--kill', 'x'], 2, 'are for --kubectl'),
                                    (['--port', '70000'], 1, 'port'), (['a', 'b'], 2, 'unrecognized')):
            done = self.run_words(*words)
            self.assertEqual((done.returncode, done.stdout, said in done.stderr), (status, '', True), (words, done.stderr))

    def test_no_program(self):
        done = self.run_words(KUBE_REPLAY_PROGRAM='', KUBE_REPLAY_LIBRARY='/nowhere.so')
        self.assertEqual((done.returncode, done.stdout), (70, ''), done.stderr)

    def test_of_kubectl(self):
        """A kubectl that lists tools/data/cluster.json; and one that fails."""
        with tempfile.TemporaryDirectory() as folder:
            path = os.path.join(folder, 'kubectl')
            with open(path, 'w', encoding='utf-8') as file:
                file.write('#!/bin/sh\n[ "$*" = "get nodes,pods,leases -A -o json" ] && exec cat %s/tools/data/cluster.json\n' % TOP)
            os.chmod(path, 0o755)
            with Playground('--kubectl', '--', '--kill', 'worker-1@60s', PATH=folder + ':' + os.environ['PATH']) as served:
                connection = http.client.HTTPConnection('127.0.0.1', served.port)
                connection.request('GET', '/%s/document' % served.secret)
                told = connection.getresponse().read()
            with open(os.path.join(TOP, 'tools', 'data', 'cluster.json'), 'rb') as listed:
                made = subprocess.run([os.path.join(TOP, 'tools', 'from-cluster'), '--kill', 'worker-1@60s'], stdin=listed, capture_output=True, check=True)
            self.assertEqual(told, made.stdout)
            with open(path, 'w', encoding='utf-8') as file:
                file.write('#!/bin/sh\nexit 3\n')
            done = self.run_words('--kubectl', PATH=folder + ':' + os.environ['PATH'])
            self.assertEqual((done.returncode, done.stdout, 'ended with 3' in done.stderr), (1, '', True))

    def test_address_that_works_once(self):
        """--open hands the browser an address that works once: whoever reads the list of processes later gets nothing."""
        with tempfile.TemporaryDirectory() as folder:
            path = os.path.join(folder, 'browser')
            with open(path, 'w', encoding='utf-8') as file:
                file.write('#!/bin/sh\necho "$1" > %s/said.new && mv %s/said.new %s/said\n' % (folder, folder, folder))
            os.chmod(path, 0o755)
            with Playground('--open', BROWSER=path + ' %s') as served:
                for _ in range(100):
                    if os.path.exists(folder + '/said'):
                        break
                    time.sleep(.05)
                with open(folder + '/said', encoding='utf-8') as file:
                    address = file.read().strip()
                self.assertNotIn(served.secret, address)
                replies = []
                for _ in range(2):
                    connection = http.client.HTTPConnection('127.0.0.1', served.port)
                    connection.request('GET', address.removeprefix(served.origin))
                    reply = connection.getresponse()
                    reply.read()
                    replies.append((reply.status, reply.getheader('Location')))
                self.assertEqual(replies, [(303, '/%s/' % served.secret), (404, None)])


if __name__ == '__main__':
    unittest.main()
