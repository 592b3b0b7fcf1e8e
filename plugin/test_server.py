"""An API server for the tests, on 127.0.0.1: it knows lists of nodes, pods and Leases in pieces, what may not be read, and bad answers.

    python3 plugin/test_server.py NODES PODS        serves a cluster of so many and prints the file for KUBECONFIG, until it is interrupted
"""
import base64
import json
import os
import sys
import tempfile
import threading
import urllib.parse
from http.server import BaseHTTPRequestHandler, ThreadingHTTPServer

import test_objects

GROUPS = {'api/v1': ('v1', {'nodes': 'Node', 'pods': 'Pod'}), 'apis/coordination.k8s.io/v1': ('coordination.k8s.io/v1', {'leases': 'Lease'})}
CONFIG = {'apiVersion': 'v1', 'kind': 'Config', 'users': [{'name': 'somebody', 'user': {}}], 'current-context': 'here'}


def discovery():
    """What an API server tells of itself, which `kubectl get` asks for, by path."""
    found = {'api': {'kind': 'APIVersions', 'versions': ['v1']},
             'apis': {'kind': 'APIGroupList', 'apiVersion': 'v1', 'groups': [
                 {'name': 'coordination.k8s.io', 'versions': [{'groupVersion': 'coordination.k8s.io/v1', 'version': 'v1'}],
                  'preferredVersion': {'groupVersion': 'coordination.k8s.io/v1', 'version': 'v1'}}]},
             'version': {'major': '1', 'minor': '31', 'gitVersion': 'v1.31.4'}}
    for path, (version, kinds) in GROUPS.items():
        resources = [{'name': name, 'singularName': kind.lower(), 'namespaced': kind != 'Node', 'kind': kind, 'verbs': ['get', 'list']} for name, kind in kinds.items()]
        found[path] = {'kind': 'APIResourceList', 'apiVersion': 'v1', 'groupVersion': version, 'resources': resources}
    return found


class Handler(BaseHTTPRequestHandler):
    protocol_version = 'HTTP/1.1'

    def log_message(self, *_):
        pass

    def do_GET(self):
        self.server.requests.append((self.command, self.path))
        path, _, query = self.path.removeprefix(self.server.prefix).strip('/').partition('?')
        if not self.path.startswith(self.server.prefix):
            return self.send_status(404, 'NotFound', 'the server could not find the requested resource')
        if path in DISCOVERY:
            return self.send(200, DISCOVERY[path])
        wanted = resource_of(path)
        if not wanted:
            return self.send_status(404, 'NotFound', 'the server could not find the requested resource')
        query = dict(urllib.parse.parse_qsl(query))
        fault = self.server.faults.get(wanted[0])
        return fault(self, *wanted, query) if fault else self.send_list(*wanted, query)

    def refuse(self):
        """Nothing may be changed."""
        self.server.requests.append((self.command, self.path))
        self.send_status(405, 'MethodNotAllowed', 'this server changes nothing')

    do_POST = do_PUT = do_PATCH = do_DELETE = refuse

    def send(self, status, value):
        self.send_bytes(status, json.dumps(value).encode())

    def send_bytes(self, status, data, kind='application/json', length=None):
        self.send_response(status)
        self.send_header('Content-Type', kind)
        self.send_header('Content-Length', str(length or len(data)))
        self.end_headers()
        self.wfile.write(data)

    def send_status(self, status, reason, message):
        self.send(status, {'kind': 'Status', 'apiVersion': 'v1', 'status': 'Failure', 'reason': reason, 'message': message, 'code': status})

    def send_list(self, resource, kind, version, namespace, query):
        items = [item for item in self.server.lists[resource] if namespace in (None, item['metadata'].get('namespace'))]
        start = int(base64.b64decode(query.get('continue', '')) or 0)
        limit = int(query.get('limit') or 0) or len(items)
        more = {'continue': base64.b64encode(b'%d' % (start + limit)).decode(), 'remainingItemCount': len(items) - start - limit} if start + limit < len(items) else {}
        self.send(200, {'kind': kind + 'List', 'apiVersion': version, 'metadata': {'resourceVersion': '59059300', **more}, 'items': items[start:start + limit]})


DISCOVERY = discovery()


def resource_of(path):
    """The resource, kind, version and namespace of a list's path."""
    for folder, (version, kinds) in GROUPS.items():
        words = path.removeprefix(folder + '/').split('/') if path.startswith(folder + '/') else []
        if len(words) in (1, 3) and words[-1] in kinds and words[:-1][:1] in ([], ['namespaces']):
            return words[-1], kinds[words[-1]], version, urllib.parse.unquote(words[1]) if len(words) == 3 else None
    return None


# Bad answers, each to the request for a list.

def forbidden(handler, resource, kind, version, namespace, query):
    place = 'in the namespace "%s"' % namespace if namespace else 'at the cluster scope'
    handler.send_status(403, 'Forbidden', '%s is forbidden: User "somebody" cannot list resource "%s" in API group "%s" %s' % (
        resource, resource, version.rpartition('/')[0], place))


def silent(handler, *_):
    """Nothing for a minute, or until the test ends."""
    handler.server.over.wait(60)


def trickling(handler, *_):
    """A beginning, and then nothing more."""
    handler.send_bytes(200, b'{"kind":"NodeList","items":[', length=1_000_000)
    handler.server.over.wait(60)


def html(handler, *_):
    handler.send_bytes(200, b'<html><body>Please log in</body></html>', 'text/html')


def cut(handler, *_):
    """A body that ends before its length."""
    handler.send_bytes(200, b'{"kind":"PodList","items":[{"metadata":{"name":"web', length=1_000)
    handler.close_connection = True


def half(handler, *_):
    """A body that is no JSON to its end."""
    handler.send_bytes(200, b'{"kind":"PodList","items":[{"metadata":{"name":"web')


def other(handler, *_):
    handler.send(200, {'kind': 'SecretList', 'apiVersion': 'v1', 'items': []})


def failed(handler, *_):
    handler.send_status(500, 'InternalError', 'etcdserver: leader changed')


def expired(handler, resource, kind, version, namespace, query):
    """The next piece is forgotten each time."""
    if query.get('continue'):
        handler.send_status(410, 'Expired', 'The provided continue parameter is too old')
    else:
        handler.send_list(resource, kind, version, namespace, query)


def endless(handler, resource, kind, version, namespace, query):
    handler.send(200, {'kind': kind + 'List', 'apiVersion': version, 'metadata': {'continue': 'again'}, 'items': []})


class Server(ThreadingHTTPServer):
    """The server, the requests that it got, and the faults by resource."""
    daemon_threads = True

    def __init__(self, lists):
        super().__init__(('127.0.0.1', 0), Handler)
        self.lists, self.requests, self.faults, self.over, self.prefix = lists, [], {}, threading.Event(), ''

    def address(self):
        return 'http://127.0.0.1:%d%s' % (self.server_port, self.prefix)

    def handle_error(self, request, address):
        """A client that has gone is no fault."""

    def __enter__(self):
        threading.Thread(target=self.serve_forever, daemon=True).start()
        return self

    def __exit__(self, *_):
        self.over.set()
        self.shutdown()
        self.server_close()

    def config(self, path):
        """Writes a file for KUBECONFIG with the contexts `here`, this server, and `nowhere`, a port where nobody answers."""
        clusters = [{'name': 'here', 'cluster': {'server': self.address()}}, {'name': 'nowhere', 'cluster': {'server': 'http://127.0.0.1:9'}}]
        contexts = [{'name': each['name'], 'context': {'cluster': each['name'], 'user': 'somebody'}} for each in clusters]
        with open(path, 'w', encoding='utf-8') as file:
            json.dump({**CONFIG, 'clusters': clusters, 'contexts': contexts}, file)
        return path


def main():
    with tempfile.TemporaryDirectory() as folder, Server(test_objects.cluster(*map(int, sys.argv[1:3]))) as server:
        print(server.config(os.path.join(folder, 'config')), flush=True)
        try:
            server.over.wait()
        except KeyboardInterrupt:
            pass


if __name__ == '__main__':
    main()
