"""Lists of an API server, asked for by kubectl in pieces. Nothing but lists is asked for, and nothing is changed."""
import collections
import json
import re
import subprocess
import urllib.parse

import cluster_stream

Resource = collections.namedtuple('Resource', 'name folder version kind')
NODES = Resource('nodes', '/api/v1', 'v1', 'Node')
PODS = Resource('pods', '/api/v1', 'v1', 'Pod')
LEASES = Resource('leases', '/apis/coordination.k8s.io/v1', 'coordination.k8s.io/v1', 'Lease')
TIMEOUT = re.compile(r'deadline exceeded|Client\.Timeout|request canceled|timed out|i/o timeout|handshake timeout')
# What of an item no command reads, and makes most of its bytes. The containers of the control plane's own pods have its flags; of other pods no more is
# kept than tools/from-cluster reads.
UNREAD = {'metadata': ('managedFields', 'annotations'), 'spec': ('volumes', 'initContainers'), 'status': ('containerStatuses', 'images')}
SYSTEM = 'kube-system'


class Unread(Exception):
    """Why a list can't be had, in a sentence."""


class Forbidden(Unread):
    """It may not be read, by the API server's words."""


class Expired(Unread):
    """The API server has forgotten where the next piece begins."""


def path_of(resource, namespace, piece, token):
    place = 'namespaces/%s/%s' % (urllib.parse.quote(namespace, safe=''), resource.name) if namespace else resource.name
    query = {**({'limit': piece} if piece else {}), **({'continue': token} if token else {})}
    return '%s/%s%s' % (resource.folder, place, '?' + urllib.parse.urlencode(query) if query else '')


def lighter(item, shared):
    if item['kind'] == PODS.kind and item['metadata'].get('namespace') != SYSTEM:
        return cluster_stream.slim(item, shared)
    for part, keys in UNREAD.items():
        for key in keys:
            (item.get(part) or {}).pop(key, None)
    return item


def items_in(page, resource):
    """The items of a piece, where it is one: a list of that kind, whose items have metadata."""
    if not isinstance(page, dict) or page.get('kind') != resource.kind + 'List':
        return None
    items = page.get('items') or []
    sound = isinstance(items, list) and all(isinstance(item, dict) and isinstance(item.get('metadata'), dict) for item in items)
    return items if sound else None


class Lists:
    """The lists, with kubectl's own flags, so many items a piece, and how long it waits for one."""

    def __init__(self, flags, timeout, piece):
        self.flags, self.timeout, self.piece = [*flags, '--request-timeout=%s' % timeout], timeout, piece
        self.prefix = None

    def read(self, resource, namespace=None):
        """All items of a list; once more, and in one piece, where the API server has forgotten the next one."""
        try:
            return list(self.items(resource, namespace, self.piece))
        except Expired:
            return list(self.items(resource, namespace, 0))

    def items(self, resource, namespace, piece):
        token, earlier, shared = None, set(), {}
        while token not in earlier:
            earlier.add(token)
            items, token = self.part(resource, self.server_path() + path_of(resource, namespace, piece, token))
            for item in items:
                yield lighter({**item, 'apiVersion': resource.version, 'kind': resource.kind}, shared)
            if not token:
                return
        raise Unread('the list of %s never ends: the same piece comes again' % resource.name)

    def part(self, resource, path):
        """The items of a piece, and where the next one begins, if there is one."""
        text = self.ask(resource, path)
        try:
            page = json.loads(text)
        except ValueError:
            page = None
        items = items_in(page, resource)
        if items is None:
            raise Unread('what the API server sent for %s is no list of them; it begins with %s' % (resource.name, beginning(text)))
        return items, (page.get('metadata') or {}).get('continue')

    def server_path(self):
        """What stands behind the host in the server's address, as behind a proxy of many clusters: `kubectl get --raw` leaves it out."""
        if self.prefix is None:
            given = [flag.partition('=')[2] for flag in self.flags if flag.startswith('--server=')]
            self.prefix = urllib.parse.urlsplit(given[0] if given else self.server()).path.rstrip('/')
        return self.prefix

    def server(self):
        """The server's address, by kubectl's own files."""
        done = self.call('config', 'view', '--minify', '--output=jsonpath={.clusters[0].cluster.server}')
        return done.stdout.decode(errors='replace').strip()

    def call(self, *words):
        try:
            return subprocess.run(['kubectl', *words, *self.flags], stdout=subprocess.PIPE, stderr=subprocess.PIPE, check=False)
        except OSError as fault:
            raise Unread("kubectl can't be run: %s" % fault.strerror) from fault

    def ask(self, resource, path):
        done = self.call('get', '--raw', path)
        if done.returncode:
            raise self.fault(resource, done.stderr.decode(errors='replace'))
        return done.stdout

    def fault(self, resource, said):
        """What kubectl said, by its kind."""
        lines = [line.strip() for line in said.splitlines() if line.strip()] or ['kubectl failed, and said nothing']
        told = next((line for line in lines if line.lower().startswith(('error', 'unable'))), lines[-1])
        if '(Forbidden)' in told:
            return Forbidden('%s may not be listed: %s' % (resource.name, told))
        if '(Expired)' in told or '(Gone)' in told:
            return Expired("the list of %s can't be read to its end: %s" % (resource.name, told))
        if TIMEOUT.search(told):
            return Unread('the API server did not send its %s within %s: --request-timeout TIME waits longer' % (resource.name, self.timeout))
        return Unread("%s can't be listed: %s" % (resource.name, told))


def beginning(text):
    start = ' '.join(text[:200].decode(errors='replace').split())[:60]
    return repr(start) if start else 'nothing'
