"""Which requests are answered: those of the page itself, and of nobody else.

The address has a secret. The host has to be the loopback address, so that a name that was made to point here gets nothing; what changes or runs
something has to come from the page's own origin.
"""
import hmac
import secrets

MOST_BYTES = 16_777_216
FORBIDDEN, MISSING, LENGTH_MISSING, TOO_LARGE, WRONG_TYPE, NO_METHOD = 403, 404, 411, 413, 415, 405
# What a browser may do on the page: run its own script, and ask this server. Nothing is loaded from outside, and no other page frames it.
POLICY = ("default-src 'none'; script-src 'self'; style-src 'self'; img-src 'self' data: blob:; connect-src 'self'; base-uri 'none'; "
          "form-action 'none'; frame-ancestors 'none'")
HEADERS = {
    'Content-Security-Policy': POLICY,
    'X-Content-Type-Options': 'nosniff',
    'X-Frame-Options': 'DENY',
    'Referrer-Policy': 'no-referrer',
    'Cross-Origin-Opener-Policy': 'same-origin',
    'Cross-Origin-Resource-Policy': 'same-origin',
    'Cache-Control': 'no-store',
}


class Refused(Exception):
    """A request that isn't answered, and its status."""

    def __init__(self, status, words):
        super().__init__(words)
        self.status = status


class Gate:
    """The secret of an address, and a second one that works once: to open the page without telling the first to whoever lists processes."""

    def __init__(self, port):
        self.secret, self.once = secrets.token_urlsafe(18), secrets.token_urlsafe(18)
        self.hosts = ['%s:%d' % (name, port) for name in ('127.0.0.1', 'localhost')]

    def address(self):
        return 'http://%s/%s/' % (self.hosts[0], self.secret)

    def address_once(self):
        return 'http://%s/once/%s' % (self.hosts[0], self.once)

    def is_once(self, path):
        """Whether a path is the one that works once, which it then doesn't any more."""
        if not self.once or not hmac.compare_digest(path.encode(errors='replace'), ('/once/' + self.once).encode()):
            return False
        self.once = None
        return True

    def see_host(self, headers):
        """Raises Refused for another host than this one, and for a page of another origin."""
        if headers.get_all('Host') not in [[host] for host in self.hosts]:
            raise Refused(FORBIDDEN, 'this is another host')
        if headers.get('Origin') not in [None] + ['http://' + host for host in self.hosts]:
            raise Refused(FORBIDDEN, 'this is another origin')
        if headers.get('Sec-Fetch-Site', 'none') not in ('none', 'same-origin'):
            raise Refused(FORBIDDEN, 'this is another site')

    def name(self, path):
        """What stands behind the secret of a path."""
        _, secret, *rest = path.partition('?')[0].split('/', 2) + ['']
        if not rest or not hmac.compare_digest(secret.encode(errors='replace'), self.secret.encode()):
            raise Refused(MISSING, 'nothing is here')
        return rest[0]

    @staticmethod
    def length(headers):
        """How many bytes of a document come. Raises Refused where that isn't a document of the page."""
        if 'Origin' not in headers:
            raise Refused(FORBIDDEN, 'this is another origin')
        if headers.get('Content-Type') != 'application/json':
            raise Refused(WRONG_TYPE, 'a document is application/json')
        said = headers.get_all('Content-Length') or []
        if len(said) != 1 or not said[0].isascii() or not said[0].isdigit() or 'Transfer-Encoding' in headers:
            raise Refused(LENGTH_MISSING, 'the length is missing')
        if int(said[0]) > MOST_BYTES:
            raise Refused(TOO_LARGE, 'a document has at most %d bytes' % MOST_BYTES)
        return int(said[0])
