"""Serves the playground: a page on which a document is asked by clicking.

    ./playground                        begins with examples/leader-crashes by the rules of Kubernetes 1.20, and offers all examples
    ./playground DOCUMENT               begins with a document
    ./playground --kubectl              begins with the cluster that kubectl sees
    ./playground --kubectl -- --from-manifest FILE       the words behind -- are those of tools/from-cluster

It prints the page's address and serves until Ctrl-C. The address is on this machine alone, and has a secret: whoever has it can ask, nobody else.
"""
import argparse
import json
import os
import signal
import sys
import threading
import webbrowser

import assets
import beginning
from server import JSON, Server
from workers import Workers

sys.path.insert(0, os.path.join(beginning.TOP, 'python'))
from kube_replay.engine import find_engine
from kube_replay.errors import NoEngine

NO_ENGINE = 70
BUILD = 'prove and build the program first: ( cd crates/kube_replay && rt run -- replay < ../../examples/one-controller.json )'


def options():
    words = argparse.ArgumentParser(prog='playground', description=__doc__, formatter_class=argparse.RawDescriptionHelpFormatter)
    words.add_argument('document', nargs='?', metavar='DOCUMENT', help='a file')
    words.add_argument('--kubectl', action='store_true', help='begin with the cluster that kubectl sees')
    words.add_argument('--open', action='store_true', help='open the page in a browser')
    words.add_argument('--port', type=int, default=0, metavar='NUMBER', help='the port; a free one where none is named')
    words.add_argument('--seconds', type=int, default=60, metavar='NUMBER', help='how long a run may take (60)')
    own, more = split(sys.argv[1:])
    given = words.parse_args(own)
    if given.document and given.kubectl:
        words.error('a document and --kubectl are two beginnings')
    if more and not given.kubectl:
        words.error('words behind -- are for --kubectl')
    return given, more


def split(words):
    """The words before a `--`, and those behind it."""
    at = words.index('--') if '--' in words else len(words)
    return words[:at], words[at + 1:]


def served(given, more):
    """The server, with all that the page begins with."""
    told, document = beginning.beginning(given.document, given.kubectl, more)
    files = assets.files()
    files['beginning'] = (JSON, json.dumps(told).encode())
    files['document'] = (JSON, document)
    return Server(given.port, files, Workers(given.seconds))


def run(server, is_opened):
    print('playground: %s' % server.gate.address(), flush=True)
    print('playground: ends with Ctrl-C', file=sys.stderr, flush=True)
    if is_opened:
        threading.Thread(target=webbrowser.open, args=[server.gate.address_once()], daemon=True).start()
    try:
        server.serve_forever(poll_interval=.2)
    except KeyboardInterrupt:
        print(file=sys.stderr)
    finally:
        server.workers.end()


def end(_number, _frame):
    raise KeyboardInterrupt


def main():
    given, more = options()
    try:
        find_engine()
    except (NoEngine, OSError) as fault:
        print('playground: %s%s' % (fault, '' if beginning.IS_INSTALLED else '; ' + BUILD), file=sys.stderr)
        return NO_ENGINE
    try:
        server = served(given, more)
    except (beginning.Wrong, OSError, OverflowError) as fault:
        print('playground: %s' % fault, file=sys.stderr)
        return 1
    # Also where it was started in the background of a script, in which Ctrl-C is ignored.
    for number in (signal.SIGINT, signal.SIGTERM, signal.SIGHUP):
        signal.signal(number, end)
    run(server, given.open)
    sys.stdout.flush()
    os._exit(0)


if __name__ == '__main__':
    sys.exit(main())
