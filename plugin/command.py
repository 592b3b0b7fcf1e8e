"""One call of `kubectl replay`: words, lists, a document, an answer, and the exit status."""
import os
import signal
import sys
import tempfile

sys.path.insert(0, os.path.join(os.path.dirname(os.path.dirname(os.path.realpath(__file__))), 'tools'))
import words
from answers import Answers
from cluster import Cluster
from cluster_flags import Wrong
from lists import Lists, Unread

NO_ANSWER, UNWRITTEN, INTERRUPTED, TERMINATED = 3, 4, 130, 143


def say(text):
    """Sentences on standard error with the command's name; rows of a table as they are."""
    table = False
    for line in text.rstrip('\n').split('\n'):
        table = table or line.startswith('WHAT ')
        print(line if table else 'kubectl replay: ' + line, file=sys.stderr)


def answer(given, folder):
    """The answer's status and bytes."""
    answers = Answers(given, folder, say)
    cluster = Cluster(Lists(words.kubectl_flags(given), given.request_timeout, given.chunk_size), given)
    for told in cluster.told:
        say(told)
    document = answers.document(cluster)
    for told in cluster.tell_manager():
        say(told)
    if given.document:
        return 0, document
    if given.command == 'play':
        return answers.play(document), b''
    return answers.run(document) if given.command in words.RUNS else answers.of_settings(document)


def main(given):
    signal.signal(signal.SIGTERM, lambda *_: sys.exit(TERMINATED))
    try:
        with tempfile.TemporaryDirectory(prefix='kubectl-replay-') as folder:
            status, data = answer(words.read(given), folder)
    except (Unread, Wrong) as fault:
        say(str(fault))
        sys.exit(NO_ANSWER)
    except KeyboardInterrupt:
        sys.exit(INTERRUPTED)
    try:
        sys.stdout.buffer.write(data)
        sys.stdout.flush()
    except OSError as fault:
        os.dup2(os.open(os.devnull, os.O_WRONLY), 1)
        say("the answer can't be written: %s" % fault.strerror)
        sys.exit(UNWRITTEN)
    sys.exit(status)
