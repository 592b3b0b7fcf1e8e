"""The answers: a document of the cluster, its replay, and what kube_lens says of them."""
import json
import os
import re
import subprocess

import network
import programs
from lists import PODS, Unread
from words import cluster_words

MOST_BYTES = 16_777_216
# So many pods keep their names; more are said by sets, since a document has no room for them.
MOST_NAMED = 30_000
# How the answers on the settings end where they say no; `safe` is the last of both.
NO = {'margin': rb'(unsafe|"safe":false})\s*$', 'bounds': rb'(may-end|"stays":false,"safe":(true|false)})\s*$'}


class Answers:
    """The answer to a command, made in a folder for its files."""

    def __init__(self, given, folder, say):
        self.given, self.folder, self.say = given, folder, say

    def document(self, cluster):
        """The document of the cluster with what happens to it, as bytes."""
        text = json.dumps({'kind': 'List', 'items': cluster.items}).encode()
        done = programs.run([*programs.tool('tools', 'from-cluster'), *self.manifest(cluster.manager), self.form(cluster), *cluster_words(self.given)], text, cwd=self.folder)
        said = done.stderr.decode(errors='replace').replace('from-cluster: ', '').replace('; --written-out keeps their names', '')
        if done.returncode:
            raise Unread(said.strip() or 'from-cluster ended with %d' % done.returncode)
        made = done.stdout
        if self.given.command == 'slow-network':
            made = json.dumps(network.slow(json.loads(made), self.given.of, self.given.at or '60s'), separators=(',', ':')).encode() + b'\n'
        self.say(said)
        return made

    def form(self, cluster):
        """Whether pods are written out, under their names, or said by sets."""
        pods = sum(item['kind'] == PODS.kind for item in cluster.items)
        return '--sets' if self.given.sets or pods > MOST_NAMED else '--written-out'

    def manifest(self, manager):
        """--from-manifest with the user's file, or with the words of the leader's pod."""
        name = os.path.abspath(self.given.from_manifest) if self.given.from_manifest else manager.write(self.folder)
        return ['--from-manifest=' + name] if name else []

    def write(self, name, data):
        path = os.path.join(self.folder, name)
        with open(path, 'wb') as file:
            file.write(data)
        return path

    def of_settings(self, document):
        """What `margin` or `bounds` tells of the document, and 1 where it ends with a no."""
        command = self.given.command
        done = programs.run([*programs.program('kube_lens'), command, *['--json'] * self.given.json], document)
        is_no = done.returncode == 1 and done.stdout and re.search(NO[command], done.stdout)
        return (1, done.stdout) if is_no else (0, self.answered(done))

    def run(self, document):
        """The tables of the run, and its page where one is wanted."""
        done = programs.run([*programs.program('kube_replay'), 'replay'], document)
        if done.returncode == 1:
            explained = programs.run([*programs.program('kube_lens'), 'explain'], document).stdout.decode(errors='replace')
            raise Unread('kube_replay refuses the document of this cluster: %s' % ' / '.join(explained.splitlines()))
        trace = self.answered(done)
        if self.given.page:
            self.draw(document, trace)
        return 0, self.summary(document, trace)

    def summary(self, document, trace):
        lens = [*programs.program('kube_lens'), 'summary']
        if len(document) + len(trace) <= MOST_BYTES:
            return self.answered(programs.run([*lens, '--document', *['--json'] * self.given.json], document + trace))
        self.say('document and trace have more than %d bytes: how late each pod goes is not told' % MOST_BYTES)
        return self.answered(programs.run([*lens, *['--json'] * self.given.json], trace))

    def draw(self, document, trace):
        title = ' '.join(['kubectl replay', self.given.command, *[self.given.of] * bool(self.given.of)]).replace('/', '-')
        paths = [self.write(title + '.json', document), self.write('trace.txt', trace)]
        page = self.answered(programs.run([*programs.tool('view', 'page.py'), '--document', *paths]))
        try:
            with open(self.given.page, 'wb') as file:
                file.write(page)
        except OSError as fault:
            raise Unread("%s can't be written: %s" % (self.given.page, fault.strerror)) from fault
        self.say('the page is in %s' % self.given.page)

    def answered(self, done):
        """What a program wrote, where it ended as it should."""
        if done.returncode:
            said = (done.stderr or done.stdout).decode(errors='replace').strip()
            raise Unread('%s ended with %d: %s' % (os.path.basename(done.args[0]), done.returncode, said))
        return done.stdout

    def play(self, document):
        """Opens the playground with the cluster, and ends with it."""
        found = programs.playground()
        if not found:
            raise Unread('there is no playground here: neither ./playground in this checkout nor kube_replay-playground on PATH')
        with subprocess.Popen([*found, '--open', self.write('cluster.json', document)]) as opened:
            try:
                return opened.wait()
            finally:
                opened.terminate()
