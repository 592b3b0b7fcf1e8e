#!/usr/bin/env python3
"""Makes the package, installs it in a clean Debian without the kit, tries all that it has, and removes it again.

    tools/test/test_package.py [--program FILE --lens FILE] [--root TAR]

It needs root, dpkg-deb, mmdebstrap, man, lintian, mkdocs and mkdocs-material, all of them in Debian, and for mmdebstrap a mirror; TAR is a system that was made
before, by the line that --make-root prints. Each line has what was tried, and `same` or what was wrong. The exit status is 1 where
anything was. With --program and --lens the package is made of other builds than the proved ones.
"""
import argparse
import glob
import gzip
import json
import os
import re
import shutil
import subprocess
import sys
import tempfile
import urllib.parse

TOP = os.path.dirname(os.path.dirname(os.path.dirname(os.path.realpath(__file__))))
# What a system has beside the essential packages: the package itself needs none of these.
WITH = 'man-db,bash-completion,zsh,python3'
SYSTEM = ['mmdebstrap', '--variant=minbase', '--include=' + WITH, 'bookworm']
DOC = '/usr/share/doc/kube-replay/'
COMMANDS = ['kube_replay', 'kube_lens', 'kube_replay-timeline', 'kube_replay-playground', 'kube_replay-sweep', 'kube_replay-from-cluster',
            'kube_replay-from-audit-log', 'kubectl-replay']
# What dpkg and the index of man pages write for themselves.
BOOKS = ('var/lib/dpkg', 'var/log', 'var/cache')
BASH = '''. /usr/share/bash-completion/bash_completion
try() {
    COMP_WORDS=("$@") COMP_CWORD=$(($# - 1)) COMPREPLY=()
    _completion_loader "$1"
    "$(complete -p "$1" | sed 's/.*-F \\([^ ]*\\).*/\\1/')" "$1"
    echo "${COMPREPLY[@]}"
}
try kube_replay re
try kube_replay --v
try kube_lens mar
try kube_replay-from-cluster --kill-l
try kube_replay-sweep p
try kube_replay-sweep all --as
try kube_replay-timeline --d
try kube_replay-playground --kub
try kubectl-replay kill-l
try kubectl-replay margin --clo
'''
# A kubectl that has the lists of a file alone, and knows its plugins.
KUBECTL = '''#!/usr/bin/python3
import json, os, sys
if sys.argv[1] == 'replay':
    os.execvp('kubectl-replay', sys.argv[1:])
assert sys.argv[1:3] == ['get', '--raw'], sys.argv
name = sys.argv[3].partition('?')[0].rpartition('/')[2]
kind = name.rstrip('s').capitalize()
with open('/root/cluster.json') as file:
    items = [item for item in json.load(file)['items'] if item['kind'] == kind]
json.dump({'kind': kind + 'List', 'items': items}, sys.stdout)
'''
# Starts the playground, asks it what its page asks, and ends it.
PLAYGROUND = '''kube_replay-playground > /tmp/said 2> /tmp/faults & own=$!
for i in $(seq 100); do grep -q '^playground: http' /tmp/said && break; sleep .1; done
python3 -B - <<'END'
import json, re, urllib.request
address = re.search('http://[^/]+/[^/]+/', open('/tmp/said').read())[0]
get = lambda name: urllib.request.urlopen(address + name).read()
headers = {'Origin': re.match('http://[^/]+', address)[0], 'Content-Type': 'application/json'}
answer = json.load(urllib.request.urlopen(urllib.request.Request(address + 'run', get('document'), headers)))
begun = json.loads(get('beginning'))
print(json.dumps([begun['name'], len(begun['examples']), b'class Chart' in get('picture.js'), answer['margin']['safe'], answer['trace']]))
END
kill -INT $own; wait $own; echo $?; rm /tmp/said /tmp/faults
'''


class Tried:
    """What was tried so far, and whether anything was wrong."""

    def __init__(self):
        self.wrong = 0

    def same(self, what, found, wanted):
        said = 'same' if found == wanted else 'found %s, and not %s' % (shown(found), shown(wanted))
        self.wrong += found != wanted
        print('%-44s %s' % (what, said), flush=True)


def shown(value):
    text = repr(value)
    return text if len(text) < 400 else text[:200] + ' .. ' + text[-200:]


class System:
    """A clean Debian in a folder, with processes of its own."""

    def __init__(self, folder):
        self.folder = folder

    def run(self, words, text='', shell='sh'):
        """What a command line comes to: its status, what it wrote, and what it said."""
        command = ['unshare', '--mount', '--pid', '--fork', '--mount-proc=%s/proc' % self.folder, 'chroot', self.folder, 'env', '-i', 'HOME=/root',
                   'PATH=/usr/sbin:/usr/bin:/sbin:/bin', 'LC_ALL=C.UTF-8', 'DEBIAN_FRONTEND=noninteractive', shell, '-c', words]
        done = subprocess.run(command, cwd='/', input=text.encode(), stdout=subprocess.PIPE, stderr=subprocess.PIPE, check=False)
        return done.returncode, done.stdout.decode(errors='replace'), done.stderr.decode(errors='replace')

    def read(self, path):
        with open(self.folder + path, encoding='utf-8') as file:
            return file.read()

    def files(self):
        """All that is in it, but for what dpkg and man note for themselves."""
        found = set()
        for folder, folders, names in os.walk(self.folder):
            place = os.path.relpath(folder, self.folder)
            folders[:] = [each for each in folders if os.path.normpath(os.path.join(place, each)) not in BOOKS + ('proc',)]
            found.update(os.path.normpath(os.path.join(place, name)) for name in names + folders)
        return found


def read(path):
    with open(os.path.join(TOP, path), encoding='utf-8') as file:
        return file.read()


def package(*words, top=TOP):
    return subprocess.run([os.path.join(top, 'tools', 'package'), *words], stdout=subprocess.PIPE, stderr=subprocess.PIPE, text=True, check=False)


def make(tried, folder, given):
    """The package's file; two of them are of the same bytes."""
    words = [word for flag, path in (('--program', given.program), ('--lens', given.lens)) if path for word in (flag, path)]
    made = package('--into', folder, *words)
    path = os.path.join(folder, 'kube-replay_%s_amd64.deb' % read('VERSION').strip())
    tried.same('tools/package', (made.returncode, made.stdout, made.stderr), (0, path + '\n', ''))
    if made.returncode:
        sys.exit(1)
    os.mkdir(os.path.join(folder, 'again'))
    again = package('--into', os.path.join(folder, 'again'), *words)
    with open(path, 'rb') as one, open(again.stdout.strip(), 'rb') as other:
        tried.same('the package made once more', one.read() == other.read(), True)
    return path


def try_refusals(tried, folder):
    """What tools/package says where it can make none."""
    bare = os.path.join(folder, 'bare')
    shutil.copytree(os.path.join(TOP, 'tools'), os.path.join(bare, 'tools'))
    for name in ('VERSION', 'crates.txt'):
        shutil.copy(os.path.join(TOP, name), bare)
    none = package('--into', folder, top=bare)
    told = 'package: there is no program crates/kube_replay/out/kube_replay; prove and build it first: ( cd crates/kube_replay && rt run -- '
    tried.same('tools/package without a program', (none.returncode, none.stdout, none.stderr.startswith(told)), (1, '', True))
    out = os.path.join(bare, 'crates', 'kube_replay', 'out')
    os.makedirs(out)
    shutil.copy(sys.executable, os.path.join(out, 'kube_replay'))
    os.utime(os.path.join(out, 'kube_replay'), (1, 1))
    old = package('--into', folder, top=bare)
    tried.same('tools/package with newer sources', (old.returncode, old.stderr.split(';')[0]),
               (1, 'package: crates.txt is newer than crates/kube_replay/out/kube_replay'))
    other = package('--into', folder, '--program', os.path.join(TOP, 'VERSION'))
    tried.same('tools/package --program of a text', (other.returncode, other.stderr),
               (1, 'package: %s is no program for amd64 (an ELF file)\n' % os.path.join(TOP, 'VERSION')))
    nowhere = os.path.join(folder, 'nowhere')
    lost = package('--into', nowhere, '--program', sys.executable, '--lens', sys.executable)
    tried.same('tools/package into a folder that is not there', (lost.returncode, lost.stdout, lost.stderr),
               (1, '', 'package: there is no folder %s to write the package into: make it first, or name another by --into\n' % nowhere))


def try_program(tried, system):
    version = read('VERSION').strip()
    tried.same('no kit in the system', system.run('command -v rt')[1], '')
    tried.same('kube_replay --version', system.run('kube_replay --version'), (0, 'kube_replay %s\n' % version, ''))
    status, told, said = system.run('kube_replay --help')
    tried.same('kube_replay --help', (status, './' in told, said), (0, False, ''))
    lines = [line.strip() for line in told.split('\n') if line.startswith('  kube_replay ') and (DOC in line or line.endswith('600'))]
    tried.same('the lines that --help tells to try', [system.run(line)[0] for line in lines], [0, 0, 0])
    pages = re.findall(r'\S+\.md', told)
    tried.same('the pages that --help names', [os.path.isfile(system.folder + page) for page in pages], [True, True, True])
    traces = sorted(glob.glob(system.folder + DOC + 'examples/*/trace.txt'))
    tried.same('examples', len(traces) >= 18, True)
    for trace in traces:
        folder = os.path.dirname(trace).removeprefix(system.folder)
        tried.same('replay of ' + os.path.basename(folder), system.run('kube_replay replay < %s/document.json' % folder), (0, system.read(folder + '/trace.txt'), ''))


def try_faults(tried, system):
    document = '{"version":1,"settings":{"endBeat":60,"beatMillis":0},"controllers":[{"name":"cp-east-1"}]}'
    tried.same('a refusal', system.run('kube_replay replay', document)[:2], (1, 'refused 6 /settings/beatMillis\n'))
    status, told, said = system.run('kube_replay chek')
    tried.same("a word that isn't a command", (status, told, said.split(';')[0]), (2, 'usage: kube_replay COMMAND\n', "kube_replay: 'chek' is no command"))
    tried.same("a word that isn't UTF-8", system.run("kube_replay \"$(printf 'check\\377')\"")[:2], (6, ''))
    tried.same('a word of other letters', system.run('kube_replay prüfen')[:2], (2, 'usage: kube_replay COMMAND\n'))
    tried.same('a directory as input', system.run('kube_replay check < /'), (3, '', 'kube_replay: standard input is a directory\n'))
    tried.same('a full device as output', system.run('kube_replay check > /dev/full', document)[0], 4)


def try_lens(tried, system):
    """The second program, and the sentence that it says after a refusal of the first, once it knows one."""
    tried.same('kube_lens --version', system.run('kube_lens --version'), (0, 'kube_lens %s\n' % read('VERSION').strip(), ''))
    status, told, said = system.run('kube_lens --help')
    tried.same('kube_lens --help', (status, 'kube_lens margin' in told, './' in told, said), (0, True, False, ''))
    status, told, _ = system.run('kube_lens margin < %sexamples/uneven-clocks/document.json' % DOC)
    tried.same('kube_lens margin', (status, told.splitlines()[-1:]), (1, ['unsafe']))
    status, told, _ = system.run('kube_lens leaders < %sexamples/uneven-clocks/trace.txt' % DOC)
    tried.same('kube_lens leaders', (status, told.splitlines()[-1:]), (1, ['overlap line=9 from=184 who=cp-west-1_1 beside=cp-east-1_1']))
    status, told, _ = system.run('kube_lens margin --lease 18s --renew 10s --retry 2s --timeout 5s --skew 20000ppm')
    tried.same('kube_lens margin by flags', (status, told.splitlines()[-1:]), (0, ['safe']))
    status, told, _ = system.run('kube_lens summary < %sexamples/uneven-clocks/trace.txt' % DOC)
    tried.same('kube_lens summary', (status, told.split()[:2], told.splitlines()[-1].split()[:1]), (0, ['BEAT-MILLIS', 'LAST-BEAT'], ['all']))
    status, told, _ = system.run('kube_lens summary --document %sexamples/fast-clock/document.json < %sexamples/fast-clock/trace.txt' % (DOC, DOC))
    tried.same('kube_lens summary --document', (status, told.split()[-1:]), (0, ['-17.0s']))
    status, told, _ = system.run('kube_lens summary --document %sexamples/fast-clock/document.json --json < %sexamples/fast-clock/trace.txt' % (DOC, DOC))
    tried.same('kube_lens summary --document --json', (status, '"lateInTrueTimeMicros":-17000000}' in told), (0, True))
    tried.same("a word that isn't a command of kube_lens", system.run('kube_lens leaderz')[0], 2)
    refused = '{"version":1,"settings":{"endBeat":60,"beatMillis":0},"controllers":[{"name":"cp-east-1"}]}'
    knows = system.run('kube_lens explain', refused)[0] == 1
    for what, line in (('from a pipe', 'cat /root/refused.json | kube_replay check'), ('from a file', 'kube_replay check < /root/refused.json')):
        system.run('cat > /root/refused.json', refused)
        status, told, said = system.run(line)
        tried.same('a sentence after a refusal, ' + what, (status, told, said.startswith('kube_replay: ')), (1, 'refused 6 /settings/beatMillis\n', knows))
    system.run('rm /root/refused.json')


def try_tools(tried, system):
    """The tools make the same as those of the sources."""
    cluster = read('tools/data/cluster.json')
    wanted = subprocess.run([TOP + '/tools/from-cluster', '--kill-leader', '@60s'], input=cluster, capture_output=True, text=True, check=True)
    tried.same('kube_replay-from-cluster', system.run('kube_replay-from-cluster --kill-leader @60s', cluster), (0, wanted.stdout, wanted.stderr))
    status, trace, _ = system.run('kube_replay-from-cluster --kill-leader @60s | kube_replay replay', cluster)
    tried.same('a cluster into a trace', (status, trace.split(' ')[:2]), (0, ['trace', '1']))
    status, page, _ = system.run('kube_replay-timeline --document %sexamples/dead-node/document.json %sexamples/dead-node/trace.txt' % (DOC, DOC))
    tried.same('kube_replay-timeline', (status, read('examples/dead-node/trace.txt') in page, '<title>' in page), (0, True, True))
    with gzip.open(os.path.join(TOP, 'conformance/logs/c6/audit.jsonl.gz'), 'rt', encoding='utf-8') as file:
        log = file.read()
    tried.same('kube_replay-from-audit-log', system.run('cat > /tmp/log; kube_replay-from-audit-log /tmp/log 2>/tmp/said | kube_replay audit; rm /tmp/log /tmp/said', log),
               (0, 'refused 41 /111\n', ''))
    sweep = 'kube_replay-sweep all %sexamples/leader-crashes/document.json /tmp/sweep --vary /settings/leaseDurationSeconds=15,20 --ask failover' % DOC
    status, _, said = system.run(sweep + ' >/dev/null')
    rows = system.run('cat /tmp/sweep/answers.csv; rm -r /tmp/sweep')[1].strip().split('\n')
    tried.same('kube_replay-sweep', (status, 'not built' in said, len(rows)), (0, False, 3))
    schema = json.loads(system.read('/usr/share/kube-replay/document.schema.json'))
    tried.same('the schema', (schema, os.path.realpath(system.folder + DOC + 'docs/document.schema.json').removeprefix(os.path.realpath(system.folder))),
               (json.loads(read('docs/document.schema.json')), '/usr/share/kube-replay/document.schema.json'))


def try_plugin(tried, system):
    """The plugin of kubectl gives the answers of the pipeline, and says where kubectl isn't there."""
    tried.same('kubectl-replay without kubectl', system.run('kubectl-replay margin'), (3, '', "kubectl replay: kubectl can't be run: No such file or directory\n"))
    system.run('cat > /root/cluster.json', read('tools/data/cluster.json'))
    system.run('cat > /usr/bin/kubectl; chmod +x /usr/bin/kubectl', KUBECTL)
    made = 'kube_replay-from-cluster %s < /root/cluster.json > /root/document.json 2>/dev/null; '
    for words, options in (('kill-leader', '--kill-leader @60s'), ('kill-node worker-1 --at 90s', '--kill worker-1@90s'), ('freeze-leader 45s', '--stall @60s+45s')):
        wanted = system.run(made % options + 'kube_replay replay < /root/document.json | kube_lens summary --document /root/document.json')
        tried.same('kubectl replay ' + words, system.run('kubectl replay %s 2>/dev/null' % words), wanted)
    wanted = system.run(made % '' + 'kube_lens margin < /root/document.json')
    tried.same('kubectl replay margin', system.run('kubectl replay margin 2>/dev/null'), wanted)
    system.run('rm /usr/bin/kubectl /root/cluster.json /root/document.json')


def try_playground(tried, system):
    """The page is served, with its examples and its picture, and answers as the program does."""
    status, said, _ = system.run(PLAYGROUND)
    told, _, ended = said.partition('\n')
    first = {**(example := json.loads(read('examples/leader-crashes/document.json'))), 'version': 4, 'settings': {**example['settings'], 'rules': '1.20'}}
    trace = system.run('kube_replay replay', json.dumps(first))[1]
    wanted = ['leader-crashes-1.20', len(glob.glob(system.folder + DOC + 'examples/*/document.json')) + 1, True, True, trace]
    tried.same('kube_replay-playground', (status, json.loads(told or 'null'), ended), (0, wanted, '0\n'))


def try_man_pages(tried, system):
    for command in COMMANDS:
        status, page, said = system.run('MANWIDTH=100 man --warnings %s | cat' % command)
        tried.same('man ' + command, (status, page.count('NAME\n       %s - ' % command), said), (0, 1, ''))
        tried.same('whatis ' + command, system.run('lexgrog "$(man -w %s)" >/dev/null' % command)[0], 0)


def try_completions(tried, system):
    words = ['replay', '--version', 'margin', '--kill-leader', 'plan pods', '--ask', '--document', '--kubectl', 'kill-leader', '--clock']
    tried.same('completion in bash', system.run(BASH, shell='bash'), (0, '\n'.join(words) + '\n', ''))
    loaded = 'autoload -U compinit; compinit -u -D; autoload +X _kube_replay && for each in %s; do echo $_comps[$each]; done' % ' '.join(COMMANDS)
    wanted = ''.join('_kube_lens\n' if command == 'kube_lens' else '_kube_replay\n' for command in COMMANDS)
    tried.same('completion in zsh', system.run(loaded, shell='zsh'), (0, wanted, ''))


def try_links(tried, system):
    """Links among the installed pages, but for those to what stands in the sources alone, lead somewhere."""
    lost = []
    for page in [system.folder + DOC + 'README.md'] + glob.glob(system.folder + DOC + 'docs/*.md') + glob.glob(system.folder + DOC + 'examples/**/*.md', recursive=True):
        with open(page, encoding='utf-8') as file:
            links = re.findall(r'\]\(((?!https?:)[^)#\s]+)', file.read())
        for link in links:
            path = os.path.normpath(os.path.join(os.path.dirname(page), link))
            known = path.startswith((system.folder + DOC + 'docs', system.folder + DOC + 'examples'))
            if known and not os.path.lexists(path):
                lost.append((os.path.basename(page), link))
    tried.same('links among the pages', lost, [])


def try_site(tried, system):
    """The pages as a site: each link among them leads somewhere, the search has its script, and the system's readers of manuals are told."""
    html = system.folder + DOC + 'html/'
    pages = glob.glob(html + '**/*.html', recursive=True)
    tried.same('pages of the site', (os.path.isfile(html + 'index.html'), os.path.isfile(html + 'search/offline.js'), len(pages) > 60), (True, True, True))
    lost = []
    for page in pages:
        with open(page, encoding='utf-8') as file:
            links = re.findall(r'(?:href|src)="(?!https?:|data:|#)([^"#]+)', file.read())
        lost += [(os.path.relpath(page, html), link) for link in links if not os.path.exists(os.path.join(os.path.dirname(page), urllib.parse.unquote(link)))]
    tried.same('links of the site', lost, [])
    told = dict(re.findall('^(Index|Files): (.*)', system.read('/usr/share/doc-base/kube-replay'), re.M))
    tried.same('the page that doc-base names', told['Index'], DOC + 'html/index.html')


def try_package(tried, folder, path, tar):
    system = System(os.path.join(folder, 'system'))
    os.mkdir(system.folder)
    subprocess.run(['tar', '-C', system.folder, '-xpf', tar], check=True)
    shutil.copy(path, system.folder + '/root/kube-replay.deb')
    before = system.files()
    status, _, said = system.run('dpkg -i /root/kube-replay.deb')
    tried.same('dpkg -i', (status, said), (0, ''))
    tried.same('dpkg --verify', system.run('dpkg --verify kube-replay'), (0, '', ''))
    for part in (try_program, try_faults, try_lens, try_tools, try_playground, try_plugin, try_man_pages, try_completions, try_links, try_site):
        part(tried, system)
    status, _, said = system.run('dpkg -r kube-replay')
    tried.same('dpkg -r', (status, said), (0, ''))
    tried.same('files left behind', sorted(system.files() - before), [])
    tried.same('files taken away', sorted(before - system.files()), [])
    status = system.run('apt-get -y install /root/kube-replay.deb')[0]
    tried.same('apt-get install', (status, system.run('kube_replay --version; dpkg -r kube-replay >/dev/null')[1]), (0, 'kube_replay %s\n' % read('VERSION').strip()))


def try_lintian(tried, path, program):
    """Words of lintian, also those that it calls information; what stands in tools/debian/lintian-overrides is told there."""
    # Of another build not all has to be said that is said of the prover's.
    less = ['--suppress-tags', 'unused-override'] if program else []
    done = subprocess.run(['lintian', '--allow-root', '--display-info', '--pedantic', *less, path], stdout=subprocess.PIPE, stderr=subprocess.STDOUT, text=True, check=False)
    tried.same('lintian', (done.returncode, done.stdout), (0, ''))


def main():
    words = argparse.ArgumentParser(description=__doc__, formatter_class=argparse.RawDescriptionHelpFormatter)
    words.add_argument('--program', metavar='FILE', help='another build of kube_replay')
    words.add_argument('--lens', metavar='FILE', help='another build of kube_lens')
    words.add_argument('--root', metavar='TAR', help='a clean system that was made before')
    words.add_argument('--make-root', action='store_true', help='print the line that makes such a system, and end')
    given = words.parse_args()
    if given.make_root:
        print(' '.join(SYSTEM) + ' root.tar')
        return 0
    lacking = [name for name in ('dpkg-deb', 'mmdebstrap', 'man', 'lintian') if not shutil.which(name)]
    if lacking or os.geteuid() != 0:
        sys.exit('test_package: it needs %s' % (', '.join(lacking) or 'root'))
    tried = Tried()
    with tempfile.TemporaryDirectory() as folder:
        path = make(tried, folder, given)
        try_refusals(tried, folder)
        try_lintian(tried, path, given.program)
        tar = given.root or os.path.join(folder, 'root.tar')
        if not given.root:
            subprocess.run([*SYSTEM, tar], check=True, stderr=subprocess.DEVNULL)
        try_package(tried, folder, path, os.path.abspath(tar))
    return 1 if tried.wrong else 0


if __name__ == '__main__':
    sys.exit(main())
