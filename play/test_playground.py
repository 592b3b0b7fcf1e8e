#!/usr/bin/env python3
"""Uses the playground in a headless Chromium as a person does: by mouse, by keyboard, large and small, and at random.

    python3 play/test_playground.py [--pictures FOLDER] [--only NAME] [--clicks 500] [--seed 62]

Each trace that is drawn is compared, byte for byte, with what the program itself writes for the document that "take away" gives. It needs
Python's standard library alone, and the built programs (or KUBE_REPLAY_PROGRAM and KUBE_LENS_PROGRAM); where Chromium is missing, the
distribution's package is installed. The exit status is 1 where anything differs. --pictures writes screenshots.
"""
import argparse
import glob
import json
import os
import random
import re
import statistics
import subprocess
import sys
import tempfile
import time
import xml.dom.minidom

HERE = os.path.dirname(os.path.realpath(__file__))
TOP = os.path.dirname(HERE)
sys.path.insert(0, HERE)
from driver import CONTROL, SHIFT, Person, Playground, spent

sys.path.insert(0, os.path.join(TOP, 'python'))
from kube_replay.engine import find_library, find_program

FIRST = 'leader-crashes-1.20'
faults = []


def same(what, found, wanted):
    if found != wanted:
        faults.append(what)
        print('DIFFERS %s: found %.400r, wanted %.400r' % (what, found, wanted), flush=True)


def true(what, holds):
    same(what, bool(holds), True)


def replayed(text):
    """What `kube_replay replay` writes, by a process of the program where there is one: another way than the playground's."""
    named = os.environ.get('KUBE_REPLAY_PROGRAM')
    program = [named] if named else (find_program().command if find_program() else None)
    if program:
        return subprocess.run([*program, 'replay'], input=text.encode(), stdout=subprocess.PIPE, check=False).stdout.decode()
    return find_library().run([b'replay'], text.encode()).text.decode()


def same_trace(what, person):
    """The trace that is drawn is that of the document that is taken away."""
    person.settle()
    document, trace = person.run('(taken => [taken.text, taken.trace])(playground.taken())')
    same(what + ': drawn is what is taken', person.run('timeline.model.text'), trace)
    same(what + ': the trace', trace, replayed(document))
    same(what + ': the document is that of the page', json.loads(document), person.run('playground.document'))
    return json.loads(document)


def premise(person):
    return person.run('document.querySelector("#answers .card .value").textContent')


def dial(label):
    """A selector's words for the dial of a label: its inputs."""
    return '[...document.querySelectorAll(".dial")].find(e => e.querySelector("label").textContent === %r)' % label


def slide(person, label, share):
    """Drags the slider of a setting to a share of its way, in steps, as a hand does."""
    left, top, width, height, at = person.run('(() => { const e = %s.querySelector("input[type=range]"); e.scrollIntoView({ block: "center" }); const b = e.getBoundingClientRect();'
                                              ' return [b.left, b.top, b.width, b.height, (e.value - e.min) / (e.max - e.min)]; })()' % dial(label))
    y, x = top + height / 2, lambda part: left + 8 + part * (width - 16)
    person.mouse('mouseMoved', x(at), y)
    person.mouse('mousePressed', x(at), y, button='left', buttons=1, clickCount=1)
    for i in range(1, 13):
        person.mouse('mouseMoved', x(at + (share - at) * i / 12), y, button='left', buttons=1)
    person.mouse('mouseReleased', x(share), y, button='left', clickCount=1)
    person.settle()


def enter(person, label, value):
    """Writes a number into the field of a setting."""
    person.run('(() => { const e = %s.querySelector("input[type=number]"); for (let d = e.closest("details"); d; d = d.parentElement.closest("details")) d.open = true;'
               ' e.scrollIntoView({ block: "center" }); e.focus(); e.select(); })()' % dial(label))
    for letter in str(value):
        person.strike(letter, letter)
    person.strike('Tab')
    person.settle()


def load(person, name):
    """Chooses an example, as by its list."""
    person.run('(() => { const e = document.getElementById("examples"); e.value = %r; e.dispatchEvent(new Event("change")); })()' % name)
    person.settle()


def test_examples(person, served, pictures):
    """Each example is offered with a sentence, and its trace is the one that is stored beside it."""
    with open(os.path.join(TOP, 'examples', 'README.md'), encoding='utf-8') as file:
        sentences = dict(re.findall(r'^\| \[([a-z-]+)\]\([a-z-]+/\) \| (.*) \|$', file.read(), re.M))
    names = sorted(os.path.basename(os.path.dirname(path)) for path in glob.glob(os.path.join(TOP, 'examples', '*', 'document.json')))
    same('begins with', person.run('[timeline.name, playground.undo.past.length]'), [FIRST, 0])
    first = same_trace('the first document', person)
    with open(os.path.join(TOP, 'examples', 'leader-crashes', 'document.json'), encoding='utf-8') as file:
        example = json.load(file)
    same('the example, by the rules of 1.20', first, {**example, 'version': 4, 'settings': {**example['settings'], 'rules': '1.20'}})
    same('it is chosen in the list', person.run('document.getElementById("examples").value'), FIRST)
    offered = person.run('[...document.querySelectorAll("#examples option")].slice(1).map(e => [e.value, e.textContent])')
    same('the examples', sorted(name for name, _ in offered), sorted([*names, FIRST]))
    for name, words in offered:
        if name == FIRST:
            continue
        same('sentence of ' + name, words, name + ' – ' + sentences[name].replace('`', ''))
        load(person, name)
        with open(os.path.join(TOP, 'examples', name, 'trace.txt'), encoding='utf-8') as file:
            same('trace of ' + name, person.run('timeline.model.text'), file.read())
        same_trace(name, person)
        same('marks of ' + name, person.run('playground.marks.buttons.some(e => !e.hidden)'), person.run('playground.events.some(e => e.process)'))


def test_kill_leader(person, served, pictures):
    """A click on the leader's lane, and "crash": nobody leads for as long as in another run that is known."""
    load(person, 'first-election')
    before = person.run('playground.document')
    leader = person.run('timeline.model.terms[0].lane.name')
    person.click(*person.spot('controller ' + leader, 40))
    title = person.run('document.getElementById("menu").getAttribute("aria-label")')
    true('the menu tells the moment: ' + title, re.fullmatch(leader + r' at (3\.9|4|4\.1) s \(beat (39|40|41)\)', title))
    person.press_words('crash', 'document.getElementById("menu")')
    document = same_trace('the leader is killed', person)
    event = document['events'][-1]
    same('the event', (event['type'], event['process'], abs(event['beat'] - 40) <= 1), ('crash', leader, True))
    true('its line stands in the trace', '\n%d %s_1 crash\n' % (event['beat'], leader) in person.run('timeline.model.text'))
    true('nobody leads then', 'over' in person.run('document.querySelectorAll("#answers .value")[1].textContent') or person.run('timeline.model.terms[0].to') == event['beat'])
    person.strike('z', modifiers=CONTROL)
    same('undone', same_trace('undone', person), before)
    person.strike('y', modifiers=CONTROL)
    same('done again', same_trace('done again', person), document)


def test_lease(person, served, pictures):
    """The lease is dragged until the premise turns, and the margin's least lease is where it turns."""
    load(person, 'upstream-timeouts')
    same('too short at first', premise(person), 'not ruled out')
    slide(person, '--leader-elect-lease-duration', .6)
    same('long enough', premise(person), 'ruled out')
    same_trace('a longer lease', person)
    least = person.run('playground.answer.margin.controllers[0].leastLeaseSeconds')
    # docs/document.md: 5 + 2 + 10 s, so 18 s is the least whole number that is longer.
    same('the least lease', least, 18)
    for lease, words in ((least, 'ruled out'), (least - 1, 'not ruled out')):
        enter(person, '--leader-elect-lease-duration', lease)
        same('premise with a lease of %d s' % lease, premise(person), words)
        same('the setting', same_trace('a lease of %d s' % lease, person)['settings']['leaseDurationSeconds'], lease)
    for _ in range(3):
        person.strike('z', modifiers=CONTROL)
    person.settle()
    same('all undone', (premise(person), person.run('playground.document.settings.leaseDurationSeconds')), ('not ruled out', None))


def test_freeze_node(person, served, pictures):
    """A node's kubelet is frozen for 100 s, by a click; its pods go; all is undone."""
    load(person, 'tolerations')
    before = person.run('[playground.document, timeline.model.text]')
    node = person.run('timeline.chart.rows.find(row => row.lane && row.lane.kind === "node").lane.name')
    person.click(*person.spot('node ' + node, 100))
    person.run('(() => { const e = [...document.querySelectorAll("#menu input")][0]; e.focus(); e.select(); })()')
    for letter in '100':
        person.strike(letter, letter)
    person.press_words('pause', 'document.getElementById("menu")')
    document = same_trace('a frozen node', person)
    event = next(each for each in document['events'] if each['type'] == 'pause')
    millis = document['settings'].get('beatMillis', 100)
    same('the pause', (document['version'], event['process'], event['beats'] * millis), (3, 'kubelet/' + node, 100_000))
    true('the node is marked', ' unknown %s ' % node in person.run('timeline.model.text'))
    true('the pause is hatched', person.run('timeline.model.lanes.get("node %s").spans.pause.from.length' % node) == 1)
    while person.run('playground.undo.past.length') > 1:
        person.strike('z', modifiers=CONTROL)
    person.settle()
    same('undone', person.run('[playground.document, timeline.model.text]'), before)


def test_marks(person, served, pictures):
    """An event is dragged along its lane, moved by keys, changed, and taken away."""
    load(person, 'leader-crashes')
    marks = lambda: person.run('playground.marks.buttons.filter(e => !e.hidden).map(e => { const b = e.getBoundingClientRect();'
                               ' return [b.left + b.width / 2, b.top + b.height / 2, e.eventPlace]; })')
    same('two marks', len(marks()), 2)
    x, y, _ = marks()[0]
    old = person.run('playground.events[0].beat')
    length = person.run('60 / timeline.chart.perPixel()')
    window = person.run('[timeline.chart.from, timeline.chart.to]')
    person.drag(x, y, length, 0)
    document = same_trace('a mark is dragged', person)
    same('moved by 60 beats', abs(document['events'][0]['beat'] - old - 60) <= 1, True)
    same('the view stays', person.run('[timeline.chart.from, timeline.chart.to]'), window)
    same('one step of undo', person.run('playground.undo.past.at(-1).document.events[0].beat'), old)
    person.run('playground.marks.focus(0)')
    person.strike('ArrowRight')
    person.strike('ArrowRight', modifiers=SHIFT)
    person.strike('ArrowLeft')
    same('moved by keys', same_trace('keys', person)['events'][0]['beat'], document['events'][0]['beat'] + 10)
    # Past the other event: the order of the list is that of the beats.
    x, y, _ = marks()[0]
    person.drag(x, y, person.run('100 / timeline.chart.perPixel()'), 0)
    types = [(event['type'], event['beat']) for event in same_trace('past another', person)['events']]
    same('in order', ([kind for kind, _ in types], types == sorted(types, key=lambda each: each[1])), (['start', 'crash'], True))
    x, y, _ = marks()[1]
    person.click(x, y)
    true('a click opens it', person.run('!document.getElementById("menu").hidden && document.getElementById("menu").getAttribute("aria-label").includes("crashes")'))
    person.press_words('take it away', 'document.getElementById("menu")')
    same('taken away', [event['type'] for event in same_trace('less', person)['events']], ['start'])
    person.run('playground.marks.focus(0)')
    person.strike('Delete')
    same('by the key', same_trace('none', person)['events'], [])


def test_acts(person, served, pictures):
    """Each act of the menu makes a document that is accepted, on a controller, a node, a zone and on who leads."""
    for lane in ('controller cp-1', 'node node-a1', 'zone eu-1/eu-1b', 'controller who leads'):
        load(person, 'zone-lost')
        person.click(*person.spot(lane, 60))
        words = person.run('[...document.querySelectorAll("#menu button")].map(e => e.textContent)')
        true('acts on ' + lane, len(words) >= 4)
        person.strike('Escape')
        for word in words:
            person.click(*person.spot(lane, 60))
            before = person.run('playground.events.length')
            person.press_words(word, 'document.getElementById("menu")')
            document = same_trace(lane + ': ' + word, person)
            true('%s: %s makes something happen' % (lane, word), len(document['events']) > before)
            true('%s: %s is accepted' % (lane, word), person.run('document.getElementById("trouble").hidden'))
            person.strike('z', modifiers=CONTROL)
            person.settle()
            same('undone', person.run('playground.events.length'), before)


def test_settings(person, served, pictures):
    """Each setting is changed, and its default's mark sets it back; timings of a controller make version 2."""
    load(person, 'zone-lost')
    labels = person.run('playground.panel.dials.map(dial => dial.label)')
    for flag in ('leader-elect-lease-duration', 'leader-elect-renew-deadline', 'leader-elect-retry-period', 'node-monitor-period', 'node-monitor-grace-period',
                 'node-startup-grace-period', 'node-eviction-rate', 'secondary-node-eviction-rate', 'large-cluster-size-threshold', 'unhealthy-zone-threshold'):
        true('a dial for ' + flag, '--' + flag in labels)
    for label, value, key, wanted in (('--node-monitor-grace-period', 20, 'gracePeriodMillis', 20_000), ('--node-eviction-rate', 0.5, 'primaryRate', 500),
                                      ('--unhealthy-zone-threshold', 0.3, 'unhealthyPercent', 30), ('call timeout', 1.5, 'callTimeoutMillis', 1_500),
                                      ('--large-cluster-size-threshold', 3, 'largeZone', 3), ("kubelet's nodeLeaseDurationSeconds", 20, 'nodeLeaseDurationSeconds', 20)):
        enter(person, label, value)
        same(label, same_trace(label, person)['settings'][key], wanted)
    person.run('(() => { const e = %s.querySelector(".default"); e.click(); })()' % dial('--node-monitor-grace-period'))
    same('back at the default', same_trace('default', person)['settings']['gracePeriodMillis'], 40_000)
    same('version', person.run('playground.document.version'), 1)
    enter(person, '--leader-elect-renew-deadline', 8)
    defaults = person.run('[...%s.querySelectorAll(".default")].map(e => /[0-9.]+ s$/.exec(e.getAttribute("aria-label"))[0])' % dial('call timeout'))
    same("upstream's call timeouts go with the renew deadline", defaults, ['2 s', '4 s', '8 s'])
    for label, value, key, wanted in (('clock off by', 5, 'ratePpm', 1_050_000), ('clock ahead by', -3, 'offsetMillis', -3_000), ('retry period', 1, 'retryPeriodMillis', 1_000)):
        enter(person, label, value)
        same(label, same_trace(label, person)['controllers'][0][key], wanted)
    same('timings of its own are of version 2', person.run('playground.document.version'), 2)
    enter(person, 'messages take, each way', 1_500)
    same('a delay from the beginning', same_trace('delay', person)['events'][0], {'beat': 0, 'type': 'delay', 'process': 'cp-1', 'requestBeats': 3, 'replyBeats': 3})
    choose = '(() => { const e = playground.panel.choices.find(each => each.key === "%s").select; e.value = "%s"; e.dispatchEvent(new Event("change")); })()'
    person.run(choose % ('ratePolicy', 'gentle'))
    same('rate policy', same_trace('policy', person)['settings']['ratePolicy'], 'gentle')
    for key, word in (('retries', 'grid'), ('respect', 'own'), ('evictFrom', 'seen')):
        person.run(choose % (key, word))
        same(key, same_trace(key, person)['settings'][key], word)
    same('rules of Kubernetes are of version 4', person.run('playground.document.version'), 4)
    for label, value, key, wanted in (('first look after a lead', 0.7, 'firstSyncMillis', 700), ('evictions at once, 0: any', 1, 'evictBurst', 1),
                                      ('and then', 0.1, 'evictRate', 100), ('to set a pod not ready', 200, 'readyMillis', 200)):
        enter(person, label, value)
        same(label, same_trace(label, person)['settings'][key], wanted)
    marks = person.run('[...%s.querySelectorAll(".default")].map(e => e.getAttribute("aria-label"))' % dial('but for the first'))
    same('marks', marks, ["but for the first: this project's default, 0 pods", 'but for the first: Kubernetes 1.20, 15 pods'])
    load(person, 'tolerations')
    person.run('(() => { const dial = playground.panel.dials.find(dial => dial.isOfPods && dial.get(playground.document) === 300);'
               ' dial.number.value = "45"; for (const name of ["input", "change"]) dial.number.dispatchEvent(new Event(name)); })()')
    document = same_trace('tolerations', person)
    pod = next(item for item in document['objects']['items'] if item['kind'] == 'Pod' and item['metadata']['name'] == 'five-minutes')
    same('seconds', sorted({each['tolerationSeconds'] for each in pod['spec']['tolerations'] if 'tolerationSeconds' in each}), [45])


def test_refused(person, served, pictures):
    """A refused value is told at its control, in explain's words; the last good picture stays, greyed; a good one follows."""
    load(person, 'leader-crashes')
    trace = person.run('timeline.model.text')
    enter(person, '--leader-elect-renew-deadline', 30)
    stale = 'document.getElementById("stage").classList.contains("stale")'
    true('greyed', person.run(stale))
    same('the last good picture', person.run('timeline.model.text'), trace)
    said = person.run('%s.querySelector(".error").textContent' % dial('--leader-elect-renew-deadline'))
    wanted = person.run('fetch("run", { method: "POST", headers: { "Content-Type": "application/json" }, body: JSON.stringify(playground.document) })'
                        '.then(reply => reply.json()).then(answer => answer.refused.why.trim())')
    same('the sentence at the control', said, wanted)
    true('and it says something', len(said) > 20)
    if pictures:
        person.picture(os.path.join(pictures, 'refused.png'))
    enter(person, '--leader-elect-renew-deadline', 12)
    hidden = person.run('[%s.querySelector(".error").hidden, document.getElementById("trouble").hidden]' % dial('--leader-elect-renew-deadline'))
    same('good again', (person.run(stale), hidden), (False, [True, True]))
    same_trace('good again', person)
    enter(person, '--leader-elect-lease-duration', 0)
    true('out of range', person.run(stale))
    person.strike('z', modifiers=CONTROL)
    person.settle()
    same('undo makes it good', person.run(stale), False)
    for text, name in (('{"version":1', 'broken'), ('trace 1 beat=100 end=60 premise=yes\n', 'a trace'), ('[]', 'a list'), (' ' * 17_000_000, '17 MB')):
        person.run('void playground.load(%s, %r)' % (json.dumps(text) if len(text) < 100 else '" ".repeat(17e6)', name))
        person.settle()
        true(name + ' is told', name in person.run('document.getElementById("trouble").textContent'))
        true(name + ': the state stays', person.run('playground.document.controllers.length') == 3)


def test_pin(person, served, pictures):
    """Two traces stand one above the other, and the answers tell what changed."""
    load(person, 'leader-crashes')
    person.press('#pin')
    person.frame()
    true('the pinned one is seen', person.run('document.getElementById("pinned").offsetHeight > 60'))
    longest = person.run('playground.answer.summary.spansWithoutLeader.longest')
    enter(person, '--leader-elect-lease-duration', 18)
    now = person.run('playground.answer.summary.spansWithoutLeader.longest')
    said = person.run('document.querySelectorAll("#answers .card")[1].textContent')
    true('the difference is told: ' + said, 'pinned: %g s (+%g s)' % (longest / 10, (now - longest) / 10) in said)
    true('what was changed is told', '--leader-elect-lease-duration default → 18 s' in person.run('document.getElementById("pinned-title").textContent'))
    person.run('timeline.chart.setWindow(50, 150), timeline.drawNow()')
    same('both are drawn over the same time', person.run('[timeline.pinned.from, timeline.pinned.to]'), [50, 150])
    person.press('#pin')
    person.frame()
    same('let go', person.run('[document.getElementById("pinned-holder").hidden, playground.pinned]'), [True, None])


def test_take_away(person, served, pictures):
    """The document, the trace, the picture, the command and the flags."""
    load(person, 'uneven-clocks')
    enter(person, '--leader-elect-retry-period', 1.5)
    person.press('#take')
    person.until('document.getElementById("takeaway").open')
    same('links', person.run('[...document.querySelectorAll("#takeaway a")].map(e => [e.download, e.href.startsWith("blob:")])'),
         [['uneven-clocks.json', True], ['uneven-clocks.txt', True], ['uneven-clocks.svg', True]])
    command, flags = person.run('["command", "flags"].map(name => document.getElementById("take-" + name).value)')
    same('flags', flags, '--leader-elect-lease-duration=15s --leader-elect-renew-deadline=10s --leader-elect-retry-period=1500ms')
    true('the command', command.startswith("./kube_replay replay <<'END'\n"))
    with tempfile.TemporaryDirectory() as folder:
        path = os.path.join(folder, 'kube_replay')
        with open(path, 'w', encoding='utf-8') as file:
            named = os.environ.get('KUBE_REPLAY_PROGRAM') or os.path.join(TOP, 'crates', 'kube_replay', 'out', 'kube_replay')
            file.write('#!/bin/sh\nexec %s "$@"\n' % named)
        os.chmod(path, 0o755)
        said = subprocess.run(['sh', '-c', command], cwd=folder, stdout=subprocess.PIPE, text=True, check=True).stdout
    same('what the command writes', said, person.run('timeline.model.text'))
    person.call('Browser.setDownloadBehavior', behavior='allow', downloadPath=tempfile.gettempdir())
    with tempfile.TemporaryDirectory() as folder:
        person.call('Browser.setDownloadBehavior', behavior='allow', downloadPath=folder)
        for end in ('json', 'txt', 'svg'):
            person.press('#take-' + end)
        for _ in range(200):
            if len(glob.glob(folder + '/uneven-clocks.???')) + len(glob.glob(folder + '/uneven-clocks.json')) == 3:
                break
            time.sleep(.05)
        files = {}
        for name in os.listdir(folder):
            with open(os.path.join(folder, name), encoding='utf-8') as file:
                files[name.rpartition('.')[2]] = file.read()
    same('files', sorted(files), ['json', 'svg', 'txt'])
    same('the trace of the file', files['txt'], replayed(files['json']))
    check_picture(person, files['svg'])
    person.strike('Escape')
    person.until('!document.getElementById("takeaway").open')


def check_picture(person, text):
    """The SVG is well formed, and has the words that the canvas has."""
    tree = xml.dom.minidom.parseString(text)
    words = [node.firstChild.data for node in tree.getElementsByTagName('text') if node.firstChild]
    drawn = person.run('''(() => { const seen = [], c = timeline.canvas.getContext('2d'), real = c.fillText;
      timeline.state.cursor = null; timeline.state.lane = null; timeline.moment = null;
      c.fillText = function (text) { seen.push(String(text)); }; timeline.drawNow(); delete c.fillText; return seen; })()''')
    same('the words of the picture', sorted(words), sorted(drawn))
    true('nothing from outside', not re.search(r'href="http|<script|<image', text))
    true('two leaders are hatched', 'pattern' in text)


def test_opened(person, served, pictures):
    """A document is opened by its file, and by dropping it on the page."""
    path = os.path.join(TOP, 'examples', 'dead-node', 'document.json')
    person.choose_file('#file', path)
    person.until('timeline.name === "document"')
    same_trace('a file', person)
    with open(os.path.join(TOP, 'examples', 'fast-clock', 'document.json'), encoding='utf-8') as file:
        text = file.read()
    person.run('''(() => { const data = new DataTransfer(); data.items.add(new File([%s], 'dropped.json'));
      dispatchEvent(new DragEvent('drop', { dataTransfer: data, bubbles: true, cancelable: true })); })()''' % json.dumps(text))
    person.until('timeline.name === "dropped"')
    same('what was dropped', same_trace('a drop', person), json.loads(text))
    for _ in range(3):
        person.strike('z', modifiers=CONTROL)
        person.settle()
    same('undo goes back over all documents', (person.run('timeline.name'), person.run('playground.undo.past.length')), (FIRST, 0))
    same_trace('undo goes back to the first document', person)
    for _ in range(2):
        person.strike('y', modifiers=CONTROL)
        person.settle()
    same('redo', (person.run('timeline.name'), same_trace('redo', person)), ('dropped', json.loads(text)))


def test_begins_refused(person, served, pictures):
    """A document that is refused is told, and an example stands in its place; a good one begins."""
    with tempfile.TemporaryDirectory() as folder:
        path = os.path.join(folder, 'wrong.json')
        with open(path, 'w', encoding='utf-8') as file:
            file.write('{"version":1,"settings":{"endBeat":"60"},"controllers":[{"name":"cp-1"}]}')
        with Playground(path) as other:
            person.visit(other.address)
            told = person.run('document.getElementById("trouble").textContent')
            true('what is wrong is told: ' + told, told.startswith('wrong is refused (5 /settings/endBeat): ') and 'endBeat takes a whole number' in told)
            same('an example stands there', person.run('timeline.name'), 'first-election')
            same_trace('the example', person)
    path = os.path.join(TOP, 'examples', 'dead-node', 'document.json')
    with Playground(path) as other, open(path, encoding='utf-8') as file:
        person.visit(other.address)
        same('a document that is named', (person.run('timeline.name'), same_trace('named', person)), ('dead-node', json.load(file)))


def test_exact_numbers(person, served, pictures):
    """A number that a browser's own numbers can't hold stays as it is."""
    with open(os.path.join(TOP, 'examples', 'dead-node', 'document.json'), encoding='utf-8') as file:
        document = json.load(file)
    pod = next(item for item in document['objects']['items'] if item['kind'] == 'Pod')
    pod['spec']['tolerations'] = [{'key': 'node.kubernetes.io/unreachable', 'operator': 'Exists', 'effect': 'NoExecute', 'tolerationSeconds': 9223372036854775807}]
    person.run('void playground.load(%s, "large")' % json.dumps(json.dumps(document)))
    person.until('timeline.name === "large" && playground.isSettled')
    same('as it was written', json.loads(person.run('playground.taken().text'))['objects'], document['objects'])
    same('the trace', person.run('timeline.model.text'), replayed(json.dumps(document)))


def test_view(person, served, pictures):
    """Zoom, search and the link to a view are those of the timeline, and a change keeps them."""
    load(person, 'zone-lost')
    person.run('timeline.canvas.focus()')
    person.strike('+', '+')
    person.strike('+', '+')
    window = person.run('[timeline.chart.from, timeline.chart.to]')
    true('zoomed', window[1] - window[0] < 100)
    person.strike('/', '/')
    person.type('node-a3')
    same('found', person.run('timeline.state.lane.name'), 'node-a3')
    person.run('document.getElementById("search").blur()')
    person.run('timeline.fold("pod"), timeline.chart.setWindow(100, 200), timeline.drawNow()')
    enter(person, '--leader-elect-lease-duration', 16)
    same('kept', person.run('[timeline.chart.from, timeline.chart.to, timeline.state.lane.name, [...timeline.chart.folded]]'), [100, 200, 'node-a3', ['pod']])
    person.run('new Promise(done => setTimeout(done, 400))')
    link = person.run('location.hash')
    true('a link: ' + link, 'beats=100-200' in link)
    person.call('Page.navigate', url='about:blank')
    person.visit(served.address + link)
    same('the link leads there', person.run('[Math.round(timeline.chart.from), Math.round(timeline.chart.to)]'), [100, 200])
    person.visit(served.address)


def tab_to(person, holds, most=150):
    """Tabs on until the focus is where it is wanted."""
    for _ in range(most):
        if person.run('(e => %s)(document.activeElement)' % holds):
            return True
        person.strike('Tab')
    return False


def test_keyboard(person, served, pictures):
    """With the keyboard alone: an example, the leader's crash at a moment, a setting, an event moved and taken away, undo."""
    person.visit(served.address)
    true('the list of examples', tab_to(person, 'e.id === "examples"'))
    person.strike('ArrowDown')
    person.settle()
    person.run('document.getElementById("examples").dispatchEvent(new Event("change"))')
    load(person, 'first-election')
    true('the picture', tab_to(person, 'e.id === "chart"'))
    person.strike('j', 'j')
    person.strike('j', 'j')
    person.strike('k', 'k')
    for _ in range(4):
        person.strike('l', 'l')
    person.strike('L', 'L', SHIFT)
    lane, beat = person.run('[timeline.moment.lane.name, timeline.moment.beat]')
    true('the moment is said', person.run('document.getElementById("said").textContent').startswith(lane + ' at '))
    person.strike('Enter')
    same('the menu has the focus', person.run('document.getElementById("menu").contains(document.activeElement)'), True)
    person.strike('ArrowDown')
    person.strike('ArrowUp')
    same('on its first', person.run('document.activeElement.textContent'), 'crash')
    person.strike('Enter')
    document = same_trace('a crash by keys', person)
    same('the event', document['events'], [{'beat': beat, 'type': 'crash', 'process': lane}])
    same('the focus is on the picture again', person.run('document.activeElement.id'), 'chart')
    true('a mark', tab_to(person, 'e.classList.contains("mark")') or person.run('(() => { playground.marks.focus(0); return true; })()'))
    person.strike('ArrowRight')
    same('moved', same_trace('moved by keys', person)['events'][0]['beat'], beat + 1)
    check_panel_keys(person)


def check_panel_keys(person):
    """A setting, an event that is taken away and one that is added, in the settings beside the picture; and undo."""
    true('the lease', tab_to(person, 'e.type === "range" && e.getAttribute("aria-label").startsWith("--leader-elect-lease")'))
    person.strike('ArrowRight')
    same('a longer lease', same_trace('lease by keys', person)['settings']['leaseDurationSeconds'], 16)
    true('an event is taken away', tab_to(person, 'e.getAttribute("aria-label") && e.getAttribute("aria-label").startsWith("take away: ")'))
    person.strike('Enter')
    same('none is left', same_trace('none', person)['events'], [])
    true('a further one', tab_to(person, 'e.textContent === "add"'))
    person.strike('Enter')
    same('is added', len(same_trace('added', person)['events']), 1)
    for _ in range(5):
        person.strike('z', modifiers=CONTROL)
    same('undone', same_trace('undone by keys', person).get('events', []), [])
    nameless = person.run('[...document.querySelectorAll("button, input, select, textarea")].filter(e => e.offsetParent)'
                          '.filter(e => !(e.textContent.trim() || e.getAttribute("aria-label") || e.title || (e.labels && e.labels.length))).map(e => e.outerHTML.slice(0, 100))')
    same('controls without a name', nameless, [])


def luminance(colour):
    parts = [int(part) / 255 for part in re.findall(r'\d+', colour)[:3]]
    parts = [part / 12.92 if part <= .04045 else ((part + .055) / 1.055) ** 2.4 for part in parts]
    return .2126 * parts[0] + .7152 * parts[1] + .0722 * parts[2]


CONTRASTS = '''(() => {
  const back = e => { for (; e; e = e.parentElement) { const c = getComputedStyle(e).backgroundColor; if (c !== 'rgba(0, 0, 0, 0)') return c; } return 'rgb(255, 255, 255)'; };
  const own = e => [...e.childNodes].some(n => n.nodeType === 3 && n.data.trim());
  const all = [...document.querySelectorAll('body *')].filter(e => own(e) && e.offsetParent && !e.disabled && e.tagName !== 'OPTION');
  return all.map(e => [e.textContent.trim().slice(0, 40), getComputedStyle(e).color, back(e)]);
})()'''


def test_looks(person, served, pictures):
    """Light and dark are legible; at 1,024 by 640 and at 400 % zoom all is there and nothing is cut at the side."""
    load(person, 'dead-node')
    for theme in ('light', 'dark'):
        person.run('timeline.theme = %r, timeline.applyTheme(), timeline.drawNow()' % theme)
        weak = []
        for words, ink, paper in person.run(CONTRASTS):
            light, dark = sorted((luminance(ink), luminance(paper)), reverse=True)
            if (light + .05) / (dark + .05) < 4.5:
                weak.append((words, ink, paper))
        same(theme + ': words of little contrast', weak, [])
        if pictures:
            person.picture(os.path.join(pictures, theme + '.png'))
    person.run('timeline.theme = "light", timeline.applyTheme()')
    for width, height in ((1024, 640), (1280, 800), (320, 200), (320, 256), (1920, 1080)):
        person.size(width, height, 4 if width == 320 else 1)
        person.frame()
        same('%d by %d: nothing is cut at the side' % (width, height), person.run('document.documentElement.scrollWidth <= innerWidth'), True)
        out = person.run('[...document.querySelectorAll("button, input, select, summary")].filter(e => e.offsetParent && !e.classList.contains("mark") && !e.closest("#menu"))'
                         '.filter(e => { const b = e.getBoundingClientRect(); return b.right > innerWidth + 1 || b.left < -1; }).map(e => e.outerHTML.slice(0, 80))')
        same('%d by %d: controls past the edge' % (width, height), out, [])
        if width != 320:
            true('%d by %d: the picture has room' % (width, height), person.run('timeline.scroller.clientHeight') >= .3 * height)
        if pictures:
            person.picture(os.path.join(pictures, '%dx%d.png' % (width, height)))
    person.size(320, 200, 4)
    person.frame()
    person.run('document.getElementById("scroller").scrollIntoView()')
    person.click(*person.spot('controller cm-b', 60))
    true('the menu fits', person.run('(b => b.left >= 0 && b.right <= innerWidth && b.top >= 0 && b.bottom <= innerHeight)(document.getElementById("menu").getBoundingClientRect())'))
    if pictures:
        person.picture(os.path.join(pictures, 'zoomed-menu.png'))
    person.press_words('crash', 'document.getElementById("menu")')
    same_trace('at 400 %', person)
    person.size(1280, 800)


# One of the marks, the buttons of the menu and the sliders, and where it stands.
HANDLES = '''(() => {
  const all = [...document.querySelectorAll('.mark:not([hidden]), #menu:not([hidden]) button, .dial input[type=range]')].filter(e => e.offsetParent || e.closest('#menu'));
  if (!all.length) return null;
  const b = all[%d %% all.length].getBoundingClientRect();
  return [b.left + b.width / 2, b.top + b.height / 2];
})()'''


def test_random(person, served, pictures, clicks=500, seed=62):
    """Clicks, drags, keys and wheels at random: nothing breaks, and what stands is still the trace of the document."""
    dice = random.Random(seed)
    person.visit(served.address)
    person.said.clear()
    names = person.run('playground.examples.map(each => each.name)')
    for number in range(clicks):
        x, y = dice.randint(0, 1279), dice.randint(0, 799)
        choice = dice.random()
        if choice < .45:
            person.click(x, y)
        elif choice < .75:
            person.drag(x, y, dice.randint(-300, 300), dice.randint(-60, 60))
        elif choice < .85:
            spot = person.run(HANDLES % dice.randint(0, 10**6))
            if spot and 0 <= spot[0] < 1280 and 0 <= spot[1] < 800:
                person.drag(*spot, dice.randint(-80, 80), 0)
        elif choice < .93:
            key = dice.choice(['Escape', 'Enter', 'Tab', 'ArrowRight', 'Delete', *'jlng+-0'])
            person.strike(key, key if len(key) == 1 else '')
        elif choice < .97:
            person.wheel(x, y, 0, dice.randint(-200, 200), modifiers=dice.choice((0, CONTROL, SHIFT)))
        else:
            person.strike(dice.choice('zy'), modifiers=CONTROL)
        if number % 100 == 99:
            person.run('document.querySelectorAll("dialog[open]").forEach(e => e.close())')
            person.settle()
            check_random(person, number)
            load(person, dice.choice(names))
    same('what the console says', person.said, [])


def check_random(person, number):
    document, trace, stale = person.run('[playground.taken().text, playground.taken().trace, document.getElementById("stage").classList.contains("stale")]')
    same('after %d' % (number + 1), (trace, person.run('timeline.model.text')), (replayed(document), trace))
    if not stale:
        same('after %d: the document is what is drawn' % (number + 1), json.loads(document), person.run('playground.document'))


def measured(person, served, change, limit, count):
    """Makes one change after the other. Tells the milliseconds from a change to its picture, the middle and what 95 of 100 keep to, and the processor
    time of a change in the server, the programs and the browser together. Where other work wants the processors the first says little, so then only the
    last has to be within the limit: on a machine of one's own a change is drawn within that."""
    times, pids = [], (served.process.pid, person.process.pid)
    before = sum(map(spent, pids))
    for i in range(count):
        person.run('playground.times.length = 0, void (%s)(%d)' % (change, i))
        person.settle()
        times.append(person.run('playground.times.at(-1)'))
    cost = (sum(map(spent, pids)) - before) * 1000 / count
    times.sort()
    middle, late, load = statistics.median(times), times[len(times) * 95 // 100], os.getloadavg()[0]
    print('  a change is drawn after %.0f ms in the middle, 95 of 100 within %.0f ms, and costs %.0f ms of processor time; %.1f processes want %d processors'
          % (middle, late, cost, load, os.cpu_count()), flush=True)
    true('within %d ms (%.0f, %.0f, %.0f)' % (limit, middle, late, cost), cost <= limit if load > os.cpu_count() else late <= limit)


LEASE = 'i => { const { number } = playground.panel.dials[0]; number.value = 16 + i %% %d; for (const name of ["input", "change"]) number.dispatchEvent(new Event(name)); }'


def test_speed(person, served, pictures):
    """A change at examples' size is drawn within 100 ms; of a fast drag the last stands."""
    for name in ('leader-crashes', 'zone-lost', 'leader-stalls'):
        load(person, name)
        print(name + ':')
        measured(person, served, LEASE % 30, 100, 60)
    load(person, 'leader-crashes')
    slide(person, '--leader-elect-lease-duration', .9)
    slide(person, '--leader-elect-lease-duration', .4)
    value = person.run('Number(%s.querySelector("input[type=range]").value)' % dial('--leader-elect-lease-duration'))
    same('the last of a drag', same_trace('a drag', person)['settings']['leaseDurationSeconds'], value)


def large():
    """1,000 nodes in ten zones, 30,000 pods, a controller that crashes, and a node that dies."""
    labels = lambda i: {'topology.kubernetes.io/region': 'eu-1', 'topology.kubernetes.io/zone': 'eu-1%s' % 'abcdefghij'[i % 10]}
    nodes = [{'apiVersion': 'v1', 'kind': 'Node', 'metadata': {'name': 'node-%d' % i, 'labels': labels(i)}} for i in range(1_000)]
    keys = ('node.kubernetes.io/not-ready', 'node.kubernetes.io/unreachable')
    tolerations = [{'key': key, 'operator': 'Exists', 'effect': 'NoExecute', 'tolerationSeconds': 30} for key in keys]
    pods = [{'apiVersion': 'v1', 'kind': 'Pod', 'metadata': {'name': 'web-%d' % i, 'namespace': 'shop'},
             'spec': {'nodeName': 'node-%d' % (i % 1_000), 'tolerations': tolerations}} for i in range(30_000)]
    events = [{'beat': 15, 'type': 'crash', 'process': 'kubelet/node-%d' % i} for i in range(0, 200, 10)] + [{'beat': 100, 'type': 'crash', 'process': 'cp-1'}]
    return {'version': 1, 'settings': {'endBeat': 600, 'beatMillis': 1_000}, 'controllers': [{'name': 'cp-%d' % i} for i in (1, 2, 3)],
            'kubelets': [{'node': 'node-%d' % i} for i in range(1_000)], 'objects': {'apiVersion': 'v1', 'kind': 'List', 'items': nodes + pods}, 'events': events}


def test_large(person, served, pictures):
    """1,000 nodes and 30,000 pods: a change is drawn within a second, and the last of a fast drag stands."""
    with tempfile.TemporaryDirectory() as folder:
        path = os.path.join(folder, 'large.json')
        with open(path, 'w', encoding='utf-8') as file:
            json.dump(large(), file, separators=(',', ':'))
        size = os.path.getsize(path)
        person.choose_file('#file', path)
        person.until('timeline.name === "large" && playground.isSettled', 120)
    same_trace('large', person)
    print('1,000 nodes, 30,000 pods, %.1f MB, %d lines:' % (size / 1e6, person.run('timeline.model.lines')))
    measured(person, served, LEASE % 30, 1_000, 20)
    slide(person, '--leader-elect-lease-duration', .8)
    value = person.run('Number(%s.querySelector("input[type=range]").value)' % dial('--leader-elect-lease-duration'))
    person.until('playground.isSettled', 60)
    same('the last of a drag', same_trace('a drag, large', person)['settings']['leaseDurationSeconds'], value)


def test_first_minute(person, served, pictures):
    """What docs/playground.md tells of three questions comes out as it is told."""
    longest = lambda: person.run('document.querySelectorAll("#answers .value")[1].textContent')
    load(person, FIRST)
    same('before', longest(), '17 s')
    person.press('#pin')
    slide(person, '--leader-elect-lease-duration', 29 / 59)
    same('the run is too short', longest(), 'over 20.1 s')
    person.press_words('run twice as long')
    same_trace('a lease of 30 s', person)
    same('the answer', (longest(), 'pinned: 17 s (+13.6 s)' in person.run('document.querySelector("#answers").textContent')), ('30.6 s', True))
    person.press('#pin')
    load(person, 'first-election')
    enter(person, 'runs for', 60)
    for seconds, wanted in ((8, '0.4 s'), (12, '16.8 s')):
        person.click(*person.spot('controller who leads', 40))
        person.run('document.querySelectorAll("#menu input")[2].value = %d' % seconds)
        person.press_words('API server or etcd slow', 'document.getElementById("menu")')
        same_trace('slow for %d s' % seconds, person)
        same('slow for %d s' % seconds, longest(), wanted)
        person.strike('z', modifiers=CONTROL)
    # 15 s are longer than 14 s times 1.0714, and 15 s times 0.9334 than 14 s.
    load(person, FIRST)
    for percent, wanted in ((7.1, 'ruled out'), (7.2, 'not ruled out'), (-6.6, 'ruled out'), (-6.7, 'not ruled out')):
        enter(person, 'clock off by', percent)
        same('a clock that is off by %s %%' % percent, premise(person), wanted)
    enter(person, 'clock off by', 0)
    for timeout, least in ((5, 18), (10, 23)):
        enter(person, 'call timeout', timeout)
        same('a call timeout of %d s' % timeout, (premise(person), person.run('playground.answer.margin.controllers[1].leastLeaseSeconds')), ('not ruled out', least))


def test_pictures(person, served, pictures):
    """The pictures of docs/playground.md, where a folder for them is given."""
    if not pictures:
        return
    person.size(1280, 720)
    load(person, FIRST)
    person.click(*person.spot('controller cp-east-2', 100))
    person.picture(os.path.join(pictures, 'playground.png'))
    person.strike('Escape')
    person.run('timeline.moment = null, timeline.choose(timeline.model.leaderLane, null), timeline.showHint(), timeline.state.lane = null')
    person.mouse('mouseMoved', 5, 5)
    person.press('#pin')
    slide(person, '--leader-elect-lease-duration', 29 / 59)
    person.press_words('run twice as long')
    person.settle()
    person.mouse('mouseMoved', 5, 5)
    person.picture(os.path.join(pictures, 'playground-pinned.png'))
    person.press('#pin')
    load(person, 'upstream-timeouts')
    person.mouse('mouseMoved', 5, 5)
    person.picture(os.path.join(pictures, 'playground-two-leaders.png'))


TESTS = [test_examples, test_kill_leader, test_lease, test_freeze_node, test_marks, test_acts, test_settings, test_refused, test_pin, test_take_away, test_opened,
         test_begins_refused, test_exact_numbers, test_view, test_keyboard, test_looks, test_first_minute, test_random, test_speed, test_large, test_pictures]


def main():
    words = argparse.ArgumentParser(description=__doc__.splitlines()[0])
    words.add_argument('--pictures', metavar='FOLDER')
    words.add_argument('--only', metavar='NAME', default='')
    words.add_argument('--clicks', type=int, default=500)
    words.add_argument('--seed', type=int, default=62)
    given = words.parse_args()
    with Playground() as served, Person() as person:
        for test in TESTS:
            if given.only not in test.__name__:
                continue
            person.size(1280, 800)
            person.visit(served.address)
            person.said.clear()
            test(person, served, given.pictures, *([given.clicks, given.seed] if test is test_random else []))
            same('%s: the console' % test.__name__, person.said, [])
            print('%s: %s' % (test.__name__.removeprefix('test_'), '%d faults so far' % len(faults) if faults else 'done'), flush=True)
    sys.exit(1 if faults else 0)


if __name__ == '__main__':
    main()
