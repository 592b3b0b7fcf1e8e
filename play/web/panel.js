// The settings beside the picture, as a person knows them: by kube-controller-manager's flags, with their units.

import { beatMillis, firstDelay, tolerated, toleranceGroups, withController, withFirstDelay, withSetting, withTolerance } from './draft.js';
import { Dial } from './dial.js';
import { EventList } from './events.js';
import { make, plural } from './words.js';

// Of each setting: how it is called where it has no flag, the unit shown and how many units of the key it has, and the slider's ends and step.
const SECTIONS = [
  { title: 'Leader election', open: true, keys: [
    ['leaseDurationSeconds', { unit: 's', slider: [1, 60, 1] }],
    ['renewDeadlineMillis', { unit: 's', scale: 1000, slider: [0.5, 45, 0.5] }],
    ['retryPeriodMillis', { unit: 's', scale: 1000, slider: [0.1, 15, 0.1] }],
    ['callTimeoutMillis', { label: 'call timeout', unit: 's', scale: 1000, slider: [0.1, 30, 0.1] }],
    ['restartMillis', { label: 'restart after an end', unit: 's', scale: 1000, slider: [0.1, 60, 0.1] }],
  ] },
  { title: 'Nodes and zones', keys: [
    ['monitorPeriodMillis', { unit: 's', scale: 1000, slider: [1, 30, 0.5] }],
    ['gracePeriodMillis', { unit: 's', scale: 1000, slider: [5, 180, 1] }],
    ['startupGraceMillis', { unit: 's', scale: 1000, slider: [5, 300, 1] }],
    ['nodeLeaseDurationSeconds', { label: "kubelet's nodeLeaseDurationSeconds", unit: 's', slider: [4, 120, 4] }],
    ['primaryRate', { unit: 'a second', scale: 1000, slider: [0, 1, 0.01] }],
    ['secondaryRate', { unit: 'a second', scale: 1000, slider: [0, 0.2, 0.005] }],
    ['largeZone', { unit: 'nodes', slider: [0, 200, 1] }],
    ['unhealthyPercent', { unit: '', scale: 100, slider: [0, 1, 0.01] }],
  ] },
  { title: 'As Kubernetes 1.20 does', keys: [
    ['firstSyncMillis', { label: 'first look after a lead', unit: 's', scale: 1000, slider: [0, 10, 0.1] }],
    ['evictBurst', { label: 'evictions at once, 0: any', unit: 'pods', slider: [0, 100, 1] }],
    ['evictRate', { label: 'and then', unit: 'a second', scale: 1000, slider: [0, 50, 1] }],
    ['readyMillis', { label: 'to set a pod not ready', unit: 'ms', slider: [0, 500, 10] }],
    ['readyBurst', { label: 'but for the first', unit: 'pods', slider: [0, 100, 1] }],
  ] },
];
// Settings that are a word, by section and with how each is called.
const CHOICES = [[1, 'ratePolicy', 'rate policy'], [2, 'rules', 'whose rules, all at once'], [2, 'retries', 'after a failed renewal'],
  [2, 'respect', 'whose lease duration'], [2, 'probe', 'silent by'], [2, 'judge', 'nodes are judged at each'], [2, 'firstSight', 'taints at first sight'], [2, 'queue', 'a queue has a node'],
  [2, 'bucket', 'a bucket begins'], [2, 'evictFrom', 'tolerations count from'], [2, 'release', 'a Lease is given back'], [2, 'inRelease', 'and meanwhile the leader']];
const KUBERNETES = 'default of Kubernetes';
// What is in Kubernetes 1.20, and in 1.36, which are the defaults of a document with the rules of that name.
const IN_1_20 = { retries: 'grid', respect: 'own', firstSyncMillis: 700, probe: 'record', judge: 'pass', firstSight: 'strip', queue: 'again', bucket: 'full',
  evictFrom: 'seen', evictBurst: 30, evictRate: 20000, readyMillis: 100, readyBurst: 15 };
const IN_1_36 = { ...IN_1_20, retries: 'ticks', respect: 'record', evictBurst: 15, evictRate: 10000, release: 'reread', inRelease: 'acts', fastRenew: true };
const PRESETS = { '1.20': IN_1_20, '1.36': IN_1_36 };

export class Panel {
  // The host has `document`, `opened`, `known`, `preview(document, dial)`, `keep(words)`, `change(document, words)`, `showEvent(place)`.
  constructor(holder, host) {
    Object.assign(this, { holder, host, dials: [] });
    this.events = new EventList(host);
  }

  // Builds all anew, as for another document.
  build() {
    const { document } = this.host;
    this.dials = [];
    const parts = SECTIONS.map(section => this.section(section.title, section.open, section.keys.map(([key, shape]) => this.setting(key, shape).row)));
    parts[0].append(this.fastRenew());
    this.choices = CHOICES.map(([part, key, words]) => this.choice(parts[part], key, words));
    parts.splice(1, 0, this.section('Controllers', false, document.controllers.map((each, place) => this.controller(each, place))));
    this.pods = this.section('Tolerations of the pods', false, []);
    parts.push(this.pods, this.section('Run', false, this.run()), this.section('Events', true, [this.events.list]));
    this.holder.replaceChildren(make('p', { className: 'hint' }, '▲ is a default, and sets it. A name in bold was changed.'), ...parts);
    this.buildPods();
    this.sync();
  }

  section(title, open, rows) {
    const details = make('details', { open: !!open }, make('summary', {}, title), ...rows);
    details.dataset.title = title;
    return details;
  }

  // A slider goes on to twice the value that it begins with, where that lies beyond its end.
  dial(what, document = this.host.opened) {
    const first = what.get(document), [least, most, step] = what.slider, value = first / (what.scale || 1);
    const dial = new Dial({ ...what, slider: [value < least ? 2 * value : least, Number.isFinite(value) && value > most ? 2 * value : most, step] }, this.host);
    dial.first = first;
    this.dials.push(dial);
    return dial;
  }

  setting(key, shape) {
    const { known } = this.host, { minimum, maximum, description } = known.settings[key];
    const fallback = known.settings[key].default;
    return this.dial({ label: known.flags[key] || shape.label, help: description, ...shape, least: minimum, most: maximum, path: '/settings/' + key,
      marks: this.marks(key, fallback, shape), get: document => document.settings[key] ?? this.usual(document, key), set: (document, value) => withSetting(document, key, value) });
  }

  // The default of a setting, by the rules of the document.
  usual(document, key) {
    return (PRESETS[document.settings.rules] || {})[key] ?? this.host.known.settings[key].default;
  }

  // Upstream's defaults. How long a call waits has none of its own there: it is the renew deadline, in newer versions half of it.
  marks(key, fallback) {
    const own = { value: fallback, words: "this project's default" };
    if (key === 'restartMillis') return [own];
    if (key in IN_1_20) return [own, { value: IN_1_20[key], words: 'Kubernetes 1.20' }].filter((mark, i) => i === 1 || mark.value !== IN_1_20[key]);
    if (key === 'gracePeriodMillis') return [{ value: fallback, words: KUBERNETES + ' before 1.32' }, { value: 50000, words: KUBERNETES + ' from 1.32 on' }];
    if (key !== 'callTimeoutMillis') return [{ value: fallback, words: KUBERNETES }];
    const deadline = document => document.settings.renewDeadlineMillis ?? this.host.known.settings.renewDeadlineMillis.default;
    return [own, { value: document => Math.round(deadline(document) / 2), words: 'newer Kubernetes: half the renew deadline' },
      { value: deadline, words: 'Kubernetes 1.20: the renew deadline' }];
  }

  fastRenew() {
    this.fast = make('input', { type: 'checkbox', onchange: event => this.host.change(withSetting(this.host.document, 'fastRenew', event.target.checked), 'fastRenew') });
    return make('label', { className: 'row', title: this.host.known.settings.fastRenew.description }, this.fast, ' renews without a Get where it can');
  }

  // A list of words at the end of a section.
  choice(part, key, called) {
    const { description, enum: all } = this.host.known.settings[key];
    const select = make('select', { onchange: event => this.host.change(withSetting(this.host.document, key, event.target.value), called) },
      ...all.map(word => make('option', { value: word }, word)));
    part.append(make('label', { className: 'row', title: description }, called + ' ', select));
    return { key, select };
  }

  // One controller: its clock, its delay, and timings of its own.
  controller({ name }, place) {
    const path = '/controllers/' + place + '/', of = document => document.controllers[place] || {}, { known } = this.host;
    const key = (name_, shape, fallback) => this.dial({ ...shape, least: known.controller[name_].minimum, most: known.controller[name_].maximum, path: path + name_,
      get: document => of(document)[name_] ?? fallback(document), set: (document, value) => withController(document, place, name_, value) }).row;
    const setting = wanted => document => document.settings[wanted] ?? known.settings[wanted].default;
    const rate = this.rate(path, of, place), delay = this.delay(name);
    const own = make('details', { className: 'own' }, make('summary', {}, 'timings of its own'),
      key('leaseDurationSeconds', { label: 'lease', unit: 's', slider: [1, 60, 1] }, setting('leaseDurationSeconds')),
      key('renewDeadlineMillis', { label: 'renew deadline', unit: 's', scale: 1000, slider: [0.5, 45, 0.5] }, setting('renewDeadlineMillis')),
      key('callTimeoutMillis', { label: 'call timeout', unit: 's', scale: 1000, slider: [0.1, 30, 0.1] }, setting('callTimeoutMillis')));
    const retryShape = { label: 'retry period', unit: 's', scale: 1000, slider: [0.1, 15, 0.1], marks: [{ value: 2000, words: KUBERNETES }] };
    const retry = key('retryPeriodMillis', retryShape, setting('retryPeriodMillis'));
    const offset = key('offsetMillis', { label: 'clock ahead by', unit: 's', scale: 1000, slider: [-60, 60, 0.5], marks: [{ value: 0, words: 'right' }] }, () => 0);
    return make('fieldset', {}, make('legend', {}, name), rate.row, offset, delay.row, retry, own);
  }

  // The rate of a clock, shown as how much it is off, in per cent.
  rate(path, of, place) {
    const { minimum, maximum } = this.host.known.controller.ratePpm;
    return this.dial({ label: 'clock off by', help: 'above 0 it is fast, below it is slow', unit: '%', scale: 1e4, slider: [-10, 10, 0.1],
      least: minimum - 1e6, most: maximum - 1e6, path: path + 'ratePpm', marks: [{ value: 0, words: 'right' }],
      get: document => (of(document).ratePpm ?? 1e6) - 1e6, set: (document, value) => withController(document, place, 'ratePpm', 1e6 + value) });
  }

  delay(name) {
    const beat = () => beatMillis(this.host.document);
    return this.dial({ label: 'messages take, each way', help: 'from the beginning on, until an event says another', unit: 'ms',
      slider: [beat(), 5000, beat()], least: beat(), most: 6000 * beat(), path: null,
      marks: [{ value: beat(), words: 'one beat' }], get: document => firstDelay(document, name).requestBeats * beatMillis(document),
      set: (document, value) => withFirstDelay(document, name, Math.max(1, Math.min(6000, Math.round(value / beatMillis(document))))) });
  }

  // A dial for each group of pods that tolerate a silent node for as long.
  buildPods() {
    const { document } = this.host;
    this.dials = this.dials.filter(dial => !dial.isOfPods);
    this.objects = document.objects;
    const groups = toleranceGroups(document).slice(0, 12);
    const rows = groups.map(({ seconds, places }) => {
      const label = plural(places.length, 'pod') + (seconds === Infinity ? ' for ever' : '');
      const dial = this.dial({ label, help: 'how long they stay on a node that is silent (not-ready or unreachable)', unit: 's', slider: [0, 600, 5],
        least: 0, most: 1e9, path: null, marks: [{ value: 300, words: 'what Kubernetes gives to pods without one' }],
        get: changed => tolerated(changed.objects.items[places[0]]), set: (changed, value) => withTolerance(changed, places, value) }, document);
      dial.isOfPods = true;
      return dial.row;
    });
    const none = rows.length ? '' : make('p', { className: 'hint' }, 'The document has no pods.');
    this.pods.replaceChildren(make('summary', {}, 'Tolerations of the pods'), ...rows, none);
  }

  run() {
    const { known } = this.host, length = beatMillis(this.host.document);
    const step = length / 1000, longest = Math.max(600, 2 * this.host.document.settings.endBeat * step);
    const end = this.dial({ label: 'runs for', unit: 's', scale: 1 / step, slider: [step, longest, step], least: 0, most: known.settings.endBeat.maximum,
      path: '/settings/endBeat', get: document => document.settings.endBeat, set: (document, value) => withSetting(document, 'endBeat', value) });
    const beat = this.dial({ label: 'a beat is', help: 'all times of the run are whole beats; events keep their beats', unit: 'ms', slider: [1, 1000, 1],
      least: 1, most: 1000, path: '/settings/beatMillis', marks: [{ value: 100, words: "this project's default" }],
      get: document => document.settings.beatMillis ?? 100, set: (document, value) => withSetting(document, 'beatMillis', value) });
    return [end.row, beat.row];
  }

  // Shows what the document has. Rows of controllers and pods are built anew where others are there.
  sync() {
    const { document, isDragging } = this.host;
    if (!isDragging && document.objects !== this.objects) this.buildPods();
    for (const dial of this.dials) if (!(isDragging && dial === this.host.dragged)) dial.sync(document);
    this.fast.checked = document.settings.fastRenew ?? this.usual(document, 'fastRenew');
    for (const { key, select } of this.choices) select.value = document.settings[key] || this.usual(document, key);
    this.events.show(document);
  }

  // Puts the sentence of a refusal to the control that it is about: by its path, else where the last change was.
  refuse(refused, last) {
    this.clear();
    const exact = this.dials.find(dial => dial.path === refused.path), event = /^\/events\/([0-9]+)/.exec(refused.path);
    if (event) return this.events.refuse(Number(event[1]), refused.why);
    const dial = exact || last;
    if (!dial) return false;
    dial.say(refused.why.trim());
    for (let part = dial.row.closest('details'); part; part = part.parentElement.closest('details')) part.open = true;
    return true;
  }

  clear() {
    for (const dial of this.dials) dial.say(null);
    this.events.clear();
  }
}
