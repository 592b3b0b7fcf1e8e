// The box that opens at a moment of a lane, or at an event: what can be done there. Keys go through it, Escape closes it.

import { ACTS, FIELDS, STORE, STORE_ACTS, TOLD, eventsOfAct, processes, subject } from './acts.js';
import { beatMillis, eventsOf, hasProcess, nodesOf, withEvent, withEvents, withKubelet } from './draft.js';
import { fieldInput } from './fields.js';
import { make, time } from './words.js';

const MARGIN = 6;

export class Menu {
  // The host has `document`, `change(document, words)`, `focusStage()` and `leadersAt(beat)`.
  constructor(box, host) {
    Object.assign(this, { box, host });
    box.dataset.keys = 'own';
    box.addEventListener('keydown', event => this.key(event));
    addEventListener('pointerdown', event => { if (!box.hidden && !box.contains(event.target)) this.close(false); }, true);
  }

  get isOpen() { return !this.box.hidden; }

  // What can be done on a lane at a beat.
  openLane(lane, beat, spot) {
    const { document } = this.host, at = time(beat * beatMillis(document));
    const title = lane.name + ' at ' + at + ' (beat ' + beat + ')';
    const rows = { controller: this.controllerRows, node: this.nodeRows, zone: this.zoneRows }[lane.kind];
    if (rows) this.open(title, rows.call(this, lane.name, beat), spot);
  }

  controllerRows(name, beat) {
    if (name !== 'who leads') return ACTS.filter(act => act.of.includes('controller')).map(act => this.actRow(act, [name], beat));
    const leaders = this.host.leadersAt(beat), words = each => ({ ...each, words: leaders.join(', ') + ': ' + each.words });
    const own = leaders.length > 0 ? ACTS.filter(act => /^(crash|stop|pause)/.test(act.words)).map(act => this.actRow(words(act), leaders, beat)) : [];
    return [...own, ...STORE_ACTS.map(act => this.actRow(act, act.isOfStore ? [STORE] : processes(this.host.document), beat))];
  }

  nodeRows(name, beat) {
    const { document } = this.host;
    if (hasProcess(document, 'kubelet/' + name)) return ACTS.filter(act => act.of.includes('node')).map(act => this.actRow(act, ['kubelet/' + name], beat));
    return [this.button('give it a kubelet: the document has none for this node', () => this.host.change(withKubelet(document, name), 'a kubelet for ' + name))];
  }

  zoneRows(name, beat) {
    const { document } = this.host, nodes = nodesOf(document, name.startsWith('/ ') ? '/' : name);
    const kubelets = nodes.map(node => 'kubelet/' + node).filter(each => hasProcess(document, each));
    if (kubelets.length === 0) return [make('p', {}, 'The document has no kubelet in this zone.')];
    const acts = ACTS.filter(act => /^(kubelet|pause|slow|messages)/.test(act.words) && act.of.includes('node'));
    return acts.map(act => this.actRow({ ...act, words: 'all ' + kubelets.length + ': ' + act.words }, kubelets, beat));
  }

  // A row for an act: its numbers, and the button that does it.
  actRow(act, names, beat) {
    const name = ask => act.words + ' ' + ask.words + ', ' + ask.unit;
    const inputs = (act.asks || []).map(ask => make('input', { type: 'number', value: ask.value, step: 'any', 'aria-label': name(ask) }));
    const go = () => this.act(act, names, beat, inputs);
    for (const input of inputs) input.addEventListener('keydown', event => { if (event.key === 'Enter') go(); });
    const asked = (act.asks || []).flatMap((ask, i) => [ask.words + ' ', inputs[i], ' ' + ask.unit + ' ']);
    return make('div', { className: 'row' }, this.button(act.words, go), ...(asked.length ? [make('span', {}, ...asked)] : []));
  }

  act(act, names, beat, inputs) {
    const values = inputs.map(input => Number(input.value));
    if (inputs.some((input, i) => input.value === '' || !Number.isFinite(values[i]))) return;
    const { document } = this.host, events = names.flatMap(name => eventsOfAct(act, name, beat, values, document));
    this.close(true);
    this.host.change(withEvents(document, events), act.words);
  }

  // An event: its beat, its values, and a button that takes it away.
  openEvent(place, spot) {
    const { document } = this.host, event = eventsOf(document)[place];
    const title = subject(event) + ' ' + TOLD[event.type](event, document);
    const rows = [fieldInput('at', event.beat * beatMillis(document) / 1000, { unit: 's', step: 'any', least: 0 }, value => this.move(place, value))];
    for (const field of FIELDS[event.type] || []) {
      rows.push(fieldInput(field.label, field.get(event, document), field, value => this.set(place, field, value)));
    }
    rows.push(this.button('take it away', () => { this.close(true); this.host.change(withEvent(document, place, null)[0], 'an event taken away'); }));
    this.open(title, rows, spot);
  }

  move(place, seconds) {
    const { document } = this.host, beat = Math.round(seconds * 1000 / beatMillis(document));
    this.close(true);
    this.host.change(withEvent(document, place, { ...eventsOf(document)[place], beat })[0], 'an event moved');
  }

  set(place, field, value) {
    const { document } = this.host;
    this.close(true);
    this.host.change(withEvent(document, place, field.set(eventsOf(document)[place], value, document))[0], 'an event changed');
  }

  button(words, act) { return make('button', { type: 'button', onclick: act }, words); }

  open(title, rows, { x, y }) {
    const { box } = this;
    box.setAttribute('aria-label', title);
    box.replaceChildren(make('h2', {}, title), ...rows, make('p', { className: 'hint' }, 'Escape closes; Ctrl+Z undoes'));
    box.hidden = false;
    const width = box.offsetWidth, height = box.offsetHeight;
    box.style.left = Math.max(MARGIN, Math.min(x + 8, innerWidth - width - MARGIN)) + 'px';
    box.style.top = Math.max(MARGIN, Math.min(y + 8, innerHeight - height - MARGIN)) + 'px';
    const first = box.querySelector('button, input, select');
    if (first) first.focus({ preventScroll: true });
  }

  close(isDone) {
    if (!this.isOpen) return;
    this.box.hidden = true;
    if (isDone) this.host.focusStage();
  }

  key(event) {
    if (event.key === 'Escape') { event.preventDefault(); event.stopPropagation(); return this.close(true); }
    const step = { ArrowDown: 1, ArrowUp: -1 }[event.key];
    if (!step || event.target.tagName === 'INPUT') return;
    event.preventDefault();
    const buttons = [...this.box.querySelectorAll('button')], at = buttons.indexOf(document.activeElement);
    buttons[(at + step + buttons.length) % buttons.length].focus();
  }
}
