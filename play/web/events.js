// The events of the document as a list, in which each is changed and taken away, and a further one is added: all by keyboard.

import { FIELDS, SIGNS, STORE, TOLD, processes, subject } from './acts.js';
import { beatMillis, eventsOf, withEvent } from './draft.js';
import { fieldInput } from './fields.js';
import { count, make, short } from './words.js';

const MOST_ROWS = 100;
const NEW = { crash: {}, start: {}, stop: {}, pause: { beats: 100 }, rate: { ratePpm: 1020000 }, delay: { requestBeats: 10, replyBeats: 10 },
  loss: { requests: true, replies: true }, watch: { on: false }, ready: { status: 'False' } };
const NEW_OF_STORE = { stall: { beats: 120 } };
const OF_CONTROLLERS = ['stop', 'watch'], OF_KUBELETS = ['ready'];

export class EventList {
  constructor(host) {
    this.host = host;
    this.rows = make('ol', { className: 'events' });
    this.more = make('p', { className: 'hint' });
    this.list = make('div', {}, this.rows, this.more, this.addForm());
    this.shown = null;
  }

  show(document) {
    const events = eventsOf(document), isOpen = this.rows.contains(window.document.activeElement);
    if (this.shown === events || (isOpen && this.host.isDragging)) return;
    this.shown = events;
    this.rows.replaceChildren(...events.slice(0, MOST_ROWS).map((event, place) => this.row(document, event, place)));
    const more = events.length > MOST_ROWS ? 'and ' + count(events.length - MOST_ROWS) + ' more, on the picture' : '';
    this.more.textContent = events.length === 0 ? 'None. Click on a lane to make something happen.' : more;
    this.fillForm(document);
  }

  row(document, event, place) {
    const at = make('input', { type: 'number', step: 'any', min: 0, value: short(event.beat * beatMillis(document) / 1000) });
    at.setAttribute('aria-label', 'at, s: ' + subject(event) + ' ' + event.type);
    at.onchange = () => this.move(place, Number(at.value));
    const fields = (FIELDS[event.type] || []).map(field => fieldInput(field.label, field.get(event, document), field, value => this.set(place, field, value)));
    const words = subject(event) + ' ' + TOLD[event.type](event, document);
    const takeAway = () => this.host.change(withEvent(this.host.document, place, null)[0], 'an event taken away');
    const remove = make('button', { type: 'button', title: 'take it away', onclick: takeAway }, '×');
    remove.setAttribute('aria-label', 'take away: ' + words);
    const more = fields.length ? make('details', {}, make('summary', {}, words), ...fields) : make('span', { className: 'words' }, words);
    return make('li', {}, make('span', { className: 'sign', 'aria-hidden': 'true' }, SIGNS[event.type]), at, make('span', { className: 'unit' }, 's'), more, remove);
  }

  move(place, seconds) {
    if (!Number.isFinite(seconds)) return;
    const { document } = this.host, beat = Math.round(seconds * 1000 / beatMillis(document));
    this.host.change(withEvent(document, place, { ...eventsOf(document)[place], beat })[0], 'an event moved');
  }

  set(place, field, value) {
    const { document } = this.host;
    this.host.change(withEvent(document, place, field.set(eventsOf(document)[place], value, document))[0], 'an event changed');
  }

  addForm() {
    this.process = make('select', { 'aria-label': 'process of a new event' });
    this.type = make('select', { 'aria-label': 'what happens' });
    this.at = make('input', { type: 'number', min: 0, step: 'any', value: 5, 'aria-label': 'at, s, of a new event' });
    this.process.onchange = () => this.fillTypes();
    const add = make('button', { type: 'button', onclick: () => this.add() }, 'add');
    return make('div', { className: 'row add' }, this.process, this.type, this.at, ' s ', add);
  }

  fillForm(document) {
    const names = [...processes(document), STORE], kept = this.process.value;
    if (names.join() === this.names) return;
    this.names = names.join();
    this.process.replaceChildren(...names.map(name => make('option', { value: name }, name)));
    if (names.includes(kept)) this.process.value = kept;
    this.fillTypes();
  }

  fillTypes() {
    const isKubelet = this.process.value.startsWith('kubelet/');
    const types = this.isOfStore() ? Object.keys(NEW_OF_STORE) : Object.keys(NEW).filter(type => !(isKubelet ? OF_CONTROLLERS : OF_KUBELETS).includes(type));
    this.type.replaceChildren(...types.map(type => make('option', { value: type }, type)));
  }

  isOfStore() { return this.process.value === STORE; }

  add() {
    const { document } = this.host, beat = Math.round(Number(this.at.value) * 1000 / beatMillis(document)), type = this.type.value;
    const event = this.isOfStore() ? { beat, type, ...NEW_OF_STORE[type] } : { beat, type, process: this.process.value, ...NEW[type] };
    this.host.change(withEvent(document, null, event)[0], 'an event added');
  }

  refuse(place, why) {
    const row = this.rows.children[place];
    if (!row) return false;
    row.classList.add('wrong');
    row.append(make('p', { className: 'error' }, why.trim()));
    row.closest('details').open = true;
    return true;
  }

  clear() {
    for (const row of this.rows.querySelectorAll('.wrong')) {
      row.classList.remove('wrong');
      row.querySelector('.error').remove();
    }
  }
}
