// The playground: one document that is changed by clicking, and what it answers.

/* global element, KEYS */

import { Answers, inWords } from './answers.js';
import { Asking } from './asking.js';
import { differences } from './differences.js';
import { bodyOf, eventsOf, read, textOf, withSetting } from './draft.js';
import { Marks } from './marks.js';
import { Menu } from './menu.js';
import { Panel } from './panel.js';
import { Stage } from './stage.js';
import { TakeAway } from './takeaway.js';
import { Undo } from './undo.js';
import { make } from './words.js';

const SLOW = 150, SAYS_AFTER = 600;

KEYS.push(['j k', 'the next lane, the one before: a moment on it is chosen'], ['h l (Shift)', 'moves that moment (by one beat)'],
  ['Enter', 'opens what can be done there'], ['Ctrl + Z, Y', 'undo, redo']);

class Playground {
  constructor({ name, examples, known, command, mostBytes }) {
    Object.assign(this, { examples, known, command, mostBytes, first: name });
    Object.assign(this, { undo: null, answer: null, shown: null, pinned: null, dragged: null, isDragging: false, times: [] });
    this.buildElements();
    this.asking = new Asking((...told) => this.told(...told));
    this.stage = new Stage({ onMoment: (...moment) => this.openLane(...moment), onFile: (text, file) => this.load(text, file.replace(/\.json$/, '')),
      onDrawn: () => { if (this.undo) this.marks.place(); }, say: words => this.say(words) });
    this.stage.listenPinned();
    this.marks = new Marks(element('marks'), this.stage, this);
    this.menu = new Menu(element('menu'), this);
    this.panel = new Panel(element('panel'), this);
    this.answers = new Answers(element('answers'), this);
    this.takeAway = new TakeAway(element('takeaway'), this);
    this.listen();
  }

  // What stands between the elements of the picture.
  buildElements() {
    element('scroller').prepend(make('div', { id: 'marks' }));
    const pinned = make('canvas', { id: 'pinned', 'aria-label': 'the timeline of the pinned state' });
    element('scroller').before(make('div', { id: 'pinned-holder', hidden: true }, make('span', { id: 'pinned-title' }), pinned));
    const list = element('examples');
    const option = each => make('option', { value: each.name, title: each.sentence }, each.name + ' – ' + each.sentence);
    list.append(make('option', { value: '' }, '–'), ...this.examples.map(option));
  }

  listen() {
    const click = (id, act) => { element(id).onclick = act; };
    click('undo', () => this.step('undo'));
    click('redo', () => this.step('redo'));
    click('back', () => this.change(this.opened, 'start over'));
    click('take', () => { if (this.shown) this.takeAway.open(); });
    click('pin', () => this.togglePin());
    click('panel-toggle', () => this.togglePanel());
    element('examples').onchange = event => {
      const example = this.examples.find(each => each.name === event.target.value);
      if (example) this.load(example.text, example.name);
    };
    addEventListener('keydown', event => this.key(event));
  }

  key(event) {
    if (!(event.ctrlKey || event.metaKey) || event.altKey || event.target.tagName === 'TEXTAREA' || document.querySelector('dialog[open]')) return;
    const act = { z: event.shiftKey ? 'redo' : 'undo', y: 'redo' }[event.key.toLowerCase()];
    if (!act) return;
    event.preventDefault();
    this.step(act);
  }

  // The state: the document as it is and as it was opened, and its name

  get document() { return this.undo.now.document; }

  // The document as it was opened.
  get opened() { return this.undo.now.opened; }

  // Another document, by its text. It becomes the state once it is accepted.
  load(text, name) {
    if (/^trace 1 /.test(text)) return this.trouble(name + ' is a trace. The playground opens documents; ./timeline draws a trace.');
    if (new Blob([text]).size > this.mostBytes) return this.trouble(name + ' has more than ' + this.mostBytes.toLocaleString('en') + ' bytes, and no document has.');
    this.asking.ask({ body: text, text, name, isNew: true, document: null, since: performance.now() });
    return null;
  }

  // A change on the way, as while somebody drags.
  preview(document, dial) {
    this.isDragging = true;
    this.dragged = dial || null;
    this.undo.preview({ ...this.undo.now, document });
    this.ask();
    if (dial) this.panel.sync();
  }

  // The change stays.
  keep(words) {
    this.isDragging = false;
    if (this.undo.keep()) this.lastWords = words;
    this.sync();
  }

  change(document, words) {
    this.isDragging = false;
    this.dragged = null;
    this.undo.change({ ...this.undo.now, document });
    this.lastWords = words;
    this.sync();
    this.ask();
  }

  step(which) {
    if (!this.undo) return;
    const { opened } = this.undo.now;
    this.isDragging = false;
    this.dragged = null;
    if (!this.undo[which]()) return;
    const isOther = this.undo.now.opened !== opened;
    if (isOther) this.panel.build();
    this.sync();
    this.ask(isOther);
  }

  ask(isOther = false) {
    const { document, name } = this.undo.now;
    this.asking.ask({ ...bodyOf(document), document, name, isOther, since: performance.now() });
  }

  // What the server says

  told(question, answer, took, isLast) {
    if (answer.fault || answer.refused) {
      if (isLast || question.isNew) this.refuse(question, answer);
      return;
    }
    if (!isLast && took > SLOW && !question.isNew) return;
    if (question.isNew) this.begin(question);
    this.trouble(null);
    this.panel.clear();
    this.marks.wrong = null;
    Object.assign(this, { answer, shown: question });
    this.stage.show(answer.trace, question.document, question.name, question.isNew || question.isOther);
    answer.leaderlessAtEnd = this.stage.leaderlessAtEnd();
    this.showAnswers(false);
    this.showPinned();
    this.times.push(performance.now() - question.since);
    if (this.times.length > 1000) this.times.shift();
  }

  // A document that is opened.
  begin(question) {
    question.document = read(question.text);
    const state = { document: question.document, name: question.name, opened: question.document };
    if (this.undo) this.undo.change(state); else this.undo = new Undo(state);
    const example = this.examples.find(each => each.name === question.name && each.text === question.text);
    element('examples').value = example ? example.name : '';
    element('sentence').textContent = example ? example.sentence : question.name;
    this.panel.build();
    this.sync();
  }

  refuse(question, { fault, refused }) {
    const words = fault || question.name + ' is refused (' + refused.code + ' ' + refused.path + '): ' + refused.why.trim();
    if (!this.undo && refused && !this.early) {
      this.early = words;
      return this.load(this.examples[0].text, this.examples[0].name);
    }
    if (question.isNew || fault) return this.trouble(words, !question.isNew);
    const event = /^\/events\/([0-9]+)/.exec(refused.path);
    this.marks.wrong = event ? Number(event[1]) : null;
    this.panel.refuse(refused, this.dragged);
    this.trouble('Refused, so the picture is of the last state that was accepted: ' + refused.why.trim(), true);
  }

  trouble(words, isStale = false) {
    const box = element('trouble'), text = words || this.early || '';
    this.early = null;
    box.hidden = !text;
    box.textContent = text;
    element('stage').classList.toggle('stale', isStale);
    element('answers').classList.toggle('stale', isStale);
    if (isStale) this.stage.draw();
  }

  showAnswers() {
    this.answers.show(this.answer, this.pinned && this.pinned.answer);
    clearTimeout(this.sayTimer);
    this.sayTimer = setTimeout(() => this.say(inWords(this.answer)), SAYS_AFTER);
  }

  say(words) { element('said').textContent = words; }

  sync() {
    this.panel.sync();
    element('undo').disabled = this.undo.past.length === 0;
    element('redo').disabled = this.undo.future.length === 0;
    element('back').disabled = this.document === this.opened;
    if (this.stage.chart) this.stage.draw();
  }

  // Comparing

  togglePin() {
    if (!this.shown) return;
    this.pinned = this.pinned ? null : { answer: this.answer, document: this.shown.document, name: this.shown.name };
    element('pin').setAttribute('aria-pressed', String(!!this.pinned));
    element('pin').textContent = this.pinned ? 'unpin' : 'pin';
    const { pinned } = this;
    this.stage.pin(pinned ? pinned.answer.trace : null, pinned && pinned.document, pinned && pinned.name);
    this.showAnswers();
    this.showPinned();
  }

  showPinned() {
    if (!this.pinned) return;
    const { pinned, shown } = this, same = pinned.name === shown.name;
    element('pinned-title').textContent = 'pinned: ' + pinned.name + '. Below: ' + (same ? differences(pinned.document, shown.document, this.known.flags) : shown.name);
  }

  // What the parts ask for

  openLane(lane, beat, spot) { if (this.undo) this.menu.openLane(lane, beat, spot); }

  openEvent(place, spot) { this.menu.openEvent(place, spot); }

  focusStage() { this.stage.canvas.focus({ preventScroll: true }); }

  leadersAt(beat) {
    return [...new Set(this.stage.model.terms.filter(term => term.from <= beat && beat < term.to).map(term => term.lane.name))];
  }

  goToOverlap() {
    const [first] = this.stage.model.overlaps;
    if (first) this.stage.goTo(this.stage.model.leaderLane, first.from, null, (first.to - first.from) * 12);
  }

  runLonger() {
    const { endBeat } = this.document.settings;
    this.change(withSetting(this.document, 'endBeat', Math.max(1, Math.min(2 * endBeat, this.known.settings.endBeat.maximum))), 'a longer run');
  }

  togglePanel() {
    const panel = element('panel'), button = element('panel-toggle');
    panel.hidden = !panel.hidden;
    button.setAttribute('aria-expanded', String(!panel.hidden));
  }

  taken() {
    const { shown, answer, known, command, stage } = this;
    return { name: shown.name, text: textOf(shown.document), document: shown.document, trace: answer.trace, chart: stage.chart, known, command,
      isStale: element('stage').classList.contains('stale') };
  }

  // Whether what stands is the answer on the last change. For those who test it.
  get isSettled() { return !!this.shown && !this.asking.isBusy; }

  get events() { return eventsOf(this.document); }
}

async function begin() {
  const [beginning, text] = await Promise.all([fetch('beginning').then(reply => reply.json()), fetch('document').then(reply => reply.text())]);
  const playground = new Playground(beginning);
  window.playground = playground;
  window.timeline = playground.stage;
  playground.load(text, beginning.name);
}

begin();
