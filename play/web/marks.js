// The events of the document as marks on their lanes, which are dragged along the time, by the mouse, a finger or the arrow keys. They
// stand over the picture's canvas, and are placed anew whenever that is drawn.

import { SIGNS, TOLD, subject } from './acts.js';
import { beatMillis, eventsOf, withEvent } from './draft.js';
import { make, time } from './words.js';

const MOST_SHOWN = 300, STARTS_DRAG = 3, HALF = 11;

export class Marks {
  // The host has `document`, `preview(document)`, `keep(words)`, `change(document, words)`, `openEvent(place, spot)`, `say(words)`.
  constructor(layer, stage, host) {
    Object.assign(this, { layer, stage, host, buttons: [], drag: null, hidden: 0 });
    layer.dataset.keys = 'own';
    layer.addEventListener('wheel', event => this.wheel(event), { passive: false });
  }

  // The wheel does over a mark what it does beside it.
  wheel(event) {
    const box = this.stage.canvas.getBoundingClientRect(), { ctrlKey, metaKey, altKey, shiftKey, deltaX, deltaY } = event;
    event.stopPropagation();
    this.stage.wheel({ ctrlKey, metaKey, altKey, shiftKey, deltaX, deltaY, offsetX: event.clientX - box.left, preventDefault: () => event.preventDefault() });
  }

  place() {
    const shown = this.inView();
    while (this.buttons.length < shown.length) this.add();
    this.buttons.forEach((button, i) => {
      button.hidden = i >= shown.length;
      if (i < shown.length) this.put(button, shown[i]);
    });
  }

  // The events in view, each with its place among all and its spot on the picture.
  inView() {
    const { document } = this.host, shown = [], { stage } = this;
    this.hidden = 0;
    for (const [place, event] of eventsOf(document).entries()) {
      if (event.beat < stage.chart.from || event.beat > stage.chart.to) continue;
      const spot = stage.place(this.laneOf(event), event.beat);
      if (!spot) continue;
      if (shown.length < MOST_SHOWN) shown.push({ place, event, spot }); else this.hidden++;
    }
    return shown;
  }

  laneOf(event) { return event.process ? this.stage.laneOf(event.process) : this.stage.model.scriptLane; }

  add() {
    const button = make('button', { className: 'mark', type: 'button', hidden: true });
    button.addEventListener('pointerdown', event => this.press(button, event));
    button.addEventListener('pointermove', event => this.move(event));
    button.addEventListener('pointerup', event => this.release(event));
    button.addEventListener('pointercancel', () => this.giveUp());
    button.addEventListener('keydown', event => this.key(button, event));
    button.addEventListener('click', event => { if (event.detail === 0) this.openEvent(button); });
    this.buttons.push(button);
    this.layer.append(button);
  }

  put(button, { place, event, spot }) {
    const { document } = this.host, words = subject(event) + ' ' + TOLD[event.type](event, document) + ', at ' + time(event.beat * beatMillis(document));
    button.eventPlace = place;
    button.textContent = SIGNS[event.type];
    button.title = words + '. Drag it; click to change it';
    button.setAttribute('aria-label', words);
    button.classList.toggle('wrong', this.wrong === place);
    button.style.transform = 'translate(' + (spot.x - HALF) + 'px,' + (spot.y + spot.height / 2 - HALF) + 'px)';
  }

  press(button, event) {
    if (event.button > 0) return;
    event.stopPropagation();
    button.setPointerCapture(event.pointerId);
    const place = button.eventPlace;
    this.drag = { button, place, from: event.clientX, beat: eventsOf(this.host.document)[place].beat, isMoving: false };
  }

  move(event) {
    const { drag } = this;
    if (!drag) return;
    const dx = event.clientX - drag.from;
    if (!drag.isMoving && Math.abs(dx) < STARTS_DRAG) return;
    drag.isMoving = true;
    this.moveTo(drag.beat + Math.round(dx * this.stage.chart.perPixel()));
  }

  // The dragged event at another beat of the run.
  moveTo(wanted) {
    const { drag } = this, { document } = this.host, event = eventsOf(document)[drag.place];
    const beat = Math.max(0, Math.min(document.settings.endBeat, wanted));
    if (beat === event.beat) return;
    const [changed, place] = withEvent(document, drag.place, { ...event, beat });
    drag.place = place;
    this.host.preview(changed);
    this.stage.draw();
  }

  release() {
    const { drag } = this;
    this.drag = null;
    if (!drag) return;
    if (drag.isMoving) this.host.keep('an event moved'); else this.openEvent(drag.button);
  }

  giveUp() {
    if (this.drag && this.drag.isMoving) this.host.keep('an event moved');
    this.drag = null;
  }

  openEvent(button) {
    const box = button.getBoundingClientRect();
    this.host.openEvent(button.eventPlace, { x: box.right, y: box.bottom });
  }

  // Arrows move an event by a beat, with Shift by ten; Delete takes it away.
  key(button, event) {
    const steps = { ArrowLeft: -1, ArrowRight: 1 }[event.key], place = button.eventPlace;
    if (event.key === 'Delete' || event.key === 'Backspace') {
      event.preventDefault();
      this.host.change(withEvent(this.host.document, place, null)[0], 'an event taken away');
    }
    if (!steps) return;
    event.preventDefault();
    event.stopPropagation();
    this.drag = { place };
    this.moveTo(eventsOf(this.host.document)[place].beat + steps * (event.shiftKey ? 10 : 1));
    const moved = this.drag.place;
    this.drag = null;
    this.host.keep('an event moved');
    this.stage.drawNow();
    this.focus(moved);
  }

  focus(place) {
    const button = this.buttons.find(each => !each.hidden && each.eventPlace === place);
    if (!button) return;
    button.focus({ preventScroll: true });
    this.host.say(button.getAttribute('aria-label'));
  }
}
