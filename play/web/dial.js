// One setting: its name, a slider and a number with its unit, and where upstream's default is. While it is dragged it tells each value,
// and once more when it stays.

import { make, short } from './words.js';

let made = 0;

export class Dial {
  // `label`, `help`, `unit`, `scale` (units of the key in one unit shown), `slider` [least, most, step] in units shown, `least` and `most`
  // of the key, `marks` [{ value, words }] in units of the key, `path` in the document, `get(document)`, `set(document, value)`.
  constructor(what, host) {
    Object.assign(this, what);
    this.scale = this.scale || 1;
    this.host = host;
    this.row = this.build();
  }

  build() {
    const id = 'dial-' + ++made, [least, most, step] = this.slider;
    this.range = make('input', { type: 'range', min: least, max: most, step, tabIndex: 0, 'aria-label': this.label + ', slider' });
    this.number = make('input', { type: 'number', id, step: 'any', placeholder: '∞', min: this.least / this.scale, max: this.most / this.scale });
    this.error = make('p', { className: 'error', id: id + '-error', hidden: true });
    this.number.setAttribute('aria-describedby', id + '-error');
    for (const input of [this.range, this.number]) {
      input.addEventListener('input', () => this.tell(input));
      input.addEventListener('change', () => this.host.keep(this.label));
    }
    this.defaults = (this.marks || []).map(mark => this.mark(mark));
    return make('div', { className: 'dial', title: this.help }, make('label', { htmlFor: id }, this.label),
      make('span', { className: 'value' }, this.number, make('span', { className: 'unit' }, this.unit)),
      make('div', { className: 'track' }, this.range, ...this.defaults.map(({ button }) => button)), this.error);
  }

  // A mark under the slider at a default, which sets it. A default may depend on the document.
  mark({ value, words }) {
    const of = typeof value === 'function' ? value : () => value;
    const set = () => { this.host.preview(this.set(this.host.document, of(this.host.document)), this); this.host.keep(this.label); this.sync(this.host.document); };
    return { of, words, button: make('button', { type: 'button', className: 'default', onclick: set }, '▲') };
  }

  syncDefault({ of, words, button }, document) {
    const [least, most] = this.slider, value = of(document) / this.scale, told = words + ', ' + short(value) + ' ' + this.unit;
    button.style.setProperty('--share', Math.max(0, Math.min(1, (value - least) / (most - least))));
    button.title = told + '; sets it';
    button.setAttribute('aria-label', this.label + ': ' + told);
  }

  tell(input) {
    const value = Number(input.value);
    if (input.value === '' || !Number.isFinite(value)) return;
    const other = input === this.range ? this.number : this.range;
    other.value = short(value);
    this.host.preview(this.set(this.host.document, Math.round(value * this.scale)), this);
  }

  // Shows the value that the document has, but for an input that somebody writes in.
  sync(document) {
    const value = this.get(document) / this.scale, written = Number.isFinite(value) ? short(value) : '';
    this.range.value = Math.min(value, this.slider[1]);
    if (this.number !== window.document.activeElement || Number(this.number.value) !== value) this.number.value = written;
    for (const each of this.defaults) this.syncDefault(each, document);
    this.row.classList.toggle('changed', this.first !== undefined && this.first !== this.get(document));
  }

  say(words) {
    this.error.hidden = !words;
    this.error.textContent = words || '';
    this.row.classList.toggle('wrong', !!words);
    this.number.setAttribute('aria-invalid', words ? 'true' : 'false');
  }
}
