// One value with its label: a number with its unit, a switch, or one of some words. It tells the value when it is done.

import { make, short } from './words.js';

export function fieldInput(label, value, { unit = '', step = 'any', least, most, isSwitch, words }, done) {
  const name = label + (unit ? ', ' + unit : '');
  if (isSwitch) {
    const box = make('input', { type: 'checkbox', checked: value, onchange: event => done(event.target.checked) });
    return make('label', { className: 'row' }, box, ' ' + label);
  }
  if (words) {
    const select = make('select', { onchange: event => done(event.target.value) }, ...words.map(word => make('option', { value: word, selected: word === value }, word)));
    return make('label', { className: 'row' }, label + ' ', select);
  }
  const input = make('input', { type: 'number', value: short(value), step, min: least, max: most, 'aria-label': name });
  input.onchange = () => { if (input.value !== '' && Number.isFinite(Number(input.value))) done(Number(input.value)); };
  return make('label', { className: 'row' }, label + ' ', input, ' ' + unit);
}
