// What is taken away: the document, its trace, the picture, the command that gives the same, and the flags.

import { drawn } from './drawing.js';
import { make, short } from './words.js';

const MOST_IN_A_COMMAND = 4000;
const SECONDS = /Millis$|Seconds$/, NO_FLAG = 'kube-controller-manager has no flag for that: it is its renew deadline, or half of it.';

// The settings as kube-controller-manager's flags: those of the election, and all others that the document says.
export function flagsOf(document, { flags, settings }) {
  const election = Object.keys(flags).filter(key => flags[key].startsWith('--leader-elect'));
  const keys = Object.keys(flags).filter(key => election.includes(key) || document.settings[key] !== undefined);
  return keys.map(key => flags[key] + '=' + flagValue(key, document.settings[key] ?? settings[key].default));
}

function flagValue(key, value) {
  if (!SECONDS.test(key)) return short(key.endsWith('Rate') ? value / 1000 : key === 'unhealthyPercent' ? value / 100 : value);
  const millis = key.endsWith('Seconds') ? value * 1000 : value;
  return millis % 1000 === 0 ? millis / 1000 + 's' : millis + 'ms';
}

// The command that gives the same trace. A short document stands in it.
export function commandOf(command, text, name) {
  if (text.length > MOST_IN_A_COMMAND) return command + ' replay < ' + name + '.json';
  return command + " replay <<'END'\n" + text + '\nEND';
}

export class TakeAway {
  // The host has `taken()`, which gives { name, text, trace, document, chart, known, command, isStale }.
  constructor(dialog, host) { Object.assign(this, { dialog, host, links: [] }); }

  open() {
    const taken = this.host.taken(), { name, text, trace, document, known, command, chart, isStale } = taken;
    this.revoke();
    const flags = flagsOf(document, known), base = name.replace(/[^A-Za-z0-9._-]/g, '-').replace(/\.json$/, '');
    const timeout = document.settings.callTimeoutMillis ?? known.settings.callTimeoutMillis.default;
    this.dialog.replaceChildren(
      make('h2', {}, 'Take away'), isStale ? make('p', { className: 'error' }, 'What stands now is refused: this is the last state that was accepted.') : '',
      make('p', { className: 'row' }, this.link('document', base + '.json', text, 'application/json'), this.link('trace', base + '.txt', trace, 'text/plain'),
        this.link('picture (SVG)', base + '.svg', drawn(chart, name), 'image/svg+xml')),
      make('h3', {}, 'The command that gives the same trace'), this.area('command', commandOf(command, text, base)),
      make('h3', {}, 'Flags of kube-controller-manager'), this.area('flags', flags.join(' ')),
      make('p', { className: 'hint' }, 'Calls wait ' + timeout / 1000 + ' s for a reply here. ' + NO_FLAG),
      make('form', { method: 'dialog' }, make('button', {}, 'close')));
    this.dialog.showModal();
  }

  link(words, name, text, type) {
    const address = URL.createObjectURL(new Blob([text], { type }));
    this.links.push(address);
    return make('a', { className: 'button', href: address, download: name, id: 'take-' + name.split('.').pop() }, '⤓ ' + words);
  }

  area(name, text) {
    const area = make('textarea', { readOnly: true, value: text, id: 'take-' + name, 'aria-label': name });
    const copy = make('button', { type: 'button', onclick: () => this.copy(area, copy) }, 'copy');
    return make('div', {}, area, copy);
  }

  async copy(area, button) {
    area.select();
    try { await navigator.clipboard.writeText(area.value); } catch { return; }
    button.textContent = 'copied';
  }

  revoke() {
    for (const link of this.links) URL.revokeObjectURL(link);
    this.links = [];
  }
}
