// The answers over the picture: whether two can lead, for how long nobody does, who is evicted and how late, and each lease's room; and how
// that differs from the state that is pinned.

/* global element */

import { count, make, plural, time } from './words.js';

const beats = (answer, key) => answer.summary && key(answer.summary) * answer.summary.header.beatMillis;
const longest = answer => beats(answer, told => told.spansWithoutLeader.longest);
const sum = answer => beats(answer, told => told.spansWithoutLeader.sum);
const atEnd = answer => beats(answer, () => answer.leaderlessAtEnd);
const twoLead = answer => beats(answer, told => told.header.twoLeadBeats);
const evicted = answer => answer.summary && answer.summary.evictions.count;
const isRuledOut = answer => / premise=yes\n/.test(answer.trace.slice(0, 200));

// How a number differs from that of the pinned state, as words.
function differs(now, then, tell) {
  if (then === null || then === undefined || now === null) return null;
  const words = now === then ? 'as pinned' : 'pinned: ' + tell(then) + (typeof now === 'number' ? ' (' + (now > then ? '+' : '') + tell(now - then) + ')' : '');
  return make('span', { className: now === then ? 'same' : 'differs' }, words);
}

function card(title, value, rest, name, more) {
  return make('div', { className: 'card ' + (name || '') }, make('h3', {}, title), make('p', { className: 'value' }, value),
    make('p', { className: 'rest' }, rest), more || null);
}

const UNKNOWN = '–', NO_LENS = 'needs the built program kube_lens';

export class Answers {
  // The host has `goToOverlap()` and `runLonger()`.
  constructor(holder, host) { Object.assign(this, { holder, host }); }

  show(answer, pinned) {
    const other = pinned || {};
    this.holder.replaceChildren(this.leaders(answer, other), this.leaderless(answer, other), this.evictions(answer, other), this.margins(answer, other));
  }

  leaders(answer, pinned) {
    const yes = isRuledOut(answer), two = twoLead(answer), then = pinned.trace === undefined ? null : isRuledOut(pinned);
    const tell = ruled => (ruled ? 'ruled out' : 'not ruled out');
    const rest = yes ? 'premise=yes, whatever the network does, with leaders that release as the settings say' : 'premise=no: nothing is promised';
    const parts = [then === null ? null : differs(tell(yes), tell(then), words => words)];
    if (two) parts.unshift(make('button', { type: 'button', className: 'loud', onclick: () => this.host.goToOverlap() }, 'two lead for ' + time(two) + ' here'));
    else if (two === 0 && !yes) parts.unshift(make('span', {}, 'not here: two lead for 0 s'));
    return card('Two leaders', tell(yes), rest, yes ? 'good' : 'bad', make('p', { className: 'rest' }, ...parts.filter(Boolean)));
  }

  leaderless(answer, pinned) {
    const most = longest(answer), open = atEnd(answer), isOpen = most !== null && open > 0;
    const where = isOpen ? 'and at the end of the run, for ' + time(open) + ' so far; ' : 'at longest; ';
    const rest = most === null ? NO_LENS : where + time(sum(answer)) + ' in all, ' + plural(answer.summary.terms, 'term');
    const value = most === null ? UNKNOWN : (open === most && isOpen ? 'over ' : '') + time(most);
    const longer = isOpen ? make('button', { type: 'button', onclick: () => this.host.runLonger() }, 'run twice as long') : null;
    const parts = [differs(most, pinned.trace ? longest(pinned) : null, time), longer].filter(Boolean);
    return card('Nobody leads', value, rest, isOpen ? 'bad' : '', make('p', { className: 'rest' }, ...parts));
  }

  evictions(answer, pinned) {
    const number = evicted(answer);
    const rest = number === null ? NO_LENS : lateWords(answer.summary);
    return card('Pods evicted', number === null ? UNKNOWN : count(number), rest, '', differs(number, pinned.trace ? evicted(pinned) : null, count));
  }

  // The room of each controller's lease. Controllers with the same room share a row.
  margins(answer, pinned) {
    if (!answer.margin) return card('Room of the lease', UNKNOWN, NO_LENS);
    const rows = new Map();
    for (const each of answer.margin.controllers) {
      const key = JSON.stringify({ ...each, name: '' });
      rows.set(key, { ...each, names: [...(rows.has(key) ? rows.get(key).names : []), each.name] });
    }
    const table = make('table', {}, make('tbody', {}, ...[...rows.values()].map(row => this.marginRow(row, rows.size, pinned))));
    return make('div', { className: 'card wide' }, make('h3', {}, 'Room of the lease'), table);
  }

  marginRow({ names, slackMillis, leastLeaseSeconds, longestStallMillis, leaseMillis }, rows, pinned) {
    const who = rows === 1 && names.length > 1 ? 'all ' + names.length : names.join(', '), isShort = longestStallMillis === null;
    const then = pinned.margin && pinned.margin.controllers.find(each => each.name === names[0]);
    const room = isShort ? time(-slackMillis) + ' too short' : time(slackMillis) + ' to spare';
    const was = then && then.slackMillis !== slackMillis ? make('span', { className: 'differs' }, ' (was ' + time(then.slackMillis) + ')') : '';
    return make('tr', { className: isShort ? 'bad' : 'good' }, make('th', { scope: 'row' }, who), make('td', {}, room, was),
      make('td', {}, 'lease ' + time(leaseMillis) + (leastLeaseSeconds === null ? ', and none up to a day would do' : ', least ' + leastLeaseSeconds + ' s')),
      make('td', {}, isShort ? '' : 'bears a stall of ' + time(longestStallMillis)));
  }
}

function lateWords({ evictions, podDelaySeconds }) {
  if (evictions.count === 0) return 'none in this run';
  const words = podDelaySeconds === null ? [] : [time(podDelaySeconds * 1000) + ' after their node fell silent at latest'];
  const own = evictions.lateByItsClockMicros, real = evictions.lateInTrueTimeMicros;
  if (own) words.push(own.most < 1e5 ? 'none late' : 'up to ' + time(own.most / 1000) + ' after they were due');
  if (real && real.least < -1e5) words.push('up to ' + time(-real.least / 1000) + ' early in true time');
  return words.join('; ');
}

export function inWords(answer) {
  const most = longest(answer), number = evicted(answer);
  return ['two leaders ' + (isRuledOut(answer) ? 'ruled out' : 'not ruled out'), twoLead(answer) ? 'two lead for ' + time(twoLead(answer)) : '',
    most === null ? '' : 'nobody leads for ' + time(most) + ' at longest', number === null ? '' : plural(number, 'pod') + ' evicted'].filter(Boolean).join(', ');
}
