// What can be done to a process at a moment, and the fields of each type of event. A field reads its value of an event and gives the event
// with another one.

import { beatMillis, beatsOf } from './draft.js';
import { short } from './words.js';

const MOST_DELAY = 6000;

const millisField = (key, label) => ({
  key, label, unit: 'ms', least: 1, step: 'any',
  get: (event, document) => event[key] * beatMillis(document),
  set: (event, value, document) => ({ ...event, [key]: Math.min(MOST_DELAY, beatsOf(document, value)) }),
});

const switchField = (key, label) => ({ key, label, isSwitch: true, get: event => event[key], set: (event, value) => ({ ...event, [key]: value }) });

const lastingField = { key: 'beats', label: 'for', unit: 's', least: 0.001, step: 'any',
  get: (event, document) => event.beats * beatMillis(document) / 1000, set: (event, value, document) => ({ ...event, beats: beatsOf(document, value * 1000) }) };

export const FIELDS = {
  pause: [lastingField],
  stall: [lastingField],
  rate: [{ key: 'ratePpm', label: 'off by', unit: '%', least: -50, most: 100, step: 'any',
    get: event => (event.ratePpm - 1e6) / 1e4, set: (event, value) => ({ ...event, ratePpm: Math.round(1e6 + value * 1e4) }) }],
  delay: [millisField('requestBeats', 'requests take'), millisField('replyBeats', 'replies take')],
  loss: [switchField('requests', 'requests are lost'), switchField('replies', 'replies are lost')],
  watch: [switchField('on', 'works')],
  ready: [{ key: 'status', label: 'posts Ready', words: ['True', 'False'], get: event => event.status, set: (event, value) => ({ ...event, status: value }) }],
};

// How each type of event is shown: a sign, and words by its values.
const ms = (beats, document) => short(beats * beatMillis(document)) + ' ms';
export const SIGNS = { crash: '✕', start: '▶', stop: '■', pause: '‖', stall: '≡', rate: '◷', delay: '⇄', loss: '⌿', watch: '◉', ready: '♥', put: '+', remove: '−' };

export const TOLD = {
  crash: () => 'crashes', start: () => 'starts', stop: () => 'stops in good order',
  pause: (event, document) => 'is paused for ' + short(event.beats * beatMillis(document) / 1000) + ' s',
  stall: (event, document) => 'stands still for ' + short(event.beats * beatMillis(document) / 1000) + ' s',
  rate: ({ ratePpm: rate }) => (rate === 1e6 ? 'its clock goes right' : 'its clock is ' + short(Math.abs(rate - 1e6) / 1e4) + ' % ' + (rate > 1e6 ? 'fast' : 'slow')),
  delay: (event, document) => 'requests take ' + ms(event.requestBeats, document) + ', replies ' + ms(event.replyBeats, document),
  loss: event => ([event.requests && 'requests', event.replies && 'replies'].filter(Boolean).join(' and ') || 'no messages') + ' are lost',
  watch: event => (event.on ? 'its watch works' : 'its watch stops'),
  ready: event => 'posts Ready ' + event.status,
  put: event => 'is stored', remove: () => 'is removed',
};

export const STORE = 'the store';
const nameOf = object => object.kind + ' ' + (object.metadata ? object.metadata.name : object.name);

export function subject(event) {
  if (event.process) return event.process.replace('kubelet/', 'kubelet of ');
  if (event.type === 'stall') return STORE;
  return nameOf(event.type === 'put' ? event.object || {} : event);
}

// An act: what it is called, whom it fits, the numbers that it asks for, and the events that it makes of a process, a beat, these numbers and
// the document. A time of 0 is up to the end.

const both = ['controller', 'node'];
const seconds = (words, value) => ({ words, value, unit: 's' });

export const ACTS = [
  { words: 'crash', of: ['controller'], events: (process, beat) => [{ beat, type: 'crash', process }] },
  { words: 'kubelet dies', of: ['node'], events: (process, beat) => [{ beat, type: 'crash', process }] },
  { words: 'stop in good order', of: ['controller'], events: (process, beat) => [{ beat, type: 'stop', process }] },
  { words: 'start', of: ['controller'], events: (process, beat) => [{ beat, type: 'start', process }] },
  { words: 'kubelet comes back', of: ['node'], events: (process, beat) => [{ beat, type: 'start', process }] },
  { words: 'pause', asks: [seconds('for', 20)], of: both,
    events: (process, beat, [length], document) => [{ beat, type: 'pause', process, beats: beatsOf(document, length * 1000) }] },
  { words: 'slow network', asks: [{ words: 'each way', value: 1500, unit: 'ms' }, seconds('for', 8)], of: both,
    events: (process, beat, [millis, length], document) => slow(process, beat, delayOf(document, millis), until(beat, length, document)) },
  { words: 'messages lost', asks: [seconds('for', 10)], of: both, events: (process, beat, [length], document) => lost(process, beat, until(beat, length, document)) },
  { words: 'clock', asks: [{ words: 'off by', value: 2, unit: '%' }], of: both,
    events: (process, beat, [percent]) => [{ beat, type: 'rate', process, ratePpm: Math.round(1e6 + percent * 1e4) }] },
  { words: 'its watch stops', of: ['controller'], events: (process, beat) => [{ beat, type: 'watch', process, on: false }] },
  { words: 'posts Ready False', of: ['node'], events: (process, beat) => [{ beat, type: 'ready', process, status: 'False' }] },
];

// What can happen to the store, and so to every process of the document; the last one is one event of no process.
export const STORE_ACTS = [...ACTS.filter(act => act.words === 'slow network' || act.words === 'messages lost')
  .map(act => ({ ...act, words: act.words === 'slow network' ? 'API server or etcd slow' : 'API server unreachable' })),
  { words: 'API server or etcd stands still', asks: [seconds('for', 12)], isOfStore: true,
    events: (_, beat, [length], document) => [{ beat, type: 'stall', beats: beatsOf(document, length * 1000) }] }];

const delayOf = (document, millis) => Math.min(MOST_DELAY, beatsOf(document, millis));
const until = (beat, length, document) => (length > 0 ? beat + beatsOf(document, length * 1000) : Infinity);

function slow(process, beat, beats, past) {
  const event = (at, travel) => ({ beat: at, type: 'delay', process, requestBeats: travel, replyBeats: travel });
  return [event(beat, beats), event(past, 1)];
}

function lost(process, beat, past) {
  const event = (at, isLost) => ({ beat: at, type: 'loss', process, requests: isLost, replies: isLost });
  return [event(beat, true), event(past, false)];
}

// What comes after the end of the run is left out.
export function eventsOfAct(act, process, beat, values, document) {
  return act.events(process, beat, values, document).filter(event => event.beat <= document.settings.endBeat);
}

export const processes = document => [...document.controllers.map(each => each.name), ...(document.kubelets || []).map(each => 'kubelet/' + each.node)];
