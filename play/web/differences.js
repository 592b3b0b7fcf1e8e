// What differs between two documents, in a few words.

import { TOLD, subject } from './acts.js';
import { beatMillis, eventsOf } from './draft.js';
import { plural, short, time } from './words.js';

const MOST_TOLD = 4;
const UNITS = { Millis: value => time(value), Seconds: value => value + ' s', Ppm: value => short((value - 1e6) / 1e4) + ' % off' };

function told(key, value) {
  if (value === undefined) return 'default';
  const unit = Object.keys(UNITS).find(end => key.endsWith(end));
  return unit && typeof value === 'number' ? UNITS[unit](value) : String(value);
}

function changes(then, now, name, nameOf) {
  const keys = new Set([...Object.keys(then || {}), ...Object.keys(now || {})]);
  return [...keys].filter(key => JSON.stringify((then || {})[key]) !== JSON.stringify((now || {})[key]))
    .map(key => name + (nameOf[key] || key) + ' ' + told(key, (then || {})[key]) + ' → ' + told(key, (now || {})[key]));
}

// The settings, with the length of the run as a time.
function readable(document) {
  const { endBeat, ...settings } = document.settings;
  return { ...settings, runMillis: endBeat * beatMillis(document) };
}

function moved(document, event) { return subject(event) + ' ' + TOLD[event.type](event, document) + ' at ' + time(event.beat * beatMillis(document)); }

export function differences(then, now, flags) {
  if (then === now) return 'no change';
  const found = changes(readable(then), readable(now), '', { ...flags, runMillis: 'runs for' });
  now.controllers.forEach((each, i) => found.push(...changes(then.controllers[i], each, each.name + ': ', {})));
  const before = new Set(eventsOf(then).map(each => JSON.stringify(each))), after = new Set(eventsOf(now).map(each => JSON.stringify(each)));
  found.push(...eventsOf(now).filter(each => !before.has(JSON.stringify(each))).map(each => 'new: ' + moved(now, each)));
  found.push(...eventsOf(then).filter(each => !after.has(JSON.stringify(each))).map(each => 'gone: ' + moved(then, each)));
  if (then.objects !== now.objects) found.push('objects differ');
  const more = found.length - MOST_TOLD;
  return found.length === 0 ? 'no change' : found.slice(0, MOST_TOLD).join('; ') + (more > 0 ? '; and ' + plural(more, 'more change') : '');
}
