// Documents, which are never changed: each change gives another one, which shares with the old one what stays.

const VERSION_OF_TIMINGS = 2, VERSION_OF_PAUSES = 3, VERSION_OF_STALLS = 4, VERSION_OF_RULES = 4, LONG_NUMBER = /[0-9]{16}/;
const RULES = ['rules', 'retries', 'respect', 'firstSyncMillis', 'probe', 'judge', 'firstSight', 'queue', 'bucket', 'evictFrom', 'evictBurst', 'evictRate',
  'release', 'inRelease', 'readyMillis', 'readyBurst'];
const OWN_TIMINGS = ['leaseDurationSeconds', 'renewDeadlineMillis', 'retryPeriodMillis', 'callTimeoutMillis'];

// Numbers that a double can't hold are kept as they are written.
function exact(key, value, { source } = {}) {
  return typeof value === 'number' && source && !Number.isSafeInteger(value) && /^-?[0-9]+$/.test(source) ? JSON.rawJSON(source) : value;
}

export function read(text) {
  return LONG_NUMBER.test(text) && JSON.rawJSON ? JSON.parse(text, exact) : JSON.parse(text);
}

// The text of a document: what stands before its objects, and these, which come last.
const OBJECTS = ',"objects":', EMPTY = '}';

function headOf(document) {
  const { objects: _, ...rest } = document;
  return JSON.stringify(rest).slice(0, -1);
}

const tailOf = ({ objects }) => (objects === undefined ? EMPTY : OBJECTS + JSON.stringify(objects) + '}');

export const textOf = document => headOf(document) + tailOf(document);

// The same to be sent, and where in it the objects begin. Those may be megabytes: their bytes are made once for all documents that share them.
const tails = new WeakMap();

export function bodyOf(document) {
  const head = new Blob([headOf(document)]), { objects } = document;
  if (objects === undefined || objects === null) return { body: new Blob([head, tailOf(document)]), objectsAt: 0 };
  if (!tails.has(objects)) tails.set(objects, new Blob([tailOf(document)]));
  return { body: new Blob([head, tails.get(objects)]), objectsAt: head.size };
}

// An object with a key of another value, or without it where the value is undefined.
function withKey(object, key, value) {
  if (value !== undefined) return { ...object, [key]: value };
  const { [key]: _, ...rest } = object;
  return rest;
}

function atLeastVersion(document, version) {
  return document.version >= version ? document : { ...document, version };
}

export function withSetting(document, key, value) {
  const changed = { ...document, settings: withKey(document.settings, key, value) };
  if (value === undefined) return changed;
  return RULES.includes(key) ? atLeastVersion(changed, VERSION_OF_RULES) : key === 'ratePolicy' ? atLeastVersion(changed, VERSION_OF_TIMINGS) : changed;
}

export function withController(document, place, key, value) {
  const controllers = document.controllers.map((each, i) => (i === place ? withKey(each, key, value) : each));
  const changed = { ...document, controllers };
  return OWN_TIMINGS.includes(key) && value !== undefined ? atLeastVersion(changed, VERSION_OF_TIMINGS) : changed;
}

export function withKubelet(document, node) {
  return { ...document, kubelets: [...(document.kubelets || []), { node }] };
}

export const eventsOf = document => document.events || [];

// The document with an event at a place changed, or taken away where there is none, and the place at which it stands then. A new event
// has no place before. It comes behind the others of its beat.
export function withEvent(document, place, event) {
  const old = eventsOf(document);
  if (place !== null && event && old[place].beat === event.beat) return [put(document, old.map((each, i) => (i === place ? event : each)), event), place];
  const events = place === null ? [...old] : old.filter((_, i) => i !== place);
  if (!event) return [put(document, events), null];
  const behind = events.findIndex(each => each.beat > event.beat), at = behind < 0 ? events.length : behind;
  events.splice(at, 0, event);
  return [put(document, events, event), at];
}

function put(document, events, event) {
  const changed = { ...document, events };
  const least = event && { pause: VERSION_OF_PAUSES, stall: VERSION_OF_STALLS }[event.type];
  return least ? atLeastVersion(changed, least) : changed;
}

export function withEvents(document, events) {
  return events.reduce((changed, event) => withEvent(changed, null, event)[0], document);
}

export const beatMillis = document => (document.settings || {}).beatMillis || 100;
export const beatsOf = (document, millis) => Math.max(1, Math.round(millis / beatMillis(document)));

// How long requests and replies of a process travel at first: the last such event of beat 0, one beat each where there is none.
const isFirstDelay = (event, process) => event.type === 'delay' && event.beat === 0 && event.process === process;

export function firstDelay(document, process) {
  return eventsOf(document).findLast(event => isFirstDelay(event, process)) || { requestBeats: 1, replyBeats: 1 };
}

export function withFirstDelay(document, process, beats) {
  const others = eventsOf(document).filter(event => !isFirstDelay(event, process));
  const delay = { beat: 0, type: 'delay', process, requestBeats: beats, replyBeats: beats };
  return { ...document, events: beats > 1 ? [delay, ...others] : others };
}

// Tolerations. Those that count for a silent node are of every effect or NoExecute, and of every key or the taint `unreachable`.

const UNREACHABLE = 'node.kubernetes.io/unreachable', NOT_READY = 'node.kubernetes.io/not-ready';
const items = document => ((document.objects || {}).items || []);
const isOf = (toleration, key) => (!toleration.key || toleration.key === key) && (!toleration.effect || toleration.effect === 'NoExecute');

// For how long a pod stays on a node that is unreachable: seconds, Infinity, or 0 where it doesn't tolerate that.
export function tolerated(pod) {
  const all = ((pod.spec || {}).tolerations || []).filter(each => isOf(each, UNREACHABLE));
  if (all.length === 0) return 0;
  const seconds = all.filter(each => each.tolerationSeconds !== undefined && each.tolerationSeconds !== null).map(each => Number(JSON.stringify(each.tolerationSeconds)));
  return seconds.length === 0 ? Infinity : Math.max(0, Math.min(...seconds));
}

// The pods of a document by how long they tolerate, each group with the places of its pods.
export function toleranceGroups(document) {
  const groups = new Map();
  items(document).forEach((item, place) => {
    if (item.kind !== 'Pod') return;
    const seconds = tolerated(item);
    if (!groups.has(seconds)) groups.set(seconds, []);
    groups.get(seconds).push(place);
  });
  return [...groups].sort(([a], [b]) => a - b).map(([seconds, places]) => ({ seconds, places }));
}

function tolerating(pod, seconds) {
  const others = ((pod.spec || {}).tolerations || []).filter(each => !(isOf(each, UNREACHABLE) || isOf(each, NOT_READY)));
  const own = [NOT_READY, UNREACHABLE].map(key => ({ key, operator: 'Exists', effect: 'NoExecute', ...(seconds === Infinity ? {} : { tolerationSeconds: seconds }) }));
  return { ...pod, spec: { ...pod.spec, tolerations: [...others, ...own] } };
}

export function withTolerance(document, places, seconds) {
  const chosen = new Set(places);
  const changed = items(document).map((item, place) => (chosen.has(place) ? tolerating(item, seconds) : item));
  return { ...document, objects: { ...document.objects, items: changed } };
}

// The nodes of a zone, by the labels of the nodes that are stored at first.
export function nodesOf(document, zone) {
  const label = (node, name) => ((node.metadata.labels || {})['topology.kubernetes.io/' + name]) || '';
  return items(document).filter(item => item.kind === 'Node' && label(item, 'region') + '/' + label(item, 'zone') === zone).map(node => node.metadata.name);
}

export const hasProcess = (document, process) => (process.startsWith('kubelet/')
  ? (document.kubelets || []).some(each => 'kubelet/' + each.node === process)
  : document.controllers.some(each => each.name === process));
