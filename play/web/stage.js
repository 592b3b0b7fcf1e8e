// The picture of the timeline, as a place to act on: it goes on with its view from one trace to the next, has a moment that keys move, and
// tells its host of clicks.

/* global Page, Chart, Told, readTrace, element, timeText, AXIS */

const PINNED_SHARE = 0.42;
const seconds = (beat, millis) => timeText(beat, millis, false);

export class Stage extends Page {
  // The host has `onMoment(lane, beat, place)`, `onFile(text, name)` and `onDrawn()`.
  constructor(host) {
    super();
    this.host = host;
    this.document = null;
    this.moment = null;
    this.pinned = null;
  }

  // Shows a trace of a document. Another document begins with the whole; the same one, changed, keeps the view.
  show(text, document, name, isNew) {
    const model = readTrace(text, new Told(document, name));
    if (model.refusal !== undefined) return false;
    const kept = this.chart && !isNew ? this.view() : null;
    addLanes(model, document);
    Object.assign(this, { model, told: model.told, document, name, chart: new Chart(model) });
    element('title').textContent = window.document.title = name;
    this.matches = [];
    if (kept) this.goOn(kept); else this.begin();
    this.resize();
    this.drawNow();
    return true;
  }

  begin() {
    Object.assign(this.state, { lane: null, beat: null, line: null, found: new Set() });
    this.moment = null;
    element('quiet').checked = this.chart.hideQuiet;
    this.showHint();
    this.resize();
    this.scroller.scrollTop = 0;
    if (!this.hasBegun) this.goToHash();
    this.hasBegun = true;
  }

  // What of the view goes on. Moments are in milliseconds, since the length of a beat may change.
  view() {
    const { chart, state, moment, model } = this, key = lane => lane && lane.kind + ' ' + lane.name;
    return {
      millis: model.beat, isWhole: chart.from <= 0 && chart.to >= model.end + 1, from: chart.from * model.beat, to: chart.to * model.beat,
      folded: chart.folded, hideQuiet: chart.hideQuiet, shown: [...model.lanes.values()].filter(lane => lane.shown).map(key),
      lane: key(state.lane), moment: moment && { lane: key(moment.lane), beat: moment.beat }, found: [...state.found].map(key), top: this.scroller.scrollTop,
    };
  }

  goOn(kept) {
    const { chart, model } = this, lane = key => model.lanes.get(key) || null;
    Object.assign(chart, { folded: kept.folded, hideQuiet: kept.hideQuiet });
    for (const key of kept.shown) if (lane(key)) lane(key).shown = true;
    chart.layRows();
    this.resize();
    if (!kept.isWhole) chart.setWindow(kept.from / model.beat, kept.to / model.beat);
    Object.assign(this.state, { lane: lane(kept.lane), beat: null, line: null, found: new Set(kept.found.map(lane).filter(Boolean)) });
    this.moment = kept.moment && lane(kept.moment.lane) ? { lane: lane(kept.moment.lane), beat: Math.min(kept.moment.beat, model.end) } : null;
    this.scroller.scrollTop = kept.top;
  }

  // For how many beats nobody has led at the end of the run.
  leaderlessAtEnd() {
    const { from, to, kinds } = this.model.leaderLane.spans.base;
    return kinds.at(-1) === 'nobody' ? to.at(-1) - from.at(-1) : 0;
  }

  // The trace that is pinned, over which the present one stands.
  pin(text, document, name) {
    const model = text === null ? null : readTrace(text, new Told(document, name));
    if (model) addLanes(model, document);
    this.pinned = model && new Chart(model);
    this.resize();
    this.draw();
  }

  // The answers stand elsewhere.
  showFacts() {}

  openFile(file) { return file.text().then(text => this.host.onFile(text, file.name)); }

  listenDrop() {
    super.listenDrop();
    element('load').onclick = () => element('file').click();
  }

  // Over the pinned trace the wheel and a drag move both.
  listenPinned() {
    const canvas = element('pinned');
    canvas.addEventListener('wheel', event => this.wheel(event), { passive: false });
    canvas.addEventListener('pointermove', event => {
      this.state.cursor = event.offsetX;
      if (event.buttons === 1 && this.chart) this.chart.pan(-event.movementX);
      this.draw();
    });
    canvas.addEventListener('pointerleave', () => { this.state.cursor = null; this.draw(); });
  }

  // Where on the screen a lane stands at a beat; null where it isn't in view.
  place(lane, beat) {
    const row = lane && this.chart.rowOf(lane);
    if (!row) return null;
    const x = this.chart.x(beat), y = AXIS + row.y - this.scroller.scrollTop;
    const inside = x >= this.chart.gutter && x <= this.chart.width && y >= AXIS && y + row.height <= this.chart.viewHeight + 1;
    return inside ? { x, y, height: row.height } : null;
  }

  laneOf(process) {
    return this.model && this.model.lanes.get(process.startsWith('kubelet/') ? 'node ' + process.slice(8) : 'controller ' + process);
  }

  click(x, y) {
    super.click(x, y);
    if (y < AXIS || !this.chart) return;
    const row = this.chart.rowAt(y - AXIS + this.scroller.scrollTop), beat = this.chart.beatUnder(x);
    if (!row || row.group || beat === null) return;
    this.moment = { lane: row.lane, beat };
    this.draw();
    const box = this.canvas.getBoundingClientRect();
    this.host.onMoment(row.lane, beat, { x: box.left + x, y: box.top + y });
  }

  key(event) {
    if (event.target.closest && event.target.closest('input, select, textarea, dialog, [data-keys]')) return;
    const keys = { j: () => this.moveLane(1), k: () => this.moveLane(-1), h: () => this.moveBeat(-1, 50), l: () => this.moveBeat(1, 50),
      H: () => this.moveBeat(-1), L: () => this.moveBeat(1), Enter: () => this.openMoment() };
    const isFree = !event.ctrlKey && !event.metaKey && !event.altKey && this.chart && !element('legend').open;
    if (!isFree || !keys[event.key] || (event.key === 'Enter' && event.target !== this.canvas)) return super.key(event);
    event.preventDefault();
    keys[event.key]();
  }

  // The moment on the chosen lane; at first where the first lane of a process begins to be in view.
  moveLane(step) {
    const lanes = this.chart.rows.filter(row => row.lane && row.lane !== this.model.leaderLane && row.lane !== this.model.scriptLane).map(row => row.lane);
    if (lanes.length === 0) return;
    const at = this.moment ? lanes.indexOf(this.moment.lane) : -1;
    const lane = lanes[Math.min(lanes.length - 1, Math.max(0, at + step))];
    this.setMoment(lane, this.moment ? this.moment.beat : Math.round((this.chart.from + this.chart.to) / 2));
  }

  // By a share of what is in view, or by one beat.
  moveBeat(sign, share) {
    if (!this.moment) return this.moveLane(1);
    const beats = share ? Math.max(1, Math.round((this.chart.to - this.chart.from) / share)) : 1;
    this.setMoment(this.moment.lane, this.moment.beat + sign * beats);
  }

  setMoment(lane, beat) {
    this.moment = { lane, beat: Math.max(0, Math.min(this.model.end, beat)) };
    this.reveal(lane);
    const { chart } = this, at = this.moment.beat;
    if (at < chart.from || at > chart.to) chart.setWindow(at - (chart.to - chart.from) / 2, at + (chart.to - chart.from) / 2);
    Object.assign(this.state, { lane, beat: null, line: null });
    this.host.say(lane.name + ' at ' + seconds(at, this.model.beat) + ', beat ' + at);
    this.draw();
  }

  openMoment() {
    if (!this.moment) return this.moveLane(1);
    const spot = this.place(this.moment.lane, this.moment.beat), box = this.canvas.getBoundingClientRect();
    this.host.onMoment(this.moment.lane, this.moment.beat, { x: box.left + (spot ? spot.x : 0), y: box.top + (spot ? spot.y + spot.height / 2 : 0) });
  }

  resize() {
    if (element('pinned')) this.resizePinned();
    super.resize();
  }

  // The pinned trace is as high as it needs, up to a share of the room.
  resizePinned() {
    const canvas = element('pinned'), ratio = devicePixelRatio || 1;
    element('pinned-holder').hidden = !this.pinned;
    if (!this.pinned) return;
    const room = element('stage').clientHeight * PINNED_SHARE, height = Math.max(AXIS + 60, Math.min(this.pinned.height + AXIS, room));
    canvas.style.height = height + 'px';
    const width = canvas.clientWidth;
    if (canvas.width === Math.round(width * ratio) && canvas.height === Math.round(height * ratio)) return;
    Object.assign(canvas, { width: Math.round(width * ratio), height: Math.round(height * ratio) });
  }

  drawNow() {
    super.drawNow();
    if (!this.chart) return;
    if (this.moment) this.drawMoment();
    if (this.pinned) this.drawPinned();
    if (this.host) this.host.onDrawn();
  }

  drawMoment() {
    const spot = this.place(this.moment.lane, this.moment.beat), c = this.canvas.getContext('2d');
    if (!spot) return;
    c.strokeStyle = this.paints.palette.loud;
    c.lineWidth = 2;
    c.setLineDash([3, 2]);
    c.beginPath();
    c.moveTo(spot.x, spot.y);
    c.lineTo(spot.x, spot.y + spot.height);
    c.stroke();
    c.setLineDash([]);
  }

  // The same window of time, and as far down, of the trace that is pinned.
  drawPinned() {
    const canvas = element('pinned'), c = canvas.getContext('2d'), ratio = devicePixelRatio || 1, { pinned, chart, model } = this;
    const factor = model.beat / pinned.model.beat, height = canvas.clientHeight;
    if (pinned.folded !== chart.folded || pinned.hideQuiet !== chart.hideQuiet || pinned.foldedCount !== chart.folded.size) {
      Object.assign(pinned, { folded: chart.folded, hideQuiet: chart.hideQuiet, foldedCount: chart.folded.size });
      pinned.layRows();
    }
    pinned.setSize(canvas.clientWidth, height);
    Object.assign(pinned, { from: chart.from * factor, to: chart.to * factor });
    c.setTransform(ratio, 0, 0, ratio, 0, 0);
    pinned.draw(c, this.paints, Math.min(this.scroller.scrollTop, Math.max(0, pinned.height + AXIS - height)), height,
      { cursor: this.state.cursor, lane: null, beat: null, found: new Set() });
  }
}

// A controller or a kubelet that never starts has a lane too, to be clicked.
function addLanes(model, document) {
  const lane = (kind, name) => {
    const known = model.lanes.has(kind + ' ' + name), made = model.lane(kind, name);
    if (!known && kind === 'controller') made.addSpan('base', 0, model.end + 1, 'down', '');
  };
  for (const { name } of document.controllers) lane('controller', name);
  for (const { node } of document.kubelets || []) lane('node', node);
}
