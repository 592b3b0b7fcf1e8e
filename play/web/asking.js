// Asks the server, one question at a time. Of questions that come while one is asked only the last is asked after it; where that one takes
// long it is broken off, which ends its run in the server too.

const PATIENCE = 250;

export class Asking {
  constructor(told) {
    this.told = told;
    this.running = null;
    this.wanted = null;
  }

  get isBusy() { return this.running !== null; }

  ask(question) {
    this.wanted = question;
    if (!this.running) this.next();
    else this.breakOffLater();
  }

  breakOffLater() {
    const { running } = this;
    if (running.timer) return;
    running.timer = setTimeout(() => running.abort.abort(), Math.max(0, running.since + PATIENCE - performance.now()));
  }

  async next() {
    const question = this.wanted, running = { abort: new AbortController(), since: performance.now(), timer: null };
    this.wanted = null;
    this.running = running;
    const answer = await this.fetch(question, running.abort.signal);
    clearTimeout(running.timer);
    this.running = null;
    const isLast = this.wanted === null;
    if (!isLast) this.next();
    if (answer) this.told(question, answer, performance.now() - running.since, isLast);
  }

  async fetch({ body, objectsAt }, signal) {
    try {
      const headers = { 'Content-Type': 'application/json', 'Objects-At': String(objectsAt || 0) };
      const reply = await fetch('run', { method: 'POST', headers, body, signal });
      if (!reply.ok) return { fault: (await reply.text()).trim() };
      const answer = await reply.json();
      return answer.ended ? this.ended(answer) : answer;
    } catch (fault) {
      return signal.aborted ? null : { fault: 'the playground no longer answers: it has ended, or its connection broke' };
    }
  }

  // A run that the server ended: by a newer question nothing is to be said.
  ended({ ended }) { return this.wanted ? null : { fault: ended }; }
}
