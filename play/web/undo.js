// The states that were, the one that is, and those that were undone. While somebody drags, states come and go without being kept.

export class Undo {
  constructor(state) {
    this.past = [];
    this.now = state;
    this.future = [];
    this.before = null;
  }

  // A state on the way, as while dragging.
  preview(state) {
    if (this.before === null) this.before = this.now;
    this.now = state;
  }

  // The state that is stays. Answers whether it differs from the one before.
  keep() {
    const { before } = this;
    this.before = null;
    if (before === null || before === this.now) return false;
    this.past.push(before);
    this.future = [];
    return true;
  }

  change(state) {
    this.keep();
    this.preview(state);
    this.keep();
  }

  undo() { return this.step(this.past, this.future); }

  redo() { return this.step(this.future, this.past); }

  step(from, to) {
    this.keep();
    if (from.length === 0) return false;
    to.push(this.now);
    this.now = from.pop();
    return true;
  }
}
