// Which lanes the page shows, in which order, and where each of them stands.
const BAR = 14, HEAD = 10, LANE = 33, CORE_LANE = 25, CORE = 20, PLOT = 22, SERVER_LANE = 24, LOOKS = 24;

class Lanes {
  constructor(schedule, chosen) {
    this.schedule = schedule;
    this.shown = [];
    this.pinned = [];
    this.folded = new Set();
    // cores that were asked for, whose threads have no lanes
    this.cores = new Set();
    this.looks = new Map();
    this.hasBudgets = schedule.plotted.length > 0;
    for (const thread of chosen) this.add(thread);
  }
  has(thread) { return this.looks.has(thread); }
  // a colour that no lane has, if there is one: it stays the thread's as long as that has a lane
  freeLook() {
    const uses = new Array(LOOKS).fill(0);
    for (const look of this.looks.values()) uses[look]++;
    return uses.indexOf(Math.min(...uses));
  }
  add(thread) {
    if (this.has(thread)) return;
    this.looks.set(thread, this.freeLook());
    const own = this.schedule.threads[thread];
    const isAfter = other => other.core > own.core || other.core === own.core && this.schedule.placeOf.get(other.name) > thread;
    const after = this.shown.findIndex(other => isAfter(this.schedule.threads[other]));
    this.shown.splice(after < 0 ? this.shown.length : after, 0, thread);
  }
  remove(thread) {
    this.looks.delete(thread);
    this.shown = this.shown.filter(other => other !== thread);
    this.pinned = this.pinned.filter(other => other !== thread);
  }
  pin(thread) { this.pinned = this.isPinned(thread) ? this.pinned.filter(other => other !== thread) : [...this.pinned, thread]; }
  isPinned(thread) { return this.pinned.includes(thread); }
  // one place up (-1) or down (1) among the lanes of its core, or among those that are pinned
  move(thread, by) {
    const list = this.isPinned(thread) ? this.pinned : this.shown, core = this.schedule.threads[thread].core;
    const own = list === this.pinned ? list : list.filter(other => this.schedule.threads[other].core === core && !this.isPinned(other));
    const other = own[own.indexOf(thread) + by];
    if (other === undefined) return;
    const [one, two] = [list.indexOf(thread), list.indexOf(other)];
    [list[one], list[two]] = [list[two], list[one]];
  }
  fold(core) { if (!this.folded.delete(core)) this.folded.add(core); }
  look(thread) { return this.looks.get(thread); }
  colour(thread) { return this.has(thread) ? " c" + this.look(thread) : ""; }
  // the lanes that are pinned, and below them all others, core by core
  layout() {
    const pins = new Rows(4), rows = new Rows(4);
    for (const thread of this.pinned) this.place(pins, thread);
    for (const core of this.coresShown()) {
      rows.add({ kind: "core", core }, CORE_LANE);
      for (const [server, home] of this.schedule.serverCores.entries()) if (home === core) rows.add({ kind: "server", server }, SERVER_LANE);
      if (!this.folded.has(core)) for (const thread of this.freeOn(core)) this.place(rows, thread);
      rows.bottom += 10;
    }
    return { pins, rows };
  }
  coresShown() {
    const own = this.shown.map(thread => this.schedule.threads[thread].core);
    return [...new Set([...this.cores, ...own])].sort((one, two) => one - two);
  }
  // the threads of a core that have lanes and are not pinned
  freeOn(core) { return this.shown.filter(thread => this.schedule.threads[thread].core === core && !this.isPinned(thread)); }
  place(rows, thread) {
    rows.add({ kind: "thread", thread }, LANE);
    if (this.hasBudgets && this.schedule.held.has(thread)) rows.add({ kind: "budget", thread }, PLOT + 7);
  }
}

// Lanes from top to bottom.
class Rows {
  constructor(top) { this.list = []; this.bottom = top; }
  add(row, high) { this.list.push({ ...row, top: this.bottom, high }); this.bottom += high; }
  seen(top, bottom) { return this.list.filter(row => row.top + row.high > top && row.top < bottom); }
  of(thread) { return this.list.find(row => row.kind === "thread" && row.thread === thread); }
  ofCore(core) { return this.list.find(row => row.kind === "core" && row.core === core); }
}
