// The window of time in view, the axis, and the names of the lanes.
const NS = "http://www.w3.org/2000/svg";
const APART = 70;
const AXIS = 24;
const NARROW = 640;
const SLIM = 104;
const LEFT = 176;
const RIGHT = 64;
const WIDEST_TICK = 60;
const NARROWEST = 120, SPARE = 40;

const DEFAULTS = { overdue: "overdue", "never activated": "never" };

// called after each drawing, on a page that has a server
let onShow = null;

class View {
  constructor(schedule, chosen) {
    this.schedule = schedule;
    this.unit = new Unit(schedule);
    this.lanes = new Lanes(schedule, chosen);
    this.drawer = new Drawer(schedule, this.lanes);
    this.words = new Words(schedule, this.unit, this);
    this.wayWords = new WayWords(schedule, this.unit);
    // the ways that are pointed at, and the one that was chosen from a list
    this.pointedWays = []; this.chosenWay = null;
    // parts of the run beyond the detail of the page, the last one first, and which of them or the page has what is in view
    this.parts = []; this.source = schedule;
    this.lo = schedule.a; this.hi = Math.max(schedule.b, schedule.a + 1);
    this.cursor = null; this.light = -1; this.isPrinting = false; this.frames = 0;
    this.arrange();
  }
  get span() { return Math.max(1, this.schedule.b - this.schedule.a); }
  get least() { return Math.min(this.span, Math.max(1, this.wide / WIDEST_TICK)); }
  get scale() { return this.wide / (this.hi - this.lo); }
  x(t) { return this.left + (t - this.lo) * this.scale; }
  at(x) { return this.lo + (x - this.left) / this.scale; }

  // ---- what is where

  // after lanes or the width have changed
  arrange() {
    const room = $("draw").clientWidth;
    const longest = Math.max(0, ...this.lanes.shown.map(thread => this.label(thread).length));
    this.isSlim = room < NARROW;
    this.left = this.isSlim ? SLIM : clamp(28 + 6.2 * longest, LEFT, 300);
    this.right = this.isSlim ? 10 : RIGHT;
    this.wide = Math.max(NARROWEST, Math.min(room - this.left - this.right, WIDEST_TICK * this.span));
    Object.assign(this, this.lanes.layout());
    const clip = `<clipPath id="clip"><rect x="${this.left - 6}" y="-50" width="${this.wide + 12}" height="${this.rows.bottom + 500}"/></clipPath>`;
    const pinned = `<g transform="translate(0 ${AXIS})"><g id="pinned" clip-path="url(#clip)"></g>${this.heads(this.pins)}</g>`;
    const plot = '<g id="grid"></g><g clip-path="url(#clip)"><g id="plot"></g><g id="joins"></g><g id="ways"></g><g id="cursor"></g></g>';
    this.fill($("top"), AXIS + (this.pins.list.length ? this.pins.bottom : 0), `<defs>${clip}</defs><g id="axis"></g>${pinned}`);
    this.fill($("main"), this.rows.bottom + 4, `${plot}${this.heads(this.rows)}<g id="margin">${this.margin()}</g>`);
    this.show();
  }
  fill(svg, high, text) {
    const focused = document.activeElement?.closest?.(".head")?.dataset.key;
    svg.setAttribute("width", this.left + this.wide + this.right);
    svg.setAttribute("height", high);
    svg.innerHTML = text;
    if (focused) svg.querySelector(`[data-key="${focused}"]`)?.focus({ preventScroll: true });
  }
  label(thread) {
    const { prio, budget, period, deadline } = this.schedule.threads[thread], unit = this.unit;
    return `prio ${prio}, ${unit.short(budget)}/${unit.short(period)}${unit.suffix}` + (deadline ? `, due ${unit.short(deadline)}${unit.suffix}` : "");
  }
  heads(rows) { return rows.list.map(row => this.head(row)).join(""); }
  head(row) {
    if (row.kind === "core") return this.coreHead(row);
    if (row.kind === "thread") return this.threadHead(row);
    if (row.kind === "server") return `<text x="17" y="${row.top + 12}">${escaped(this.clip("server " + this.schedule.servers[row.server]))}</text>`;
    const said = `budget ${this.unit.text(this.schedule.threads[row.thread].budget)}`;
    return this.isSlim ? "" : `<text class="small" x="${this.left - 8}" y="${row.top + 11}" text-anchor="end">${said}</text>`;
  }
  coreHead({ core, top }) {
    const { a, b } = this.schedule;
    const isFolded = this.lanes.folded.has(core);
    const busy = Math.round(100 * (this.schedule.busy(core, b) - this.schedule.busy(core, a)) / this.span);
    const missed = this.schedule.missedOn(core, a, b + 1);
    const said = `core ${core}, ${busy} % busy, ${this.schedule.onCore[core].length} threads, ${missed} missed`;
    const text = `<text class="b" x="8" y="${top + 14}">${isFolded ? "▸" : "▾"} core ${core}</text>`;
    return this.button(`c${core}`, `data-core="${core}" aria-expanded="${!isFolded}"`, said, top, CORE, text);
  }
  threadHead({ thread, top }) {
    const { name, core, rounds, missed, open } = this.schedule.threads[thread];
    const said = `${name}, core ${core}, ${this.label(thread)}, ${rounds} rounds, ${missed} missed` + (open ? `, ${open}` : "");
    const colour = `<rect class="${this.lanes.colour(thread)}" x="8" y="${top + 5}" width="4" height="${BAR + 9}"/>`;
    const pin = this.lanes.isPinned(thread) ? "⚲ " : "";
    const first = `<text x="17" y="${top + (this.isSlim ? 22 : 16)}">${pin}${escaped(this.clip(name))}</text>`;
    const second = this.isSlim ? "" : `<text class="small" x="17" y="${top + 29}">${this.label(thread)}</text>`;
    return this.button(`t${thread}`, `data-thread="${thread}"`, said, top, HEAD + BAR + 8, colour + first + second);
  }
  button(key, more, said, top, high, text) {
    const hit = `<rect class="hit" x="1" y="${top}" width="${this.left - 8}" height="${high}"/>`;
    return `<g class="head" role="button" tabindex="0" data-key="${key}" ${more} aria-label="${escaped(said)}">${hit}${text}</g>`;
  }
  clip(name) { const most = this.isSlim ? 12 : 24; return name.length <= most ? name : name.slice(0, most - 1) + "…"; }
  // words beside the lanes of threads that are in default at the end
  margin() {
    if (this.isSlim) return "";
    const x = this.left + this.wide + 6;
    const word = row => row.kind === "thread" && DEFAULTS[this.schedule.threads[row.thread].open];
    return this.rows.list.filter(word).map(row => `<text class="badtext" x="${x}" y="${row.top + HEAD + BAR + 3}">${word(row)}</text>`).join("");
  }

  // ---- what is in view

  show() {
    const began = performance.now(), { a, b } = this.schedule, span = clamp(this.hi - this.lo, this.least, this.span);
    this.lo = clamp(this.lo, a, Math.max(a, a + this.span - span));
    this.hi = this.lo + span;
    this.source = this.sourceNow();
    this.drawer.schedule = this.words.schedule = this.wayWords.schedule = this.source;
    const { scrollTop, clientHeight } = $("scroll");
    const seen = this.isPrinting ? this.rows.list : this.rows.seen(scrollTop - SPARE, scrollTop + clientHeight + SPARE);
    $("plot").innerHTML = this.drawer.draw(seen, this, this.isPrinting ? Infinity : undefined);
    this.columnLanes = this.drawer.columnLanes;
    $("joins").innerHTML = this.joins();
    $("pinned").innerHTML = this.drawer.draw(this.pins.list, this);
    this.showAxis();
    this.showWays();
    this.showCursor();
    this.showLight();
    $("margin").style.display = this.hi >= b - 1e-6 ? "" : "none";
    this.tellWhere();
    overview?.showWindow();
    onShow?.(this);
    this.frames++;
    this.took = performance.now() - began;
  }
  // what has single things of the window that is in view
  sourceNow() {
    if (this.hi <= this.schedule.single) return this.schedule;
    return this.parts.find(part => part.a <= this.lo && this.hi <= part.single) ?? this.schedule;
  }
  joins() {
    if (!$("sig").checked || this.columnLanes > this.rows.list.length / 2) return "";
    const lanes = this.rows.list.filter(row => row.kind === "thread");
    const base = new Map(lanes.map(row => [row.thread, row.top + HEAD + BAR]));
    const lines = this.drawer.joins(base);
    this.hidesSignals = lines === null;
    return lines ?? "";
  }
  // the ways that are pointed at, or else the one that was chosen
  showWays() {
    const ways = this.pointedWays.length ? this.pointedWays : this.chosenWay ? [this.chosenWay] : [], line = new WayLine(this);
    $("ways").innerHTML = ways.map(way => line.draw(way)).join("");
  }
  point(ways) {
    if (!ways.length && !this.pointedWays.length) return;
    this.pointedWays = ways;
    this.showWays();
  }
  step(span) {
    for (let power = 1; ; power *= 10) for (const step of [power, 2 * power, 5 * power]) if (this.wide * step >= APART * span) return step;
  }
  showAxis() {
    const step = this.step(this.hi - this.lo), texts = [], lines = [], high = $("main").getAttribute("height");
    for (let t = Math.max(0, Math.ceil(this.lo / step - 1e-9) * step); t <= this.hi + 1e-9; t += step) {
      const x = fixed(this.x(t));
      texts.push(`${this.timeText(x, this.unit.text(t))}<path class="grid" d="M${x} 18V${AXIS}"/>`);
      lines.push(`<path class="grid" d="M${x} 0V${high}"/>`);
    }
    $("axis").innerHTML = texts.join("");
    $("grid").innerHTML = lines.join("");
  }
  // a time along the axis, which stays within the picture
  timeText(x, text) {
    const end = this.left + this.wide + this.right, isLast = x + text.length * LETTER / 2 > end;
    return `<text class="small" x="${isLast ? end - 2 : x}" y="14" text-anchor="${isLast ? "end" : "middle"}">${text}</text>`;
  }
  showCursor() {
    const x = this.cursor === null ? -1 : fixed(this.x(this.cursor));
    $("cursor").innerHTML = this.cursor === null ? "" : `<path class="cursor" d="M${x} 0V${this.rows.bottom}"/>`;
  }
  showLight() {
    const name = this.light < 0 ? null : this.schedule.threads[this.light].name;
    for (const lane of document.querySelectorAll("#draw .lane")) lane.classList.toggle("hi", lane.dataset.name === name);
  }
  tellWhere() {
    const { detail, heldEnd, b, command } = this.schedule;
    const lo = Math.max(0, Math.floor(this.lo));
    const hi = Math.min(b, Math.ceil(this.hi));
    const hint = this.hidesSignals && $("sig").checked ? " (zoom in for signals)" : "";
    $("where").textContent = `${this.unit.text(Math.round(this.lo))} to ${this.unit.text(Math.round(this.hi))}${hint}`;
    const isBlunt = detail !== null && this.hi > detail && this.source === this.schedule;
    const endsBudgets = this.lanes.hasBudgets && heldEnd !== null && this.hi > heldEnd && this.source === this.schedule;
    $("blunt").hidden = !isBlunt && !endsBudgets;
    const what = isBlunt ? [`From ${this.unit.text(detail)} on this page has shares of time only.`] : [];
    if (endsBudgets) what.push(`Budgets are drawn up to ${this.unit.text(heldEnd)}.`);
    $("blunt").textContent = `${what.join(" ")} This window singly: ${command} --from ${lo} --to ${hi} -o part.html`;
  }

  // ---- moving

  zoom(factor, x) {
    const t = this.at(x), span = clamp((this.hi - this.lo) / factor, this.least, this.span);
    this.lo = t - (x - this.left) / this.wide * span;
    this.hi = this.lo + span;
    soon();
  }
  pan(pixels) { const by = pixels / this.scale; this.window(this.lo + by, this.hi + by); }
  // moves so that the span stays, where the run ends
  window(a, b) {
    const span = clamp(b - a, this.least, this.span);
    this.lo = clamp(a, this.schedule.a, this.schedule.a + this.span - span);
    this.hi = this.lo + span;
    soon();
  }
  all() { this.window(this.schedule.a, this.schedule.a + this.span); }
  around(a, b) {
    const margin = Math.max(5, (b - a) * .5);
    this.window(a - margin, b + margin);
  }
  // brings a lane into view, with a new one if the thread has none
  bring(thread) {
    const core = this.schedule.threads[thread].core;
    this.lanes.add(thread);
    this.lanes.folded.delete(core);
    this.light = thread;
    this.arrange();
    const row = this.rows.of(thread);
    if (row) this.scrollTo(row);
  }
  bringCore(core) {
    this.lanes.cores.add(core);
    this.light = -1;
    this.arrange();
    this.scrollTo(this.rows.ofCore(core));
  }
  scrollTo(row) {
    const { scrollTop, clientHeight } = $("scroll");
    if (row.top < scrollTop || row.top + row.high > scrollTop + clientHeight) $("scroll").scrollTop = row.top - clientHeight / 3;
    this.show();
  }
}
