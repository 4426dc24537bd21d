// A strip for each core over the whole run: how busy it is, with red marks where deadlines were missed, and the window that is in view.
const STRIPS = [[8, 15], [20, 9], [40, 6], [64, 4]], LABELS = 11;

class Overview {
  constructor(view) {
    this.view = view;
    this.canvas = $("over");
    this.canvas.onpointerdown = v => this.grab(v);
    this.canvas.onpointermove = v => this.move(v);
    this.canvas.onpointerup = v => this.release(v);
    this.draw();
  }
  get schedule() { return this.view.schedule; }
  get strip() { return STRIPS.find(([cores]) => this.schedule.cores <= cores)[1]; }
  x(t) { return this.view.left + (t - this.schedule.a) / this.view.span * this.view.wide; }
  at(x) {
    const { a } = this.schedule;
    return clamp(a + (x - this.view.left) / this.view.wide * this.view.span, a, a + this.view.span);
  }

  // all strips; only after the width or the colours have changed
  draw() {
    const { left, wide, right } = this.view;
    const ratio = devicePixelRatio || 1;
    const across = left + wide + right;
    const high = this.strip * this.schedule.cores + 4;
    Object.assign(this.canvas, { width: across * ratio, height: high * ratio });
    Object.assign(this.canvas.style, { width: across + "px", height: high + "px" });
    Object.assign($("window").style, { height: high + "px" });
    const pen = this.canvas.getContext("2d");
    const style = getComputedStyle(document.documentElement);
    const colour = name => style.getPropertyValue(name).trim();
    pen.scale(ratio, ratio);
    pen.font = `${LABELS}px system-ui,sans-serif`;
    this.colours = { busy: colour("--run"), back: colour("--lane"), soft: colour("--soft"), red: colour("--red") };
    for (let core = 0; core < this.schedule.cores; core++) this.drawCore(pen, core, 2 + core * this.strip);
    this.tell();
    this.showWindow();
  }
  drawCore(pen, core, top) {
    const { left, wide } = this.view;
    const columns = Math.max(1, Math.floor(wide / 2));
    const high = this.strip - (this.strip > 5 ? 2 : 1);
    const step = this.view.span / columns;
    const every = Math.ceil((LABELS + 2) / this.strip);
    pen.fillStyle = this.colours.soft;
    if (core % every === 0) pen.fillText(`core ${core}`, 8, top + Math.max(high, LABELS) - 2);
    pen.fillStyle = this.colours.back;
    pen.fillRect(left, top, wide, high);
    this.drawLoad(pen, core, top, high, columns, step);
    pen.globalAlpha = 1;
    pen.fillStyle = this.colours.red;
    this.drawMissed(pen, core, top, Math.max(2, high * .45));
    pen.globalAlpha = 1;
  }
  // red marks, which are the fuller the more was missed about that time
  drawMissed(pen, core, top, high) {
    const { left, wide } = this.view, counts = new Map();
    for (const t of this.missed(core)) {
      const x = Math.round(Math.min(this.x(t), left + wide - 2) / 2) * 2;
      counts.set(x, (counts.get(x) ?? 0) + 1);
    }
    const most = Math.max(...counts.values());
    for (const [x, many] of counts) {
      pen.globalAlpha = .7 + .3 * many / most;
      pen.fillRect(x, top, 2, high);
    }
  }
  // the share of each column that was busy, as a height, or as how dark it is in strips that are too low for that
  drawLoad(pen, core, top, high, columns, step) {
    const { left, wide } = this.view, isLow = this.strip < 9, edge = k => Math.round(left + k * wide / columns);
    pen.fillStyle = this.colours.busy;
    let before = this.schedule.busy(core, this.schedule.a);
    for (let k = 0; k < columns; k++) {
      const now = this.schedule.busy(core, this.schedule.a + (k + 1) * step);
      const share = clamp((now - before) / step, 0, 1);
      pen.globalAlpha = isLow ? share * .75 : .6;
      if (share > .002) pen.fillRect(edge(k), isLow ? top : top + high * (1 - share), edge(k + 1) - edge(k), isLow ? high : high * share);
      before = now;
    }
  }
  // when deadlines were missed, or are overdue, on a core
  *missed(core) {
    for (const thread of this.schedule.onCore[core]) {
      yield* this.schedule.rounds(thread).missed;
      if (this.schedule.threads[thread].open) yield this.schedule.b;
      if (this.schedule.columns) yield* this.missedColumns(thread, this.schedule.columns);
    }
  }
  *missedColumns(thread, columns) {
    const sum = columns.sumOf("Missed", thread);
    for (let k = 0; k < columns.many; k++) if (sum[k + 1] > sum[k]) yield columns.begin + (k + .5) * columns.width;
  }
  tell() {
    const { a, b, cores } = this.schedule;
    const share = core => Math.round(100 * (this.schedule.busy(core, b) - this.schedule.busy(core, a)) / this.view.span);
    const busy = Array.from({ length: cores }, (_, core) => share(core)), most = busy.indexOf(Math.max(...busy));
    const busiest = `The busiest is core ${most} with ${busy[most]} %.`;
    this.canvas.setAttribute("aria-label", `How busy each of ${cores} cores is over the whole run, with ${this.schedule.summary}. ${busiest}`);
  }
  showWindow() {
    const from = this.x(this.view.lo), to = this.x(this.view.hi);
    Object.assign($("window").style, { left: from + "px", width: Math.max(2, to - from) + "px" });
  }

  // ---- by hand: a click centres the window and brings the core, a drag chooses a window

  grab(v) { this.from = v.offsetX; this.canvas.setPointerCapture(v.pointerId); }
  move(v) {
    const core = clamp(Math.floor((v.offsetY - 2) / this.strip), 0, this.schedule.cores - 1);
    this.canvas.title = `core ${core}: ${this.schedule.onCore[core].length} threads`;
    if (this.from === undefined || Math.abs(v.offsetX - this.from) <= 4) return;
    this.view.window(this.at(Math.min(this.from, v.offsetX)), this.at(Math.max(this.from, v.offsetX)));
  }
  release(v) {
    const isClick = this.from !== undefined && Math.abs(v.offsetX - this.from) <= 4;
    this.from = undefined;
    if (!isClick) return;
    const half = (this.view.hi - this.view.lo) / 2, t = this.at(v.offsetX);
    this.view.window(t - half, t + half);
    this.view.bringCore(clamp(Math.floor((v.offsetY - 2) / this.strip), 0, this.schedule.cores - 1));
  }
}
