// Draws lanes for a window of time as the text of SVG elements: single things, or shares of time by columns where they are too many.
// A drawn thing says what it is in data-i: its kind, and where to find it. Its words are made when somebody points at it.
const COLOURS = 6, MANY = 1800, COLUMN = 2, JOINS = 160, CROWDED = 18, FEW = 4, LETTER = 6.6, NEAR = 8;
const HEIGHT = { [RUNNING]: BAR, [READY]: 7, [THROTTLED]: 8, [BLOCKED]: 1.6 };
const SMALL = new Set(["up", "down", "hold", "lost", "end", "endlate"]);
const LEFT_OUT = new Set(["made", "down"]);
const ABOVE = new Set(["up", "down", "hold", "free", "lost"]);
const escaped = text => String(text).replace(/[&<>"]/g, letter => ({ "&": "&amp;", "<": "&lt;", ">": "&gt;", "\"": "&quot;" })[letter]);
const fixed = x => Math.round(x * 100) / 100;

class Drawer {
  // `most` things are drawn singly; lanes with less room than `crowded` pixels for each sign have small ones
  constructor(schedule, lanes) { Object.assign(this, { schedule, lanes, most: MANY, crowded: CROWDED }); }

  draw(rows, view, most = this.most) {
    this.a = view.lo; this.b = view.hi; this.left = view.left; this.wide = view.wide;
    this.scale = view.wide / (view.hi - view.lo);
    this.under = []; this.bars = []; this.signs = []; this.names = []; this.columnLanes = 0;
    const counts = rows.map(row => this.count(row));
    const total = counts.reduce((sum, count) => sum + count, 0);
    const each = total <= most ? Infinity : most / rows.length;
    rows.forEach((row, place) => this.row(row, counts[place] <= each && this.b <= Math.max(this.schedule.single, this.a)));
    return this.under.join("") + this.bars.join("") + this.signs.join("") + `<g id="labels">${this.names.join("")}</g>`;
  }
  x(t) { return this.left + (t - this.a) * this.scale; }
  isSeen(t) { const x = this.x(t); return x > this.left - NEAR && x < this.left + this.wide + NEAR; }

  // how many things a lane has in view
  count(row) {
    const { schedule, a, b } = this;
    if (row.kind === "core") return subtract(schedule.timeline(row.core).within(a, b));
    if (row.kind !== "thread") return 0;
    const track = schedule.track(row.thread), posts = schedule.posts;
    const signals = posts.arrivedIn(row.thread, a, b).length + posts.madeIn(row.thread, a, b).length;
    return track.at(b) - track.at(a) + 5 * subtract(schedule.rounds(row.thread).within(a, b)) + signals;
  }
  row(row, isSingle) {
    if (row.kind === "core") this.core(row, isSingle);
    else if (row.kind === "thread") this.thread(row, isSingle);
    else if (row.kind === "budget") this.budget(row);
    else this.server(row);
  }
  back(look, top, high, more = "") {
    this.under.push(`<rect class="${look}" x="${this.left}" y="${top}" width="${fixed(this.wide)}" height="${high}"${more}/>`);
  }
  bar(look, a, b, top, high, id) {
    const from = Math.max(this.x(a), this.left), to = Math.min(this.x(b), this.left + this.wide);
    return `<rect class="${look}" x="${fixed(from)}" y="${fixed(top)}" width="${Math.max(.05, fixed(to - from))}" height="${high}" data-i="${id}"/>`;
  }

  // ---- cores

  core(row, isSingle) {
    this.back("core", row.top, CORE);
    const drawn = isSingle ? this.coreSingly(row) : this.coreColumns(row);
    this.bars.push(`<g class="C" data-core="${row.core}" data-i="k.${row.core}">${drawn}</g>`);
  }
  coreSingly(row) {
    const timeline = this.schedule.timeline(row.core), [first, after] = timeline.within(this.a, this.b), parts = [];
    for (let i = first; i < after; i++) {
      const thread = timeline.thread[i], a = timeline.begin[i], b = timeline.end[i];
      const look = this.lanes.has(thread) ? "on" + this.lanes.colour(thread) : "other";
      parts.push(this.bar(look, a, b, row.top, CORE, `s.${thread}.${timeline.segment[i]}`));
      this.name(thread, a, b, row.top + 14);
    }
    return parts.join("");
  }
  name(thread, a, b, y) {
    const from = Math.max(this.left, this.x(a));
    const to = Math.min(this.left + this.wide, this.x(b));
    const name = this.schedule.threads[thread].name;
    if (to - from <= LETTER * name.length + 6) return;
    const own = this.lanes.look(thread), look = own === undefined ? "small" : own < COLOURS ? "n" + own : "nq";
    this.names.push(`<text class="${look}" x="${fixed((from + to) / 2)}" y="${y}" text-anchor="middle">${escaped(name)}</text>`);
  }
  coreColumns(row) {
    this.columnLanes++;
    const own = this.lanes.shown.filter(thread => this.schedule.threads[thread].core === row.core);
    const edges = this.edges();
    const stack = new Stack(this, edges, row.top + CORE, CORE);
    const rest = differences(edges.map(t => this.schedule.busy(row.core, t))), parts = [];
    for (const thread of own) {
      const ticks = differences(edges.map(t => this.schedule.ticks(thread, RUNNING, t)));
      ticks.forEach((many, k) => { rest[k] = Math.max(0, rest[k] - many); });
      parts.push(stack.add("on" + this.lanes.colour(thread), ticks, `k.${row.core}`));
    }
    return parts.join("") + stack.add("other", rest, `k.${row.core}`);
  }
  // the times of the columns' edges
  edges() {
    const many = Math.max(1, Math.ceil(this.wide / COLUMN)), span = (this.b - this.a) / many;
    return Array.from({ length: many + 1 }, (_, k) => this.a + k * span);
  }

  // ---- threads

  thread(row, isSingle) {
    const thread = row.thread, base = row.top + HEAD + BAR, name = escaped(this.schedule.threads[thread].name);
    this.back("lane", row.top, HEAD + BAR + 8, ` data-name="${name}"`);
    const drawn = isSingle ? this.standings(thread, base) + this.roundBars(thread, base) : this.threadColumns(thread, base);
    this.bars.push(`<g class="T" data-name="${name}" data-i="t.${thread}">${drawn}</g>`);
    if (isSingle) this.signs.push(`<g class="M" data-name="${name}">${this.marks(thread, base)}</g>`);
    else this.columnLanes++;
  }
  standings(thread, base) {
    const track = this.schedule.track(thread), parts = [];
    for (let i = track.at(this.a); i < track.n && track.begin[i] < this.b; i++) {
      const standing = track.standing(i), high = HEIGHT[standing];
      if (!high) continue;
      const colour = standing === RUNNING || standing === READY ? this.lanes.colour(thread) : "";
      const look = this.schedule.standings[standing] + colour;
      parts.push(this.bar(look, track.begin[i], track.begin[i + 1], base - high, high, `s.${thread}.${i}`));
    }
    return parts.join("");
  }
  roundBars(thread, base) {
    const rounds = this.schedule.rounds(thread);
    const [first, after] = rounds.within(this.a, this.b);
    const parts = [];
    const open = this.schedule.openOf.get(thread);
    for (let i = first; i < after; i++) {
      const due = rounds.isMissed(i) ? rounds.due(i) : Infinity;
      parts.push(this.response(rounds.activated(i), rounds.begun(i), rounds.end[i], due, base, `r.${thread}.${i}`));
    }
    if (open && open.activated < this.b) parts.push(this.response(open.activated, open.begun, open.end, this.overdue(thread), base, `r.${thread}.open`));
    return parts.join("");
  }
  // the deadline beyond which the open round of a thread is; infinity if it is not
  overdue(thread) {
    const open = this.schedule.openOf.get(thread);
    const { deadline } = this.schedule.threads[thread];
    return open && deadline > 0 && open.end - open.activated >= deadline ? open.activated + deadline : Infinity;
  }
  response(activated, begun, end, due, base, id) {
    const parts = [], begin = Math.max(activated, begun), isIn = (a, b) => a < b && a < this.b && b > this.a;
    if (isIn(activated, begun)) parts.push(this.bar("queued", activated, begun, base + 3.3, 1.4, id));
    if (isIn(begin, end)) parts.push(this.bar("resp", begin, end, base + 3.3, 1.4, id));
    if (isIn(due, end)) parts.push(this.bar("late", due, end, base + 2, 4, id));
    return parts.join("");
  }
  threadColumns(thread, base) {
    const edges = this.edges(), stack = new Stack(this, edges, base, BAR);
    const parts = [RUNNING, READY, THROTTLED].map(standing => {
      const colour = standing === THROTTLED ? "" : this.lanes.colour(thread);
      const ticks = differences(edges.map(t => this.schedule.ticks(thread, standing, t)));
      return stack.add(this.schedule.standings[standing] + colour, ticks, `c.${thread}`);
    });
    const missed = this.counted(thread, "Missed", edges, base + 1.5, 5);
    const lost = this.counted(thread, "Losses", edges, base - BAR - 6, 3);
    const { b } = this.schedule;
    return parts.join("") + missed + lost + this.response(b, b, b, this.overdue(thread), base, `r.${thread}.open`);
  }
  // red bars in the columns in which something is counted; neighbours are one bar
  counted(thread, what, edges, top, high) {
    const parts = [];
    const has = k => this.schedule.countOf(thread, what, edges[k], edges[k + 1] + (k === edges.length - 2 ? 1 : 0)) > 0;
    for (let k = 0, first = -1; k < edges.length; k++) {
      const isIn = k < edges.length - 1 && has(k);
      if (isIn && first < 0) first = k;
      if (isIn || first < 0) continue;
      parts.push(this.bar("late", edges[first], edges[k], top, high, ["n", thread, what, Math.round(edges[first]), Math.round(edges[k])].join(".")));
      first = -1;
    }
    return parts.join("");
  }

  // ---- signs

  marks(thread, base) {
    const found = [...this.roundMarks(thread), ...this.postMarks(thread)].filter(mark => this.isSeen(mark.t));
    const above = found.filter(mark => ABOVE.has(mark.sign)).length;
    const isCrowded = above > FEW && this.wide < this.crowded * above;
    const shown = found.filter(mark => !isCrowded || mark.look === "bad" || !LEFT_OUT.has(mark.sign));
    return shown.map(mark => this.mark(mark, base, isCrowded)).join("");
  }
  mark({ sign, look, t, id }, base, isCrowded) {
    const form = isCrowded && SMALL.has(sign) ? sign + "-s" : sign;
    return `<use class="${look}" href="#${form}" x="${fixed(this.x(t))}" y="${base}" data-i="${id}"/>`;
  }
  roundMarks(thread) {
    const rounds = this.schedule.rounds(thread);
    const [first, after] = rounds.within(this.a, this.b);
    const found = [];
    const open = this.schedule.openOf.get(thread);
    const add = (activated, due, isBad, id) => {
      found.push({ sign: "up", look: "ink", t: activated, id });
      if (rounds.deadline) found.push({ sign: "down", look: isBad ? "bad" : "ink", t: due, id });
    };
    for (let i = first; i < after; i++) {
      const isBad = rounds.isMissed(i), id = `r.${thread}.${i}`;
      add(rounds.activated(i), rounds.due(i) <= this.schedule.b ? rounds.due(i) : Infinity, isBad, id);
      found.push({ sign: isBad ? "endlate" : "end", look: isBad ? "bad" : "ink", t: rounds.end[i], id });
    }
    if (open) {
      const due = open.activated + rounds.deadline;
      add(open.activated, due <= this.schedule.b ? due : Infinity, this.overdue(thread) < Infinity, `r.${thread}.open`);
    }
    return found;
  }
  postMarks(thread) {
    const posts = this.schedule.posts;
    const found = posts.madeIn(thread, this.a, this.b).map(i => ({ sign: "made", look: "ink", t: posts.made[i], id: `p.${i}` }));
    for (const i of posts.arrivedIn(thread, this.a, this.b)) {
      const outcome = posts.outcome[i], t = posts.at[i], id = `p.${i}`;
      if (posts.source[i]) found.push({ sign: "irq", look: outcome === LOST ? "bad" : "ink", t, id });
      if (outcome === LOST) found.push({ sign: "lost", look: "bad", t, id });
      else if (outcome !== WOKE) found.push({ sign: this.isRelease(i) ? "free" : "hold", look: "soft", t, id });
    }
    this.schedule.sent.forEach(([, maker, t], k) => {
      if (maker === thread) found.push({ sign: "made", look: "ink", t, id: `u.${k}` });
    });
    this.schedule.orders.forEach(([of, t], k) => {
      if (of === thread) found.push({ sign: "order", look: "order", t, id: `o.${k}` });
    });
    return found;
  }
  // whether a signal gave a lock back for which nobody waits: it is free, and nothing is held up
  isRelease(post) { return this.schedule.locks.includes(this.schedule.posts.note[post]); }

  // lines from the signs of making to those of arrival, between lanes that stand at these places
  joins(base) {
    const { posts } = this.schedule, found = [];
    for (const [thread, low] of base) for (const i of posts.arrivedIn(thread, this.a, this.b)) {
      const maker = posts.maker[i] - 1, top = base.get(maker);
      if (maker !== thread && top !== undefined && posts.made[i] >= this.a) found.push([i, top, low]);
      if (found.length > JOINS) return null;
    }
    return found.map(([i, top, low]) => this.join(i, top - BAR, low - BAR - (low > top ? HEAD - 1 : 2))).join("");
  }
  join(i, top, low) {
    const begin = fixed(this.x(this.schedule.posts.made[i]));
    const end = fixed(this.x(this.schedule.posts.at[i]));
    const bend = (low - top) / 2;
    return `<path class="join" d="M${begin} ${top}C${begin} ${top + bend} ${end} ${low - bend} ${end} ${low}" data-i="p.${i}"/>`;
  }

  // ---- budgets and servers

  // below what can be used now, above it in greys what comes back later; the sum is the budget
  budget(row) {
    this.back("lane", row.top + 1, PLOT);
    if (!this.schedule.held.has(row.thread)) return;
    const held = this.schedule.held.of(row.thread), [first, after] = held.within(this.a, this.b), paths = [[], [], [], []];
    const isSingle = after - first <= this.wide / COLUMN, base = row.top + 1 + PLOT, unit = PLOT / held.most;
    if (isSingle) for (let i = first; i < after; i++) this.holding(held.state(i), base, unit, paths);
    else this.heldColumns(held, base, unit, paths);
    const colour = this.lanes.colour(row.thread), looks = [`use${colour}`, isSingle ? "come1" : `may${colour}`, isSingle ? "come2" : "come1", "come3"];
    const drawn = paths.map((path, k) => path.length ? `<path class="${looks[k]}" d="${path.join("")}"/>` : "");
    this.bars.push(`<g class="H" data-i="b.${row.thread}">${drawn.join("")}</g>`);
  }
  // of each column the least that could be used, above it what could be used at some time in it, and above that what is replenished later
  heldColumns(held, base, unit, paths) {
    const edges = this.edges(), many = edges.length - 1, [lows, mosts, alls] = [0, 1, 2].map(() => new Float64Array(many));
    for (let k = 0; k < many; k++) {
      const [first, after] = held.within(edges[k], edges[k + 1]);
      if (first >= after) continue;
      lows[k] = held.least(first, after);
      mosts[k] = held.greatest(first, after);
      alls[k] = held.all[first];
    }
    [new Float64Array(many), lows, mosts, alls].reduce((low, high, place) => {
      this.band(low, high, edges, base, unit, paths[place - 1]);
      return high;
    });
  }
  // from one height to another, column by column; neighbours of one height are one
  band(low, high, edges, base, unit, path) {
    for (let k = 0; k < low.length;) {
      const first = k++;
      while (k < low.length && low[k] === low[first] && high[k] === high[first]) k++;
      const [bottom, top] = [low[first], high[first]].map(ticks => fixed(base - ticks * unit));
      if (low[first] < high[first]) path.push(`M${fixed(this.x(edges[first]))} ${bottom}V${top}H${fixed(this.x(edges[k]))}V${bottom}Z`);
    }
  }
  holding(one, base, unit, paths) {
    const cuts = [one.begin, ...one.refills.map(([date]) => date).filter(date => one.begin < date && date < one.end), one.end];
    for (let k = 0; k + 1 < cuts.length; k++) {
      const begin = Math.max(cuts[k], this.a), end = Math.min(cuts[k + 1], this.b);
      if (begin < end) this.holdingPiece(one, cuts[k], begin, end, base, unit, paths);
    }
  }
  holdingPiece(one, cut, begin, end, base, unit, paths) {
    const now = one.refills.reduce((sum, [date, amount]) => date <= cut ? sum + amount : sum, 0);
    const y = ticks => fixed(base - ticks * unit);
    const left = one.isUsed ? now - (begin - one.begin) : now;
    const right = one.isUsed ? now - (end - one.begin) : now;
    const from = fixed(this.x(begin));
    const to = fixed(this.x(end));
    paths[0].push(`M${from} ${y(0)}V${y(left)}L${to} ${y(right)}V${y(0)}Z`);
    if (one.isUsed) paths[3].push(`M${from} ${y(left)}V${y(now)}H${to}V${y(right)}Z`);
    let level = now;
    one.refills.filter(([date]) => date > cut).forEach(([, amount], place) => {
      paths[1 + place % 2].push(`M${from} ${y(level)}V${y(level + amount)}H${to}V${y(level)}Z`);
      level += amount;
    });
  }
  // who is in a server, and in a strip below who waits for it
  server(row) {
    this.back("core", row.top, BAR + 5);
    const parts = [];
    for (const [what, top, high] of [["served", row.top, BAR], ["queued", row.top + BAR, 5]]) {
      const stays = this.schedule.server(what, row.server);
      for (const i of stays.within(this.a, this.b)) {
        const thread = stays.thread[i], look = this.lanes.has(thread) ? this.lanes.colour(thread) : " other";
        parts.push(this.bar((what === "served" ? "inside" : "waits") + look, stays.begin[i], stays.end[i], top, high, `v.${what}.${row.server}.${i}`));
        if (what === "served") this.name(thread, stays.begin[i], stays.end[i], row.top + 11);
      }
    }
    this.bars.push(`<g class="S">${parts.join("")}</g>`);
  }
}

const subtract = ([first, after]) => Math.max(0, after - first);
const differences = numbers => numbers.slice(1).map((number, k) => number - numbers[k]);

// Shares that stand on each other, column by column.
class Stack {
  constructor(drawer, edges, base, high) {
    this.x = edges.map(t => fixed(drawer.x(t)));
    this.base = base;
    this.unit = high / Math.max(1e-9, edges[1] - edges[0]);
    this.below = new Float64Array(edges.length - 1);
  }
  add(look, ticks, id) {
    const parts = [];
    for (let k = 0; k < ticks.length;) {
      if (ticks[k] < 1e-9) { k++; continue; }
      const first = k;
      while (k < ticks.length && ticks[k] >= 1e-9) k++;
      parts.push(this.outline(ticks, first, k));
    }
    ticks.forEach((many, k) => { this.below[k] += many; });
    return parts.length ? `<path class="${look}" d="${parts.join("")}" data-i="${id}"/>` : "";
  }
  y(ticks) { return Math.round((this.base - ticks * this.unit) * 10) / 10; }
  // the tops from left to right, then the bottoms back
  outline(ticks, first, after) {
    let path = `M${this.x[first]} ${this.y(this.below[first])}`, level = null;
    for (let k = first; k < after; k++) {
      const y = this.y(this.below[k] + ticks[k]);
      if (y !== level) path += (level === null ? "" : `H${this.x[k]}`) + `V${y}`;
      level = y;
    }
    path += `H${this.x[after]}`;
    level = null;
    for (let k = after - 1; k >= first; k--) {
      const y = this.y(this.below[k]);
      if (y !== level) path += (level === null ? "" : `H${this.x[k + 1]}`) + `V${y}`;
      level = y;
    }
    return path + `H${this.x[first]}Z`;
  }
}
