"use strict";
// What the page holds of a schedule: the arrays of packing.py, read thread by thread when they are first needed.
const $ = id => document.getElementById(id);
const clamp = (x, a, b) => Math.min(b, Math.max(a, x));
const PENDING = 0, READY = 1, RUNNING = 2, THROTTLED = 3, BLOCKED = 4;
const WHYS = ["", "spent", "yield", "wait", "call", "done", "preempt", "order", "wake"];
const WOKE = 0, HELD = 1, MERGED = 2, LOST = 3;

// the number of the first of n places, in order, at which a test holds
function firstAt(n, test) {
  let low = 0, high = n;
  while (low < high) {
    const middle = (low + high) >>> 1;
    if (test(middle)) high = middle; else low = middle + 1;
  }
  return low;
}

async function unpacked(letters) {
  const text = atob(letters.trim()), bytes = new Uint8Array(text.length);
  for (let i = 0; i < text.length; i++) bytes[i] = text.charCodeAt(i);
  const stream = new Blob([bytes]).stream().pipeThrough(new DecompressionStream("deflate"));
  return new Uint8Array(await new Response(stream).arrayBuffer());
}

function prefixes(counts) {
  const sums = new Float64Array(counts.length + 1);
  for (let i = 0; i < counts.length; i++) sums[i + 1] = sums[i] + counts[i];
  return sums;
}

// How a thread stood: begin[i] to begin[i + 1] it stood as code[i] % 8, which code[i] >> 3 brought about.
class Track {
  constructor(lengths, codes, from) {
    this.n = codes.length;
    this.code = codes;
    this.begin = new Float64Array(this.n + 1);
    this.begin[0] = from;
    for (let i = 0; i < this.n; i++) this.begin[i + 1] = this.begin[i] + lengths[i];
    this.sums = [];
  }
  standing(i) { return this.code[i] & 7; }
  why(i) { return WHYS[this.code[i] >> 3]; }
  // the segment at a time, or the last one before it
  at(t) { return Math.max(0, firstAt(this.n, i => this.begin[i + 1] > t)); }
  sumOf(standing) {
    if (this.sums[standing]) return this.sums[standing];
    const sum = new Float64Array(this.n + 1);
    for (let i = 0; i < this.n; i++) sum[i + 1] = sum[i] + (this.standing(i) === standing ? this.begin[i + 1] - this.begin[i] : 0);
    return this.sums[standing] = sum;
  }
  // the ticks up to a time in which the thread stood so
  ticks(standing, t) {
    const sum = this.sumOf(standing), i = this.at(t);
    if (i >= this.n) return sum[this.n];
    return sum[i] + (this.standing(i) === standing ? Math.max(0, Math.min(t, this.begin[i + 1]) - this.begin[i]) : 0);
  }
}

// The rounds of a thread in the order of their ends.
class Rounds {
  constructor(numbers, ends, responses, took, deadline) {
    this.n = ends.length;
    this.response = responses;
    this.took = took;
    this.deadline = deadline;
    this.number = prefixes(numbers).subarray(1);
    this.end = prefixes(ends).subarray(1);
    this.missed = Float64Array.from(this.end.filter((_, i) => this.isMissed(i)));
  }
  activated(i) { return this.end[i] - this.response[i]; }
  begun(i) { return this.end[i] - this.took[i]; }
  due(i) { return this.activated(i) + this.deadline; }
  isMissed(i) { return this.deadline > 0 && this.response[i] > this.deadline; }
  // from the first to before the last of which something lies between two times
  within(a, b) { return [firstAt(this.n, i => Math.max(this.end[i], this.due(i)) >= a), firstAt(this.n, i => this.activated(i) > b)]; }
  countMissed(a, b) { return countIn(this.missed, a, b); }
  countEnds(a, b) { return countIn(this.end, a, b); }
}

// how many of rising times are at a or later and before b
const countIn = (times, a, b) => firstAt(times.length, i => times[i] >= b) - firstAt(times.length, i => times[i] >= a);

// the segments of a track in which its thread runs
function running(track) {
  const found = [];
  for (let i = 0; i < track.n; i++) if (track.standing(i) === RUNNING) found.push(i);
  return found;
}

// Who runs on a core: all stretches of its threads in order, and how many ticks it was busy before each.
class Timeline {
  constructor(tracks) {
    const found = tracks.map(([thread, track]) => [thread, track, running(track)]);
    this.n = found.reduce((sum, [, , own]) => sum + own.length, 0);
    const begins = new Float64Array(this.n), owners = new Uint16Array(this.n), segments = new Uint32Array(this.n);
    let at = 0;
    for (const [thread, track, own] of found) for (const i of own) {
      begins[at] = track.begin[i]; owners[at] = thread; segments[at++] = i;
    }
    const order = new Uint32Array(this.n).map((_, i) => i).sort((one, two) => begins[one] - begins[two]);
    const of = new Map(found.map(([thread, track]) => [thread, track]));
    this.thread = Uint16Array.from(order, i => owners[i]);
    this.segment = Uint32Array.from(order, i => segments[i]);
    this.begin = Float64Array.from(order, i => begins[i]);
    this.end = this.begin.map((_, i) => of.get(this.thread[i]).begin[this.segment[i] + 1]);
    this.busy = prefixes(this.end.map((end, i) => end - this.begin[i]));
  }
  within(a, b) { return [firstAt(this.n, i => this.end[i] > a), firstAt(this.n, i => this.begin[i] >= b)]; }
  ticks(t) {
    const i = firstAt(this.n, i => this.end[i] > t);
    return this.busy[i] + (i < this.n ? Math.max(0, t - this.begin[i]) : 0);
  }
}

// Shares by columns, from the time on at which single things end.
class Columns {
  constructor(schedule, [begin, width, many]) {
    this.schedule = schedule; this.begin = begin; this.width = width; this.many = many;
    this.sums = new Map();
  }
  sumOf(name, thread) {
    const key = name + thread;
    const own = () => prefixes(this.schedule.numbers("column" + name, thread * this.many, (thread + 1) * this.many));
    if (!this.sums.has(key)) this.sums.set(key, own());
    return this.sums.get(key);
  }
  // how much there is up to a time; within a column it is spread evenly
  upTo(name, thread, t) {
    const sum = this.sumOf(name, thread);
    const place = clamp((t - this.begin) / this.width, 0, this.many);
    const k = Math.min(this.many - 1, Math.floor(place));
    return sum[k] + (sum[k + 1] - sum[k]) * (place - k);
  }
}

const COLUMN_OF = { [RUNNING]: "Run", [READY]: "Ready", [THROTTLED]: "Throttled", [BLOCKED]: "Blocked" };

class Schedule {
  constructor(data, bytes) {
    Object.assign(this, data);
    this.data = data;
    this.bytes = bytes;
    this.places = new Map();
    let at = 0;
    for (const [name, many, wide] of data.arrays) { this.places.set(name, [at, many, wide]); at += many * wide; }
    this.single = this.detail ?? this.b;
    this.columns = data.columns && new Columns(this, data.columns);
    this.segAt = prefixes(this.numbers("segCount"));
    this.roundAt = prefixes(this.numbers("roundCount"));
    this.tracks = []; this.roundsOf = []; this.timelines = [];
    this.onCore = Array.from({ length: this.cores }, () => []);
    this.threads.forEach((thread, place) => this.onCore[thread.core].push(place));
    this.placeOf = new Map(this.threads.map((thread, place) => [thread.name, place]));
    this.openOf = new Map(this.open.map(([thread, activated, begun, end]) => [thread, { activated, begun, end }]));
  }
  // the numbers of an array, or some of them
  numbers(name, from = 0, to = Infinity) {
    const [at, many, wide] = this.places.get(name);
    const last = Math.min(to, many);
    const found = new Float64Array(Math.max(0, last - from));
    const plane = byte => this.bytes.subarray(at + byte * many + from, at + byte * many + from + found.length);
    found.set(plane(0));
    for (let byte = 1, scale = 256; byte < wide; byte++, scale *= 256) {
      const own = plane(byte);
      for (let i = 0; i < found.length; i++) found[i] += own[i] * scale;
    }
    return found;
  }
  track(thread) {
    const [from, to] = [this.segAt[thread], this.segAt[thread + 1]];
    return this.tracks[thread] ??= new Track(this.numbers("segLength", from, to), Uint8Array.from(this.numbers("segCode", from, to)), this.a);
  }
  rounds(thread) {
    const [from, to] = [this.roundAt[thread], this.roundAt[thread + 1]];
    const own = () => ["Number", "End", "Response", "Took"].map(name => this.numbers("round" + name, from, to));
    return this.roundsOf[thread] ??= new Rounds(...own(), this.threads[thread].deadline);
  }
  timeline(core) { return this.timelines[core] ??= new Timeline(this.onCore[core].map(thread => [thread, this.track(thread)])); }
  // the ticks up to a time in which a thread stood so, and in which a core was busy
  ticks(thread, standing, t) {
    const single = this.track(thread).ticks(standing, Math.min(t, this.single));
    return t > this.single && this.columns ? single + this.columns.upTo(COLUMN_OF[standing], thread, t) : single;
  }
  busy(core, t) {
    const single = this.timeline(core).ticks(Math.min(t, this.single));
    if (t <= this.single || !this.columns) return single;
    return this.onCore[core].reduce((sum, thread) => sum + this.columns.upTo("Run", thread, t), single);
  }
  countOf(thread, what, a, b) {
    const rounds = this.rounds(thread);
    const single = what === "Missed" ? rounds.countMissed(a, b) : what === "Rounds" ? rounds.countEnds(a, b) : this.countLost(thread, a, b);
    if (!this.columns || b <= this.single) return single;
    return single + Math.round(this.columns.upTo(what, thread, b) - this.columns.upTo(what, thread, Math.max(a, this.single)));
  }
  countLost(thread, a, b) { return countIn(this.posts.lost[thread], a, b); }
  missedOn(core, a, b) { return this.onCore[core].reduce((sum, thread) => sum + this.countOf(thread, "Missed", a, b), 0); }
  get ways() { return this.allWays ??= new Ways(this); }
  get posts() { return this.allPosts ??= new Posts(this); }
  get held() { return this.allHeld ??= new Held(this); }
  server(what, place) { return (this[what + "Of"] ??= this.servers.map((_, k) => new Stays(this, what, k)))[place]; }
  isWhole() { return this.a === 0 && this.b === this.end; }
}

// Signals and interrupts in the order in which they took effect, and for each thread those that it made and those for it.
class Posts {
  constructor(schedule) {
    const read = name => schedule.numbers("post" + name), many = schedule.threads.length;
    this.at = prefixes(read("At")).subarray(1);
    this.made = read("Way").map((way, i) => this.at[i] - way);
    for (const name of ["Maker", "To", "Note", "Badge", "Outcome", "Source", "Core"]) this[name.toLowerCase()] = read(name);
    this.n = this.at.length;
    this.by = Array.from({ length: many }, () => []);
    this.for = Array.from({ length: many }, () => []);
    for (let i = 0; i < this.n; i++) {
      if (this.maker[i]) this.by[this.maker[i] - 1].push(i);
      if (this.to[i]) this.for[this.to[i] - 1].push(i);
    }
    for (const own of this.by) own.sort((one, two) => this.made[one] - this.made[two]);
    this.lost = this.for.map(own => own.filter(i => this.outcome[i] === LOST).map(i => this.at[i]));
  }
  madeIn(thread, a, b) { return this.range(this.by[thread], this.made, a, b); }
  arrivedIn(thread, a, b) { return this.range(this.for[thread], this.at, a, b); }
  range(own, times, a, b) { return own.slice(firstAt(own.length, k => times[own[k]] >= a), firstAt(own.length, k => times[own[k]] > b)); }
}

// What the context of each thread held, from one time to another.
class Held {
  constructor(schedule) {
    this.schedule = schedule;
    this.at = prefixes(schedule.numbers("heldCount"));
    this.refillAt = prefixes(schedule.numbers("refillCount"));
    this.known = [];
  }
  has(thread) { return this.at[thread + 1] > this.at[thread]; }
  of(thread) { return this.known[thread] ??= this.read(thread); }
  read(thread) {
    const read = names => names.map(name => this.schedule.numbers("held" + name, this.at[thread], this.at[thread + 1]));
    const refills = ["Date", "Amount"].map(name => this.schedule.numbers("refill" + name, this.refillAt[thread], this.refillAt[thread + 1]));
    return new Holdings(...read(["Gap", "Length", "Used", "Many"]), ...refills);
  }
}

// The states of one budget in their order, and of each the least and the most that could be used, and all that it has.
class Holdings {
  constructor(gaps, lengths, used, many, dates, amounts) {
    Object.assign(this, { n: lengths.length, used, dates, amounts });
    this.end = prefixes(gaps.map((gap, i) => gap + lengths[i])).subarray(1);
    this.begin = this.end.map((end, i) => end - lengths[i]);
    this.refillAt = prefixes(many);
    this.low = new Float64Array(this.n);
    this.high = new Float64Array(this.n);
    this.all = new Float64Array(this.n);
    this.most = 1;
    for (let i = 0; i < this.n; i++) this.measure(i, lengths[i]);
  }
  // what is in use gets less until the end; what is not in use gets more with each replenishment
  measure(i, length) {
    let first = 0, last = 0, all = 0;
    for (let k = this.refillAt[i]; k < this.refillAt[i + 1]; k++) {
      const amount = this.amounts[k];
      all += amount;
      if (this.dates[k] <= 0) first += amount;
      if (this.dates[k] < length) last += amount;
    }
    this.low[i] = this.used[i] ? Math.max(0, first - length) : first;
    this.high[i] = this.used[i] ? first : last;
    this.all[i] = all;
    if (all > this.most) this.most = all;
  }
  state(i) {
    const refills = [];
    for (let k = this.refillAt[i]; k < this.refillAt[i + 1]; k++) refills.push([this.begin[i] + this.dates[k], this.amounts[k]]);
    return { begin: this.begin[i], end: this.end[i], isUsed: this.used[i] > 0, refills };
  }
  within(a, b) { return [firstAt(this.n, i => this.end[i] > a), firstAt(this.n, i => this.begin[i] >= b)]; }
  // from the first state to before the last
  least(first, after) { return (this.lows ??= new Levels(this.low, Math.min, Infinity)).of(first, after); }
  greatest(first, after) { return (this.highs ??= new Levels(this.high, Math.max, -Infinity)).of(first, after); }
}

// The least or greatest of many numbers, from one place to before another.
const FOLD = 8;
class Levels {
  constructor(numbers, pick, none) {
    Object.assign(this, { levels: [numbers], pick, none });
    for (let low = numbers; low.length > FOLD;) {
      const high = new Float64Array(Math.ceil(low.length / FOLD)).fill(none);
      for (let i = 0; i < low.length; i++) {
        const place = Math.floor(i / FOLD);
        high[place] = pick(high[place], low[i]);
      }
      this.levels.push(low = high);
    }
  }
  of(first, after) {
    let found = this.none;
    for (const [place, level] of this.levels.entries()) {
      const isTop = place === this.levels.length - 1;
      while (first < after && (isTop || first % FOLD)) found = this.pick(found, level[first++]);
      while (first < after && after % FOLD) found = this.pick(found, level[--after]);
      if (first >= after) return found;
      first /= FOLD; after /= FOLD;
    }
    return found;
  }
}

// Who was in a server, or who waited for it, from one time to another.
class Stays {
  constructor(schedule, what, place) {
    const at = prefixes(schedule.numbers(what + "Count"));
    [this.begin, this.end, this.thread] = ["Begin", "End", "Thread"].map(name => schedule.numbers(what + name, at[place], at[place + 1]));
    this.n = this.begin.length;
  }
  within(a, b) {
    const found = [];
    for (let i = 0; i < this.n; i++) if (this.end[i] > a && this.begin[i] < b) found.push(i);
    return found;
  }
}

// Times and lengths in the one unit of the page.
const NUMBERS = new Intl.NumberFormat("en-US", { maximumFractionDigits: 9 });
const LETTERS = [[1e9, "G"], [1e6, "M"], [1e3, "k"]];
class Unit {
  constructor(schedule) { this.tick = schedule.tick; this.name = schedule.unit; }
  bare(ticks) {
    return NUMBERS.format(this.tick === null ? ticks : Math.round(ticks * this.tick * 1e9) / 1e9);
  }
  text(ticks) { return this.tick === null ? this.bare(ticks) : this.bare(ticks) + " " + this.name; }
  short(ticks) {
    if (this.tick !== null) return this.bare(ticks);
    const fits = ([many]) => ticks >= 10 * many && ticks % (many / 10) === 0 || ticks >= many && ticks % many === 0;
    const [many, letter] = LETTERS.find(fits) ?? [1, ""];
    return ticks / many + letter;
  }
  get suffix() { return this.tick === null ? "" : " " + this.name; }
}
