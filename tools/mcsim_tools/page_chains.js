// Chains: for each interrupt the way to its first answer, which is drawn where somebody points at a piece of it, and a list of chains with their latencies.
const SHOWN_WAYS = 3, TRIED = 400;

class Ways {
  constructor(schedule) {
    const read = name => schedule.numbers(name);
    this.schedule = schedule;
    this.from = prefixes(read("wayCount"));
    this.latency = read("wayLatency");
    this.legFrom = prefixes(read("wayLegs"));
    this.end = new Float64Array(this.latency.length);
    const steps = read("wayEnd");
    schedule.chains.forEach((_, chain) => this.end.set(prefixes(steps.subarray(this.from[chain], this.from[chain + 1])).subarray(1), this.from[chain]));
    [this.made, this.arrived, this.taken, this.thread, this.note] = ["Made", "Arrived", "Taken", "Thread", "Note"].map(name => read("leg" + name));
    this.longest = schedule.chains.map((_, chain) => this.of(chain).reduce((best, k) => best < 0 || this.latency[k] > this.latency[best] ? k : best, -1));
  }
  of(chain) { return Array.from({ length: this.from[chain + 1] - this.from[chain] }, (_, k) => this.from[chain] + k); }
  origin(k) { return this.end[k] - this.latency[k]; }
  // a way: its chain, its two ends, and its pieces: a post, when a thread took it, and when the thread passed it on
  way(k) {
    const chain = this.schedule.chains.findIndex((_, chain) => this.from[chain + 1] > k), origin = this.origin(k), legs = [];
    for (let i = this.legFrom[k]; i < this.legFrom[k + 1]; i++) {
      const made = origin + this.made[i], arrived = made + this.arrived[i], last = legs.at(-1);
      if (last) last.left = made;
      legs.push({ made, arrived, taken: arrived + this.taken[i], thread: this.thread[i], note: this.note[i], left: this.end[k], maker: last ? last.thread : -1 });
    }
    return { chain, origin, end: this.end[k], latency: this.latency[k], legs };
  }
  // the ways that are on their way at a time and have a piece that passes a test
  through(t, test) {
    const found = [];
    for (let chain = 0; chain < this.schedule.chains.length && found.length < SHOWN_WAYS; chain++) {
      const { greatest } = this.schedule.chains[chain], [from, to] = [this.from[chain], this.from[chain + 1]];
      const first = from + firstAt(to - from, i => this.end[from + i] >= t);
      for (let k = first; k < Math.min(to, first + TRIED) && this.end[k] - greatest <= t && found.length < SHOWN_WAYS; k++) {
        const way = this.origin(k) <= t ? this.way(k) : null;
        if (way && way.legs.some(leg => test(leg, way))) found.push(way);
      }
    }
    return found;
  }
  // the ways of a drawn thing that is pointed at at a time
  at(id, t) {
    if (!this.latency.length) return [];
    const [kind, first, second] = id.split("."), { posts } = this.schedule;
    if (kind === "p") return this.through(posts.at[first], leg => leg.arrived === posts.at[first] && leg.made === posts.made[first] && leg.note === posts.note[first]);
    if (kind === "s") return this.through(t, leg => leg.thread === +first && leg.arrived <= t && t <= leg.left);
    if (kind !== "r" || second === "open") return [];
    const end = this.schedule.rounds(+first).end[second];
    return this.through(end, (leg, way) => way.end === end && leg.left === end && leg.thread === +first);
  }
}

// The line of a way: along the lane of each thread from the arrival on, and over to the next lane; thin where it waits to be taken. A thread without a lane is passed over.
class WayLine {
  constructor(view) { this.view = view; }
  x(t) { return fixed(this.view.x(t)); }
  draw(way) {
    const base = new Map(this.view.rows.list.filter(row => row.kind === "thread").map(row => [row.thread, row.top + HEAD + BAR]));
    const known = way.legs.filter(leg => base.has(leg.thread));
    if (!known.length) return "";
    const on = leg => base.get(leg.thread) - BAR - 3, parts = [this.begin(known[0], way, on(known[0]))];
    known.forEach((leg, k) => {
      const y = on(leg), before = known[k - 1];
      if (before) parts.push(this.over(this.x(before.left), on(before), this.x(leg.arrived), y, way.legs[way.legs.indexOf(leg) - 1] === before));
      if (leg.taken > leg.arrived) parts.push(`<path class="way waits" d="M${this.x(leg.arrived)} ${y}H${this.x(leg.taken)}"/>`);
      if (leg.left > leg.taken) parts.push(`<path class="way" d="M${this.x(leg.taken)} ${y}H${this.x(leg.left)}"/>`);
    });
    return parts.join("") + this.ends(known.at(-1), way, on(known.at(-1)));
  }
  begin(leg, way, y) {
    const x = this.x(way.origin);
    return leg === way.legs[0] && leg.maker < 0 ? `<path class="way" d="M${x} ${y - 7}V${y}M${x - 4} ${y - 7}H${x + 4}"/>` : "";
  }
  over(x, y, to, low, isDirect) {
    const bend = (low - y) / 2;
    return `<path class="way${isDirect ? "" : " waits"}" d="M${x} ${y}C${x} ${y + bend} ${to} ${low - bend} ${to} ${low}"/>`;
  }
  ends(leg, way, y) { return leg === way.legs.at(-1) ? `<path class="way" d="M${this.x(way.end)} ${y}V${y + BAR + 7}"/><circle class="wayend" cx="${this.x(way.end)}" cy="${y + BAR + 7}" r="3.4"/>` : ""; }
}

// What is said of a way: its latency, and what each thread on it did meanwhile.
class WayWords {
  constructor(schedule, unit) { Object.assign(this, { schedule, unit }); }
  text(ticks) { return this.unit.text(ticks); }
  of(way) {
    const { name, deadline } = this.schedule.chains[way.chain];
    const late = deadline && way.latency > deadline ? `: slow by ${this.text(way.latency - deadline)}` : "";
    const said = `chain ${name}: ${this.text(way.origin)} to ${this.text(way.end)}, latency ${this.text(way.latency)}` + (deadline ? `, deadline ${this.text(deadline)}` : "");
    return [said + late, ...way.legs.map((leg, k) => this.leg(leg, way, k))].join("\n");
  }
  leg(leg, way, k) {
    const { threads, notes, sources, standings, chains } = this.schedule, name = threads[leg.thread].name;
    const maker = leg.maker < 0 ? k ? "" : `interrupt of ${sources[chains[way.chain].source]}` : `signal of ${threads[leg.maker].name}`;
    const arrives = leg.arrived > leg.made ? `, arrives at ${this.text(leg.arrived)}` : "";
    const waits = leg.taken > leg.arrived ? `, is pending until ${this.text(leg.taken)}` : "";
    const stood = standing => this.schedule.ticks(leg.thread, standing, leg.left) - this.schedule.ticks(leg.thread, standing, leg.taken);
    const parts = [RUNNING, READY, THROTTLED, BLOCKED].filter(stood).map(standing => `${standings[standing]} ${this.text(stood(standing))}`);
    const does = k === way.legs.length - 1 ? "ends its round" : "signals";
    return `  ${this.text(leg.made)} ${maker} to ${notes[leg.note]}${arrives}${waits}; ${name} ${does} at ${this.text(leg.left)}` + (parts.length ? `: ${parts.join(", ")}` : "");
  }
}

const CHAIN_COLUMNS = unit => [
  ["from", chain => chain.sourceName], ["to", chain => chain.threadName],
  ["interrupts", chain => counted(chain.interrupts)], ["answered", chain => counted(chain.answered)],
  ["minimum" + unit.suffix, chain => known(unit, chain.least)], ["mean" + unit.suffix, chain => chain.answered ? unit.bare(Math.round(chain.total / chain.answered * 10) / 10) : "–"],
  ["maximum" + unit.suffix, chain => known(unit, chain.greatest)], ["deadline" + unit.suffix, chain => known(unit, chain.deadline || null)],
  ["slow", chain => chain.deadline ? counted(chain.slow) : "–", chain => chain.slow],
  ["unanswered since" + unit.suffix, chain => chain.deadline ? known(unit, chain.unanswered) : "–", chain => chain.unanswered !== null],
];

// The table of the chains, and the answers that came later than the deadline.
class ChainList {
  constructor(view) {
    const { schedule } = this.view = view;
    this.chains = schedule.chains.map((chain, place) => ({ ...chain, place, sourceName: schedule.sources[chain.source], threadName: schedule.threads[chain.thread].name }));
    this.most = FIRST;
    $("chains").hidden = !this.chains.length;
    this.show();
  }
  show() {
    const { slow } = this.view.schedule, columns = CHAIN_COLUMNS(this.view.unit), chains = this.chains.slice(0, this.most);
    const head = node("thead", {}, node("tr", {}, ...["chain", ...columns.map(([name]) => name)].map(name => node("th", { scope: "col" }, name))));
    $("chaintable").replaceChildren(head, node("tbody", {}, ...chains.map(chain => this.row(chain, columns))));
    const items = slow.slice(0, this.most).map((answer, place) => node("li", {}, this.slowItem(answer, place)));
    if (Math.max(slow.length, this.chains.length) > this.most) items.push(node("li", {}, node("button", { onclick: () => { this.most *= 10; this.show(); } }, "more")));
    $("slow").replaceChildren(...items);
  }
  row(chain, columns) {
    const longest = this.view.schedule.ways.longest[chain.place];
    const go = () => longest < 0 ? this.view.bring(chain.thread) : this.go(this.view.schedule.ways.way(longest));
    const button = node("button", { className: "link", title: longest < 0 ? "show the lane of its thread" : "show the way of its longest answer", onclick: go }, chain.name);
    const cells = columns.map(([, text, isBad]) => node("td", { className: isBad?.(chain) ? "bad" : "" }, String(text(chain))));
    return node("tr", {}, node("th", { scope: "row" }, button), ...cells);
  }
  slowItem([chain, origin, end], place) {
    const { unit } = this.view, said = ` ${unit.text(end)} ${this.chains[chain].name}: the interrupt at ${unit.text(origin)} got its answer after ${unit.text(end - origin)}, deadline ${unit.text(this.chains[chain].deadline)}`;
    const made = node("button", { className: "finding", onclick: () => this.goSlow(place) }, node("b", {}, "slow"), said);
    made.dataset.slow = place;
    return made;
  }
  goSlow(place) {
    const [chain, origin, end] = this.view.schedule.slow[place], { ways } = this.view.schedule, { thread } = this.chains[chain];
    const way = ways.through(end, (_, way) => way.chain === chain && way.origin === origin)[0];
    if (way) this.go(way);
    else { this.view.around(origin, end); this.view.bring(thread); }
  }
  // shows a way: the lanes of its threads, its time, and its line until another one is chosen
  go(way) {
    const { view } = this;
    view.chosenWay = way;
    for (const leg of way.legs) view.lanes.add(leg.thread);
    view.around(way.origin, way.end);
    view.bring(way.legs.at(-1)?.thread ?? this.chains[way.chain].thread);
    $("said").textContent = view.wayWords.of(way);
    $("draw").scrollIntoView({ block: "nearest" });
  }
}
