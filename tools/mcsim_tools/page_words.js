// What is said of a drawn thing when somebody points at it. Its data-i names its kind and where to find it.
const OUTCOMES = ["wakes", "is held for", "is merged into the word for", "is lost: its bits were there already, for"];
const STOPPED_BY = { yield: "after its yield", spent: "its budget is spent", wake: "woken before its budget is back" };

class Words {
  constructor(schedule, unit, view) { Object.assign(this, { schedule, unit, view }); }
  nameOf(thread) { return this.schedule.threads[thread].name; }
  text(ticks) { return this.unit.text(Math.round(ticks)); }
  span(a, b) { return `${this.text(a)} to ${this.text(b)}: ${this.text(b - a)}`; }

  // the words for a thing, pointed at at a time
  of(id, t) {
    const [kind, ...rest] = id.split(".");
    const [first, second, third] = rest.map(Number);
    const said = {
      s: () => this.standing(first, second),
      r: () => rest[1] === "open" ? this.openRound(first) : this.round(first, second),
      p: () => this.post(first),
      c: () => this.share(first, t),
      t: () => this.share(first, t),
      k: () => this.core(first, t),
      n: () => `${this.nameOf(first)} ${this.text(third)} to ${this.text(+rest[3])}: ${this.count(first, rest[1], third, +rest[3])}`,
      b: () => this.budget(first, t),
      o: () => this.order(this.schedule.orders[first]),
      u: () => this.underWay(this.schedule.sent[first]),
      v: () => this.server(rest[0], second, third),
    };
    return said[kind]();
  }
  standing(thread, i) {
    const track = this.schedule.track(thread);
    const standing = track.standing(i);
    const why = track.why(i);
    const said = `${this.nameOf(thread)} ${this.schedule.standings[standing]} ${this.span(track.begin[i], track.begin[i + 1])}`;
    if (standing === THROTTLED) return `${said}, ${STOPPED_BY[why] ?? "after a stop by " + why}`;
    return standing === BLOCKED && why === "call" ? `${said}, its call waits for a server` : said;
  }
  due(thread) {
    const { deadline } = this.schedule.threads[thread];
    return deadline ? `, deadline ${this.text(deadline)}` : "";
  }
  openRound(thread) {
    const { activated, end } = this.schedule.openOf.get(thread);
    const { deadline } = this.schedule.threads[thread];
    const late = end - activated - deadline;
    const said = `${this.nameOf(thread)}: a round that is open since ${this.text(activated)}${this.due(thread)}`;
    return deadline && late >= 0 ? `${said}: overdue by ${this.text(late)}` : said;
  }
  round(thread, i) {
    const rounds = this.schedule.rounds(thread);
    const activated = rounds.activated(i);
    const begun = rounds.begun(i);
    const name = `${this.nameOf(thread)} round ${rounds.number[i]}`;
    const queued = begun > activated ? `; it was queued until ${this.text(begun)}` : "";
    const missed = rounds.isMissed(i) ? `: missed by ${this.text(rounds.response[i] - rounds.deadline)}` : "";
    const took = `${this.text(activated)} to ${this.text(rounds.end[i])}, response ${this.text(rounds.response[i])}`;
    return `${name}: ${took}${this.due(thread)}${queued}${missed}`;
  }
  post(i) {
    const { posts, notes, sources, locks } = this.schedule;
    const maker = posts.maker[i] ? this.nameOf(posts.maker[i] - 1) : "core " + posts.core[i];
    const what = posts.source[i] ? `interrupt of ${sources[posts.source[i] - 1]}` : `signal of ${maker}`;
    const arrives = posts.at[i] > posts.made[i] ? `, arrives at ${this.text(posts.at[i])}` : "";
    const to = posts.to[i] ? this.nameOf(posts.to[i] - 1) : "nobody";
    const isFree = locks.includes(posts.note[i]) && posts.outcome[i] === HELD;
    const outcome = isFree ? "the lock is free" : `${OUTCOMES[posts.outcome[i]]} ${to}`;
    return `${what} at ${this.text(posts.made[i])} to ${notes[posts.note[i]]}, badge ${posts.badge[i]}${arrives}: ${outcome}`;
  }
  order([, moment, context]) { return `order for context ${context} at ${this.text(moment)}`; }
  underWay([note, maker, made]) { return `signal of ${this.nameOf(maker)} at ${this.text(made)} to ${note}, still under way`; }
  budget(thread, t) {
    const { name, context } = this.schedule.threads[thread], held = this.schedule.held.of(thread), [a, b] = this.pixel(t);
    const [first, after] = held.within(a, b), isOne = after <= first + 1;
    const could = isOne ? "" : `; about ${this.text(t)} at least ${this.text(held.least(first, after))}, at most ${this.text(held.greatest(first, after))} could be used`;
    return `${name}: what context ${context} holds: in colour what it may use now, in grey what comes back, the first below${could}`;
  }
  server(what, server, i) {
    const stays = this.schedule.server(what, server);
    const does = what === "served" ? "is inside" : "waits for it";
    return `server ${this.schedule.servers[server]}: ${this.nameOf(stays.thread[i])} ${does} ${this.span(stays.begin[i], stays.end[i])}`;
  }

  // ---- shares, about a time

  pixel(t) {
    const half = 1.5 / this.view.scale;
    return [Math.max(this.schedule.a, t - half), Math.min(this.schedule.b, t + half)];
  }
  percent(upTo, t) {
    const [a, b] = this.pixel(t);
    return `${Math.round(100 * (upTo(b) - upTo(a)) / (b - a))} %`;
  }
  share(thread, t) {
    const of = standing => `${this.schedule.standings[standing]} ${this.percent(end => this.schedule.ticks(thread, standing, end), t)}`;
    return `${this.nameOf(thread)} about ${this.text(t)}: ${[RUNNING, READY, THROTTLED, BLOCKED].map(of).join(", ")}`;
  }
  core(core, t) { return `core ${core} about ${this.text(t)}: busy ${this.percent(end => this.schedule.busy(core, end), t)}`; }
  count(thread, what, a, b) {
    const many = kind => this.schedule.countOf(thread, kind, a, b).toLocaleString("en-US");
    return what === "Missed" ? `${many("Missed")} of ${many("Rounds")} rounds missed` : `${many("Losses")} signals lost`;
  }
}
