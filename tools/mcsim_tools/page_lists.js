// The table of threads, the findings, and the search over both.
const FIRST = 100, HITS = 12;
const BAR_PARTS = [[2, "run"], [1, "rdy"], [3, "thr"], [4, "blk"], [0, "non"], [5, "non"]];
const BAR_KEYS = [["run", "running"], ["rdy", "ready"], ["thr", "throttled"], ["blk", "blocked"]];
const node = (name, words, ...parts) => {
  const made = Object.assign(document.createElement(name), words);
  made.append(...parts);
  return made;
};
const counted = many => many.toLocaleString("en-US");

// The columns of the table: a heading, what it means, what is sorted by, what stands in a cell, and whether that is wrong.
const TABLE = unit => [
  ["thread", "its name", thread => thread.name],
  ["core", "its core", thread => thread.core],
  ["prio", "its priority", thread => thread.prio],
  ["budget", "budget and period of its context" + unit.suffix, thread => thread.budget, thread => `${unit.bare(thread.budget)}/${unit.bare(thread.period)}`],
  ["granted", "utilisation: budget over period", thread => thread.budget / thread.period, thread => percent(thread.budget / thread.period)],
  ["used", "ticks run, of all", thread => thread.used, thread => percent(thread.used)],
  ["rounds", "rounds (jobs) that ended", thread => thread.rounds, thread => counted(thread.rounds)],
  ["response" + unit.suffix, "the maximum response time of this run, from the activation on", thread => thread.response ?? -1, thread => known(unit, thread.response)],
  ["deadline" + unit.suffix, "its deadline", thread => thread.deadline, thread => known(unit, thread.deadline || null)],
  ["margin" + unit.suffix, "deadline less maximum response", thread => thread.margin ?? Infinity, thread => known(unit, thread.margin), thread => thread.margin < 0],
  ["missed", "rounds that ended beyond their deadline", thread => thread.missed, thread => counted(thread.missed), thread => thread.missed],
  ["open", "at the end", thread => thread.open, thread => thread.open || "–", thread => thread.open],
  ["lost", "signals whose bits were held already", thread => thread.lost, thread => counted(thread.lost), thread => thread.lost],
  ["merged", "signals that added bits to a held word", thread => thread.merged, thread => counted(thread.merged)],
];
const known = (unit, ticks) => ticks === null ? "–" : unit.bare(ticks);
const percent = share => (100 * share).toFixed(1) + "%";

class Table {
  constructor(view) {
    this.view = view;
    this.columns = TABLE(view.unit);
    this.sorted = 10; this.isRising = false; this.most = FIRST;
    const all = Math.max(1, view.schedule.end);
    this.threads = view.schedule.threads.map((thread, place) => {
      const response = thread.rounds ? thread.greatest : null;
      const margin = thread.deadline && thread.rounds ? thread.deadline - thread.greatest : null;
      return { ...thread, place, response, margin, used: thread.stood[RUNNING] / all };
    });
    if (!this.threads.some(thread => thread.missed)) { this.sorted = 1; this.isRising = true; }
    $("filter").oninput = $("wrong").onchange = () => this.show();
    this.show();
  }
  // the threads that are asked for, in order; those that are alike stand core by core
  rows() {
    const words = $("filter").value.toLowerCase().split(/\s+/).filter(Boolean);
    const key = this.columns[this.sorted][2];
    const sign = this.isRising ? 1 : -1;
    const said = thread => `${thread.name} core ${thread.core} ${thread.context} ${thread.open}`.toLowerCase();
    const isAsked = thread => !$("wrong").checked || thread.missed || thread.open || thread.lost;
    const kept = this.threads.filter(thread => words.every(word => said(thread).includes(word)) && isAsked(thread));
    const compare = (one, two) => one < two ? -sign : one > two ? sign : 0;
    return kept.sort((one, two) => compare(key(one), key(two)) || one.place - two.place);
  }
  show() {
    const rows = this.rows(), shown = rows.slice(0, this.most);
    $("threads").replaceChildren(this.head(), node("tbody", {}, ...shown.map(thread => this.row(thread))));
    $("more").hidden = rows.length <= shown.length;
    $("more").textContent = `${counted(rows.length - shown.length)} more`;
    $("more").onclick = () => { this.most *= 10; this.show(); };
    $("shown").textContent = rows.length === this.threads.length ? "" : `${counted(rows.length)} of ${counted(this.threads.length)}`;
  }
  head() {
    const cells = this.columns.map(([name, title], place) => this.heading(name, title, place));
    const keys = BAR_KEYS.map(([look, word]) => node("span", { className: "nowrap" }, node("i", { className: "key " + look }), word));
    return node("thead", {}, node("tr", {}, ...cells, node("th", { scope: "col", className: "bar" }, ...keys)));
  }
  heading(name, title, place) {
    const sign = place !== this.sorted ? "" : this.isRising ? " ▴" : " ▾";
    const cell = node("th", { title, scope: "col" }, node("button", { onclick: () => this.sort(place) }, name + sign));
    if (sign) cell.setAttribute("aria-sort", this.isRising ? "ascending" : "descending");
    return cell;
  }
  sort(place) {
    this.isRising = place === this.sorted ? !this.isRising : place < 3;
    this.sorted = place;
    this.show();
    $("threads").querySelectorAll("thead button")[place].focus();
  }
  row(thread) {
    const [, ...columns] = this.columns;
    const cells = columns.map(([, , key, text = key, isBad]) => node("td", { className: isBad?.(thread) ? "bad" : "" }, String(text(thread))));
    const made = node("tr", {}, node("th", { scope: "row" }, this.name(thread)), ...cells, this.bar(thread));
    made.dataset.name = thread.name;
    made.dataset.thread = thread.place;
    return made;
  }
  name(thread) { return node("button", { className: "link", title: "show its lane", onclick: () => this.view.bring(thread.place) }, thread.name); }
  bar(thread) {
    const all = Math.max(1, this.view.schedule.end), cell = node("td", { className: "bar" });
    for (const [standing, look] of BAR_PARTS) {
      const ticks = thread.stood[standing];
      if (!ticks) continue;
      const part = node("i", { className: look, title: `${this.view.schedule.standings[standing]} ${this.view.unit.text(ticks)}` });
      part.style.width = 100 * ticks / all + "%";
      cell.append(part);
    }
    return cell;
  }
}

class Findings {
  constructor(view) {
    this.view = view;
    this.list = view.schedule.findings.map(([kind, core, begin, end, name, thread, said]) => ({ kind, core, begin, end, name, thread, said }));
    this.most = FIRST; this.at = -1;
    $("counts").textContent = view.schedule.summary;
    this.show();
  }
  text(finding) { return `${finding.kind} ${this.view.unit.text(finding.end)} ${finding.name}: ${finding.said}`; }
  show() {
    const { more } = this.view.schedule, shown = this.list.slice(0, this.most), rest = this.list.length - shown.length;
    const items = shown.map((finding, place) => node("li", {}, this.item(finding, place)));
    if (rest) items.push(node("li", {}, node("button", { onclick: () => { this.most *= 10; this.show(); } }, `${counted(rest)} more`)));
    if (more) items.push(node("li", { className: "more" }, `and ${counted(more)} more, which the table counts`));
    if (!items.length) items.push(node("li", { className: "more" }, "nothing missed, overdue or lost"));
    $("list").replaceChildren(...items);
  }
  item(finding, place) {
    const rest = ` ${this.view.unit.text(finding.end)} ${finding.name}: ${finding.said}`;
    const made = node("button", { className: "finding", onclick: () => this.go(place) }, node("b", {}, finding.kind), rest);
    made.dataset.place = place;
    made.dataset.name = finding.thread < 0 ? "" : this.view.schedule.threads[finding.thread].name;
    return made;
  }
  // shows a finding: its lane, and the time around it
  go(place) {
    const finding = this.list[place];
    if (!finding) return;
    this.at = place;
    if (place >= this.most) { this.most = place + FIRST; this.show(); }
    const { view } = this;
    view.cursor = finding.end;
    view.around(finding.begin, finding.end);
    if (finding.thread >= 0) view.bring(finding.thread); else view.bringCore(finding.core);
    for (const item of document.querySelectorAll("#list .finding")) item.setAttribute("aria-current", item.dataset.place === String(place));
    $("said").textContent = this.text(finding);
    $("draw").scrollIntoView({ block: "nearest" });
  }
  step(by) { if (this.list.length) this.go((this.at + by + this.list.length + (this.at < 0 && by < 0 ? 1 : 0)) % this.list.length); }
}

// A search over threads, cores, servers, chains and findings.
class Search {
  constructor(view, findings) {
    this.view = view;
    this.findings = findings;
    this.hits = []; this.at = 0;
    $("find").oninput = () => this.look();
    $("find").onkeydown = v => this.key(v);
    $("find").onblur = () => setTimeout(() => this.close(), 150);
  }
  look() {
    const words = $("find").value.toLowerCase().trim();
    this.hits = words ? [...this.all(words)].slice(0, HITS) : [];
    this.at = 0;
    this.show();
  }
  // what has these words in its name: each with what it is, and what is done when it is chosen
  *all(words) {
    const rank = name => name.toLowerCase().startsWith(words) ? 0 : 1;
    const compare = (one, two) => rank(one) - rank(two) || one.length - two.length || one.localeCompare(two, "en", { numeric: true });
    const found = [...this.threads(), ...this.cores(), ...this.servers(), ...this.chains()].filter(([name]) => name.toLowerCase().includes(words));
    yield* found.sort((one, two) => compare(one[0], two[0])).slice(0, HITS - 4);
    for (const [place, finding] of this.findings.list.entries()) {
      if (!this.findings.text(finding).toLowerCase().includes(words)) continue;
      yield [`${finding.kind} ${finding.name}`, this.view.unit.text(finding.end), () => this.findings.go(place)];
    }
  }
  threads() {
    const what = thread => `thread, core ${thread.core}` + (thread.missed ? `, ${counted(thread.missed)} missed` : "");
    return this.view.schedule.threads.map((thread, place) => [thread.name, what(thread), () => this.view.bring(place)]);
  }
  cores() { return this.view.schedule.onCore.map((own, core) => [`core ${core}`, `${own.length} threads`, () => this.view.bringCore(core)]); }
  servers() {
    const { servers, serverCores } = this.view.schedule;
    return servers.map((name, server) => [name, "server", () => this.view.bringCore(Math.max(0, serverCores[server]))]);
  }
  chains() {
    const { chains, threads, ways } = this.view.schedule;
    const go = place => ways.longest[place] < 0 ? this.view.bring(chains[place].thread) : chainList.go(ways.way(ways.longest[place]));
    return chains.map(({ name, thread }, place) => [name, `chain, ends in ${threads[thread].name}`, () => go(place)]);
  }
  show() {
    const items = this.hits.map(([name, what, go], place) => {
      const item = node("li", { id: "hit" + place, role: "option", onpointerdown: go }, node("b", {}, name), ` ${what}`);
      item.setAttribute("aria-selected", place === this.at);
      return item;
    });
    $("hits").replaceChildren(...items);
    $("hits").hidden = !items.length;
    $("find").setAttribute("aria-expanded", items.length > 0);
    $("find").setAttribute("aria-activedescendant", items.length ? "hit" + this.at : "");
  }
  key(v) {
    if (v.key === "ArrowDown" || v.key === "ArrowUp") {
      this.at = clamp(this.at + (v.key === "ArrowDown" ? 1 : -1), 0, this.hits.length - 1);
      this.show();
      v.preventDefault();
    } else if (v.key === "Enter" && this.hits[this.at]) { this.hits[this.at][2](); this.close(); }
    else if (v.key === "Escape") this.close();
  }
  close() { this.hits = []; this.show(); }
}
