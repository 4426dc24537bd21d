// The page itself: what is done when somebody uses it.
let view, overview, findings, table, chainList, due = 0, drag = null;
const fingers = new Map();
const soon = () => { if (!due) due = requestAnimationFrame(() => { due = 0; view.show(); }); };

// shows what a page holds; `was` is a view whose window and lanes are kept
async function begin(page, was) {
  const data = JSON.parse(page.getElementById("data").textContent);
  const schedule = new Schedule(data, await unpacked(page.getElementById("arrays").textContent));
  overview = undefined;
  view = new View(schedule, was ? keptLanes(was, schedule) : data.chosen);
  $("name").textContent = data.name;
  $("under").textContent = data.under;
  $("legend").open = !view.isSlim;
  $("budgets").checked = view.lanes.hasBudgets;
  $("budgets").parentElement.hidden = !schedule.threads.some((_, thread) => schedule.held.has(thread));
  overview = new Overview(view);
  findings = new Findings(view);
  table = new Table(view);
  chainList = new ChainList(view);
  new Search(view, findings);
  if (was && was.schedule.a === schedule.a && was.schedule.b === schedule.b) view.window(was.lo, was.hi);
}
const keptLanes = (was, schedule) => {
  const kept = was.lanes.shown.map(thread => schedule.placeOf.get(was.schedule.threads[thread].name)).filter(thread => thread !== undefined);
  return kept.length ? kept : schedule.chosen;
};

// ---- the picture by hand: wheel, drag, two fingers

const place = v => v.clientX - $("main").getBoundingClientRect().left;
function turn(v) {
  if (v.ctrlKey || v.shiftKey && !v.deltaY) return;
  v.preventDefault();
  if (v.altKey) $("scroll").scrollTop += v.deltaY;
  else if (v.shiftKey || Math.abs(v.deltaX) > Math.abs(v.deltaY)) view.pan(v.deltaX || v.deltaY);
  else view.zoom(Math.exp(-v.deltaY * .0015), place(v));
}
function press(v) {
  if (v.target.closest(".head")) return;
  fingers.set(v.pointerId, v);
  drag = { x: v.clientX, y: v.clientY, lo: view.lo, hi: view.hi, top: $("scroll").scrollTop, apart: apart() };
  $("draw").classList.add("drag");
  $("draw").setPointerCapture(v.pointerId);
}
const apart = () => { const [one, two] = fingers.values(); return two ? Math.max(20, Math.abs(one.clientX - two.clientX)) : 0; };
function move(v) {
  if (fingers.has(v.pointerId)) fingers.set(v.pointerId, v);
  if (!drag) { point(v); return; }
  $("tip").style.display = "none";
  if (drag.apart) {
    const t = (drag.lo + drag.hi) / 2, half = (drag.hi - drag.lo) / 2 * drag.apart / apart();
    view.window(t - half, t + half);
    return;
  }
  const by = (drag.x - v.clientX) / view.wide * (drag.hi - drag.lo);
  view.window(drag.lo + by, drag.hi + by);
  $("scroll").scrollTop = drag.top + drag.y - v.clientY;
}
function release(v) {
  fingers.delete(v.pointerId);
  drag = null;
  $("draw").classList.remove("drag");
}
// says what stands under the pointer
function point(v) {
  const under = document.elementsFromPoint(v.clientX, v.clientY).map(element => element.closest("[data-i]"));
  const hit = under.find(element => element && $("draw").contains(element));
  const tip = $("tip");
  tip.style.display = hit ? "block" : "none";
  const t = view.at(place(v)), ways = hit ? view.source.ways.at(hit.dataset.i, t) : [];
  view.point(ways);
  if (!hit) return;
  tip.textContent = [view.words.of(hit.dataset.i, t), ...ways.map(way => view.wayWords.of(way))].join("\n");
  tip.style.left = Math.max(4, Math.min(v.clientX + 14, innerWidth - tip.offsetWidth - 8)) + "px";
  tip.style.top = Math.min(v.clientY + 16, innerHeight - tip.offsetHeight - 8) + "px";
}
$("draw").addEventListener("wheel", turn, { passive: false });
$("draw").addEventListener("pointerdown", press);
$("draw").addEventListener("pointermove", move);
for (const name of ["pointerup", "pointercancel"]) addEventListener(name, release);
$("draw").addEventListener("pointerleave", () => { $("tip").style.display = "none"; view.point([]); });
$("draw").addEventListener("dblclick", v => { if (!v.target.closest(".head")) view.all(); });
$("scroll").addEventListener("scroll", soon);

// ---- the menu of a lane or a core

const menuOf = head => head.dataset.core === undefined ? menuOfLane(+head.dataset.thread) : menuOfCore(+head.dataset.core);
function menuOfCore(core) {
  const { lanes, schedule } = view;
  const own = schedule.onCore[core];
  const remove = threads => { for (const thread of threads) lanes.remove(thread); };
  return [
    [lanes.folded.has(core) ? "unfold" : "fold", () => lanes.fold(core)],
    [`lanes for all ${own.length} threads of core ${core}`, () => { for (const thread of own) lanes.add(thread); }],
    ["remove the lanes of this core", () => { lanes.cores.delete(core); remove(own); }],
    ["remove the lanes of other cores", () => remove(lanes.shown.filter(thread => !own.includes(thread)))],
  ];
}
function menuOfLane(thread) {
  const { lanes } = view;
  return [
    [lanes.isPinned(thread) ? "unpin" : "pin above the others", () => lanes.pin(thread)],
    ["move up", () => lanes.move(thread, -1)],
    ["move down", () => lanes.move(thread, 1)],
    ["remove this lane", () => lanes.remove(thread)],
    ["its next finding", () => nextOf(thread)],
  ];
}
function nextOf(thread) {
  const own = findings.list.map((finding, place) => finding.thread === thread ? place : -1).filter(place => place >= 0);
  if (own.length) findings.go(own.find(place => place > findings.at) ?? own[0]);
}
function openMenu(head) {
  const box = head.querySelector(".hit").getBoundingClientRect(), menu = $("menu"), key = head.dataset.key;
  const choose = act => () => { act(); view.arrange(); closeMenu(key); };
  menu.replaceChildren(...menuOf(head).map(([name, act]) => node("button", { role: "menuitem", onclick: choose(act) }, name)));
  menu.hidden = false;
  menu.style.left = Math.min(box.left + 24, innerWidth - menu.offsetWidth - 8) + "px";
  menu.style.top = Math.min(box.bottom, innerHeight - menu.offsetHeight - 8) + "px";
  menu.dataset.key = key;
  menu.firstChild.focus();
}
function closeMenu(key) {
  $("menu").hidden = true;
  document.querySelector(`#draw [data-key="${key}"]`)?.focus({ preventScroll: true });
}
$("draw").addEventListener("click", v => { const head = v.target.closest(".head"); if (head) openMenu(head); });
$("menu").addEventListener("keydown", v => {
  const items = [...$("menu").children], at = items.indexOf(document.activeElement);
  if (v.key === "ArrowDown" || v.key === "ArrowUp") items[(at + (v.key === "ArrowDown" ? 1 : items.length - 1)) % items.length].focus();
  else if (v.key === "Escape" || v.key === "Tab") closeMenu($("menu").dataset.key);
  else return;
  v.preventDefault();
  v.stopPropagation();
});
addEventListener("pointerdown", v => { if (!v.target.closest("#menu")) $("menu").hidden = true; });

// ---- buttons and keys

const middle = () => view.left + view.wide / 2;
const scrollBy = pixels => { $("scroll").scrollTop += pixels; };
const KEYS = {
  "+": () => view.zoom(1.6, middle()),
  "-": () => view.zoom(1 / 1.6, middle()),
  "0": () => view.all(),
  ArrowLeft: () => view.pan(-90),
  ArrowRight: () => view.pan(90),
  ArrowUp: () => scrollBy(-LANE),
  ArrowDown: () => scrollBy(LANE),
  PageUp: () => scrollBy(-$("scroll").clientHeight),
  PageDown: () => scrollBy($("scroll").clientHeight),
  n: () => findings.step(1),
  p: () => findings.step(-1),
  "/": () => $("find").focus(),
  "?": () => $("keys").showModal(),
};
const BUTTONS = { in: "+", out: "-", fit: "0", next: "n", last: "p", help: "?" };
for (const id in BUTTONS) $(id).onclick = () => KEYS[BUTTONS[id]]();
$("sig").onchange = () => view.show();
$("budgets").onchange = () => { view.lanes.hasBudgets = $("budgets").checked; view.arrange(); };
// whether a key belongs to what it is pressed on: a field, a menu, a list that scrolls
function isTaken(v) {
  if (v.ctrlKey || v.metaKey || v.altKey || v.target.closest?.("input, dialog, #menu")) return true;
  return /^(Page|Arrow)/.test(v.key) && v.target.closest?.("#below");
}
addEventListener("keydown", v => {
  const head = v.target.closest?.(".head");
  if (head && (v.key === "Enter" || v.key === " ")) openMenu(head);
  else if (KEYS[v.key] && !isTaken(v)) KEYS[v.key]();
  else return;
  v.preventDefault();
});
const rowOf = v => v.target.closest("#threads tbody tr, #list .finding");
$("below").addEventListener("mouseover", v => {
  const row = rowOf(v);
  if (!row) return;
  view.light = view.schedule.placeOf.get(row.dataset.name) ?? -1;
  view.showLight();
});

// ---- the window of the browser

addEventListener("resize", () => { view.arrange(); overview.draw(); });
matchMedia("(prefers-color-scheme:dark)").addEventListener("change", () => overview.draw());
addEventListener("beforeprint", () => { view.isPrinting = true; view.show(); });
addEventListener("afterprint", () => { view.isPrinting = false; view.show(); });
const ready = begin(document).then(() => {
  const asked = /^#(\d+)-(\d+)$/.exec(location.hash);
  if (asked) view.window(+asked[1], +asked[2]);
});
