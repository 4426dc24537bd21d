// The live page: asks for the number of the picture, and takes the new one when that is another, with the window and the lanes that are in view.
const EVERY = 300;
let shown = +document.documentElement.dataset.picture;
// the fault of the file, and below it what there is to say of it, with its line
function fault(text, explained = []) {
  const said = text ? [text, ...explained].join("\n") : "";
  $("fault").hidden = !text;
  if ($("fault").textContent !== said) $("fault").textContent = said;
  $("draw").classList.toggle("stale", !!text);
}
// what the last save made worse, and what it made better
function change(found) {
  const mark = isWorse => node("b", { className: isWorse ? "worse" : "better" }, isWorse ? "worse " : "better ");
  $("changes").hidden = shown < 2;
  const items = found.map(([isWorse, said]) => node("span", {}, mark(isWorse), said));
  $("changes").replaceChildren(...items, items.length ? "" : "the last save changed nothing of the verdict");
}
// ---- beyond the detail of the page: the part that is in view, and as much on each side, is asked for once nothing has moved for a while

const PAUSE = 150, PART_THINGS = 60000, KEPT_PARTS = 4;
let asking = 0;
// how often a part was refused, which a machine with much to do may take too long to read
const refused = new Map(), AGAIN = 1000, TRIES = 3;
// the two times of the part that is in view, if the page has only shares of it and it has few enough things
function partAsked() {
  const { schedule, source, lo, hi } = view, span = hi - lo;
  if (schedule.detail === null || hi <= schedule.detail || source !== schedule) return null;
  if (span * schedule.things / Math.max(1, schedule.detail - schedule.a) > PART_THINGS) return null;
  return [Math.max(schedule.a, Math.floor(lo - span)), Math.min(schedule.b, Math.ceil(hi + span))];
}
async function askPart() {
  const asked = partAsked(), own = view, address = asked && `/part/${shown}/${asked.join("/")}`;
  if (!asked || refused.get(address) === TRIES) return;
  const answer = await fetch(address);
  if (!answer.ok) {
    refused.set(address, (refused.get(address) ?? 0) + 1);
    askLater(AGAIN);
    return;
  }
  const { data, arrays } = await answer.json(), bytes = await unpacked(arrays);
  if (own !== view) return;
  own.parts = [new Schedule({ ...own.schedule.data, ...data }, bytes), ...own.parts].slice(0, KEPT_PARTS);
  soon();
}
function askLater(pause) {
  clearTimeout(asking);
  asking = setTimeout(() => askPart().catch(() => {}), pause);
}
onShow = () => askLater(PAUSE);

async function renew(text) {
  const page = new DOMParser().parseFromString(text, "text/html"), old = view;
  document.title = page.title;
  $("legend").replaceChildren(...page.getElementById("legend").childNodes);
  await begin(page, old);
  shown = +page.documentElement.dataset.picture;
}
async function follow() {
  try {
    const state = await (await fetch("/state")).json();
    if (state.picture !== shown) {
      await renew(await (await fetch("/")).text());
      change(state.changes);
    }
    fault(state.fault, state.explained);
  } catch {
    fault("live has ended");
  }
  setTimeout(follow, EVERY);
}
ready.then(follow);
