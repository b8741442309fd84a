// Partitions, extents and the plain world.

function openedAt(extent) {
  return (extent - 1) % run.partitions;
}

function extentAt(extent, step) {
  return valueAt(`extent ${extent}`, step, [openedAt(extent), openedAt(extent), 0, [], 0]);
}

const allExtents = Math.ceil(run.subscribers / 64);
const listed = allExtents <= 24 ? [...Array(allExtents).keys()].map((n) => n + 1) : run.extents;

function extentsAt(p, step) {
  const here = listed.filter((extent) => extentAt(extent, step)[0] === p);
  let rest = 0;
  if (allExtents > 24) {
    const moving = run.extents.filter((extent) => openedAt(extent) === p).length;
    rest = Math.max(Math.floor((allExtents - 1 - p) / run.partitions) + 1 - moving, 0);
  }
  const some = here.length ? here.join(", ") : rest ? "" : "none";
  return some + (rest ? `${some ? ", and " : ""}${rest.toLocaleString("en")} that don't move` : "");
}

function partitionPanel(p, step, touched) {
  const stopped = valueAt(`stopped ${p}`, step, false);
  const queue = queuePanel(p, step), machine = machinePanel(p, step), home = homePanel(p, step);
  const [left, right] = home.length ? [[...queue, ...machine], home] : [queue, machine];
  return el("section", `panel partition${touched ? " touched" : ""}`,
    stopped ? el("span", "badge", "stopped") : null,
    el("h2", "", `Partition ${p}`), el("p", "extents-here quiet", `Extents: ${extentsAt(p, step)}`),
    el("div", "halves", el("div", "", ...left), el("div", "", ...right)));
}

const someHandOut = run.extents.some((extent) => run.tracks[`extent ${extent}`].some(([, value]) => value[4]));

function extentRow(extent, step) {
  const [place, route, moves, , chapters] = extentAt(extent, step);
  const track = run.tracks[`extent ${extent}`];
  const index = changeAt(`extent ${extent}`, step);
  const fresh = index >= 0 && track[index][0] === step ? "fresh" : "";
  const last = Math.min(64 * extent, run.subscribers);
  const where = place < 0 ? "under way" : String(place);
  const cells = [`${extent}: ${64 * (extent - 1) + 1}-${last}`, where, String(route), String(moves)];
  if (someHandOut) cells.push(String(chapters));
  return el("tr", fresh, ...cells.map((text) => el("td", "", text)));
}

function extentsPanel(step) {
  const names = ["extent", "is at", "route", "moves", ...(someHandOut ? ["chapters"] : [])];
  const rows = listed.map((extent) => extentRow(extent, step));
  const head = el("tr", "", ...names.map((name) => el("th", "", name)));
  return el("section", "panel", el("h2", "", "Extents"),
    rows.length ? el("div", "scroll", el("table", "rows extents mono", head, ...rows))
      : el("p", "quiet", "none moves in this run"),
    ...listed.flatMap((extent) => extentAt(extent, step)[3].map(([move, where]) =>
      el("p", "", `Extent ${extent} has landed at ${where}, its move ${move}, and its route has yet to learn it.`))));
}

// All completed calls stand in the page once; those that are yet to end are hidden.
const serial = el("ol", "serial", ...run.completed.map(([, call, reply], n) =>
  el("li", "", el("span", "quiet", `${n + 1}.`), callLine(call, " → ", el("b", "mono reply", reply)))));
let completedShown = run.completed.length;
let freshCall = null;
function showCompleted(step) {
  let many = 0, end = run.completed.length;
  while (many < end) {
    const middle = (many + end) >> 1;
    if (run.completed[middle][0] <= step) many = middle + 1; else end = middle;
  }
  for (let n = Math.min(many, completedShown); n < Math.max(many, completedShown); n++) {
    serial.children[n].hidden = n >= many;
  }
  const last = many && run.completed[many - 1][0] === step ? serial.children[many - 1] : null;
  if (freshCall) freshCall.classList.remove("fresh");
  if (last) last.classList.add("fresh");
  freshCall = last;
  completedShown = many;
  if (many) serial.scrollTop = serial.children[many - 1].offsetTop;
  return many;
}

function plainWords(step) {
  const [texts, numbers] = run.plain;
  if (step === 0) return "It has the opened rows as its database, and no call.";
  return step > numbers.length ? texts.find((text) => text.endsWith("no step.")) || "" : texts[numbers[step - 1]];
}

function runningCalls(step) {
  const calls = [];
  for (let p = 0; p < run.partitions; p++) {
    const look = valueAt(`machine ${p}`, step, null);
    if (look && look.length === 6) calls.push(callLine(look[0], el("span", "quiet", `, ${look[5]} made`)));
  }
  return calls;
}

const completedHead = el("h3", ""), plainStep = el("p", "plain-step"), plainCalls = el("div", "plain-calls");
const plainPanel = el("section", "panel plain", el("h2", "", "The plain world"),
  el("small", "", "One database and its calls, without partitions, queues or moves. An event is a step of it or none."),
  plainStep, el("h3", "", "Calls that run"), plainCalls, completedHead, serial);

function showPlain(step) {
  const calls = runningCalls(step), many = showCompleted(step);
  plainStep.textContent = plainWords(step);
  plainCalls.replaceChildren(...(calls.length ? calls : [el("p", "quiet", "none")]));
  completedHead.textContent = many ? `Completed calls, in the order of their ends: ${many}` : "Completed calls: none";
}
