// The board of a history: its clients with their calls, what the call of this step overlaps with, and the verdict.

const [CLIENT, TEXT, SUBSCRIBER, KIND, ASKED, ENDED, REPLY] = [0, 1, 2, 3, 4, 5, 6];
const KINDS = {
  aborted: "aborted: it changed nothing", unanswered: "no answer: it takes effect at some time, or never",
};

function link(step) {
  const made = el("a", "", `step ${step}`);
  made.href = `#${step}`;
  return made;
}

// A call with the steps at which it is asked and ends.
function callLine(call, isNamed) {
  const when = call[ENDED] ? [" to ", link(call[ENDED])] : [" on"];
  return el("div", `call kind-${call[KIND]}`, isNamed ? el("span", "quiet", `client ${call[CLIENT]}: `) : null,
    el("span", "mono", call[TEXT]), el("small", "", " ", link(call[ASKED]), ...when));
}

function replyLine(call) {
  return el("div", "mono reply", call[KIND] in KINDS ? KINDS[call[KIND]] : call[REPLY]);
}

// The last call that a client has asked by a step, or null.
function lastCall(client, step) {
  return run.calls.reduce((last, call) => (call[CLIENT] === client && call[ASKED] <= step ? call : last), null);
}

function clientPanel(client, place, step) {
  const call = lastCall(client, step);
  const isOpen = call && (!call[ENDED] || call[ENDED] > step);
  const said = !call ? el("p", "state quiet", "has asked nothing yet")
    : el("p", "state quiet", isOpen ? "waits for an answer" : "has no call open; the last one ended");
  const lines = !call ? [] : isOpen ? [callLine(call, false)] : [callLine(call, false), replyLine(call)];
  return el("section", `panel client${run.lane[step - 1] === place ? " touched" : ""}`,
    el("h2", "", `Client ${client}`), said, ...lines);
}

// What is told of the calls that have to come before another.
function firstLine(count) {
  if (count === 0) return "no call ended before it was asked.";
  return count === 1 ? "one call ended before it was asked, and comes first."
    : `${count} calls ended before it was asked, and come first.`;
}

// In real time a call comes before those that are asked after its answer; calls that overlap may change places.
function overlapPanel(step) {
  const call = run.calls[run.call[step - 1]];
  const title = el("h2", "", "The order of the calls");
  if (!call) return el("section", "panel overlap", title, el("p", "quiet", "No call is asked yet."));
  const near = run.calls.filter((other) => other !== call && other[SUBSCRIBER] === call[SUBSCRIBER]
    && other[KIND] !== "aborted" && other[ASKED] <= step);
  const before = near.filter((other) => other[KIND] !== "unanswered" && other[ENDED] && other[ENDED] < call[ASKED]);
  const after = near.filter((other) => call[KIND] !== "unanswered" && call[ENDED] && call[ENDED] < other[ASKED]);
  const either = near.filter((other) => !before.includes(other) && !after.includes(other));
  const who = call[SUBSCRIBER] ? `On subscriber ${call[SUBSCRIBER]}` : "Its key names no subscriber";
  const list = either.length ? el("div", "either", ...either.map((other) => callLine(other, true)))
    : el("p", "either quiet", "none");
  return el("section", "panel overlap", title, callLine(call, true),
    el("p", "quiet", `${who}: ${firstLine(before.length)}`),
    el("h3", "", "These may come before or after it"), list);
}

function verdictPanel(step) {
  const isIn = run.window.includes(step) || run.wrong === step;
  const told = run.told.map(([name, text]) =>
    el("div", "", name ? el("h3", "", name) : null, el("span", "mono", text)));
  const window = run.window.length ? el("p", "", "The lines that have to do with it: ", link(run.window[0]), " to ",
    link(run.window[run.window.length - 1]), ".") : null;
  return el("section", `panel verdict${isIn ? " touched" : ""}`, el("h2", "", "The verdict"),
    el("p", "said", run.verdict), el("div", "told", ...told), window);
}

const overlapping = el("div", ""), judged = el("div", "");

function showBoard(step) {
  run.clients.forEach((client, place) => {
    const call = lastCall(client, step);
    const hasEnded = call && call[ENDED] && call[ENDED] <= step;
    const signature = [call ? call[ASKED] : 0, hasEnded, run.lane[step - 1] === place];
    const node = panel(client, signature.join(), () => clientPanel(client, place, step));
    if (!node.parentNode) parts.append(node);
  });
  overlapping.replaceChildren(overlapPanel(step));
  judged.replaceChildren(verdictPanel(step));
}

// How the panels stand beside each other.
function layOut() {
  parts.className = "clients";
  side.append(judged, overlapping);
}
