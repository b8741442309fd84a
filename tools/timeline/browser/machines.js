// Queues and machines: the procedure's text with the next instruction, registers, current rows and outputs.

function callLine(number, ...more) {
  const [client, text] = run.calls[number];
  return el("div", `call c${client % 8}`, el("span", "quiet", `client ${client}: `), el("span", "mono", text), ...more);
}

function queuePanel(p, step) {
  const queue = valueAt(`queue ${p}`, step, []);
  const list = el("ol", "queue", ...queue.map((call) => el("li", "", callLine(call))));
  if (!queue.length) return [el("h3", "", "Queue"), el("p", "quiet", "empty")];
  return [el("h3", "", "Queue, the first call first"), list];
}

function breaksAt(p, step, procedure) {
  return valueAt(`breaks ${p}`, step, []).filter(([name]) => name === procedure).map(([, counter]) => counter);
}

function codeOf(procedure, counter, breaks) {
  const lines = (run.procedures[procedure] || []).map(([number, text]) => {
    const kind = (number === counter ? "at " : "") + (number !== null && breaks.includes(number) ? "break" : "");
    return el("li", number === null ? "label" : kind, el("span", "n", number === null ? "" : String(number)), text);
  });
  return el("ol", "code mono", ...lines);
}

function registers(text) {
  const values = text ? text.split(" ") : [];
  return [...Array(16).keys()].map((n) => values[n] || "0");
}

// Registers are in columns, of which a long value takes two or three.
function registerKind(value, old) {
  const width = value.length > 14 ? "wide3" : value.length > 4 ? "wide2" : "";
  return (value === old ? "" : "fresh ") + width;
}

function registersPanel(now, before) {
  const old = before ? registers(before[2]) : registers("");
  return el("div", "registers mono", ...registers(now[2]).map((value, n) =>
    el("span", registerKind(value, old[n]), el("i", "", `r${n} `), el("b", "", value))));
}

// The last look at the same call before this step.
function lookBefore(p, step) {
  const index = changeAt(`machine ${p}`, step);
  const track = run.tracks[`machine ${p}`] || [];
  if (index < 1 || track[index][0] !== step) return index < 0 ? null : track[index][1];
  return track[index - 1][1][0] === track[index][1][0] ? track[index - 1][1] : null;
}

function pairs(kind, values, old) {
  return el("div", `${kind} pairs mono`, ...values.map(([name, value], n) =>
    el("span", old && old[n] !== undefined && old[n][1] !== value || old && old[n] === undefined ? "fresh" : "",
      el("i", "quiet", name ? `${name} ` : ""), el("b", "", value))));
}

function currentRows(look) {
  return look[3].split(" ").map((key, n) => ["SAFC"[n], key]);
}

function outputs(look) {
  return look[4] ? look[4].split(" ").map((value) => ["", value]) : [];
}

function machinePanel(p, step) {
  const look = valueAt(`machine ${p}`, step, null);
  const elsewhere = valueAt(`breaks ${p}`, step, []).map(([name, counter]) => `${name} ${counter}`);
  const breaks = elsewhere.length ? el("p", "breaks quiet", `Breakpoints: ${elsewhere.join(", ")}`) : null;
  if (look === null) return [el("h3", "", "Machine"), el("p", "machine quiet", "no call runs"), breaks];
  if (look.length === 2) {
    return [el("h3", "", "Machine"), el("p", "machine quiet", "no call runs; the last one ended"),
      callLine(look[0], " → ", el("b", "mono reply", look[1])), breaks];
  }
  const before = lookBefore(p, step);
  const old = before && before.length > 2 ? before : null;
  const procedure = run.calls[look[0]][2];
  return [el("h3", "", "Machine"), callLine(look[0]),
    el("p", "machine quiet", `${procedure}, next instruction ${look[1]}; ${look[5]} made`),
    codeOf(procedure, look[1], breaksAt(p, step, procedure)), breaks,
    el("h3", "", "Registers"), registersPanel(look, before),
    el("h3", "", "Current rows"), pairs("current", currentRows(look), old && currentRows(old)),
    el("h3", "", "Outputs"), look[4] ? pairs("out", outputs(look), old && outputs(old))
      : el("p", "out quiet", "none")];
}
