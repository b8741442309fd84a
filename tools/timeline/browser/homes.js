// Homes of running calls: the rows now, at the call's entry and before this step.
const COLUMNS = {
  A: ["ai_type", "data1", "data2", "data3", "data4"],
  F: ["sf_type", "is_active", "error_cntrl", "data_a", "data_b"],
  C: ["sf_type", "start_time", "end_time", "numberx"],
};
const KEY = { S: 1, A: 2, F: 2, C: 3 };
const TABLES = { S: "Subscriber", A: "Access_Info", F: "Special_Facility", C: "Call_Forwarding" };
// The columns of a Subscriber row, in lines of groups.
const LINES = [[["s_id", 1], ["sub_nbr", 1]], [["bit_1..", 10]], [["hex_1..", 10]], [["byte2_1..", 10]],
  [["msc_location", 1]], [["vlr_location", 1]]];

function keyOf(row) {
  const parts = row.split(" ");
  return parts.slice(0, KEY[parts[0]] + 1).join(" ");
}

function rowsByKey(numbers) {
  return new Map((numbers || []).map((number) => [keyOf(run.rows[number]), run.rows[number].split(" ")]));
}

function cell(tag, now, entry, before) {
  const changed = entry !== undefined && now !== entry;
  const fresh = before !== undefined && now !== before ? (changed || entry === undefined ? "fresh" : "back") : "";
  return el(tag, fresh, ...(changed ? [el("del", "", entry), " ", el("ins", "", now)] : [now]));
}

function subscriberRow(now, entry, before) {
  let n = 1;
  return LINES.map((groups) => {
    const line = el("div", "cells mono");
    for (const [name, many] of groups) {
      line.append(el("small", "", `${name} `));
      for (const end = n + many; n < end; n++) line.append(cell("span", now[n], entry?.[n], before?.[n]), " ");
    }
    return line;
  });
}

// A row is struck out where the call deleted it, and new where it inserted it; it is back where this step restored it.
function tableRow(key, now, entry, before) {
  const values = now || entry;
  const kind = !now ? "gone" : !entry ? "new" : "";
  const fresh = before !== null && Boolean(before) !== Boolean(now) ? (now && entry ? " back" : " fresh") : "";
  const cells = values.slice(2).map((value, n) =>
    now && entry ? cell("td", value, entry[n + 2], before ? before[n + 2] : undefined) : el("td", "", value));
  return el("tr", kind + fresh, ...cells);
}

function table(letter, now, entry, before) {
  const keys = [...new Set([...entry.keys(), ...now.keys(), ...(before ? before.keys() : [])])]
    .filter((key) => key.startsWith(letter)).sort((a, b) => a.localeCompare(b, "en", { numeric: true }));
  const head = el("tr", "", ...COLUMNS[letter].map((name) => el("th", "", name)));
  const rows = keys.filter((key) => now.has(key) || entry.has(key)).map((key) =>
    tableRow(key, now.get(key), entry.get(key), before ? before.get(key) : null));
  if (!keys.length) return null;
  const caption = el("caption", "quiet", TABLES[letter]);
  return el("div", "scroll", el("table", `rows mono table-${letter}`, caption, head, ...rows));
}

// The home of the call that runs, or that this step has ended.
function homePanel(p, step) {
  const look = valueAt(`machine ${p}`, step, null);
  if (look === null || look.length === 2 && !changesAt(`machine ${p}`, step)) return [];
  const index = changeAt(`home ${p}`, step);
  const numbers = index < 0 ? null : run.tracks[`home ${p}`][index][1];
  const subscriber = run.calls[look[0]][3];
  if (!numbers) return [el("h3", "", "Home"), el("p", "quiet", "none: the key names no subscriber")];
  const now = rowsByKey(numbers);
  const began = look.length === 6 && look[5] === 0;
  const changed = changesAt(`home ${p}`, step) && !began;
  const before = changed ? rowsByKey(run.tracks[`home ${p}`][index - 1][1]) : null;
  const ended = look.length === 2;
  const failed = ended && !look[1].startsWith("OK");
  const entry = rowsByKey(valueAt(`entry ${p}`, step, []));
  const words = failed ? "what the call changed is set back"
    : ended ? "as the call left it; what it was at its entry is struck out"
    : "now; what it was at the call's entry, and would be again after FAIL or a trap, is struck out";
  const key = `S ${subscriber}`;
  return [el("h3", "", `Home of subscriber ${subscriber}`), el("p", "quiet", words),
    el("div", "home", ...subscriberRow(now.get(key), entry.get(key), before ? before.get(key) : null),
      ...["A", "F", "C"].map((letter) => table(letter, now, entry, before)))];
}
