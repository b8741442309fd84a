// What stands in a page of ./timeline --page at its current step, as the tests compare it.
(() => {
  const text = (node) => (node ? node.textContent : "");
  const all = (node, selector) => [...node.querySelectorAll(selector)];

  // A cell has one value, or that at the call's entry, struck out, and the one now.
  const now = (cell) => (cell.querySelector("ins") ? text(cell.querySelector("ins")) : text(cell));
  const entry = (cell) => (cell.querySelector("del") ? text(cell.querySelector("del")) : text(cell));

  function rows(home, value, hidden) {
    if (!home) return null;
    const cells = all(home, ".cells span").map(value);
    const made = ["S " + cells.join(" ")];
    for (const letter of "AFC") {
      for (const row of all(home, `.table-${letter} tr`)) {
        if (row.querySelector("th") || row.classList.contains(hidden)) continue;
        made.push([letter, cells[0], ...all(row, "td").map(value)].join(" "));
      }
    }
    return made;
  }

  function machine(partition) {
    const said = text(partition.querySelector(".machine"));
    const runs = /^([A-Z_]+), next instruction (\d+); (\d+) made$/.exec(said);
    if (!runs) return { runs: said.startsWith("no call runs") ? null : said };
    const line = partition.querySelector(".code .at");
    const number = text(line.querySelector(".n"));
    const [instruction, label] = text(line).slice(number.length).split("@");
    let after = label && all(partition, ".code .label").find((place) => text(place) === `${label}:`);
    while (after && !text(after.querySelector(".n"))) after = after.nextElementSibling;
    return {
      runs: `${runs[1]} ${runs[2]}`,
      instruction,
      target: after ? text(after.querySelector(".n")) : "",
      counter: number,
      registers: all(partition, ".registers b").map(text),
      changed: all(partition, ".registers span").flatMap((cell, n) => (cell.classList.contains("fresh") ? [n] : [])),
      current: all(partition, ".current b").map(text),
      out: all(partition, ".out b").map(text),
    };
  }

  const partitions = all(document, ".partition");
  const extents = all(document, ".extents tr").slice(1).map((row) => all(row, "td").map(text));
  const where = /^step (\d+) of (\d+)$/.exec(text(document.getElementById("where")));
  const panel = document.getElementById("now");
  const completed = all(document, ".serial li").filter((item) => !item.hidden);
  return {
    step: Number(where[1]),
    last: Number(where[2]),
    marked: all(document, "#events > li").findIndex((item) => item.classList.contains("current")),
    asked: text(panel.querySelector("code")),
    answer: text(panel.querySelector("samp")),
    times: Number((/^(\d+) times$/.exec(text([...panel.querySelectorAll("small")].pop())) || [0, 1])[1]),
    why: text(panel.querySelector(".why")),
    told: text(panel.querySelector("pre")),
    caption: text(panel.querySelector(".caption")),
    partitions: partitions.map((partition) => text(partition.querySelector("h2"))),
    stopped: partitions.map((partition) => Boolean(partition.querySelector(".badge"))),
    queues: partitions.map((partition) => all(partition, ".queue .call").map(text)),
    breaks: partitions.map((partition) => text(partition.querySelector(".breaks")).replace("Breakpoints: ", "")),
    machines: partitions.map(machine),
    homes: partitions.map((partition) => rows(partition.querySelector(".home"), now, "gone")),
    entries: partitions.map((partition) => rows(partition.querySelector(".home"), entry, "new")),
    places: Object.fromEntries(extents.map((cells) => [cells[0].split(":")[0], cells[1]])),
    routes: Object.fromEntries(extents.map((cells) => [cells[0].split(":")[0], cells[2]])),
    moves: Object.fromEntries(extents.map((cells) => [cells[0].split(":")[0], cells[3]])),
    plain: text(document.querySelector(".plain-step")),
    completed: completed.length,
    reply: completed.length ? text(completed[completed.length - 1].querySelector(".reply")) : "",
  };
})()
