// The board of a run: its partitions, extents and the plain world.

function showBoard(step) {
  const extents = listed.map((extent) => `extent ${extent}`);
  const moved = run.extents.map((extent) => changeAt(`extent ${extent}`, step)).join();
  for (let p = 0; p < run.partitions; p++) {
    const names = ["queue", "machine", "home", "entry", "stopped", "breaks"].map((name) => `${name} ${p}`);
    const touched = run.lane[step - 1] === p;
    const node = panel(p, signatureOf(names, step) + `|${moved}|${touched}`, () => partitionPanel(p, step, touched));
    if (!node.parentNode) parts.append(node);
  }
  // (all places are read before the first is changed: the page is laid out once)
  const next = [...parts.querySelectorAll(".code .at")].map((line) => [line.parentNode, line.offsetTop - 80]);
  for (const [code, top] of next) code.scrollTop = top;
  const table = panel("extents", signatureOf(extents, step), () => extentsPanel(step));
  if (!table.parentNode) side.append(table);
  showPlain(step);
}

// How the panels stand beside each other.
function layOut() {
  parts.className = run.partitions <= 4 ? "few" : "";
  side.append(plainPanel);
}
