// Tracks: what holds from a step on.

// Which change of a track counts at a step: the last one up to it, or -1.
function changeAt(name, step) {
  const track = run.tracks[name] || [];
  let low = 0, high = track.length;
  while (low < high) {
    const middle = (low + high) >> 1;
    if (track[middle][0] <= step) low = middle + 1; else high = middle;
  }
  return low - 1;
}

function valueAt(name, step, otherwise) {
  const index = changeAt(name, step);
  return index < 0 ? otherwise : run.tracks[name][index][1];
}

// Whether the step itself changes a track.
function changesAt(name, step) {
  const index = changeAt(name, step);
  return index >= 0 && run.tracks[name][index][0] === step;
}

// What a panel shows: its tracks as they are, and those which this step changes.
function signatureOf(names, step) {
  return names.map((name) => changeAt(name, step) + (changesAt(name, step) ? "*" : "")).join();
}
