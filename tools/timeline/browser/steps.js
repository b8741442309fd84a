// A step is shown: its event and answer large, the cursor on the timeline, and all panels.

// The caption of the line that made a step stands with all of its steps.
function captionOf(step) {
  const line = entries[step].dataset.line;
  let first = step;
  while (line && first > 0 && entries[first - 1].dataset.line === line) first--;
  const caption = entries[first].querySelector(".caption");
  return caption && caption.cloneNode(true);
}

function nowPanel(step) {
  const copy = entries[step].cloneNode(true);
  const answer = copy.querySelector("samp");
  if (answer && (answer.textContent.includes("\n") || answer.textContent.length > 60)) answer.classList.add("long");
  const number = /^REFUSED (\d+) /.exec(answer ? answer.textContent : "");
  const meaning = number && $(`refusal-${number[1]}`);
  const caption = captionOf(step);
  if (copy.querySelector(".caption")) copy.querySelector(".caption").remove();
  const children = [copy.querySelector("a"), caption, ...copy.querySelector("div").childNodes].filter(Boolean);
  if (meaning) {
    const summary = el("summary", "", `What to do about ${number[1]}`);
    children.push(el("details", "", summary, el("pre", "", meaning.textContent)));
  }
  $("now").replaceChildren(...children);
}

const svg = document.querySelector("#strip svg");
// (beside the picture, which isn't drawn again when the cursor moves)
const cursor = el("div", "cursor");
cursor.style.height = `${svg.height.baseVal.value}px`;
$("strip").append(cursor);

// The names of lanes stay in view when the timeline is scrolled past them.
$("strip").addEventListener("scroll", () => $("strip").classList.toggle("scrolled", $("strip").scrollLeft > 80));
$("strip").prepend(el("div", "lane-names", ...run.lanes.map(([top, , text]) => {
  const name = el("span", "", text);
  name.style.top = `${top + 3}px`;
  return name;
})));
const placeOf = (step) => (step === 0 ? 96 : step > run.places.length ? run.finish : run.places[step - 1]);

function showCursor(step) {
  const x = placeOf(step), strip = $("strip"), p = run.lane[step - 1];
  cursor.style.transform = `translateX(${x - 4}px)`;
  strip.setAttribute("aria-valuenow", String(step));
  strip.setAttribute("aria-valuetext", entries[step].querySelector("code").textContent);
  const left = x - strip.scrollLeft;
  if (left < 120 || left > strip.clientWidth - 80) strip.scrollLeft = x - strip.clientWidth / 2;
  if (p !== undefined && p >= 0) {
    const [top, height] = run.lanes[p];
    if (top < strip.scrollTop || top + height > strip.scrollTop + strip.clientHeight) strip.scrollTop = top - 40;
  }
}

// The address names the step, a moment later: browsers don't let it change hundreds of times in a few seconds.
let renaming = 0;
function nameStep() {
  renaming = 0;
  history.replaceState(null, "", `#${current}`);
}

// (how high entries are that aren't in view is known only once they come into view)
function keepInView() {
  const list = $("events").getBoundingClientRect(), entry = entries[current].getBoundingClientRect();
  if (entry.bottom > list.bottom) $("events").scrollTop += entry.bottom - list.bottom;
  else if (entry.top < list.top) $("events").scrollTop -= list.top - entry.top;
}

function show(step) {
  step = Math.max(0, Math.min(run.end, step));
  if (step === current) return;
  if (current >= 0) entries[current].classList.remove("current");
  current = step;
  const entry = entries[step], list = $("events");
  entry.classList.add("current");
  nowPanel(step);
  showBoard(step);
  showCursor(step);
  list.scrollTop = entry.offsetTop - list.clientHeight / 2;
  setTimeout(keepInView, 120);
  $("where").textContent = `step ${step} of ${run.end}`;
  if (!renaming) renaming = setTimeout(nameStep, 100);
  if (step === run.end) play(false);
}

function play(wanted) {
  clearInterval(playing);
  playing = wanted && current < run.end ? setInterval(() => show(current + 1), 700) : 0;
  $("play").textContent = playing ? "Pause" : "Play";
}
