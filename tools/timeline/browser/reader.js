// What the reader does: keys, the timeline as a slider, links and buttons.

const KEYS = {
  ArrowRight: () => show(current + 1), ArrowLeft: () => show(current - 1),
  Home: () => show(0), End: () => show(run.end), " ": () => play(!playing),
};

document.addEventListener("keydown", (event) => {
  if (event.ctrlKey || event.metaKey || event.altKey || !KEYS[event.key]) return;
  if (event.key === " " && event.target.tagName === "SUMMARY") return;
  event.preventDefault();
  KEYS[event.key]();
});

function nearest(x) {
  let best = 0;
  const distance = (step) => Math.abs(placeOf(step) - x);
  for (let step = 1; step <= run.end; step++) if (distance(step) < distance(best)) best = step;
  return best;
}

const strip = $("strip");
const point = (event) => show(nearest(event.clientX - svg.getBoundingClientRect().left));
strip.addEventListener("pointerdown", (event) => { if (event.target !== strip) point(event); });
strip.addEventListener("pointermove", (event) => { if (event.buttons & 1 && event.target !== strip) point(event); });

document.addEventListener("click", (event) => {
  const entry = event.target.closest("#events > li");
  const link = event.target.closest('a[href^="#"]');
  if (!entry && !link) return;
  event.preventDefault();
  show(link ? Number(link.hash.slice(1)) : entries.indexOf(entry));
});

function button(name, text, act) {
  const made = el("button", "", text);
  made.type = "button";
  if (name) made.id = name;
  made.addEventListener("click", act);
  return made;
}

const asked = () => Number(/^#\d+$/.test(location.hash) ? location.hash.slice(1) : 0);

function begin() {
  const where = el("b", "mono");
  where.id = "where";
  const controls = el("div", "controls", button("first", "First", KEYS.Home), button("back", "Back", KEYS.ArrowLeft),
    button("forward", "Forward", KEYS.ArrowRight), button("last", "Last", KEYS.End),
    button("play", "Play", KEYS[" "]), where,
    el("span", "quiet", "Keys: arrows, Home, End, space. The timeline is a slider."));
  $("now").after(controls);
  document.body.className = "read";
  for (const [name, value] of Object.entries({ role: "slider", tabindex: "0", "aria-label": "Step of the run",
    "aria-valuemin": "0", "aria-valuemax": String(run.end) })) strip.setAttribute(name, value);
  $("now").hidden = $("board").hidden = false;
  layOut();
  $("board").append($("list"), parts, side);
  // (an address names a step, and not where to scroll)
  for (const entry of entries) entry.removeAttribute("id");
  const step = asked();
  show(step);
  history.scrollRestoration = "manual";
  addEventListener("hashchange", () => show(asked()));
  addEventListener("load", () => setTimeout(() => scrollTo(0, 0)));
}

begin();
