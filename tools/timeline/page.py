"""The page of a run: the list of events and answers, and all that a script needs to show any step."""

from html import escape

from document import Parts, caption, document, numbered, the_end
from legend import legend_alone
from picture import GUTTER, summary

SCRIPTS = ("elements", "tracks", "machines", "homes", "world", "board", "steps", "reader")


def page(title, picture, watcher, source, explain):
    """The lines of the page; `explain` gives what the program says of a refusal's number."""
    strip = picture.lines()
    numbers = sorted({_refusal(step) for step in watcher.steps} - {None}, key=int)
    words = {number: explain(number) for number in numbers}
    return document(Parts(
        title=f"A run of {title}", heading=f"A run of <code>{escape(title)}</code>",
        summary=summary(picture.events, picture.story), strip=strip, legend=legend_alone(picture.story, 660),
        list_name="Events and answers", entries=list(_list(watcher, source, words)), more=list(_refusals(words)),
        data=_data(picture, watcher, source), scripts=SCRIPTS))


def _refusals(words):
    """What the refusals that occur mean."""
    yield '<section id="refusals"><h2>What the refusals mean</h2>' if words else '<section id="refusals" hidden>'
    yield from (f'<pre id="refusal-{number}">{escape(text.rstrip())}</pre>' for number, text in words.items())
    yield "</section>"


def _list(watcher, source, words):
    """The entries of the list: the opening, the steps, and a comment at the end."""
    yield _opening(source)
    yield from (_entry(number, step, words) for number, step in enumerate(watcher.steps, 1))
    if source.last_words:
        yield the_end(len(watcher.steps) + 1, source.last_words)


def _refusal(step):
    """The number of a refused step, else None."""
    word = step.answer[0].split(" ")
    return word[1] if word[0] == "REFUSED" else None


def _opening(source):
    """The entry of the system as it opens, before the first event."""
    many = f"{source.subscribers:,} subscriber{'' if source.subscribers == 1 else 's'}"
    return f'<li id="0">{numbered(0)}<div><code>the opening</code> <samp>{many}</samp></div></li>'


def _entry(number, step, words):
    """The entry of a step: its number, its caption, what was asked and what was answered."""
    event = step.event
    parts = [f'<li id="{number}" data-line="{event.number}">{numbered(number)}<div>']
    if event.caption and step.index == 0:
        parts.append(caption(event.caption))
    parts.append(f"<code>{escape(step.asked)}</code> ")
    if event.is_steps():
        many = f", {step.index + 1} of {len(event.answers)}" if step.times == 1 else ""
        parts.append(f"<small>{escape(event.text)}{many}</small> ")
    answer = "\n".join(step.answer)
    parts.append(f'<samp>{escape(answer)}</samp>')
    if step.times > 1:
        parts.append(f" <small>{step.times} times</small>")
    refusal = _refusal(step)
    if refusal:
        meaning = words[refusal].split("\n")[0].partition(": ")[2]
        parts.append(f' <span class="why">{escape(meaning)}</span>')
    return "".join(parts) + "</div></li>"


def _data(picture, watcher, source):
    """All that the script shows beside the list and the picture."""
    columns = picture.columns
    index = {event.number: i for i, event in enumerate(picture.events)}
    places = [columns.place(index[step.event.number], step.index) for step in watcher.steps]
    lanes = picture.lanes
    used = {call.procedure for call in watcher.calls}
    return {
        "partitions": watcher.partitions,
        "subscribers": source.subscribers,
        "procedures": {p.name: p.lines for p in source.procedures if p.name in used},
        "calls": [[call.client, call.text, call.procedure, call.home] for call in watcher.calls],
        "rows": list(watcher.rows),
        "completed": watcher.completed,
        "end": len(watcher.steps) + bool(source.last_words),
        "places": [round(GUTTER + place, 1) for place in places],
        "finish": round(GUTTER + columns.finish, 1),
        "lanes": [[lanes.top[0, p], lanes.height[0, p], f"partition {p}"] for p in range(watcher.partitions)],
        "lane": [step.partition for step in watcher.steps],
        "plain": _numbered(step.plain for step in watcher.steps),
        "tracks": watcher.tracks,
        "extents": sorted(watcher.extents),
    }


def _numbered(texts):
    """Texts that come again and again: each once, and the numbers of all in their order."""
    known = {}
    numbers = [known.setdefault(text, len(known)) for text in texts]
    return [list(known), numbers]
