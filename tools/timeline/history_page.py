"""The page of a history: the list of its lines, and all that a script needs to show each of them."""

from html import escape

from document import Parts, caption, document, numbered, the_end
from history_legend import legend_alone
from history_picture import GUTTER, LANE, kind_of, replies_told, verdict_words

SCRIPTS = ("elements", "calls", "steps", "reader")


def history_page(picture, history):
    """The lines of the page."""
    choice, judgement = picture.choice, picture.judgement
    strip = picture.lines()
    command = picture.title.partition("judged by ")[2]
    return document(Parts(
        title=picture.title, heading=f"A history, judged by <code>{escape(command)}</code>",
        summary=f"{verdict_words(judgement)} {choice.summary()}", strip=strip,
        legend=legend_alone(choice.calls, judgement, 660), list_name="Lines of the history",
        entries=list(_list(choice, judgement, history)), more=[], data=_data(picture, history), scripts=SCRIPTS))


def _list(choice, judgement, history):
    """The entries of the list: the rows at the beginning, the lines that are drawn, and a comment at the end."""
    many = f"{history.subscribers:,} subscriber{'' if history.subscribers == 1 else 's'}"
    yield f'<li id="0">{numbered(0)}<div><code>the beginning</code> <samp>{many}</samp></div></li>'
    window = {*judgement.window}
    for number, line in enumerate(choice.lines, 1):
        kind = "wrong" if line.number == judgement.wrong else "window" if line.number in window else ""
        above = caption(line.caption) if line.caption else ""
        parts = [f'<li id="{number}" class="{kind}">{numbered(number)}<div>{above}']
        said, of = escape(" ".join(line.fields[2:])), "" if line.word == "ask" else f", of {escape(line.call.text)}"
        place = f"line {line.number:,}{of}"
        parts.append(f"<code>{line.word} {line.client}</code> <samp>{said}</samp> <small>{place}</small>")
        if kind == "wrong":
            parts.append(' <span class="why">no order of the calls explains the answers up to this line</span>')
        yield "".join(parts) + "</div></li>"
    if history.last_words:
        yield the_end(len(choice.lines) + 1, history.last_words)


def _data(picture, history):
    """All that the script shows beside the list and the picture."""
    choice, judgement, columns = picture.choice, picture.judgement, picture.columns
    step_of = {line.number: step for step, line in enumerate(choice.lines, 1)}
    lines = [line.number for line in choice.lines]
    lanes = {client: place for place, client in enumerate(choice.clients)}
    place_of = {id(call): place for place, call in enumerate(choice.calls)}
    return {
        "end": len(lines) + bool(history.last_words),
        "places": [round(GUTTER + columns.place(i, 0), 1) for i in range(len(lines))],
        "finish": round(GUTTER + columns.finish, 1),
        "lanes": [[picture.lane_top(0, client), LANE, f"client {client}"] for client in choice.clients],
        "lane": [lanes[line.client] for line in choice.lines],
        "call": [place_of[id(line.call)] for line in choice.lines],
        "calls": [_call(call, step_of) for call in choice.calls],
        "clients": choice.clients,
        "verdict": verdict_words(judgement),
        "wrong": step_of.get(judgement.wrong, 0),
        "window": [step_of[number] for number in judgement.window if number in step_of],
        "told": [list(pair) for pair in replies_told(choice, judgement, picture.places_told)],
    }


def _call(call, step_of):
    """A call for the script: its client, text, subscriber and kind, the steps at which it was asked and ended, and its
    reply.
    """
    asked = step_of[call.asked.number]
    ended = step_of.get(call.ended.number, 0) if call.ended else 0
    return [call.client, call.text, call.subscriber or 0, kind_of(call), asked, ended, call.reply]
