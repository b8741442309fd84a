"""Calls and replies as short texts."""

SUBSCRIBER = ["s_id", "sub_nbr", *(f"bit_{n}" for n in range(1, 11)), *(f"hex_{n}" for n in range(1, 11)),
              *(f"byte2_{n}" for n in range(1, 11)), "msc_location", "vlr_location"]
# The places of bit_1 and vlr_location, which calls change.
CHANGING = (2, 33)


def call_text(text):
    """A call without the zeros of its numbers of fifteen digits."""
    return " ".join(word.lstrip("0") or "0" if len(word) == 15 and word.isdigit() else word for word in text.split(" "))


def places_told(replies):
    """Which columns of Subscriber rows are told: those that calls change, and those in which these replies differ."""
    rows = [reply.split(" ")[1:] for reply in replies if _is_row(reply)]
    differing = [place for place in range(len(SUBSCRIBER)) if len({row[place] for row in rows}) > 1]
    return sorted({*CHANGING, *differing})


def _is_row(reply):
    return reply.startswith("OK ") and reply.count(" ") == len(SUBSCRIBER)


def reply_text(reply, places):
    """A reply; of a Subscriber row the columns at these places, by name."""
    if not _is_row(reply):
        return reply
    values = reply.split(" ")[1:]
    return "OK .. " + ", ".join(f"{SUBSCRIBER[place]} {values[place]}" for place in places)
