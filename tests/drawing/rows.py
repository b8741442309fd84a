"""Rows: of a seed as docs/FORMATS.md draws them, clean rows of any values, and plain ones that a person can type."""
from model.tables import LETTERS, LIMITS, STARTS, packed

from .words import Words

ZEROS = [0] * 30
THREE_LETTERS, FIVE_LETTERS = packed("AAA"), packed("AAAAA")


# ---- of a seed
def letters_drawn(words, count):
    return packed("".join(chr(65 + words.below(26)) for _ in range(count)))


def forwardings_of_seed(words, s, kind):
    starts = list(STARTS)
    for _ in range(words.choice(0, 3)):
        start = words.taken(starts)
        hours = words.choice(1, 8)
        yield "C", [s, kind, start, start + hours, words.choice(0, 10**15 - 1)]


def rows_of_seed(seed, n):
    """The rows that `--gen n --seed seed` draws, in the order drawn."""
    words = Words(seed)
    for s in range(1, n + 1):
        yield "S", [s, s] + [words.choice(*LIMITS[column]) for column in range(2, 34)]
        left = [1, 2, 3, 4]
        for _ in range(words.choice(1, 4)):
            kind = words.taken(left)
            data = [words.choice(0, 255), words.choice(0, 255)]
            yield "A", [s, kind] + data + [letters_drawn(words, 3), letters_drawn(words, 5)]
        left = [1, 2, 3, 4]
        for _ in range(words.choice(1, 4)):
            kind = words.taken(left)
            active = 1 if words.chance(85) else 0
            data = [words.choice(0, 255), words.choice(0, 255)]
            yield "F", [s, kind, active] + data + [letters_drawn(words, 5)]
            yield from forwardings_of_seed(words, s, kind)


# ---- of any values
def numbers_drawn(words, n):
    """A sub_nbr for each s_id, which it mostly isn't, the least and the greatest among them."""
    numbers = {s: words.below(10**15) for s in range(1, n + 1)}
    numbers.update(zip(words.shuffled(range(1, n + 1)), (0, 1, 10**15 - 1, *range(2, n + 1))))
    return numbers if len(set(numbers.values())) == n else {s: s for s in numbers}


def value_drawn(words, column):
    """A value of the column, from one word: the least, the greatest, a small one or any."""
    word = words.word()
    if column in LETTERS:
        return sum(256**place * (65 + word // 26**place % 26) for place in range(LETTERS[column]))
    low, high = LIMITS[column]
    kind, word = word % 4, word // 4
    return (low, high, low + word % (min(9, high - low) + 1), low + word % (high - low + 1))[kind]


def rows_drawn(words, n):
    """Clean rows in any order, with numbers that are not the s_ids, and values at the ends of their domains."""
    numbers = numbers_drawn(words, n)
    rows = []
    for s in range(1, n + 1):
        rows.append(("S", [s, numbers[s]] + [value_drawn(words, column) for column in range(2, 34)]))
        for kind in words.shuffled((1, 2, 3, 4))[: words.choice(1, 4)]:
            rows.append(("A", [s, kind] + [value_drawn(words, column) for column in range(36, 40)]))
        for kind in words.shuffled((1, 2, 3, 4))[: words.choice(1, 4)]:
            active = 0 if words.chance(15) else 1
            rows.append(("F", [s, kind, active] + [value_drawn(words, column) for column in range(43, 46)]))
            for start in words.shuffled(STARTS)[: words.choice(0, 3)]:
                rows.append(("C", [s, kind, start, value_drawn(words, 49), value_drawn(words, 50)]))
    return words.shuffled(rows)


# ---- plain ones
def subscriber(s, number=None):
    return "S", [s, s if number is None else number] + ZEROS + [1, 1]


def access(s, kind=1):
    return "A", [s, kind, 0, 0, THREE_LETTERS, FIVE_LETTERS]


def facility(s, kind=1, active=1):
    return "F", [s, kind, active, 0, 0, FIVE_LETTERS]


def plain(n):
    """Subscribers with one row of access information and one facility each."""
    for s in range(1, n + 1):
        yield from (subscriber(s), access(s), facility(s))


def many():
    """130 plain subscribers; subscriber 1 has a second facility, which isn't active, and three forwardings. In two
    partitions the extents 1 and 3 (subscribers 1 to 64, 129 and 130) open in partition 0, extent 2 in partition 1."""
    yield from plain(130)
    yield from (("C", [1, 1, 0, 12, 777]), ("C", [1, 1, 8, 20, 888]))
    yield from (facility(1, 3, 0), ("C", [1, 3, 0, 24, 999]))


def forwarded(n):
    """Subscribers with a row of each table, from 8 to 9 o'clock forwarded to their own numbers."""
    for s in range(1, n + 1):
        yield from (subscriber(s), access(s, 4), facility(s, 2), ("C", [s, 2, 8, 9, s]))
