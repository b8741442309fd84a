"""Calls and moves of a seed, as docs/FORMATS.md draws them."""
from model.calls import ARGUMENTS, TRANSACTIONS
from model.tables import DIGITS, S_IDS

from .words import Words

# Below these, of a hundred, a word draws the procedures 0, 1, ..
SHARES = (35, 45, 80, 82, 96, 98, 100)


def kind_of(word):
    """The number of the procedure that a call's first word draws."""
    return next(proc for proc, share in enumerate(SHARES) if word % 100 < share)


def key_of(w, n, is_uniform):
    if is_uniform:
        return 1 + w[1] % n
    return 1 + ((w[1] % 65536) | (1 + w[2] % n)) % n


def call_of(w, n, is_uniform):
    """The procedure and the arguments of a call's seven words, among n subscribers."""
    s_id, kind, start, end = key_of(w, n, is_uniform), 1 + w[3] % 4, 8 * (w[4] % 3), 1 + w[5] % 24
    proc = kind_of(w[0])
    arguments = (
        [s_id],
        [s_id, kind, start, end],
        [s_id, kind],
        [s_id, w[4] % 2, kind, w[5] % 256],
        [s_id, 1 + w[4] % S_IDS[1]],
        [s_id, kind, start, end, w[6] % 10**15],
        [s_id, kind, start],
    )[proc]
    return proc, arguments


def call_text(proc, arguments):
    """The line of a call."""
    texts = ["%015d" % value if column in DIGITS else "%d" % value for column, value in zip(ARGUMENTS[proc], arguments)]
    return " ".join([TRANSACTIONS[proc]] + texts)


def calls_of_seed(seed, client, count, n, is_uniform=False):
    """The lines of the calls that this client of `bench` asks for, counted from 0."""
    words = Words(seed, client + 1)
    for _ in range(count):
        yield call_text(*call_of([words.word() for _ in range(7)], n, is_uniform))


def mix(seed, clients, count):
    """How many calls there are of each kind where so many clients ask for so many each."""
    counts = [0] * len(SHARES)
    for client in range(clients):
        words = Words(seed, client + 1)
        for _ in range(count):
            counts[kind_of([words.word() for _ in range(7)][0])] += 1
    return counts


def moves_made(seed, clients, count, n, partitions):
    """How many of so many drawn moves beside these clients, among n subscribers, are to another partition."""
    words, held, made = Words(seed, clients + 1), {}, 0
    for _ in range(count):
        extent, to = words.choice(1, (n + 63) // 64), words.choice(0, partitions - 1)
        made += held.get(extent, (extent - 1) % partitions) != to
        held[extent] = to
    return made
