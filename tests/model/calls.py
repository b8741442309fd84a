"""What a client asks for, and the line of its reply. The seven transactions are the procedures of the standard module,
whose text docs/FORMATS.md links."""
import os

from .modules import read_text
from .tables import field, value_of

STANDARD_TEXT = os.path.join(os.path.dirname(os.path.abspath(__file__)), "..", "..", "examples", "standard.txt")
with open(STANDARD_TEXT, "rb") as standard_file:
    STANDARD = read_text(standard_file.read())
TRANSACTIONS = [procedure.name for procedure in STANDARD.procedures]
# The columns that the arguments of the transactions name, and those that stand in their replies. An s_id may be any
# number, which None says. The first argument is the key.
ARGUMENTS = [[None], [None, 41, 48, 49], [None, 35], [None, 2, 41, 44], [1, 33], [1, 47, 48, 49, 50], [1, 47, 48]]
REPLIES = [range(34), [50] * 40, [36, 37, 38, 39], [], [], [], []]


class Ask:
    """What a client asks for: a transaction, with the text of its call, or a raw call, with its key."""

    def __init__(self, proc, arguments, is_number, key, text=None):
        self.proc, self.arguments = proc, arguments
        self.is_number, self.key = is_number, key
        self.text = text
        self.is_transaction = text is not None
        self.home = None


def read_call(text):
    """The transaction that a call line asks for, or None."""
    name, *values = text.split(" ")
    if name not in TRANSACTIONS:
        return None
    proc = TRANSACTIONS.index(name)
    if len(values) != len(ARGUMENTS[proc]):
        return None
    read = [value_of(column or 0, value) for column, value in zip(ARGUMENTS[proc], values)]
    return None if None in read else Ask(proc, read, ARGUMENTS[proc][0] == 1, read[0], text)


def reply_line(ask, end, outputs):
    """The line of a reply to what was asked, where the call ended so."""
    if end != "OK":
        return end
    columns = REPLIES[ask.proc] if ask.is_transaction else []
    texts = [field(column, value) for column, value in zip(columns, outputs)]
    return " ".join([end] + texts + [str(value) for value in outputs[len(texts) :]])
