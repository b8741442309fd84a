"""The four tables: columns and their values, rows as text, and the homes of subscribers as sets of rows by key."""
import collections
import re

WORD = 2**64 - 1
TABLES = "SAFC"
FIRST = {"S": 0, "A": 34, "F": 40, "C": 46}
WIDTH = {"S": 34, "A": 6, "F": 6, "C": 5}
# How many columns a key has.
PARTS = {"S": 1, "A": 2, "F": 2, "C": 3}
# The columns that never change.
FIXED = (0, 1, 34, 35, 40, 41, 46, 47, 48)
START_TIME = 48
STARTS = (0, 8, 16)

# How many letters a column has; which columns are fifteen digits; the least and the greatest value of all others.
LETTERS = {38: 3, 39: 5, 45: 5}
DIGITS = (1, 50)
S_IDS = (1, 2**32 - 1)
LIMITS = {0: S_IDS, 1: (0, 10**15 - 1), 32: S_IDS, 33: S_IDS, 34: S_IDS, 35: (1, 4), 36: (0, 255), 37: (0, 255)}
LIMITS.update({column: (0, 1) for column in range(2, 12)})
LIMITS.update({column: (0, 15) for column in range(12, 22)})
LIMITS.update({column: (0, 255) for column in range(22, 32)})
LIMITS.update({40: S_IDS, 41: (1, 4), 42: (0, 1), 43: (0, 255), 44: (0, 255)})
LIMITS.update({46: S_IDS, 47: (1, 4), 49: (1, 24), 50: (0, 10**15 - 1)})

NUMBER = re.compile("0|[1-9][0-9]*", re.ASCII)
FIFTEEN = re.compile("[0-9]{15}", re.ASCII)
WORDS_OF = {3: re.compile("[A-Z]{3}"), 5: re.compile("[A-Z]{5}")}


def table_of(column):
    return "S" if column < 34 else "A" if column < 40 else "F" if column < 46 else "C"


# ---- values
def packed(text):
    """The value of letters: their bytes, the first letter highest."""
    return int.from_bytes(text.encode(), "big")


def letters(value, count):
    """The letters that are packed in the value, or None."""
    if value >= 256**count:
        return None
    text = value.to_bytes(count, "big").decode("latin-1")
    return text if WORDS_OF[count].fullmatch(text) else None


def is_in_domain(column, value):
    if column in LETTERS:
        return letters(value, LETTERS[column]) is not None
    if column == START_TIME:
        return value in STARTS
    return LIMITS[column][0] <= value <= LIMITS[column][1]


def field(column, value):
    """A value as text, in the form of the column."""
    if column in LETTERS:
        return letters(value, LETTERS[column]) or str(value)
    if column in DIGITS and value < 10**15:
        return "%015d" % value
    return str(value)


def number_of(text):
    """The number that a text is, or None."""
    if not NUMBER.fullmatch(text) or len(text) > 20 or int(text) > WORD:
        return None
    return int(text)


def value_of(column, text):
    """The value of a column that a text is, or None."""
    if column in LETTERS:
        return packed(text) if WORDS_OF[LETTERS[column]].fullmatch(text) else None
    if column in DIGITS:
        return int(text) if FIFTEEN.fullmatch(text) else None
    return number_of(text)


# ---- rows
def row_text(table, row):
    return " ".join([table] + [field(FIRST[table] + place, value) for place, value in enumerate(row)])


def read_row(line):
    """The table and the values of a line that is a row."""
    table, *texts = line.split(" ")
    return table, [value_of(FIRST[table] + place, text) for place, text in enumerate(texts)]


# ---- homes
def new_home():
    return {table: {} for table in TABLES}


def copied(home):
    return {table: {key: list(row) for key, row in home[table].items()} for table in TABLES}


def homes_of(rows):
    """The homes of clean rows, by s_id: of each table its rows by key."""
    homes = collections.defaultdict(new_home)
    for table, row in rows:
        homes[row[0]][table][tuple(row[: PARTS[table]])] = row
    return dict(homes)


def home_texts(home):
    """The rows of a home, table by table, each by key."""
    return [row_text(table, row) for table in TABLES for _, row in sorted(home[table].items())]
