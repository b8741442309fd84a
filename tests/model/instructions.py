"""The instruction table, and the text of an instruction."""
import collections
import re

WORD = 2**32 - 1
# The op of each mnemonic, and the kinds of its operands: r is a register, k the first of three and w of five; n is a
# number, a an argument, c a column that is read, p one that is set, t a target.
TABLE = {
    "LDI": (0x01, "rn"), "MOV": (0x02, "rr"), "ARG": (0x03, "ra"), "ADD": (0x04, "rrr"), "SUB": (0x05, "rrr"),
    "EQ": (0x06, "rrr"), "LT": (0x07, "rrr"), "JMP": (0x08, "t"), "JZ": (0x09, "rt"), "FSUB": (0x0A, "rr"),
    "FNUM": (0x0B, "rr"), "FACC": (0x0C, "rrr"), "FFAC": (0x0D, "rrr"), "FCFW": (0x0E, "rk"), "GET": (0x0F, "rc"),
    "PUT": (0x10, "pr"), "INS": (0x11, "rw"), "DEL": (0x12, ""), "OUT": (0x13, "r"), "DONE": (0x14, ""),
    "FAIL": (0x15, "n"), "LOOP": (0x16, "rt"),
}
OF_OP = {op: mnemonic for mnemonic, (op, _) in TABLE.items()}
# The greatest register of each kind.
MOST = {"r": 15, "k": 13, "w": 11}
WRITES = ("PUT", "INS", "DEL")
ENDS = ("DONE", "FAIL")

LABEL = "[A-Za-z][A-Za-z0-9_]{0,23}"
FORMS = {"r": "r([0-9]|1[0-5])", "k": "r([0-9]|1[0-3])", "w": "r([0-9]|1[01])", "t": "@(%s)" % LABEL}
NUMBER = "#(0|[1-9][0-9]{0,9})"

# The operands stand in the order of the text. A target is the number of an instruction.
Instruction = collections.namedtuple("Instruction", "mnemonic operands")
Procedure = collections.namedtuple("Procedure", "name arity code")
Module = collections.namedtuple("Module", "version procedures")


def kinds_of(mnemonic):
    return TABLE[mnemonic][1]


def mnemonics_of(version):
    return [mnemonic for mnemonic in TABLE if mnemonic != "LOOP" or version == 2]


def has_target(instruction):
    return kinds_of(instruction.mnemonic).endswith("t")


def targets_of(procedure):
    return {instruction.operands[-1] for instruction in procedure.code if has_target(instruction)}


def text_of(instruction, label=lambda target: "L%d" % target):
    """The text of an instruction, with a name for its target."""
    parts = []
    for kind, value in zip(kinds_of(instruction.mnemonic), instruction.operands):
        parts.append("r%d" % value if kind in MOST else "@" + label(value) if kind == "t" else "#%d" % value)
    return " ".join([instruction.mnemonic] + ([",".join(parts)] if parts else []))


def read_text(version, line):
    """The instruction of a line, with a label for a target, or None."""
    mnemonic = line.partition(" ")[0]
    if mnemonic not in mnemonics_of(version):
        return None
    kinds = kinds_of(mnemonic)
    form = ",".join(FORMS.get(kind, NUMBER) for kind in kinds)
    found = re.fullmatch(mnemonic + (" " + form if kinds else ""), line, re.ASCII)
    if not found:
        return None
    operands = [value if kind == "t" else int(value) for kind, value in zip(kinds, found.groups())]
    if any(value > WORD for value in operands if isinstance(value, int)):
        return None
    return Instruction(mnemonic, operands)
