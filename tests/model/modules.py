"""Modules as bytes and as text, the rules of the loader, and the first fault of what is no module."""
import collections
import re

from .instructions import LABEL, MOST, OF_OP, TABLE, WRITES
from .instructions import Instruction, Module, Procedure
from .instructions import has_target, kinds_of, mnemonics_of, read_text as read_instruction, targets_of
from .instructions import text_of as instruction_text
from .tables import FIXED

Fault = collections.namedtuple("Fault", "text")


class Refused(Exception):
    pass


# ---- the rules
def misfit(position, length, arity, instruction):
    """The first rule that an instruction breaks by itself, or None."""
    mnemonic, operands = instruction
    of_kind = dict(zip(kinds_of(mnemonic), operands))
    if of_kind.get("a", -1) >= arity:
        return "21 NoSuchArgument"
    if of_kind.get("c", 0) > 50 or of_kind.get("p", 2) > 50 or of_kind.get("p", 2) in FIXED:
        return "20 FixedColumn"
    if "t" in of_kind:
        if mnemonic != "LOOP" and of_kind["t"] <= position:
            return "18 BackwardJump"
        if mnemonic == "LOOP" and of_kind["t"] > position:
            return "53 ForwardLoop"
        if of_kind["t"] >= length:
            return "19 BadTarget"
    return None


def rule_of_code(version, procedure):
    """The first rule that a procedure breaks, and at which instruction, or None."""
    outs = writes = 0
    for position, instruction in enumerate(procedure.code):
        rule = misfit(position, len(procedure.code), procedure.arity, instruction)
        outs += instruction.mnemonic == "OUT"
        writes += instruction.mnemonic in WRITES
        if not rule and version == 1 and instruction.mnemonic == "OUT" and outs == 41:
            rule = "22 TooManyOut"
        if not rule and version == 1 and instruction.mnemonic in WRITES and writes == 65:
            rule = "23 TooManyWrites"
        if rule:
            return rule, position
    if procedure.code[-1].mnemonic not in ("DONE", "FAIL"):
        return "24 NoEnd", len(procedure.code) - 1
    return None


def broken(module):
    """The first rule that a module breaks, as a fault, or None."""
    for place, procedure in enumerate(module.procedures):
        if procedure.name in [earlier.name for earlier in module.procedures[:place]]:
            return Fault("16 NameTwice %d 0" % place)
        rule = rule_of_code(module.version, procedure)
        if rule:
            return Fault("%s %d %d" % (rule[0], place, rule[1]))
    return None


# ---- bytes
def bytes_of(module):
    parts = [b"TPM", bytes([module.version, len(module.procedures)])]
    for name, arity, code in module.procedures:
        parts.append(bytes([len(name)]) + name.encode() + bytes([arity]) + len(code).to_bytes(2, "big"))
        for mnemonic, operands in code:
            op, kinds = TABLE[mnemonic]
            registers = [value for kind, value in zip(kinds, operands) if kind in MOST]
            numbers = [value for kind, value in zip(kinds, operands) if kind not in MOST]
            word = (numbers + [0])[0]
            parts.append(bytes([op] + (registers + [0, 0, 0])[:3]) + word.to_bytes(4, "big"))
    return b"".join(parts)


def instruction_of(version, data):
    """The instruction of eight bytes, or the fault that is raised."""
    mnemonic = OF_OP.get(data[0])
    registers, word = list(data[1:4]), int.from_bytes(data[4:], "big")
    if mnemonic not in mnemonics_of(version):
        raise Refused("6 BadOp")
    kinds = kinds_of(mnemonic)
    register_kinds = [kind for kind in kinds if kind in MOST]
    has_word = len(register_kinds) < len(kinds)
    if any(registers[len(register_kinds) :]) or (word and not has_word):
        raise Refused("7 UnusedNotZero")
    if any(value > MOST[kind] for kind, value in zip(register_kinds, registers)):
        raise Refused("8 BadRegister")
    return Instruction(mnemonic, [registers.pop(0) if kind in MOST else word for kind in kinds])


class Bytes:
    """Bytes that are read from front to back, with the place where the reading is."""

    def __init__(self, data):
        self.data, self.at = data, 0
        self.procedure = self.instruction = 0

    def take(self, count):
        if self.at + count > len(self.data):
            raise Refused("13 Truncated")
        self.at += count
        return self.data[self.at - count : self.at]

    def count(self, size, least, most):
        """A number of so many bytes within its range."""
        value = int.from_bytes(self.take(size), "big")
        if not least <= value <= most:
            raise Refused("17 BadHeader")
        return value

    def procedure_of(self, version):
        name = self.take(self.count(1, 1, 24)).decode("latin-1")
        if not re.fullmatch("[A-Z_]+", name):
            raise Refused("17 BadHeader")
        arity = self.count(1, 0, 8)
        code = []
        for self.instruction in range(self.count(2, 1, 256)):
            code.append(instruction_of(version, self.take(8)))
        return Procedure(name, arity, code)

    def module(self):
        magic = self.take(4)
        if magic not in (b"TPM\1", b"TPM\2"):
            raise Refused("14 BadMagic")
        procedures = []
        for self.procedure in range(self.count(1, 1, 16)):
            self.instruction = 0
            procedures.append(self.procedure_of(magic[3]))
        self.procedure = self.instruction = 0
        if self.at < len(self.data):
            raise Refused("15 Extra")
        return Module(magic[3], procedures)


def read_bytes(data):
    """The module of bytes, or their first fault."""
    reader = Bytes(data)
    try:
        module = reader.module()
    except Refused as refused:
        return Fault("%s %d %d" % (refused, reader.procedure, reader.instruction))
    return broken(module) or module


# ---- text
def text_of(module):
    """The text that `dis` prints."""
    lines = ["version 2"] if module.version == 2 else []
    for procedure in module.procedures:
        targets = targets_of(procedure)
        lines.append("proc %s %d" % (procedure.name, procedure.arity))
        for position, instruction in enumerate(procedure.code):
            lines += ["L%d:" % position] * (position in targets)
            lines.append(instruction_text(instruction))
        lines += ["L%d:" % len(procedure.code)] * (len(procedure.code) in targets) + ["end"]
    return "".join(line + "\n" for line in lines).encode()


class OpenProcedure:
    """A procedure whose `end` is yet to come: its code, labels, and where labels are named."""

    def __init__(self, head):
        self.name, self.arity = head[1], int(head[2])
        self.labels, self.code, self.named = {}, [], []

    def line(self, version, line, number):
        if re.fullmatch(LABEL + ":", line, re.ASCII):
            if line[:-1] in self.labels:
                raise Refused("11 LabelTwice %d" % number)
            self.labels[line[:-1]] = len(self.code)
            return
        instruction = read_instruction(version, line)
        if instruction is None:
            raise Refused("9 Syntax %d" % number)
        if len(self.code) == 256:
            raise Refused("12 TooLong %d" % number)
        if has_target(instruction):
            self.named.append((len(self.code), number))
        self.code.append(instruction)

    def closed(self, number):
        if not self.code:
            raise Refused("9 Syntax %d" % number)
        for place, at in self.named:
            operands = self.code[place].operands
            if operands[-1] not in self.labels:
                raise Refused("10 NoSuchLabel %d" % at)
            operands[-1] = self.labels[operands[-1]]
        return Procedure(self.name, self.arity, self.code)


def module_of_lines(lines):
    """The module of a text, or the fault that is raised."""
    version, procedures, inside = 1, [], None
    first = next((place for place, line in enumerate(lines) if line), 0)
    if lines and lines[first] == "version 2":
        version, lines[first] = 2, ""
    for number, line in enumerate(lines, 1):
        if line == "":
            continue
        if inside is None:
            head = re.fullmatch("proc ([A-Z_]{1,24}) ([0-8])", line, re.ASCII)
            if not head:
                raise Refused("9 Syntax %d" % number)
            if len(procedures) == 16:
                raise Refused("12 TooLong %d" % number)
            inside = OpenProcedure(head)
        elif line == "end":
            procedures.append(inside.closed(number))
            inside = None
        else:
            inside.line(version, line, number)
    if inside is not None or not procedures:
        raise Refused("9 Syntax %d" % (len(lines) + 1))
    return Module(version, procedures)


def read_text(data):
    """The module of a text, or its first fault."""
    lines = data.decode("latin-1").split("\n")
    try:
        module = module_of_lines(lines[:-1] if lines[-1] == "" else lines)
    except Refused as refused:
        return Fault(str(refused))
    return broken(module) or module
