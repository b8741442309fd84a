"""Modules of both versions, texts of them, and damage to texts and bytes. Most modules keep the rules."""
from model.instructions import MOST, WORD, Instruction, Module, Procedure
from model.instructions import kinds_of, mnemonics_of, targets_of, text_of
from model.tables import FIXED

from .words import Words

CHANGES = [column for column in range(51) if column not in FIXED]
LETTERS = "abcxyzABCXYZ"


def largest_text():
    """The lines of a text of 16 procedures of 256 instructions, the most that a module has: before each instruction a
    label of 24 letters, and half of the instructions are jumps to the next."""
    others = ("LDI r15,#4294967295", "ADD r13,r14,r15")
    for letter in "ABCDEFGHIJKLMNOP":
        yield "proc ABCDEFGHIJKLMNOPQRSTUVW%s 8" % letter
        for place in range(255):
            yield "l%023d:" % place
            yield "JZ r15,@l%023d" % (place + 1) if place % 2 == 0 else others[place // 2 % 2]
        yield from ("l%023d:" % 255, "DONE", "end")


class ModuleDrawing:
    """What the drawing of this number of a seed draws."""

    def __init__(self, seed, place):
        self.words = Words(seed, place)
        # How often, in a thousand, something is drawn that most modules may not have.
        self.wild = self.words.one_of((0, 0, 0, 5, 60))

    def is_wild(self):
        return self.words.below(1000) < self.wild

    def number(self):
        return self.words.one_of((0, 1, 7, 255, 256, 65536, 2**31, WORD, self.words.below(2**32)))

    # ---- modules
    def name(self):
        length = self.words.one_of((1, 1, 2, 3, 8, 24))
        return "".join(self.words.one_of("ABCDEFGHIJKLMNOPQRSTUVWXYZ_") for _ in range(length))

    def target(self, mnemonic, position, length):
        if self.is_wild():
            return self.words.below(length + 1)
        if mnemonic == "LOOP":
            return self.words.below(position + 1)
        return self.words.choice(position + 1, length - 1)

    def operand(self, kind, mnemonic, position, length, arity):
        if kind in MOST:
            return self.words.one_of((0, MOST[kind], self.words.below(MOST[kind] + 1)))
        if kind == "n":
            return self.number()
        if kind == "t":
            return self.target(mnemonic, position, length)
        if self.is_wild():
            return self.words.one_of((0, 8, 46, 48, 51, self.number()))
        if kind == "a":
            return self.words.below(arity)
        return self.words.below(51) if kind == "c" else self.words.one_of(CHANGES)

    def instruction(self, version, position, length, arity):
        is_last = position == length - 1
        mnemonics = ["DONE", "FAIL"] if is_last and not self.is_wild() else mnemonics_of(version)
        if self.words.chance(4):
            mnemonics = [one for one in mnemonics if one in ("PUT", "INS", "DEL", "OUT")] or mnemonics
        mnemonic = self.words.one_of(mnemonics)
        # (an instruction that can't keep the rules here)
        cannot = mnemonic == "ARG" and arity == 0 or mnemonic in ("JMP", "JZ") and is_last
        if cannot and not self.is_wild():
            mnemonic, cannot = "DONE", False
        kinds = kinds_of(mnemonic)
        if cannot:
            operands = [self.words.below(length + 1) if kind == "t" else 0 for kind in kinds]
        else:
            operands = [self.operand(kind, mnemonic, position, length, arity) for kind in kinds]
        return Instruction(mnemonic, operands)

    def long_code(self):
        """Many outputs and writes, of which version 1 may have few."""
        some = self.words.one_of((("OUT",), ("DEL",), ("DEL", "OUT")))
        length = self.words.one_of((40, 41, 42, 64, 65, 66, 81))
        code = [self.words.one_of(some) for _ in range(length)]
        return [Instruction(mnemonic, [0] * len(kinds_of(mnemonic))) for mnemonic in code + ["DONE"]]

    def procedure(self, version, names):
        name = self.name()
        while name in names and not self.is_wild():
            name = self.name()
        arity = self.words.below(9)
        length = self.words.one_of((1, 2, 3, 5, 8, 13, 30, self.words.choice(1, 256)))
        if self.words.chance(3):
            return Procedure(name, arity, self.long_code())
        code = [self.instruction(version, position, length, arity) for position in range(length)]
        return Procedure(name, arity, code)

    def module(self):
        version = self.words.one_of((1, 2))
        procedures = []
        for _ in range(self.words.one_of((1, 1, 1, 2, 3, 5, 16))):
            procedures.append(self.procedure(version, [procedure.name for procedure in procedures]))
        return Module(version, procedures)

    # ---- texts
    def label(self):
        length = self.words.one_of((0, 0, 1, 2, 5, 23))
        return self.words.one_of(LETTERS) + "".join(self.words.one_of(LETTERS + "0189_") for _ in range(length))

    def labels(self, procedure):
        """Names for the places of a procedure, at least one for each that is jumped to, each for one place."""
        targets, names, taken = targets_of(procedure), {}, set()
        for position in range(len(procedure.code) + 1):
            names[position] = []
            while position in targets and not names[position] or self.words.chance(2):
                label = self.label()
                if label not in taken:
                    taken.add(label)
                    names[position].append(label)
        return names

    def empty_lines(self):
        return [""] * self.words.one_of((1, 2, 3)) if self.words.chance(3) else []

    def text(self, module):
        """A text of the module, with labels of any names, also such as nothing jumps to, and empty lines."""
        lines = self.empty_lines() + (["version 2"] if module.version == 2 else [])
        for procedure in module.procedures:
            names = self.labels(procedure)
            lines += self.empty_lines() + ["proc %s %d" % (procedure.name, procedure.arity)]
            for position, instruction in enumerate(procedure.code):
                lines += [label + ":" for label in names[position]] + self.empty_lines()
                lines.append(text_of(instruction, lambda target: self.words.one_of(names[target])))
            lines += [label + ":" for label in names[len(procedure.code)]] + ["end"]
        text = "\n".join(lines + self.empty_lines()).encode()
        return text + b"\n" * self.words.one_of((0, 1))

    # ---- damage
    def damaged_line(self, line):
        """A letter of the line is another, is put in, or is taken out."""
        place = self.words.below(len(line) + 1)
        letter = self.words.one_of("0 1259rL@#:,\r\t\xff_xAZ")
        return self.words.one_of((
            line[:place] + letter + line[place + 1 :],
            line[:place] + letter + line[place:],
            line[:place] + line[place + 1 :],
        ))

    def damaged_lines(self, lines):
        at = self.words.below(len(lines))
        kind = self.words.below(10)
        if kind == 0:
            return lines[:at] + lines[at + 1 :] or [""]
        if kind == 1:
            return lines[:at] + [lines[at]] + lines[at:]
        if kind == 2:
            other = self.words.below(len(lines))
            lines[at], lines[other] = lines[other], lines[at]
            return lines
        if kind <= 5:
            return lines[:at] + [self.damaged_line(lines[at])] + lines[at + 1 :]
        if kind == 6:
            line = self.words.one_of(("version 2", "version 1", "version 2 ", "LOOP r0,@L0", "end", "L0:", "DONE"))
            return lines[:at] + [line] + lines[at:]
        if kind == 7:
            return [self.words.one_of(("version 2", "version 2", "version 1", "version 3", ""))] + lines
        if kind == 8:
            return [line for line in lines if line != "version 2"] or [""]
        if len(lines) < 1000:
            more = [lines[at]] * 256 if self.words.chance(50) else lines[:at] * 16
            return lines[:at] + more + lines[at:]
        return lines

    def damaged_text(self, text):
        lines = text.decode("latin-1").split("\n")
        for _ in range(self.words.one_of((1, 1, 2, 3))):
            lines = self.damaged_lines(lines)
        return "\n".join(lines).encode("latin-1")

    def damaged_bytes(self, data):
        data = bytearray(data)
        for _ in range(self.words.one_of((1, 1, 1, 2, 4))):
            at = self.words.below(len(data))
            kind = self.words.below(7)
            if kind == 0:
                data[at] = self.words.below(256)
            elif kind == 1:
                data[at] = (data[at] + self.words.one_of((1, 255))) % 256
            elif kind == 2:
                data[min(3, len(data) - 1)] = self.words.one_of((0, 1, 2, 2, 1, 3, 255))
            elif kind == 3:
                data = data[: max(at, 1)]
            elif kind == 4:
                data += bytes(self.words.one_of((1, 8)))
            elif kind == 5:
                data[at] = self.words.one_of((0x13, 0x16, 0x17, 0, 0x14))
            else:
                data[at] = 0
        return bytes(data)
