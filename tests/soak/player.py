"""A thread's registers and control: what it calls, given the replies."""

import operator

from entries import ABORT, ANSWERED, BEGIN, CALLS, COMMIT, FILLS, OUTER, WRITTEN, spelled

WHOLE, NUMBER = 32, 8  # the bytes of a register, and those of them that are its number
ARITHMETIC = {"add": operator.add, "sub": operator.sub, "and": operator.and_, "ltu": operator.lt}


def filled(data):
    """A register with these bytes, the rest zero."""
    return data.ljust(WHOLE, b"\0")


def numbered(number):
    """A register with this number, modulo what it holds."""
    return filled((number % (1 << 8 * NUMBER)).to_bytes(NUMBER, "little"))


def value_of(reply):
    """The register that a reply gives."""
    return numbered(int(reply[5:])) if reply.startswith("code ") else filled(bytes.fromhex(reply))


class Player:
    def __init__(self, code):
        self.lines, self.ends, self.line = code.lines, code.ends, 0
        self.registers = {f"r{n}": bytes(WHOLE) for n in range(16)}
        self.open = []  # of each open block the line of its begin, and the registers as that was called

    def number(self, word):
        """The number that an operand stands for."""
        if word in self.registers:
            return int.from_bytes(self.registers[word][:NUMBER], "little")
        return int(word)

    def call(self):
        """The next call: its name and what it is made with, numbers, bytes, or words of the language. None at the end
        of the code."""
        while self.line < len(self.lines):
            name, *operands = self.lines[self.line]
            if name in CALLS:
                return (name, *self.values(name, operands[1:] if name in ANSWERED else operands))
            self.local(name, operands)
        return None

    def values(self, name, operands):
        if name == BEGIN:
            return [spelled(operands[0].split("+"))]
        if name in WRITTEN:
            return [self.number(operands[0]), self.registers[operands[1]][: WRITTEN[name]]]
        values = [self.number(word) if word in self.registers or word.isdigit() else word for word in operands]
        if name in FILLS:
            values[1] %= 256
        return values

    def local(self, name, operands):
        """An instruction that is no call."""
        if name == "ifnz" and self.number(operands[0]) == 0 or name == "else":
            self.line = self.ends[self.line]
        elif name == "set":
            self.registers[operands[0]] = numbered(int(operands[1]))
        elif name == "bytes":
            self.registers[operands[0]] = filled(bytes.fromhex(operands[1]))
        elif name == "mov":
            self.registers[operands[0]] = self.registers[operands[1]]
        elif name in ARITHMETIC:
            self.registers[operands[0]] = numbered(ARITHMETIC[name](*map(self.number, operands[1:])))
        self.line += 1

    def answer(self, reply):
        """Takes in what the call was answered, and goes past it."""
        name, *operands = self.lines[self.line]
        if reply.startswith("refused "):
            # a block whose begin was refused is passed over
            self.line = self.ends[self.line] if name == BEGIN else self.line
        elif name == ABORT:
            self.cancelled(outer=operands == [OUTER], reply=reply)
        else:
            if name == BEGIN:
                self.open.append((self.line, dict(self.registers)))
            elif name == COMMIT:
                self.open.pop()
            if name in ANSWERED:
                self.registers[operands[0]] = value_of(reply)
        self.line += 1

    def cancelled(self, outer, reply):
        """The registers are again as the block's begin was called, which now gets the abort's reply."""
        if outer:
            del self.open[1:]
        begin, self.registers = self.open.pop()
        self.registers[self.lines[begin][1]] = value_of(reply)
        self.line = self.ends[begin]

    def restart_block(self):
        """Goes back to right after the begin of the innermost block, which was answered as an inner one is."""
        begin, registers = self.open[-1]
        self.line, self.registers = begin + 1, {**registers, self.lines[begin][1]: numbered(5)}

    def restart(self):
        """Goes back to where the begin of the outermost block was called."""
        self.line, self.registers = self.open[0]
        self.open = []
