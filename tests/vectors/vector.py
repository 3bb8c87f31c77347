"""One vector: what is lent to a run, and what the papers say of the outcome, where they say it in so many words."""
from dataclasses import dataclass, field

import g13

ALL = 0xFFFFFFFF


def filled(length, factor):
    return [(j + 1) * factor % (1 << 32) for j in range(length)]


def placed(values, given):
    """The list, with the values that are given in their places."""
    length = len(values)
    for at, some in given.items():
        values[at : at + len(some)] = some
    assert len(values) == length
    return values


@dataclass
class Vector:
    name: str
    code: bytes
    registers: int = 32  # lengths in words, of the room in bytes
    uniforms: int = 256
    specials: int = 0
    room: int = -1
    marks: int = -1  # in bytes
    fill: tuple = (0, 0, 0)
    regs: dict = field(default_factory=dict)  # first word: words
    unif: dict = field(default_factory=dict)
    spec: dict = field(default_factory=dict)
    mark: dict = field(default_factory=dict)  # first byte: bytes
    start: int = 0
    mask: int = ALL
    budget: int = 1
    says: object = None  # a function of (ending, numbers, registers, marks, records), or None

    def __post_init__(self):
        if self.room < 0:
            self.room = 16 * self.budget
        if self.marks < 0:
            self.marks = 2 * self.registers

    def lent(self):
        """Registers, marks, uniforms and special registers before the run."""
        registers = placed(filled(self.registers, self.fill[0]), self.regs)
        uniforms = placed(filled(self.uniforms, self.fill[1]), self.unif)
        specials = placed(filled(self.specials, self.fill[2]), self.spec)
        return registers, placed(bytearray(self.marks), self.mark), uniforms, specials

    def run(self):
        """What the run leaves: its ending, its numbers, registers, marks and records."""
        registers, marks, uniforms, specials = self.lent()
        records = bytearray(b"\xa5" * self.room)
        call = self.start, self.mask, self.budget, records
        ending, *numbers = g13.run(self.code, registers, marks, uniforms, specials, *call)
        return ending, numbers, registers, bytes(marks), bytes(records)

    def check(self, *outcome):
        """Holds what g13.py computed to what the paper prints."""
        assert self.says is None or self.says(*outcome), (self.name, outcome[:2])
