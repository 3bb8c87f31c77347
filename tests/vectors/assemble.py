"""Instruction bytes from operands and fields, by the diagrams in g13.py. Unknown bits, and hints that are not given, are chosen at
random: they must have no effect on any value."""
import random

import g13

BY_WORD = {instruction.word: instruction for instruction in g13.BUILT}


class Operand(tuple):
    """(joined number, flag field) as a source, and the same as a destination, where it can be one."""

    def __new__(cls, source, destination=None):
        operand = super().__new__(cls, source)
        operand.destination = destination
        return operand


def imm(value):
    return Operand((value, 0))


def lo(register, hint=None):
    return Operand((2 * register, hint or random.randint(1, 3)), (2 * register, random.randint(0, 1)))


def hi(register, hint=None):
    return Operand((2 * register + 1, hint or random.randint(1, 3)), (2 * register + 1, random.randint(0, 1)))


def reg(register, hint=None):
    return Operand((2 * register, 0b1000 | (hint or random.randint(1, 3))), (2 * register, 0b10 | random.randint(0, 1)))


def pair(register, hint=None):
    return Operand((2 * register, 0b1100 | (hint or random.randint(1, 3))), (2 * register + 1, 0b10 | random.randint(0, 1)))


def uniform(half, whole):
    return Operand((half % 256, 0b0100 | whole << 1 | half // 256))


def ulo(number):
    return uniform(2 * number, 0)


def uhi(number):
    return uniform(2 * number + 1, 0)


def uni(number):
    return uniform(2 * number, 1)


def upair(number):
    return uniform(2 * number + 1, 1)


def fields_of(instruction, given):
    """The fields that the operands give, by their names; what else is given is a field already."""
    fields = dict(given)
    for name, made, parts in instruction.operands:
        if made in ("ImplicitR0L", "ICondition") or name not in given:
            continue
        numbers = fields.pop(name)
        if not made or made == "SReg32":
            numbers = [numbers]
        elif made.startswith("ALUDst"):
            numbers = numbers.destination
        for number, part in zip(numbers, parts):
            for field in reversed(part):
                width = instruction.fields[field][1]
                fields[field] = number % (1 << width)
                number >>= width
            assert number == 0, (instruction.word, name)
    return fields


def from_fields(word, fields, unknown=None):
    """The bytes of one instruction. A field that is not given is 0; the unknown bits are cut from the number `unknown`."""
    instruction = BY_WORD[word]
    bits = random.getrandbits(64) if unknown is None else unknown
    value = sum(bits & 1 << bit for bit in instruction.unknown)
    value |= sum(fixed << bit for bit, fixed in instruction.fixed.items())
    for name, number in fields.items():
        first, width = instruction.fields[name]
        assert 0 <= number < 1 << width, (word, name, number)
        value |= number << first
    length = dict(instruction.lengths())[fields.get("L", 0) if instruction.short else None]
    return (value & (1 << 8 * length) - 1).to_bytes(length, "little")


def assemble(word, **given):
    """The bytes of one instruction, with operands and fields by their names."""
    return from_fields(word, fields_of(BY_WORD[word], given))
