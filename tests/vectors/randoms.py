"""Random kernels, which are not kept: `make.py --random` prints as many as are wanted."""
import random

from assemble import BY_WORD, fields_of, from_fields, hi, imm, lo, pair, reg, uhi, ulo, uni, upair
from data import EDGES, amounts, edges, rand32
from vector import ALL, Vector

MOVS = {"mov16": lo, "mov32": reg}
HINTS = [1, 2] * 7 + [3]  # few discards, so that not many runs end with a read of what was discarded


def source(wide):
    """A source that has a meaning; its registers are there where N is 8 or more."""
    number, r, hint = random.randint(0, 254), random.randint(0, 6), random.choice(HINTS)
    kinds = [imm(number), lo(r, hint), hi(r, hint), reg(r, hint), reg(r, hint), ulo(number), uhi(number), uni(number)]
    return random.choice(kinds + ([pair(r, hint), pair(r, hint), upair(number)] if wide else []))


def destination(wide):
    r = random.choice([0, 1, 2, 3, 4, 5, 6, 6, 6])
    return random.choice([lo(r), hi(r), reg(r), reg(r)] + ([pair(r)] * 2 if wide else []))


def operands(instruction):
    """Operands with a meaning, for those of its operand lines that name any."""
    made = {}
    for name, kind, _ in instruction.operands:
        if kind in ("ALUSrc", "MulSrc", "AddSrc"):
            made[name] = source(kind == "AddSrc")
        elif kind in ("ALUDst", "ALUDst64"):
            made[name] = MOVS[instruction.word](6) if instruction.word in MOVS else destination(kind == "ALUDst64")
        elif kind == "SReg32":
            made[name] = random.randint(0, 8)
    return made


def instruction():
    """One instruction with random fields; most have operands with a meaning, and most jumps are short."""
    word = random.choice(list(BY_WORD))
    fields = {name: random.getrandbits(width) for name, (_, width) in BY_WORD[word].fields.items()}
    if word.startswith("mov"):
        fields["Dt"] &= 1  # its upper bit is fixed
    if "off" in fields and random.random() < 0.95:
        fields["off"] = random.randrange(-20, 24) * 2 % (1 << 32)
    if "S" in fields and random.random() < 0.5:
        fields |= {"s1": 0, "s2": 0}
    if "cc" in fields and random.random() < 0.95:
        fields["cc"] &= random.choice([0b101, 0b110])
    if random.random() < 0.97:
        fields |= fields_of(BY_WORD[word], operands(BY_WORD[word]))
    return from_fields(word, fields)


def code():
    made = b"".join(instruction() for _ in range(random.choice([1, 2, 4, 8, 16, 30])))
    if random.random() < 0.05:
        made = made[: random.randrange(len(made) + 1)]
    if random.random() < 0.05 and made:
        made = bytearray(made)
        made[random.randrange(len(made))] ^= 1 << random.randrange(8)
    return bytes(made)


def marks(n):
    """Marks of some threads in a few halves of the first registers, for some kernels."""
    if random.random() < 0.6:
        return {}
    some = random.sample(range(2 * min(n, 9)), random.randint(1, 4))
    dense = random.choice([0.03, 0.3, 1])
    return {32 * half: bytes(random.choice([1, 2, 255]) * (random.random() < dense) for _ in range(32)) for half in some}


def kernel(name):
    n, k, budget = random.choice([7, 8, 16, 33, 128]), random.choice([1, 8, 9, 256]), random.choice([1, 3, 20, 60])
    regs = {32: edges(), 64: edges(), 96: amounts(), 128: edges()}
    if random.random() < 0.5:
        regs[0] = [random.choice([0, 0, 1, 2, 0xFFFF, 0x12340000]) for _ in range(32)]
    unif = {8 * k: [random.choice(EDGES) for _ in range(8)] for k in random.sample(range(32), 4)}
    mask = random.choice([ALL, ALL, 0, rand32(), rand32() & rand32() & rand32()])
    fill = (rand32() | 1, rand32() | 1, rand32() | 1)
    lent = {"fill": fill, "regs": regs, "unif": unif, "mark": marks(n)}
    return Vector(name, code(), 32 * n, specials=32 * k, mask=mask, budget=budget, **lent)
