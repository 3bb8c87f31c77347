"""Vectors for the 16 data instructions.

Most kernels read the same registers: r1, r2 and r3 hold values at the edges, each in another order, r4 shift amounts in both
halves, and the others what `fill` gives. Each instruction of a kernel writes a register or a half of its own, from r10 on, so a
wrong word tells which instruction it was. Every thread has its own values.
"""
import itertools
import random

import g13
from assemble import assemble, hi, imm, lo, pair, reg, uhi, ulo, uni, upair
from hints import lasting
from vector import ALL, Vector

AMOUNTS = [0, 1, 15, 16, 31, 32, 33, 63, 64, 95, 96, 127, 128]
EDGES = [
    0, 1, 2, 0x7F, 0x80, 0xFF, 0x7FFF, 0x8000, 0xFFFF, 0x10000, 0x18000, 0xFFFF0000, 0xFFFF8000, 0x80008000, 0x7FFF7FFF,
    0x7FFFFFFF, 0x80000000, 0x80000001, 0xFFFFFFFE, 0xFFFFFFFF, 0x55555555, 0xAAAAAAAA, 0x00FF00FF, 0x12345678,
]
FIRST = 10  # the first register that a kernel writes
BITFIELDS = ["bfi", "bfeil", "extr", "shlhi", "shrhi"]
SHIFTS = ["asr", "asrh"]
SCANS = ["bitrev", "popcount", "ffs"]
SIGNS = {"iadd": ["As", "Bs"], "imadd": ["As", "Bs", "Cs"]}
SOURCES = dict.fromkeys(["imadd", *BITFIELDS], "ABC") | dict.fromkeys(["iadd", "bitop", *SHIFTS], "AB")
SOURCES |= dict.fromkeys(SCANS, "A")


def rand32():
    return random.getrandbits(32)


def edges():
    """32 values, one for each thread, in a random order."""
    values = EDGES + [rand32() for _ in range(32 - len(EDGES))]
    random.shuffle(values)
    return values


def amounts():
    """A shift amount in each half of 32 words; some have higher bits, which must not count."""
    low = AMOUNTS + [129, 160, 255, 0x0100, 0xFF80, 0x1020, 0xFFFF] + [random.getrandbits(16) for _ in range(12)]
    high = AMOUNTS + [random.getrandbits(7) for _ in range(19)]
    random.shuffle(low)
    random.shuffle(high)
    return [a << 16 | b for a, b in zip(high, low)]


def registers_of(instruction):
    """The registers that an instruction reads."""
    sources = [value for value in g13.decode(instruction).values.values() if isinstance(value, g13.Source)]
    halves = [(s.number, s.thread_bit_size // 16) for s in sources if s.kind == "register"]
    return {(first + k) // 2 for first, count in halves for k in range(count)}


def usual(instructions):
    """r1 to r4, as far as they are read."""
    rows = {1: edges(), 2: edges(), 3: edges(), 4: amounts()}
    read = set().union(*map(registers_of, instructions))
    return {32 * register: row for register, row in rows.items() if register in read}


def kernel(name, instructions, **options):
    """A run over all of the instructions from the usual registers."""
    registers = options.pop("registers", 64)
    options.setdefault("fill", (rand32() | 1, rand32() | 1, rand32() | 1))
    options.setdefault("regs", usual(instructions))
    return lasting(Vector(name, b"".join(instructions), 32 * registers, budget=len(instructions), **options))


def batched(items, size):
    items = list(items)
    return [items[k : k + size] for k in range(0, len(items), size)]


class Places:
    """Destinations, one after the other: of two 16-bit results one goes into the low half of a register, one into the high."""

    def __init__(self, first=FIRST):
        self.next, self.half = first, False

    def take(self, kind):
        if kind == "half":
            self.half = not self.half
            self.next += not self.half
            return lo(self.next) if self.half else hi(self.next - 1)
        self.next += self.half
        self.half = False
        self.next += 2 if kind == "pair" else 1
        return pair(self.next - 2) if kind == "pair" else reg(self.next - 1)


def kernels(word, what, made, size=16, **options):
    """Vectors of up to `size` instructions; `made` has a destination's kind and the other operands and fields of each."""
    for number, batch in enumerate(batched(made, size)):
        places = Places()
        code = [assemble(word, D=places.take(kind), **given) for kind, given in batch]
        yield kernel(f"{word}-{what}-{number}", code, **options)


def source_kinds(register, wide):
    """Every kind of source, the registers at and after the one given; uniforms below u128 and above."""
    narrow = [imm(random.randint(0, 255)), imm(255), lo(register), hi(register), reg(register)]
    uniforms = [f(number) for f in (ulo, uhi, uni) for number in (random.randint(0, 127), random.randint(128, 255))]
    return narrow + uniforms + ([pair(register), upair(random.randint(0, 127)), upair(254)] if wide else [])


def is_wide(word, source):
    return word == "iadd" or (word == "imadd" and source == "C")


def flags_of(word):
    """Random flags for the instructions that have some."""
    if word in BITFIELDS:
        return {"m": random.choice([0, 0, random.randint(1, 31)])}
    if word == "bitop":
        return {f"tt{k}": bit for k, bit in enumerate([0, 1, 1, 0])}
    if word in ("iadd", "imadd"):
        return {name: random.randint(0, 1) for name in SIGNS[word]} | {"N": random.randint(0, 1)}
    return {}


def usual_sources(word):
    """A, B and C from r1, r2 and r4."""
    return {name: reg({"A": 1, "B": 2, "C": 4}[name]) for name in SOURCES[word]}


def destinations(word):
    return ["half", "reg"] + (["pair"] if word in ("iadd", "imadd") else [])


def by_source_kind(word):
    """At each width of the destination, each source in turn is of every kind, and the others are registers."""
    for width in destinations(word):
        made = []
        for source in SOURCES[word]:
            for operand in source_kinds({"A": 1, "B": 2, "C": 4}[source], is_wide(word, source)):
                made.append((width, usual_sources(word) | {source: operand} | flags_of(word)))
        yield from kernels(word, f"sources-{width}", made, 17)


def by_mask(word):
    """Some threads inactive, and all of them."""
    for mask in (0x0000FFFF, 0x5A5A3C96, 0):
        made = [(kind, usual_sources(word) | flags_of(word)) for kind in ["half", *destinations(word)]]
        yield from kernels(word, f"mask-{mask:08x}", made, mask=mask)


def high_numbers(word):
    """Registers from 32 on, in all quarters that the two high bits of a number choose, with N = 128."""
    code = []
    for d, a, b, c in ((33, 65, 97, 127), (64, 96, 32, 35), (127, 34, 66, 98)):
        operands = dict(zip("ABC", (reg(a), hi(b), lo(c))))
        operands = {name: operands[name] for name in SOURCES[word]} | flags_of(word)
        code.append(assemble(word, D=random.choice([lo, hi, reg])(d), **operands))
    return [kernel(f"{word}-high-numbers", code, registers=128, regs={})]


def overlaps(word):
    """The destination is a source too, or a part of one; a source twice."""
    flags = flags_of(word)
    places = [(lo(1), lo(1)), (hi(2), hi(2)), (reg(3), reg(3)), (hi(4), reg(4))]
    code = [assemble(word, D=place, **dict.fromkeys(SOURCES[word], source), **flags) for place, source in places]
    vectors = [kernel(f"{word}-same-register", code)]
    if word in ("iadd", "imadd"):
        narrow = {"A": reg(8), "B": reg(7)} if word == "imadd" else {"A": reg(8)}
        wide = "C" if word == "imadd" else "B"
        code = [
            assemble(word, D=pair(6), **narrow, **{wide: pair(7)}),
            assemble(word, D=pair(7), **narrow, **{wide: pair(6)}, N=1),
            assemble(word, D=pair(7), **narrow, **{wide: pair(7)}),
        ]
        vectors.append(kernel(f"{word}-overlapping-pairs", code))
    return vectors


def common(word):
    return itertools.chain(by_source_kind(word), by_mask(word), high_numbers(word), overlaps(word))


# ---- one instruction each


def sums(word, widths):
    """All flags at each choice of widths; the destination's stands last."""
    registers = {"A": 1, "B": 2, "C": 3}
    forms = {"l": lo, "h": hi, "r": reg, "p": pair}
    for letters in widths:
        made = []
        for flags in sum_flags(word):
            operands = {name: forms[letter](registers[name]) for name, letter in zip(SOURCES[word], letters)}
            made.append(({"h": "half", "r": "reg", "p": "pair"}[letters[-1]], operands | flags))
        yield from kernels(word, letters, made)


def all_signs(word):
    return [dict(zip(SIGNS[word], bits)) for bits in itertools.product((0, 1), repeat=len(SIGNS[word]))]


def sum_flags(word):
    """Saturating with all signs; without; then each shift."""
    signs = all_signs(word)
    flags = [{"S": 1, "N": n} | sign for n in (0, 1) for sign in signs]
    flags += [{"N": k % 2} | sign for k, sign in enumerate(signs)]
    return flags + [{"shift": s, "N": s % 2, "S": s // 2 % 2} | random.choice(signs) for s in range(1, 8)]


def extremes():
    """Saturating imadd where the exact result lies at the ends of 64 bits and just beyond."""
    a, b, c = zip(*itertools.product((1 << 31, ALL, ALL >> 1, 1), (ALL, 1 << 31), (ALL, 1 << 31, 0, 1)))
    operands = {"A": reg(1), "B": reg(2), "C": reg(3), "S": 1}
    made = [("reg", operands | {"N": n} | sign) for n in (0, 1) for sign in all_signs("imadd")]
    return kernels("imadd", "extremes", made, regs={32: a, 64: b, 96: c})


def iadd():
    return itertools.chain(common("iadd"), sums("iadd", ["rrr", "llh", "rrh", "lrp", "ppp", "prr", "rph"]))


def imadd():
    return itertools.chain(common("imadd"), sums("imadd", ["rrrr", "llhh", "rrlh", "rrph", "rrpp"]), extremes())


def amount_kernels(word, source):
    """Every amount as an immediate, and amounts that differ from thread to thread, in both halves and as a register."""
    usual = usual_sources(word)
    made = [("reg", usual | {source: imm(amount)}) for amount in AMOUNTS]
    made += [(kind, usual | {source: f(4)}) for kind in ("reg", "half") for f in (lo, hi, reg)]
    made += [("reg", {source: lo(4), "A": f(2)} | ({"B": f(3)} if source == "C" else {})) for f in (lo, hi, reg)]
    return kernels(word, "amounts", made, 11)


def bitfield(word):
    sizes = []
    for m in range(32):
        operands = {"A": reg(1 + m % 3), "B": reg(1 + (m + 1) % 3), "C": lo(4) if m % 2 else hi(4), "m": m}
        sizes.append(("half" if m % 4 == 3 else "reg", operands))
    return itertools.chain(common(word), amount_kernels(word, "C"), kernels(word, "m", sizes))


def arithmetic_shift(word):
    return itertools.chain(common(word), amount_kernels(word, "B"))


def bitop():
    made = []
    for kind, a, b in (("reg", reg, reg), ("half", lo, hi), ("reg", lo, reg)):
        for table in range(16):
            made.append((kind, {"A": a(1), "B": b(2)} | {f"tt{k}": table >> k & 1 for k in range(4)}))
    return itertools.chain(common("bitop"), kernels("bitop", "tables", made))


def scan(word):
    made = [(kind, {"A": f(r)}) for kind in ("reg", "half") for f in (reg, lo, hi) for r in (1, 2)]
    return itertools.chain(common(word), kernels(word, "values", made))


def mov(word, field, place):
    """Both forms, values at the edges, all quarters of the registers, some threads inactive."""
    width = 16 if word == "mov16" else 32
    values = [0, 1, (1 << width) - 1, 1 << width - 1, (1 << width - 1) - 1, 0x1234, 0xFEDCBA98 % (1 << width)]
    code = [assemble(word, D=place(FIRST + k), L=k % 2, **{field: value}) for k, value in enumerate(values)]
    yield kernel(f"{word}-values", code, regs={})
    code = [assemble(word, D=place(r), L=1, **{field: rand32() % (1 << width)}) for r in (1, 33, 65, 97, 127)]
    yield kernel(f"{word}-high-numbers", code, registers=128, regs={})
    for mask in (0x0000FFFF, 0x5A5A3C96, 0):
        code = [assemble(word, D=place(FIRST + k), L=k, **{field: value}) for k, value in enumerate((0xABCD, 0x5678))]
        yield kernel(f"{word}-mask-{mask:08x}", code, mask=mask, regs={})


def mov16():
    turn = itertools.cycle([lo, hi])
    return mov("mov16", "imm16", lambda r: next(turn)(r))


def mov32():
    return mov("mov32", "imm32", reg)


def get_sr():
    numbers = [0, 1, 5, 63, 64, 69, 127, 128, 191, 192, 255]
    turn = itertools.cycle([reg, lo, hi])
    code = [assemble("get_sr", D=next(turn)(FIRST + k), SR=number) for k, number in enumerate(numbers)]
    yield kernel("get_sr-numbers", code, regs={}, specials=32 * 256)
    code = [assemble("get_sr", D=f(r), SR=r % 4) for f, r in ((reg, 33), (lo, 64), (hi, 97), (reg, 127))]
    yield kernel("get_sr-high-numbers", code, registers=128, regs={}, specials=32 * 4)
    for mask in (0x0000FFFF, 0x5A5A3C96, 0):
        code = [assemble("get_sr", D=f(FIRST + k), SR=k) for k, f in enumerate((reg, lo, hi))]
        yield kernel(f"get_sr-mask-{mask:08x}", code, regs={}, mask=mask, specials=32 * 3, spec={0: edges()})


def files():
    """(name, what it has, its vectors) of each file."""
    made = {"mov16": mov16, "mov32": mov32, "get_sr": get_sr, "iadd": iadd, "imadd": imadd, "bitop": bitop}
    made |= {word: lambda word=word: bitfield(word) for word in BITFIELDS}
    made |= {word: lambda word=word: arithmetic_shift(word) for word in SHIFTS}
    made |= {word: lambda word=word: scan(word) for word in SCANS}
    return [(word, f"runs of {word}", f) for word, f in made.items()]
