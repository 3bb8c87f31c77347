"""The built instructions of document 002 and the run of 01, transcribed into Python, whose integers are unbounded.

It is written from the two papers, from the change request on discards for the marks, and from docs/DECISIONS.md, entry 1, for the
section on operands that the copy of document 002 lacks; it shares no code with the other programs of this repository. A diagram
below is the row that document 002 prints, most significant bit first: `Dx{2}` is a field of two bits, `?` an unknown bit. The lines
that describe operands are the document's own, and so is the pseudocode, with its indentation restored. Which threads read a source
is what the pseudocode says. It is slow and meant to be laid beside the page.
"""
import re
from dataclasses import dataclass, field

THREADS = range(32)
ALL = 0xFFFFFFFF
DISCARD = 0b11  # the hint of a register source


class Refused(Exception):
    """A refusal; its argument is its number."""


# ---- values


def sign_extend(x, bits):
    return x - (1 << bits) if x >> (bits - 1) & 1 else x


def saturate_integer(x, bits, signed):
    low, high = (-(1 << bits - 1), (1 << bits - 1) - 1) if signed else (0, (1 << bits) - 1)
    return min(max(x, low), high)


# ---- operands: what they name is said first (refusal 4); whether it is there (5, 6), what is read and whether it is marked (10),
# when a step is done


@dataclass
class Destination:
    """A register half, a register or a pair, by the first of its halves; halves are numbered 2r and 2r + 1."""

    half: int
    thread_bit_size: int

    def missing(self, machine):
        last = (self.half + self.thread_bit_size // 16 - 1) // 2
        return [] if last < machine.n else [5]

    def bind(self, machine):
        return Written(self, machine)


class Written:
    """A destination during a step."""

    def __init__(self, place, machine):
        self.place, self.machine, self.thread_bit_size = place, machine, place.thread_bit_size

    def __setitem__(self, thread, result):
        result %= 1 << self.thread_bit_size
        for k in range(self.thread_bit_size // 16):
            self.machine.put_half(self.place.half + k, thread, result >> 16 * k & 0xFFFF)

    def broadcast_to_active(self, value):
        for thread in self.machine.active():
            self[thread] = value


@dataclass
class Source:
    """What a source names: `kind` is immediate, register or uniform; `number` is the value, or the first half's number."""

    kind: str
    number: int
    thread_bit_size: int
    signed: bool = False
    discard: bool = False

    def missing(self, machine):
        last = (self.number + self.thread_bit_size // 16 - 1) // 2
        return [5] if self.kind == "register" and last >= machine.n else []

    def halves(self):
        """The register halves that it names."""
        return range(self.number, self.number + self.thread_bit_size // 16) if self.kind == "register" else range(0)

    def marked(self, machine, thread):
        return any(machine.marks[32 * half + thread] != 0 for half in self.halves())

    def value(self, machine, thread):
        halves = range(self.thread_bit_size // 16)
        if self.kind == "immediate":
            value = self.number
        elif self.kind == "uniform":
            value = sum(machine.uniform_half(self.number + k) << 16 * k for k in halves)
        else:
            value = sum(machine.half(self.number + k, thread) << 16 * k for k in halves)
        return sign_extend(value, self.thread_bit_size) if self.signed else value

    def bind(self, machine):
        values = [self.value(machine, thread) for thread in THREADS]
        return Read(values, [self.marked(machine, thread) for thread in THREADS], self.thread_bit_size)


@dataclass
class Read:
    """A source during a step: all its values, and where it is marked, from before the step changes anything."""

    values: list
    marked: list
    thread_bit_size: int

    def __getitem__(self, thread):
        if self.marked[thread]:
            raise Refused(10)
        return self.values[thread]


@dataclass
class Special:
    number: int

    def missing(self, machine):
        return [] if self.number < machine.k else [6]

    def bind(self, machine):
        self.machine = machine
        return self

    def read(self, thread):
        return self.machine.specials[32 * self.number + thread]


@dataclass
class Condition:
    cc: int
    ccn: int

    def missing(self, machine):
        return []

    def bind(self, machine):
        return self

    def compare(self, a, b):
        answer = {0: a == b, 1: a < b, 2: a > b}[self.cc & 3]
        return answer != (self.ccn == 1)


def ALUDst(v, t, widest=32):
    if t & 2 == 0:
        return Destination(v, 16)
    if v % 2 == 0:
        return Destination(v, 32)
    if widest == 64:
        return Destination(v - 1, 64)
    raise Refused(4)


def ALUDst64(v, t):
    return ALUDst(v, t, 64)


def ALUSrc(v, t, widest=32):
    t3t2, t1, t0, hint = t >> 2, t >> 1 & 1, t & 1, t & 3
    if t3t2 == 0b00:
        return Source("immediate", v, 16) if hint == 0 else Source("register", v, 16, discard=hint == DISCARD)
    if t3t2 == 0b01:
        u = v + 256 * t0
        if t1 == 0:
            return Source("uniform", u, 16)
        if u % 2 == 0:
            return Source("uniform", u, 32)
        if widest == 64 and (u - 1) // 2 != 255:
            return Source("uniform", u - 1, 64)
        raise Refused(4)
    if hint == 0 or v % 2 == 1:
        raise Refused(4)
    if t3t2 == 0b10:
        return Source("register", v, 32, discard=hint == DISCARD)
    if widest == 64:
        return Source("register", v, 64, discard=hint == DISCARD)
    raise Refused(4)


def AddSrc(v, t, s):
    source = ALUSrc(v, t, 64)
    source.signed = s == 1
    return source


def MulSrc(v, t, s):
    source = ALUSrc(v, t)
    source.signed = s == 1
    return source


def SReg32(v):
    return Special(v)


def ImplicitR0L(t):
    return Source("register", 0, 16)


def ICondition(cc, ccn):
    if cc & 3 == 3:
        raise Refused(4)
    return Condition(cc, ccn)


# ---- instructions


@dataclass
class Instruction:
    """A diagram of document 002 with its operand lines, and the function that has its pseudocode."""

    word: str
    bits: int
    fields: dict  # name: (first bit, width)
    fixed: dict  # bit: 0 or 1
    unknown: list  # bits
    operands: list  # (name, description, its field lists)
    meaning: object
    kind: str
    short: int = 0  # bits of the short form, where there is a bit L

    def lengths(self):
        """(L, length in bytes) of each form; L is None where there is none."""
        return [(0, self.short // 8), (1, self.bits // 8)] if self.short else [(None, self.bits // 8)]

    def field(self, word, name):
        first, width = self.fields[name]
        return word >> first & (1 << width) - 1

    def joined(self, word, names):
        """`Dx:D`: fields joined, most significant first."""
        value = 0
        for name in names:
            value = value << self.fields[name][1] | self.field(word, name)
        return value


BUILT = []


def diagram(word, row, lines, kind="data", dt=None):
    """Adds an instruction; `dt` is the place of the movs' Dt, which is printed below the row."""
    fields, fixed, unknown, bit = {}, {}, [], 0
    for cell in reversed(row.split()):
        name, width = re.fullmatch(r"([\w?]+?)(?:\{(\d+)\})?", cell).groups()
        if name == "?":
            unknown.append(bit)
        elif name in "01":
            fixed[bit] = int(name)
        else:
            fields[name] = (bit, int(width or 1))
        bit += int(width or 1)
    if dt:
        fields["Dt"] = dt
        unknown.remove(7)
    operands = []
    for line in lines.strip().splitlines():
        # `A = ALUSrc(Ax:A, At)` or `shift = s2:s1`
        name, made, call = re.fullmatch(r"(\w+) = (?:(\w+)\()?([\w:, ]+)\)?", line.strip()).groups()
        operands.append((name, made, [part.strip().split(":") for part in call.split(",")]))
    assert bit % 16 == 0

    def add(meaning):
        short = bit - 16 if "L" in fields else 0
        BUILT.append(Instruction(word, bit, fields, fixed, unknown, operands, meaning, kind, short))
        return meaning

    return add


# -- Move Instructions


@diagram(
    "mov16",
    "? ? Dx{2} ? ? ? ? ? ? ? ? ? ? ? ? imm16{16} L D{6} 0 ? 1 1 0 0 0 1 0",
    "D = ALUDst(Dx:D, Dt)",
    dt=(7, 2),
)
def mov16(i):
    i.D.broadcast_to_active(i.imm16)


@diagram(
    "mov32",
    "? ? Dx{2} ? ? ? ? ? ? ? ? ? ? ? ? imm32{32} L D{6} 1 ? 1 1 0 0 0 1 0",
    "D = ALUDst(Dx:D, Dt)",
    dt=(7, 2),
)
def mov32(i):
    i.D.broadcast_to_active(i.imm32)


@diagram(
    "get_sr",
    "? ? Dx{2} SRx{2} ? ? ? ? SR{6} 0 D{6} Dt{2} 1 1 1 0 0 1 0",
    """D = ALUDst(Dx:D, Dt)
    SR = SReg32(SRx:SR)""",
)
def get_sr(i):
    for thread in i.active():
        i.D[thread] = i.SR.read(thread)


# -- Integer Arithmetic Instructions


@diagram(
    "iadd",
    "? ? ? ? ? ? ? ? ? ? s2{2} ? ? ? ? ? ? Dx{2} Ax{2} Bx{2} s1 Bs Bt{4} B{6} N As At{4} A{6} 0 D{6} Dt{2} S 0 0 1 1 1 0",
    """D = ALUDst64(Dx:D, Dt)
    A = AddSrc(Ax:A, At, As)
    B = AddSrc(Bx:B, Bt, Bs)
    shift = s2:s1""",
)
def iadd(i):
    for thread in i.active():
        a = i.A[thread]
        b = i.B[thread]
        saturating = (i.S == 1 and i.shift == 0 and i.A.thread_bit_size <= 32 and
                      i.B.thread_bit_size <= 32 and i.D.thread_bit_size <= 32)
        if i.N == 1:
            b = -b
        if i.shift < 5:
            b <<= i.shift
        else:
            b = 0
        result = a + b
        if saturating:
            signed = (i.As == 1 or i.Bs == 1)
            result = saturate_integer(result, i.D.thread_bit_size, signed)
        i.D[thread] = result


@diagram(
    "imadd",
    "? ? Dx{2} Ax{2} Bx{2} Cx{2} s2{2} ? Cs Ct{4} C{6} s1 Bs Bt{4} B{6} N As At{4} A{6} 0 D{6} Dt{2} S 0 1 1 1 1 0",
    """D = ALUDst64(Dx:D, Dt)
    A = MulSrc(Ax:A, At, As)
    B = MulSrc(Bx:B, Bt, Bs)
    C = AddSrc(Cx:C, Ct, Cs)
    shift = s2:s1""",
)
def imadd(i):
    for thread in i.active():
        a = i.A[thread]
        b = i.B[thread]
        c = i.C[thread]
        saturating = (i.S == 1 and i.shift == 0 and i.C.thread_bit_size <= 32 and
                      i.D.thread_bit_size <= 32)
        if i.N == 1:
            c = -c
        if i.shift < 5:
            c <<= i.shift
        else:
            c = 0
        result = a * b + c
        if saturating:
            signed = (i.As == 1 or i.Bs == 1 or i.Cs == 1)
            result = saturate_integer(result, i.D.thread_bit_size, signed)
        i.D[thread] = result


# -- Shift/Bitfield Instructions

FIELD_OPERANDS = """D = ALUDst(Dx:D, Dt)
    A = ALUSrc(Ax:A, At)
    B = ALUSrc(Bx:B, Bt)
    C = ALUSrc(Cx:C, Ct)
    m = m3:m2:m1"""


def mask_of(m):
    if m == 0:
        mask = 0xFFFFFFFF
    else:
        mask = (1 << m) - 1
    return mask


@diagram(
    "bfi",
    "m3 ? Dx{2} Ax{2} Bx{2} Cx{2} ? ? m2{2} Ct{4} C{6} m1{2} Bt{4} B{6} 0 0 At{4} A{6} 0 D{6} Dt{2} 0 1 0 1 1 1 0",
    FIELD_OPERANDS,
)
def bfi(i):
    for thread in i.active():
        a = i.A[thread]
        b = i.B[thread]
        c = i.C[thread]
        shift_amount = (c & 0x7F)
        mask = mask_of(i.m)
        result = (a & ~(mask << shift_amount)) | ((b & mask) << shift_amount)
        i.D[thread] = result


@diagram(
    "bfeil",
    "m3 ? Dx{2} Ax{2} Bx{2} Cx{2} ? ? m2{2} Ct{4} C{6} m1{2} Bt{4} B{6} 0 0 At{4} A{6} 1 D{6} Dt{2} 0 1 0 1 1 1 0",
    FIELD_OPERANDS,
)
def bfeil(i):
    for thread in i.active():
        a = i.A[thread]
        b = i.B[thread]
        c = i.C[thread]
        shift_amount = (c & 0x7F)
        mask = mask_of(i.m)
        result = (a & ~mask) | ((b >> shift_amount) & mask)
        i.D[thread] = result


@diagram(
    "extr",
    "m3 ? Dx{2} Ax{2} Bx{2} Cx{2} ? ? m2{2} Ct{4} C{6} m1{2} Bt{4} B{6} 0 1 At{4} A{6} 0 D{6} Dt{2} 0 1 0 1 1 1 0",
    FIELD_OPERANDS,
)
def extr(i):
    for thread in i.active():
        a = i.A[thread]
        b = i.B[thread]
        c = i.C[thread]
        shift_amount = (c & 0x7F)
        mask = mask_of(i.m)
        result = (((b << 32) | a) >> shift_amount) & mask
        i.D[thread] = result


@diagram(
    "shlhi",
    "m3 ? Dx{2} Ax{2} Bx{2} Cx{2} ? ? m2{2} Ct{4} C{6} m1{2} Bt{4} B{6} 1 0 At{4} A{6} 0 D{6} Dt{2} 0 1 0 1 1 1 0",
    FIELD_OPERANDS,
)
def shlhi(i):
    for thread in i.active():
        a = i.A[thread]
        b = i.B[thread]
        c = i.C[thread]
        shift_amount = (c & 0x7F)
        mask = mask_of(i.m)
        shifted_mask = mask << max(shift_amount-32, 0)
        result = (((b << shift_amount) >> 32) & shifted_mask) | (a & ~shifted_mask)
        i.D[thread] = result


@diagram(
    "shrhi",
    "m3 ? Dx{2} Ax{2} Bx{2} Cx{2} ? ? m2{2} Ct{4} C{6} m1{2} Bt{4} B{6} 1 0 At{4} A{6} 1 D{6} Dt{2} 0 1 0 1 1 1 0",
    FIELD_OPERANDS,
)
def shrhi(i):
    for thread in i.active():
        a = i.A[thread]
        b = i.B[thread]
        c = i.C[thread]
        shift_amount = (c & 0x7F)
        mask = mask_of(i.m)
        shifted_mask = (mask << 32) >> min(shift_amount, 32)
        result = (((b << 32) >> shift_amount) & shifted_mask) | (a & ~shifted_mask)
        i.D[thread] = result


@diagram(
    "asr",
    "? ? Dx{2} Ax{2} Bx{2} ? ? ? ? ? ? ? ? ? ? ? ? ? ? ? ? ? ? Bt{4} B{6} 0 1 At{4} A{6} 1 D{6} Dt{2} 0 1 0 1 1 1 0",
    """D = ALUDst(Dx:D, Dt)
    A = ALUSrc(Ax:A, At)
    B = ALUSrc(Bx:B, Bt)""",
)
def asr(i):
    for thread in i.active():
        a = i.A[thread]
        b = i.B[thread]
        shift_amount = (b & 0x7F)
        result = sign_extend(a, i.A.thread_bit_size) >> shift_amount
        i.D[thread] = result


@diagram(
    "asrh",
    "? ? Dx{2} Ax{2} Bx{2} ? ? ? ? ? ? ? ? ? ? ? ? ? ? ? ? ? ? Bt{4} B{6} 1 1 At{4} A{6} 1 D{6} Dt{2} 0 1 0 1 1 1 0",
    """D = ALUDst(Dx:D, Dt)
    A = ALUSrc(Ax:A, At)
    B = ALUSrc(Bx:B, Bt)""",
)
def asrh(i):
    for thread in i.active():
        a = i.A[thread]
        b = i.B[thread]
        shift_amount = (b & 0x7F)
        result = (sign_extend(a, i.A.thread_bit_size) << 32) >> shift_amount
        i.D[thread] = result


# -- Bit Manipulation Instructions


@diagram(
    "bitop",
    "? ? Dx{2} Ax{2} Bx{2} tt3 tt2 Bt{4} B{6} tt1 tt0 At{4} A{6} 0 D{6} Dt{2} 1 1 1 1 1 1 0",
    """D = ALUDst(Dx:D, Dt)
    A = ALUSrc(Ax:A, At)
    B = ALUSrc(Bx:B, Bt)""",
)
def bitop(i):
    for thread in i.active():
        a = i.A[thread]
        b = i.B[thread]
        if i.tt0 == i.tt1 and i.tt2 == i.tt3 and i.tt0 != i.tt2:
            # UNDEFINED()
            result = a
        else:
            result = 0
            if i.tt0: result |= ~a & ~b
            if i.tt1: result |= a & ~b
            if i.tt2: result |= ~a & b
            if i.tt3: result |= a & b
        i.D[thread] = result


SCAN_OPERANDS = """D = ALUDst(Dx:D, Dt)
    A = ALUSrc(Ax:A, At)"""


@diagram(
    "bitrev",
    "? ? Dx{2} Ax{2} ? ? 0 0 0 0 0 0 0 0 0 0 0 0 0 1 At{4} A{6} 0 D{6} Dt{2} 0 1 1 1 1 1 0",
    SCAN_OPERANDS,
)
def bitrev(i):
    for thread in i.active():
        a = i.A[thread]
        result = 0
        k = 0
        while k < 32:
            if a & (1 << k):
                result |= (1 << (31-k))
            k += 1  # not printed; without it the loop never ends
        i.D[thread] = result


@diagram(
    "popcount",
    "? ? Dx{2} Ax{2} ? ? 0 0 0 0 0 0 0 0 0 0 0 0 1 0 At{4} A{6} 0 D{6} Dt{2} 0 1 1 1 1 1 0",
    SCAN_OPERANDS,
)
def popcount(i):
    for thread in i.active():
        a = i.A[thread]
        result = 0
        k = 0
        while k < 32:
            if a & (1 << k):
                result += 1
            k += 1  # not printed; without it the loop never ends
        i.D[thread] = result


@diagram(
    "ffs",
    "? ? Dx{2} Ax{2} ? ? 0 0 0 0 0 0 0 0 0 0 0 0 1 1 At{4} A{6} 0 D{6} Dt{2} 0 1 1 1 1 1 0",
    SCAN_OPERANDS,
)
def ffs(i):
    for thread in i.active():
        a = i.A[thread]
        result = -1
        k = 31
        while k >= 0:
            if a & (1 << k):
                result = k
                break
            k -= 1
        i.D[thread] = result


# -- Flow Control Instructions; a jump answers its offset if it is taken


@diagram("jmp_exec_any", "off{32} 1 1 0 0 0 0 0 0 0 0 0 0 0 0 0 0", "", kind="jump")
def jmp_exec_any(i):
    if i.mask != 0:
        return sign_extend(i.off, 32)


@diagram("jmp_exec_none", "off{32} 1 1 0 0 0 0 0 0 0 0 1 0 0 0 0 0", "", kind="jump")
def jmp_exec_none(i):
    if i.mask == 0:
        return sign_extend(i.off, 32)


# -- Execution Mask Stack Instructions; `D[thread] = v` and `exec_mask[thread] = (v == 0)` are set_r0l


@diagram(
    "pop_exec",
    "0 0 0 0 0 0 0 0 0 0 0 0 0 0 0 0 0 0 0 0 0 0 0 0 0 0 0 0 0 0 0 0 0 0 0 n{2} 1 1 ? Dt 1 0 1 0 0 1 0",
    "D = ImplicitR0L(Dt)",
    kind="mask",
)
def pop_exec(i):
    for thread in THREADS:
        v = i.D[thread]
        v -= i.n
        if v < 0:
            v = 0
        i.set_r0l(thread, v)


COMPARE_OPERANDS = """D = ImplicitR0L(Dt)
    cc = ICondition(cc, ccn)
    A = ALUSrc(Ax:A, At)
    B = ALUSrc(Bx:B, Bt)"""


def compare(i, thread):
    """cc.compare(A[thread], B[thread]); the conditions 1xx sign-extend each value from its own bit size first."""
    a = i.A[thread]
    b = i.B[thread]
    if i.cc.cc & 4:
        a = sign_extend(a, i.A.thread_bit_size)
        b = sign_extend(b, i.B.thread_bit_size)
    return i.cc.compare(a, b)


@diagram(
    "if_icmp",
    "? ? 0 0 Ax{2} Bx{2} 0 0 Bt{4} B{6} 0 0 At{4} A{6} cc{3} n{2} 0 0 ccn Dt 1 0 1 0 0 1 0",
    COMPARE_OPERANDS,
    kind="mask",
)
def if_icmp(i):
    for thread in THREADS:
        v = i.D[thread]
        if v != 0:
            v += i.n
        elif not compare(i, thread):
            v = 1
        i.set_r0l(thread, v)


@diagram(
    "while_icmp",
    "? ? 0 0 Ax{2} Bx{2} 0 0 Bt{4} B{6} 0 0 At{4} A{6} cc{3} n{2} 1 0 ccn Dt 1 0 1 0 0 1 0",
    COMPARE_OPERANDS,
    kind="mask",
)
def while_icmp(i):
    for thread in THREADS:
        v = i.D[thread]
        if v < i.n:
            if compare(i, thread):
                v = 0
            else:
                v = i.n
        i.set_r0l(thread, v)


@diagram(
    "else_icmp",
    "? ? 0 0 Ax{2} Bx{2} 0 0 Bt{4} B{6} 0 0 At{4} A{6} cc{3} n{2} 0 1 ccn Dt 1 0 1 0 0 1 0",
    COMPARE_OPERANDS,
    kind="mask",
)
def else_icmp(i):
    for thread in THREADS:
        v = i.D[thread]
        if v == 0:
            v = i.n
        elif v == 1:
            if compare(i, thread):
                v = 0
            else:
                v = 1
        i.set_r0l(thread, v)


# ---- finding and decoding


def find(code):
    """(instruction, length) for the bytes lent, by 01's rule in full; refusal 2 or 3."""
    matching, cut_short = [], len(code) == 0
    for order, instruction in enumerate(BUILT):
        for has_l, length in instruction.lengths():
            fixed = dict(instruction.fixed)
            if has_l is not None:
                fixed[instruction.fields["L"][0]] = has_l
            agrees = all(code[bit // 8] >> bit % 8 & 1 == value for bit, value in fixed.items() if bit < 8 * len(code))
            if agrees and length <= len(code):
                matching.append((-len(instruction.fixed), order, instruction, length))
            elif agrees:
                cut_short = True
    if matching:
        return min(matching, key=lambda found: found[:2])[2:]
    raise Refused(2 if cut_short else 3)


@dataclass
class Decoded:
    instruction: Instruction
    length: int
    values: dict = field(default_factory=dict)  # every field's number, and every operand


def decode(code):
    instruction, length = find(code[:12])
    word = int.from_bytes(code[:length], "little")
    decoded = Decoded(instruction, length)
    for name in instruction.fields:
        decoded.values[name] = instruction.field(word, name)
    for name, made, parts in instruction.operands:
        numbers = [instruction.joined(word, part) for part in parts]
        decoded.values[name] = globals()[made](*numbers) if made else numbers[0]
    return decoded


# ---- the machine


class Step:
    """What an instruction's pseudocode sees: its fields, its operands bound to the machine, the active threads, r0l."""

    def __init__(self, decoded, machine):
        self.machine = machine
        self.mask = machine.mask
        for name, value in decoded.values.items():
            setattr(self, name, value.bind(machine) if hasattr(value, "bind") else value)

    def active(self):
        return self.machine.active()

    def set_r0l(self, thread, v):
        v %= 65536  # 01: where the pseudocode adds to r0l, the sum is kept modulo 65536
        self.machine.put_half(0, thread, v)
        bit = 1 << thread
        self.machine.mask = self.machine.mask | bit if v == 0 else self.machine.mask & ~bit


class Machine:
    def __init__(self, registers, marks, uniforms, specials, mask):
        self.registers, self.marks, self.uniforms, self.specials, self.mask = registers, marks, uniforms, specials, mask
        self.n, self.k = len(registers) // 32, len(specials) // 32

    def active(self):
        return [thread for thread in THREADS if self.mask >> thread & 1]

    def half(self, number, thread):
        return self.registers[32 * (number // 2) + thread] >> 16 * (number % 2) & 0xFFFF

    def put_half(self, number, thread, value):
        """Writes a half of a thread; that clears its mark."""
        at, shift = 32 * (number // 2) + thread, 16 * (number % 2)
        self.registers[at] = self.registers[at] & ~(0xFFFF << shift) | value << shift
        self.marks[32 * number + thread] = 0

    def discard(self, source):
        """Marks the halves of a source in all threads, active or not."""
        for half in source.halves():
            self.marks[32 * half : 32 * half + 32] = b"\x01" * 32

    def uniform_half(self, number):
        return self.uniforms[number // 2] >> 16 * (number % 2) & 0xFFFF

    def do(self, decoded):
        """All sources are read, those with discard marked, then the pseudocode writes. Refused, it leaves all as it was."""
        before = list(self.registers), bytes(self.marks), self.mask
        step = Step(decoded, self)
        for value in decoded.values.values():
            if isinstance(value, Source) and value.discard:
                self.discard(value)
        try:
            return decoded.instruction.meaning(step)
        except Refused:
            self.registers[:], self.marks[:], self.mask = before
            raise

    def step(self, code, address):
        """Does the instruction at an address; answers the next address, the length and the record's class."""
        decoded = decode(code[address:])
        missing = [n for value in decoded.values.values() if hasattr(value, "missing") for n in value.missing(self)]
        if missing:
            raise Refused(min(missing))
        offset = self.do(decoded)
        following = address + decoded.length
        if decoded.instruction.kind != "jump":
            return following, decoded.length, {"data": 1, "mask": 2}[decoded.instruction.kind]
        if offset is None:
            return following, decoded.length, 3
        target = address + offset
        if target % 2 == 1 or target < 0 or target > len(code):
            raise Refused(7)
        return target, decoded.length, 4


def sizes_break(code, registers, marks, uniforms, specials, start, budget, records):
    return (
        len(code) > 8192
        or len(registers) % 32 != 0
        or not 1 <= len(registers) // 32 <= 128
        or len(marks) != 64 * (len(registers) // 32)
        or len(uniforms) != 256
        or len(specials) % 32 != 0
        or len(specials) // 32 > 256
        or not 1 <= budget <= 4096
        or start % 2 == 1
        or start > len(code)
        or len(records) < 16 * budget
    )


def run(code, registers, marks, uniforms, specials, start, mask, budget, records):
    """Changes `registers`, `marks` and `records`; answers (ending, steps, address, mask); ending is finished, spent or refused n."""
    if sizes_break(code, registers, marks, uniforms, specials, start, budget, records):
        return "refused 1", 0, start, mask
    machine, address, steps = Machine(registers, marks, uniforms, specials, mask), start, 0
    while True:
        if address == len(code):
            return "finished", steps, address, machine.mask
        if steps == budget:
            return "spent", steps, address, machine.mask
        before = machine.mask
        try:
            following, length, kind = machine.step(code, address)
        except Refused as refused:
            return f"refused {refused.args[0]}", steps, address, before
        numbers = [(address, 2), (length, 1), (kind, 1), (before, 4), (machine.mask, 4), (0, 4)]
        records[16 * steps : 16 * steps + 16] = b"".join(value.to_bytes(size, "little") for value, size in numbers)
        address, steps = following, steps + 1
