"""Vectors for the four mask instructions: each is one step from a mask stack in r0l that has every sort of value, whatever the
start mask is, and a few kernels with branches and loops."""
import itertools
import random

from assemble import assemble, hi, imm, lo, reg, uhi, ulo, uni
from data import rand32
from hints import lasting
from vector import ALL, Vector

MASKS = [ALL, 0, 0x5A5A3C96, 0x00010000]
CONDITIONS = [0, 1, 2, 4, 5, 6]
ICMPS = ["if_icmp", "while_icmp", "else_icmp"]


def stack():
    """r0: a value of the mask stack in each low half, another value in the high half, which must stay."""
    low = [0] * 10 + [1] * 8 + [2] * 4 + [3] * 3 + [4, 0x7FFF, 0x8000, 0xFFFC, 0xFFFD, 0xFFFE, 0xFFFF]
    random.shuffle(low)
    return [random.getrandbits(16) << 16 | v for v in low]


def neighbours(x):
    """Words that compare with x in every way, in both halves and whole, signed and unsigned."""
    near = [x, x, x, x + 1, x - 1, x ^ 0x80000000, x ^ 0x8000, ~x, x & 0xFFFF, x | 0xFFFF0000, (x & 0xFFFF) * 0x10001]
    return [value % (1 << 32) for value in near] + [rand32()]


def compared():
    """r1 and r2: pairs of values that compare in every way."""
    bases = [0, 1, 0x7FFF, 0x8000, 0xFFFF, 0xFFFF8000, 0x7FFFFFFF, 0x80000000, 0xFFFFFFFF, rand32()]
    pairs = [(x, random.choice(neighbours(x))) for x in (random.choice(bases) for _ in range(32))]
    return [a for a, _ in pairs], [b for _, b in pairs]


def one_step(name, code, rows, mask, unif=None):
    regs = {32 * r: row for r, row in enumerate(rows)}
    return Vector(name, code, registers=32 * 3, fill=(0, rand32() | 1, 0), regs=regs, unif=unif or {}, mask=mask)


def shared(kind):
    """An operand that all threads share, its value, and what the uniforms must hold for it."""
    number, word = random.randint(0, 255), random.choice([0x00018000, 0xFFFF8000, 0x80007FFF, 0x7FFFFFFF, 0x12345678, 0xFFFFFFFF])
    if kind is imm:
        value = random.choice([0, 1, 127, 128, 255])
        return imm(value), value, {}
    return kind(number), {ulo: word & 0xFFFF, uhi: word >> 16, uni: word}[kind], {number: [word]}


def with_registers(word, k, cc, ccn, n):
    """Both values from registers or halves, each combination in its turn."""
    f, g = list(itertools.product((reg, lo, hi), repeat=2))[k % 9]
    a, b = compared()
    code = assemble(word, A=f(1), B=g(2), cc=cc, ccn=ccn, n=n, Dt=random.randint(0, 1))
    return one_step(f"{word}-{cc}-{ccn}-{n}", code, (stack(), a, b), MASKS[k % 4])


def with_shared(word, k, cc, ccn, n):
    """One value is an immediate or a uniform; r1 has values near it."""
    kind, first = list(itertools.product((imm, ulo, uhi, uni), (True, False)))[k % 8]
    operand, value, unif = shared(kind)
    own = (reg, lo, hi)[k % 3](1)
    a, b = (operand, own) if first else (own, operand)
    row = [random.choice(neighbours(value)) for _ in range(32)]
    code = assemble(word, A=a, B=b, cc=cc, ccn=ccn, n=n, Dt=random.randint(0, 1))
    return one_step(f"{word}-{cc}-{ccn}-{n}", code, (stack(), row), MASKS[k // 3 % 4], unif)


def icmp(word):
    """Each condition with each n; ccn, the operands and the start mask change from one to the next."""
    for k, (cc, ccn) in enumerate(itertools.product(CONDITIONS, (0, 1))):
        two = random.sample([0, 1] if k // 2 % 2 == ccn else [2, 3], 2)
        yield with_registers(word, k, cc, ccn, two[0])
        yield with_shared(word, k, cc, ccn, two[1])
    own = stack()
    for n in (0, 3):
        code = assemble(word, A=lo(0), B=imm(1), cc=2, ccn=n % 2, n=n)
        yield one_step(f"{word}-compares-r0l-{n}", code, (own,), MASKS[n - 1])


def pop_exec():
    for n, mask in itertools.product(range(4), (ALL, 0, 0x5A5A3C96)):
        code = assemble("pop_exec", n=n, Dt=random.randint(0, 1))
        yield one_step(f"pop_exec-{n}-{mask:08x}", code, (stack(),), mask)


# ---- kernels with branches


def add(register, value):
    return assemble("iadd", D=reg(register), A=reg(register), B=imm(value))


def jump(word, offset):
    return assemble(word, off=offset % (1 << 32))


def branches(name, code, rows, budget, **options):
    regs = {32 * r: row for r, row in enumerate(rows)}
    return lasting(Vector(name, b"".join(code), registers=32 * 8, regs=regs, budget=budget, **options))


def nested_ifs():
    code = [
        assemble("if_icmp", A=reg(1), B=reg(2), cc=1, n=1),
        add(4, 1),
        assemble("if_icmp", A=lo(1), B=imm(100), cc=2, ccn=1, n=1),
        add(5, 1),
        assemble("else_icmp", A=imm(0), B=imm(0), cc=0, n=1),
        add(6, 1),
        assemble("pop_exec", n=1),
        assemble("else_icmp", A=lo(2), B=lo(1), cc=6, n=1),
        add(7, 1),
        assemble("pop_exec", n=1),
        add(3, 9),
    ]
    values = [random.randrange(256) for _ in range(32)], [random.randrange(256) for _ in range(32)]
    return branches("nested-ifs", code, ([0xABCD0000] * 32, *values), len(code))


def loop(name, budget):
    """do { r1 -= 1; r4 += 3 } while r1 > 0, each thread with its own number of turns."""
    body = [assemble("iadd", D=reg(1), A=reg(1), B=imm(1), N=1), add(4, 3)]
    test = assemble("while_icmp", A=reg(1), B=imm(0), cc=6, n=1)
    size = len(body[0]) + len(body[1]) + len(test)
    code = [*body, test, jump("jmp_exec_any", -size), assemble("pop_exec", n=1), add(5, 1)]
    return branches(name, code, ([0] * 32, [k % 7 for k in range(32)]), budget)


def broken_loop():
    """A thread leaves the loop by a 2 in its r0l and a pop_exec 0; it comes back after a pop of 2."""
    body = [
        add(3, 1),
        assemble("if_icmp", A=reg(3), B=reg(1), cc=0, n=1),
        assemble("mov16", D=lo(0), imm16=3),
        assemble("pop_exec", n=1),
        assemble("pop_exec", n=0),
        assemble("while_icmp", A=reg(3), B=imm(9), cc=1, n=2),
    ]
    size = sum(map(len, body))
    code = [*body, jump("jmp_exec_any", -size), assemble("pop_exec", n=2), assemble("pop_exec", n=0), add(5, 1)]
    return branches("broken-loop", code, ([0] * 32, [k % 13 for k in range(32)]), 200)


def skipped():
    """The body of an if that no thread takes is jumped over."""
    body = [add(4, 1), add(5, 1)]
    size = sum(map(len, body))
    code = [assemble("if_icmp", A=reg(1), B=reg(1), cc=0, ccn=1, n=1), jump("jmp_exec_none", size + 6), *body]
    return branches("skipped-if", [*code, assemble("pop_exec", n=1), add(6, 1)], ([0] * 32,), 10)


def r0l_by_moves():
    """Data instructions write r0l and leave the mask; the next mask instruction sees what they wrote."""
    code = [
        assemble("mov16", D=lo(0), imm16=2),
        add(4, 1),
        assemble("iadd", D=lo(0), A=lo(0), B=lo(1), N=1),
        add(5, 1),
        assemble("pop_exec", n=0),
        add(6, 1),
        assemble("pop_exec", n=3),
    ]
    return branches("r0l-by-moves", code, ([0x77770000] * 32, [k % 3 for k in range(32)]), len(code), mask=0xFFFFFF0F)


def kernels():
    return [nested_ifs(), loop("loop", 100), loop("loop-spent", 11), broken_loop(), skipped(), r0l_by_moves()]


def files():
    made = [(word, f"steps of {word}", lambda word=word: icmp(word)) for word in ICMPS]
    made.append(("pop_exec", "steps of pop_exec", pop_exec))
    return made + [("branches", "kernels with branches and loops", kernels)]
