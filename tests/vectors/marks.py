"""Vectors for the marks that discards leave and writes clear, in runs that are not refused with 10."""
import itertools
import random

from assemble import Operand, assemble, hi, imm, lo, pair, reg, ulo, uni, upair
from data import SOURCES
from marked import CACHE, DISCARD, NONE, REST, SOME, each, halves, inactive, marked, mixed, plain_sources
from masks import ICMPS, MASKS, jump, stack
from vector import ALL


def add(d, a, b=imm(1), **given):
    return assemble("iadd", D=d, A=a, B=b, **given)


# ---- what is marked


def widths():
    """One discard, of each width in each place: one, two or four halves."""
    for word, source in (("iadd", "A"), ("iadd", "B"), ("imadd", "A"), ("imadd", "B"), ("imadd", "C")):
        for f in (lo, hi, reg, pair) if word == "iadd" or source == "C" else (hi, reg):
            code = assemble(word, D=reg(6), **plain_sources(word, source), **{source: f(2, DISCARD)})
            yield marked(f"discard-{word}-{source}-{f.__name__}", [code], left=each(halves(f, 2)))


def words():
    """Every source of an instruction discards; the destination's marks are cleared where a thread is active."""
    for k, word in enumerate(word for word in SOURCES if word not in ("iadd", "imadd")):
        forms = [(lo, hi, reg)[(k + j) % 3] for j in range(3)]
        sources = {name: f(1 + j, DISCARD) for j, (name, f) in enumerate(zip(SOURCES[word], forms))}
        left = each(half for j, f in enumerate(forms[: len(sources)]) for half in halves(f, 1 + j))
        d, mask = (hi, reg, lo)[k % 3], (SOME, ALL, 0x80000001)[k // 3 % 3]
        lent = each((11, 12, 13, 14), mixed(ALL))
        left |= each(halves(d, 6), inactive(mixed(ALL), mask))
        yield marked(f"discards-{word}", [assemble(word, D=d(6), **sources)], lent, left, mask=mask)


def no_discard():
    """Hints that are none, and flags that look like one."""
    for hint, name in ((NONE, "none"), (CACHE, "cache")):
        code = [add(reg(6), lo(1, hint), hi(2, hint)), add(pair(6), reg(3, hint), pair(4, hint))]
        yield marked(f"hint-{name}", code)
        code = assemble("if_icmp", A=reg(1, hint), B=hi(2, hint), cc=1, n=1, Dt=1)
        yield marked(f"hint-{name}-if_icmp", [code], regs={0: stack()})
    yield marked("flags-of-uniforms", [add(reg(6), uni(200), ulo(255)), add(pair(6), upair(130), uni(128))])
    yield marked("flags-of-a-destination", [add(Operand((0, 0), (12, 0b11)), imm(3)), add(Operand((0, 0), (13, 0b11)), imm(12))])


def inactive_threads():
    """All 32 threads are marked, whichever are active."""
    for f, mask in ((lo, 0), (hi, SOME), (reg, 0), (reg, 0x7FFFFFFF), (pair, 0), (pair, 1)):
        name = f"discard-{f.__name__}-mask-{mask:08x}"
        yield marked(name, [add(reg(6), f(2, DISCARD))], left=each(halves(f, 2)), mask=mask)


def numbers():
    """The first and the last registers, and numbers that need the two high bits."""
    code = [add(hi(0), lo(0, DISCARD))]
    yield marked("discard-n-1", code, left={0: ALL}, registers=1)
    yield marked("discard-r127", [add(reg(1), reg(127, DISCARD))], left=each((254, 255)), registers=128)
    yield marked("discard-pair-126", [add(reg(1), imm(0), pair(126, DISCARD))], left=each(range(252, 256)), registers=128)
    code = [assemble("bfi", D=lo(64), A=lo(33, DISCARD), B=hi(66, DISCARD), C=reg(99, DISCARD))]
    yield marked("discard-high-numbers", code, {128: mixed(ALL)}, each((66, 133, 198, 199)) | {128: 0}, registers=128)


# ---- discarded and written by one instruction


SAME = {
    "half": (lo, 1, lo, 1), "high-half": (hi, 1, hi, 1), "register": (reg, 2, reg, 2), "pair": (pair, 3, pair, 3),
    "low-of-register": (lo, 2, reg, 2), "high-of-register": (hi, 2, reg, 2), "register-of-half": (reg, 2, hi, 2),
    "pair-of-second": (pair, 3, reg, 4), "first-of-pair": (reg, 3, pair, 3), "second-of-pair": (reg, 4, pair, 3),
    "last-half-of-pair": (hi, 4, pair, 3), "pair-after": (pair, 4, pair, 3), "pair-before": (pair, 2, pair, 3),
}  # fmt: skip


def rewritten():
    """A half that is discarded and written is clear in the active threads and marked in the others."""
    masks = itertools.cycle((ALL, 0, 0x00010000))
    for name, (d, to, f, register) in SAME.items():
        for mask in (SOME, next(masks)) if name in ("half", "register", "pair", "low-of-register") else (SOME,):
            left = each(halves(f, register))
            left |= {half: ALL & ~mask for half in halves(d, to) if half in left}
            yield marked(f"rewritten-{name}-{mask:08x}", [add(d(to), f(register, DISCARD))], left=left, mask=mask)
    for mask in (ALL, SOME):
        code = assemble("imadd", D=reg(1), A=lo(1, DISCARD), B=hi(1, DISCARD), C=pair(1, DISCARD))
        left = each((2, 3), ALL & ~mask) | each((4, 5))
        yield marked(f"rewritten-three-sources-{mask:08x}", [code], left=left, mask=mask)


def twice():
    """A half that one instruction reads or discards more than once is no refusal: the marks from before the step count."""
    yield marked("twice-discarded", [add(reg(6), lo(1, DISCARD), lo(1, DISCARD))], left={2: ALL})
    yield marked("discarded-by-a-read-by-b", [add(reg(6), reg(1, DISCARD), hi(1, NONE))], left=each((2, 3)))
    yield marked("read-by-a-discarded-by-b", [add(reg(6), reg(1, CACHE), hi(1, DISCARD))], left={3: ALL})
    yield marked("pair-and-its-second", [add(reg(6), pair(1, DISCARD), reg(2, DISCARD))], left=each(range(2, 6)))
    yield marked("pairs-that-overlap", [add(reg(6), pair(1, DISCARD), pair(2, DISCARD))], left=each(range(2, 8)))
    code = assemble("imadd", D=reg(6), A=lo(1, DISCARD), B=lo(1, DISCARD), C=reg(1, DISCARD))
    yield marked("three-times-discarded", [code], left=each((2, 3)))


# ---- marks that are lent


def kept():
    """A mark that no step sets or clears stays, whatever its byte."""
    every = bytes(range(256))
    lent = {half: every[32 * (half % 8) : 32 * (half % 8) + 32] for half in range(16)}
    yield marked("kept-no-step", [], lent, budget=1)
    first = lent | {0: 0, 1: 0}
    code = [add(reg(0), imm(7), imm(8)), add(reg(0), reg(0, NONE)), add(hi(0), lo(0, CACHE))]
    yield marked("kept-steps", code, first)
    yield marked("kept-spent", code, first, ending="spent", steps=2, budget=2)
    yield marked("kept-refused-3", [*code, b"\xff\xff"], first, ending="refused 3")
    yield marked("marked-anew-mask-0", [add(reg(0), pair(4, DISCARD))], lent, each(range(8, 12)), mask=0)
    yield marked("kept-mask-0", [add(pair(2), pair(4, CACHE), reg(3, NONE))], lent, mask=0)
    yield marked("marked-anew", [add(reg(0), reg(3, DISCARD))], each((6, 7, 8), mixed(REST)), each((6, 7)), mask=SOME)
    left = each((6, 7), REST)
    yield marked("marked-anew-rewritten", [add(reg(3), reg(3, DISCARD))], each((6, 7, 8), mixed(REST)), left, mask=SOME)
    code = [add(pair(2), imm(1)), add(pair(6), imm(2))]
    yield marked("cleared-every-byte", code, lent, each((4, 5, 6, 7, 12, 13, 14, 15), 0))


def cleared():
    """A written half is cleared in the active threads, and no other half."""
    for f, mask in ((lo, SOME), (hi, ALL), (reg, ALL), (reg, 1), (pair, SOME)):
        left = each(halves(f, 3), inactive(mixed(ALL), mask))
        yield marked(f"cleared-{f.__name__}-{mask:08x}", [add(f(3), imm(9))], each(range(16), mixed(ALL)), left, mask=mask)
    moves = {"mov16": (hi, {"imm16": 5}), "mov32": (reg, {"imm32": 6}), "get_sr": (lo, {"SR": 1})}
    for word, (f, given) in moves.items():
        left = each(halves(f, 3), inactive(mixed(ALL), SOME))
        code = assemble(word, D=f(3), **given)
        yield marked(f"cleared-by-{word}", [code], each(range(16), mixed(ALL)), left, mask=SOME, specials=64)
    code = [add(pair(3), imm(9)), assemble("mov16", D=lo(1), imm16=1)]
    yield marked("cleared-mask-0", code, each(range(16), mixed(ALL)), mask=0)


# ---- mask instructions


def compared():
    """(name, A, B, the halves that they discard)"""
    yield "a", lo(1, DISCARD), imm(3), [2]
    yield "b", imm(3), reg(1, DISCARD), [2, 3]
    yield "a-and-b", hi(1, DISCARD), hi(2, DISCARD), [3, 5]
    yield "a-is-r0l", lo(0, DISCARD), imm(1), [0]
    yield "b-is-r0l", uni(9), lo(0, DISCARD), [0]
    yield "both-are-r0l", lo(0, DISCARD), lo(0, DISCARD), [0]
    yield "a-is-r0", reg(0, DISCARD), lo(1, CACHE), [0, 1]
    yield "a-is-r0h-b-is-r0l", hi(0, DISCARD), lo(0, DISCARD), [0, 1]


def comparisons():
    """All 32 threads are marked, those that compare and those that don't; r0l is written by all, so it is clear."""
    masks = itertools.cycle(MASKS)
    for word in ICMPS:
        for name, a, b, discarded in compared():
            code = assemble(word, A=a, B=b, cc=random.choice((0, 1, 6)), ccn=random.randint(0, 1), n=random.randint(1, 3))
            yield marked(f"{word}-discards-{name}", [code], left=each(discarded) | {0: 0}, regs={0: stack()}, mask=next(masks))


def none_and_all_compare():
    """Discards mark where no thread compares, and where all do."""
    for word, none, every in (("if_icmp", 1, 0), ("while_icmp", 2, 1), ("else_icmp", 0, 1)):
        for what, value in (("none", none), ("all", every)):
            code = assemble(word, A=reg(1, DISCARD), B=hi(2, DISCARD), cc=1, n=2)
            regs = {0: [value] * 32}
            yield marked(f"{word}-{what}-compare", [code], left=each((2, 3, 5)), regs=regs, mask=SOME)


def others_marked():
    """Mask instructions that read r0l alone: all other marks stay."""
    lent = each(range(1, 16), mixed(ALL))
    for n in range(4):
        yield marked(f"pop_exec-{n}-others-marked", [assemble("pop_exec", n=n)], lent, regs={0: stack()}, mask=MASKS[n])
    for word in ICMPS:
        code = assemble(word, A=imm(1), B=uni(2), cc=1, n=1, Dt=1)
        yield marked(f"{word}-others-marked", [code], lent, regs={0: stack()}, mask=SOME)


def jumps():
    """Jumps read nothing and mark nothing; one that is taken goes over a mov, which clears."""
    for word, mask in itertools.product(("jmp_exec_any", "jmp_exec_none"), (0, SOME)):
        taken = (mask != 0) == (word == "jmp_exec_any")
        code = [jump(word, 12), assemble("mov32", D=reg(1), imm32=1), jump(word, 6)]
        left = {} if taken else each((2, 3), inactive(mixed(ALL), mask))
        lent = each(range(16), mixed(ALL))
        yield marked(f"{word}-{mask:08x}-all-marked", code, lent, left, mask=mask, steps=2 if taken else 3)


# ---- several steps


def again():
    """What was discarded is written, and read again."""
    mov = assemble("mov32", D=reg(1), imm32=77)
    yield marked("written-then-read", [add(reg(6), reg(1, DISCARD)), mov, add(reg(6), reg(1, CACHE))])
    by_halves = [assemble("mov16", D=f(1), imm16=5) for f in (lo, hi)]
    code = [add(reg(6), reg(1, DISCARD)), *by_halves, add(reg(6), reg(1, DISCARD))]
    yield marked("written-by-halves-then-read", code, left=each((2, 3)))
    code = [add(reg(6), reg(1, DISCARD)), by_halves[0], add(reg(6), lo(1, NONE))]
    yield marked("one-half-written-then-read", code, left={3: ALL})
    code = [add(reg(1), reg(1, DISCARD), reg(2, NONE))] * 4
    yield marked("discarded-and-written-each-step", code, left=each((2, 3), REST), mask=SOME)
    code = [assemble("mov16", D=lo(0), imm16=0), assemble("pop_exec", n=1)]
    yield marked("r0l-written-then-popped", code, {0: mixed(ALL)}, {0: 0})
    code = [assemble("if_icmp", A=lo(0, DISCARD), B=imm(0), cc=0, n=1)] * 3
    yield marked("r0l-discarded-by-comparisons", code, regs={0: stack()})


def loop():
    """Each turn discards r1 and writes it in the threads that still turn; those that left are marked by the next turn."""
    body = [add(reg(1), reg(1, DISCARD), N=1), assemble("while_icmp", A=reg(1, CACHE), B=imm(0), cc=6, n=1)]
    code = [*body, jump("jmp_exec_any", -len(b"".join(body))), assemble("pop_exec", n=1)]
    regs = {0: [0] * 32, 32: [1 + thread % 4 for thread in range(32)]}
    left = each((2, 3), sum(1 << thread for thread in range(32) if thread % 4 != 3))
    yield marked("loop-discards", code, left=left, steps=3 * 4 + 1, budget=20, regs=regs)


def vectors():
    made = (widths, words, no_discard, inactive_threads, numbers, rewritten, twice, kept, cleared)
    made += (comparisons, none_and_all_compare, others_marked, jumps, again, loop)
    return itertools.chain(*(f() for f in made))


def files():
    return [("marks", "marks that discards leave and writes clear", vectors)]
