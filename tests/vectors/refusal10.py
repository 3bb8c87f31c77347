"""Vectors for refusal 10, a half read that was marked before the step: every way of being refused with it, steps before that stand,
and near misses, which are not refused with it."""
import itertools
import random

from assemble import Operand, assemble, hi, imm, lo, pair, reg, uni
from data import SOURCES
from marked import CACHE, DISCARD, NONE, REST, SOME, each, halves, marked, mixed, one, plain_sources
from marks import add
from masks import ICMPS, jump, stack
from vector import ALL

TEN = "refused 10"


# ---- data instructions


def by_source():
    """A half of each source of each instruction, marked in one active thread; for some, marked in an inactive thread alone."""
    forms, threads = itertools.cycle((lo, hi, reg, reg)), itertools.cycle((0, 31, 7, 16, 24))
    for k, word in enumerate(SOURCES):
        for source in SOURCES[word]:
            f, thread = next(forms), next(threads)
            operand = f(2, random.choice((NONE, CACHE, DISCARD)))
            code = assemble(word, D=reg(6), **plain_sources(word, source), **{source: operand})
            lent = {random.choice(halves(f, 2)): 1 << thread}
            yield marked(f"marked-{word}-{source}", [code], lent, ending=TEN, mask=random.choice((ALL, 1 << thread)))
        if k % 3 == 0:
            code = assemble(word, D=reg(6), **plain_sources(word, source), **{source: f(2, CACHE)})
            yield marked(f"marked-inactive-{word}-{source}", [code], each((4, 5), 1 << thread), mask=ALL & ~(1 << thread))


def by_half():
    """Each half of a source of each width, and the halves before and after it."""
    for f in (lo, hi, reg, pair):
        own = halves(f, 2)
        for half in own:
            yield marked(f"marked-{f.__name__}-half-{half}", [add(reg(6), imm(1), f(2, NONE))], {half: 1 << half}, ending=TEN)
        beside = each((own[0] - 1, own[-1] + 1), mixed(ALL))
        yield marked(f"marked-beside-{f.__name__}", [add(reg(6), imm(1), f(2, DISCARD))], beside, each(own))


def by_value():
    """Any byte but 0 is a mark, also beside others with which it would add up to 0."""
    for value in (2, 16, 128, 255):
        yield marked(f"marked-by-{value}", [add(reg(6), lo(2, CACHE))], {4: one(9, value)}, ending=TEN)
    code = [add(reg(6), reg(2, NONE))]
    yield marked("marked-by-128-in-two-threads", code, {4: bytes([0, 128, 128] + [0] * 29)}, ending=TEN)
    yield marked("marked-by-255-and-1", code, {4: one(9, 255), 5: one(9, 1)}, ending=TEN)
    yield marked("marked-by-2-and-2", code, {4: one(9, 2), 5: one(9, 2)}, ending=TEN)


def by_number():
    """The last half of the last register, and numbers that differ in their two high bits."""
    for half, ending in ((254, "finished"), (255, TEN)):
        code = [add(reg(6), hi(127, NONE))]
        yield marked(f"marked-r127h-half-{half}", code, {half: one(31)}, ending=ending, registers=128)
    for half, ending in ((2, "finished"), (130, "finished"), (66, TEN)):
        code = [add(reg(6), imm(2), lo(33, CACHE))]
        yield marked(f"marked-r33l-half-{half}", code, {half: one(0)}, ending=ending, registers=66)


def by_threads():
    """Which threads are active and which are marked."""
    code = [add(reg(6), reg(2, NONE), lo(3, CACHE))]
    yield marked("marked-where-inactive", code, each((4, 5, 6), mixed(REST)), mask=SOME)
    yield marked("marked-where-inactive-and-one", code, {4: mixed(REST), 6: mixed(REST | 1 << 30)}, ending=TEN, mask=SOME)
    yield marked("marked-everywhere", code, each(range(16), mixed(ALL)), ending=TEN, mask=1 << 20)
    yield marked("marked-everywhere-mask-0", code, each(range(16), mixed(ALL)), mask=0)
    code = [assemble("imadd", D=pair(6), A=lo(1, DISCARD), B=hi(1, NONE), C=pair(2, DISCARD))]
    yield marked("marked-everywhere-mask-0-discards", code, each(range(16), mixed(ALL)), each((2, 4, 5, 6, 7)), mask=0)


def not_read():
    """Marked and not read: destinations, the other halves of registers, the numbers of immediates, uniforms and specials."""
    yield marked("marked-destination", [add(reg(2), reg(3, NONE))], each((4, 5), mixed(ALL)), each((4, 5), 0))
    yield marked("marked-other-half", [add(lo(2), lo(3, NONE), hi(4, NONE))], each((5, 7, 8), mixed(ALL)))
    lent = each(range(16), mixed(ALL))
    code = [add(reg(6), imm(4), uni(2)), assemble("get_sr", D=reg(6), SR=2), assemble("mov16", D=hi(6), imm16=4)]
    yield marked("marked-numbers-of-others", code, lent, each((12, 13), 0), specials=96)


# ---- mask instructions


def by_r0l():
    """r0l is read in all 32 threads, active or not, also by pop_exec 0 and where no thread compares."""
    pops = ((0, 31, 1, ALL), (0, 3, 2, 0), (1, 0, 255, ALL ^ 1), (2, 12, 1, SOME), (3, 17, 16, 1 << 17))
    for n, thread, value, mask in pops:
        code = [assemble("pop_exec", n=n)]
        lent = {0: one(thread, value)}
        yield marked(f"marked-r0l-pop_exec-{n}-by-{value}", code, lent, ending=TEN, regs={0: stack()}, mask=mask)
    for k, (word, n) in enumerate(itertools.product(ICMPS, (0, 2))):
        code, thread = [assemble(word, A=imm(1), B=uni(3), cc=1, n=n)], 5 * k + 2
        mask, mark = (ALL, ALL & ~(1 << thread), 0)[k % 3], one(thread, (1, 2, 255, 128)[k % 4])
        yield marked(f"marked-r0l-{word}-{n}", code, {0: mark}, ending=TEN, regs={0: [7] * 32}, mask=mask)
    twice = {0: bytes([128] * 2 + [0] * 30)}
    yield marked("marked-r0l-by-128-in-two-threads", [assemble("pop_exec", n=1)], twice, ending=TEN, regs={0: stack()})
    yield marked("marked-r0h-pop_exec", [assemble("pop_exec", n=1)], {1: mixed(ALL)}, regs={0: stack()})
    code = [assemble("if_icmp", A=lo(0, DISCARD), B=lo(0, NONE), cc=0, n=1)]
    yield marked("marked-r0l-is-a-and-b", code, {0: 1 << 8}, ending=TEN, regs={0: stack()}, mask=0)


COMPARES = {
    "if_icmp": [(1, 0, True), (1, 1, False), (3, 0xFFFF, False)],
    "while_icmp": [(0, 0, False), (1, 0, True), (1, 1, False), (2, 1, True), (2, 2, False), (3, 2, True), (3, 0x8000, False)],
    "else_icmp": [(1, 0, False), (1, 1, True), (0, 1, True), (2, 2, False)],
}  # n, r0l, and whether document 002 has that thread compare


def by_comparing():
    """One thread has marks in A or in B: it is refused if it compares, whether it is active or not."""
    cases = [(word, case, source) for word, all_cases in COMPARES.items() for case in all_cases for source in "AB"]
    for k, (word, (n, r0l, compares), source) in enumerate(cases):
        if not compares and k // 2 % 2 == (source == "A"):
            continue
        thread, f, hint = 7 * k % 32, (lo, hi, reg)[k % 3], (NONE, CACHE)[k // 3 % 2]
        r0 = stack()
        r0[thread] = r0[thread] >> 16 << 16 | r0l
        code = [assemble(word, **{"A": imm(5), "B": imm(6)} | {source: f(1, hint)}, cc=1, n=n)]
        mask = (ALL, 0, 1 << thread, ALL ^ 1 << thread)[k % 4] if compares else (ALL, 1 << thread)[k % 2]
        lent, ending = each((2, 3), one(thread, (1, 2, 255)[k % 3])), TEN if compares else "finished"
        yield marked(f"marked-{source}-{word}-{n}-r0l-{r0l}", code, lent, ending=ending, regs={0: r0}, mask=mask)


def all_but_comparing():
    """All threads that do not compare have marks; then one that compares has too."""
    for word, test in (("if_icmp", lambda v: v == 0), ("while_icmp", lambda v: v < 3), ("else_icmp", lambda v: v == 1)):
        r0 = stack()
        comparing = [thread for thread in range(32) if test(r0[thread] & 0xFFFF)]
        others = ALL - sum(1 << thread for thread in comparing)
        lent, code = each((2, 3, 5), mixed(others)), [assemble(word, A=reg(1, DISCARD), B=hi(2, DISCARD), cc=2, n=3)]
        yield marked(f"marked-not-comparing-{word}", code, lent, each((2, 3, 5)), regs={0: r0})
        lent |= {5: mixed(others | 1 << comparing[-1])}
        yield marked(f"marked-not-comparing-and-one-{word}", code, lent, ending=TEN, regs={0: r0}, mask=0)
    r0, code = [0] * 31 + [1], [assemble("if_icmp", A=hi(0, DISCARD), B=imm(3), cc=0, n=1)]
    yield marked("marked-r0h-is-a-not-comparing", code, {1: 1 << 31}, {1: ALL}, regs={0: r0})
    yield marked("marked-r0h-is-a-comparing", code, {1: 1 << 30}, ending=TEN, regs={0: r0})


# ---- the order of refusals, and what a refused step leaves


def order():
    """2 to 5 come before 10. What reads no half is refused with 6 or 7 alone."""
    lent = each(range(10), mixed(ALL))
    five = {"registers": 5, "lent": lent}
    yield marked("refusal-2-before-10", [add(reg(3), reg(1, NONE))[:-2]], **five, ending="refused 2")
    yield marked("refusal-3-before-10", [bytes.fromhex("8800")], **five, ending="refused 3")
    code = [assemble("asr", D=reg(3), A=reg(1, NONE), B=Operand((4, 0b1000)))]
    yield marked("refusal-4-before-10", code, **five, ending="refused 4")
    yield marked("refusal-4-before-10-condition", [assemble("if_icmp", A=imm(1), B=imm(2), cc=3)], **five, ending="refused 4")
    yield marked("refusal-5-before-10-destination", [add(reg(5), reg(1, NONE))], **five, ending="refused 5")
    yield marked("refusal-5-before-10-source", [add(reg(3), reg(1, DISCARD), pair(4, NONE))], **five, ending="refused 5")
    code = [assemble("while_icmp", A=lo(1, NONE), B=reg(5, NONE), n=1)]
    yield marked("refusal-5-before-10-r0l", code, **five, ending="refused 5")
    yield marked("refusal-6-and-marks", [assemble("get_sr", D=reg(3), SR=2)], **five, ending="refused 6", specials=64)
    yield marked("refusal-7-and-marks", [jump("jmp_exec_any", 7)], **five, ending="refused 7")


def nothing_changed():
    """A refused step marks nothing and clears nothing, though its other sources discard and its destination is marked."""
    lent = each((6, 7), mixed(ALL)) | {4: 1 << 31}
    yield marked("refused-marks-nothing", [add(reg(3), reg(1, DISCARD), lo(2, DISCARD))], lent, ending=TEN)
    yield marked("refused-marks-nothing-a", [add(reg(3), lo(2, DISCARD), pair(4, DISCARD))], lent, ending=TEN)
    code = assemble("imadd", D=pair(3), A=lo(1, DISCARD), B=reg(5, DISCARD), C=pair(2, DISCARD))
    yield marked("refused-marks-nothing-pair", [code], each((6, 8, 9), mixed(SOME)), ending=TEN, mask=1 << 30)
    code = assemble("else_icmp", A=reg(1, DISCARD), B=lo(2, DISCARD), cc=1, n=1)
    yield marked("refused-comparison-marks-nothing", [code], {4: 1 << 31}, ending=TEN, regs={0: [1] * 32})
    yield marked("refused-r0l-is-not-cleared", [code], {0: 1 << 31}, ending=TEN, regs={0: [3] * 32}, mask=SOME)


# ---- steps before


def discarded_before():
    """A step reads what an earlier one discarded."""
    first = add(reg(6), reg(1, DISCARD))
    yield marked("discarded-then-read", [first, add(reg(7), reg(1, NONE))], left=each((2, 3)), ending=TEN)
    mov = assemble("mov16", D=lo(1), imm16=1)
    yield marked("discarded-then-high-half-read", [first, mov, add(reg(7), hi(1, NONE))], left={3: ALL}, ending=TEN)
    yield marked("discarded-then-half-written", [first, mov, add(reg(7), reg(1, DISCARD))], left={3: ALL}, ending=TEN)
    high = add(reg(6), hi(1, DISCARD))
    yield marked("half-discarded-then-register-read", [high, add(reg(7), reg(1, NONE))], left={3: ALL}, ending=TEN)
    yield marked("half-discarded-then-other-read", [high, add(reg(7), lo(1, NONE))], left={3: ALL})
    code = [add(reg(6), pair(1, DISCARD)), add(reg(7), hi(2, NONE))]
    yield marked("pair-discarded-then-second-read", code, left=each(range(2, 6)), ending=TEN, mask=SOME)
    yield marked("pair-discarded-then-next-read", [code[0], add(reg(7), lo(3, NONE))], left=each(range(2, 6)), mask=SOME)
    yield marked("discarded-twice", [first, first], left=each((2, 3)), ending=TEN, mask=1)
    yield marked("discarded-twice-mask-0", [first, first], left=each((2, 3)), mask=0)


def active_again():
    """Threads that were inactive at the discard are active at the read."""
    pop, zeros = assemble("pop_exec", n=0), {"regs": {0: [0] * 32}}
    code = [add(reg(1), reg(1, DISCARD)), add(reg(6), reg(1, CACHE)), pop, add(reg(6), reg(1, CACHE))]
    yield marked("active-again-then-read", code, left=each((2, 3), REST), ending=TEN, mask=SOME, **zeros)
    yield marked("active-again-after-mask-0", [*code[:1], *code[2:]], left=each((2, 3)), ending=TEN, mask=0, **zeros)
    mov = assemble("mov32", D=reg(1), imm32=9)
    yield marked("active-again-then-written-then-read", [*code[:3], mov, code[3]], mask=SOME, **zeros)
    branch = assemble("if_icmp", A=lo(1, NONE), B=imm(7), cc=1, n=1)
    other = assemble("else_icmp", A=imm(0), B=imm(0), cc=0, n=1)
    regs = {0: [0] * 32, 32: list(range(32))}
    code = [branch, add(reg(6), reg(2, DISCARD)), other, add(reg(7), reg(2, DISCARD))]
    yield marked("discarded-in-if-read-in-else", code, left=each((4, 5)), ending=TEN, regs=regs)


def by_mask_instruction():
    """Discarded by a mask instruction and read by a data instruction, and the other way round."""
    zeros = {"regs": {0: [0] * 32}}
    always = assemble("if_icmp", A=lo(1, DISCARD), B=imm(0), cc=1, ccn=1, n=1)
    yield marked("discarded-by-if-then-read", [always, add(reg(6), reg(1, NONE))], left={2: ALL}, ending=TEN, **zeros)
    yield marked("discarded-by-if-twice", [always, always], left={2: ALL}, ending=TEN, **zeros)
    never = assemble("if_icmp", A=imm(0), B=lo(1, DISCARD), cc=2, n=1)
    yield marked("discarded-by-if-none-active", [never, add(reg(6), lo(1, NONE)), never], left={2: ALL}, **zeros)
    code = [add(reg(6), lo(0, DISCARD)), assemble("pop_exec", n=0)]
    yield marked("r0l-discarded-then-popped", code, left={0: ALL}, ending=TEN, **zeros)
    code = [add(reg(6), reg(0, DISCARD)), assemble("else_icmp", A=imm(0), B=imm(0), n=1)]
    yield marked("r0-discarded-then-else", code, left=each((0, 1)), ending=TEN, mask=0, **zeros)
    code = [add(lo(0), lo(0, DISCARD)), assemble("pop_exec", n=1)]
    yield marked("r0l-discarded-and-written-by-some", code, left={0: REST}, ending=TEN, mask=SOME, **zeros)
    yield marked("r0l-discarded-and-written-by-all", code, **zeros)


def turns():
    """A loop's second turn; a budget that ends before it; a discard, or a read, that is not stepped."""
    first, read = add(reg(6), reg(1, DISCARD)), add(reg(7), reg(1, NONE))
    code = [first, jump("jmp_exec_any", -len(first))]
    yield marked("second-turn-refused", code, left=each((2, 3)), ending=TEN, steps=2, budget=9)
    yield marked("second-turn-not-begun", code, left=each((2, 3)), ending="spent", steps=2, budget=2)
    yield marked("discard-not-stepped", [first, read], start=len(first), steps=1)
    over = jump("jmp_exec_any", 6 + len(read))
    yield marked("read-jumped-over", [first, over, read], left=each((2, 3)), steps=2)


def vectors():
    made = (by_source, by_half, by_value, by_number, by_threads, not_read, by_r0l, by_comparing, all_but_comparing)
    made += (order, nothing_changed, discarded_before, active_again, by_mask_instruction, turns)
    return itertools.chain(*(f() for f in made))


def files():
    return [("refusal-10", "halves that are read though they are marked, and near misses", vectors)]
