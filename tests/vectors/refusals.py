"""Vectors for the refusals 1 to 7, the jumps, the ends of a run, and 01's bench examples. Refusal 10 is in refusal10.py."""
import random

from assemble import BY_WORD, Operand, assemble, hi, imm, lo, pair, reg, upair
from data import SOURCES, rand32
from marked import DISCARD
from masks import ICMPS, jump
from vector import ALL, Vector

MOV = bytes.fromhex("62043412")  # r1l takes 1234 hex


def some(word, **given):
    """An instruction whose operands are all in r0 to r2."""
    operands = dict(zip("ABC", (reg(0), lo(1), hi(2))))
    operands = {name: operands[name] for name in SOURCES.get(word, "AB" if word in ICMPS else "")}
    if any(name == "D" and made.startswith("ALUDst") for name, made, _ in BY_WORD[word].operands):
        operands["D"] = lo(1) if word == "mov16" else reg(1)
    return assemble(word, **(operands | given))


def short(name, code, registers=3, **options):
    options.setdefault("fill", (rand32() | 1, 0, 0))
    return Vector(name, code, 32 * registers, **options)


# ---- 1


def sizes():
    """Each size at its limits and beyond them."""
    for length in (8192, 8193, 8194):
        yield short(f"code-{length}", bytes(length), start=length & ~1)
    for words in (0, 31, 32, 33, 95, 4096, 4097, 4128):
        yield Vector(f"registers-{words}", b"", words)
    for words in (0, 255, 256, 257):
        yield Vector(f"uniforms-{words}", b"", uniforms=words)
    for words in (0, 31, 32, 33, 8192, 8193, 8224):
        yield Vector(f"specials-{words}", b"", specials=words)
    rooms = [(0, 16), (0, 0), (1, 15), (1, 16), (1, 17), (2, 31), (3, 48), (4096, 65535), (4096, 65536), (4097, 65552)]
    for budget, room in rooms:
        yield short(f"budget-{budget}-room-{room}", MOV, budget=budget, room=room)
    starts = [(start, MOV) for start in (1, 2, 3, 4, 5, 6, 0xFFFFFFFE)] + [(5, MOV + b"\x62"), (2, b"")]
    for start, code in starts:
        yield short(f"start-{start}-of-{len(code)}", code, start=start, mask=0x80000001)
    yield short("refusal-1-before-3", b"\xff" * 8, budget=0)
    yield from marks_sizes()


def marks_sizes():
    """Marks for more or fewer registers than are lent; the code would set and clear some."""
    code = assemble("iadd", D=lo(0), A=lo(0, DISCARD), B=imm(1))
    lengths = [(1, n) for n in (0, 63, 64, 65, 128)] + [(3, n) for n in (1, 96, 128, 191, 192, 193, 256, 384)]
    for n, length in lengths + [(128, n) for n in (64, 8128, 8191, 8192, 8193, 8256)]:
        ending = "finished" if length == 64 * n else "refused 1"
        lent = {0: bytes([0, 2, 0, 255])[:length]}
        yield short(f"marks-{length}-of-{n}", code, n, marks=length, mark=lent, mask=0xFFFF0005, says=says(ending=ending))


# ---- 2 and 3


def cut():
    """Every form, cut after each of its bytes, and after a step that is done."""
    yield short("cut-at-once", b"", start=0)
    for word, instruction in BY_WORD.items():
        for has_l, length in instruction.lengths():
            code = some(word, L=has_l) if has_l is not None else some(word)
            for kept in sorted({1, 2, 3, length // 2, length - 2, length - 1}):
                yield short(f"cut-{word}-{length}-at-{kept}", code[:kept], budget=2)
    yield short("cut-after-a-step", MOV + MOV[:3], budget=4, mask=0x0FF00FF0)
    yield short("odd-length", MOV + b"\x62", budget=1)
    yield short("odd-length-budget-left", MOV + b"\x62", budget=2)


UNBUILT = {
    "stop": "8800", "trap": "0800", "call": "10c000000000", "jmp-incomplete": "00000000", "convert": "3e8000000000",
    "fadd": "2a8000000000", "fmadd": "3a0000000000", "if-fcmp": "420000000000", "get-sr-bit-15": "72890500", "ones": "ff" * 12,
    "zeros": "00" * 12, "bit-15-of-iadd": "0e80000000000000", "one-byte": "ff", "two-bytes": "00c8", "none-before-cut": "0100",
}  # fmt: skip


def flips():
    """Fixed bits turned round: another instruction, a cut one, or none."""
    for word, instruction in BY_WORD.items():
        count = 3 if len(instruction.fixed) < 20 else 8
        for bit in random.sample(sorted(instruction.fixed), count):
            code = bytearray(some(word, L=1) if instruction.short else some(word))
            code[bit // 8] ^= 1 << bit % 8
            yield short(f"turned-{word}-bit-{bit}", bytes(code), budget=1)


def no_diagram():
    for name, code in UNBUILT.items():
        yield short(f"none-{name}", bytes.fromhex(code))
    yield short("none-after-two-steps", MOV + some("iadd") + bytes.fromhex("8800"), budget=5, mask=0x10F0)
    yield from flips()


# ---- 4


def meaningless(wide):
    """Sources without a meaning, by their number and flags; where a pair may stand, one that runs past u255 and odd ones."""
    always = [(4, 0b1000), (4, 0b1100), (3, 0b1001), (3, 0b1010), (5, 0b1011)]
    narrow = [(4, 0b1101), (4, 0b1110), (4, 0b1111), (5, 0b0110), (5, 0b0111)]
    return always + ([(255, 0b0111), (3, 0b1101), (5, 0b1110), (7, 0b1111)] if wide else narrow)


def no_meaning():
    for word in SOURCES:
        for source in SOURCES[word]:
            wide = word == "iadd" or (word == "imadd" and source == "C")
            for v, t in meaningless(wide) if word in ("iadd", "imadd", "asr") else random.sample(meaningless(wide), 3):
                yield short(f"no-meaning-{word}-{source}-{v}-{t:04b}", some(word, **{source: Operand((v, t))}))
    for word in ICMPS:
        for source in "AB":
            for v, t in random.sample(meaningless(False), 3):
                yield short(f"no-meaning-{word}-{source}-{v}-{t:04b}", some(word, **{source: Operand((v, t))}))
        for cc in (3, 7):
            yield short(f"no-meaning-{word}-cc-{cc}", some(word, cc=cc, ccn=cc // 4))
    for word in ["mov32", "get_sr", *SOURCES]:
        if word not in ("iadd", "imadd"):
            yield short(f"no-meaning-{word}-D", some(word, D=Operand((0, 0), (3, 2)), **({"L": 1} if word == "mov32" else {})))
    yield short("refusal-4-before-5", some("asr", D=reg(9), A=Operand((3, 0b1001))))
    yield short("refusal-4-after-a-step", MOV + some("asr", B=Operand((4, 0b1000))), budget=3, mask=5)
    yield short("uniform-pair-u254", some("iadd", A=upair(254)), fill=(1, 0x01234567, 0))


# ---- 5 and 6


def absent():
    """N = 5: the first register that is not there, in every place; the last that is."""
    for word in SOURCES:
        for source in SOURCES[word]:
            wide = word == "iadd" or (word == "imadd" and source == "C")
            for f in [lo, hi, reg] if wide else random.sample([lo, hi, reg], 2):
                name = f"absent-{word}-{source}-{f.__name__}"
                yield short(name, some(word, **{source: f(5)}), registers=5, mask=random.choice([ALL, 0]))
            for first in (3, 4, 127) if wide else ():
                yield short(f"absent-{word}-{source}-pair-{first}", some(word, **{source: pair(first)}), registers=5)
    for word in ["mov16", "mov32", "get_sr", *SOURCES]:
        f = hi if word == "mov16" else lo if word == "ffs" else reg
        options = {"L": 1} if word.startswith("mov") else {}
        yield short(f"absent-{word}-D", some(word, D=f(5), **options), registers=5, specials=32)
        yield short(f"absent-{word}-D-33", some(word, D=f(33), **options), registers=33, specials=32)
    for word in ("iadd", "imadd"):
        for first in (3, 4, 126, 127):
            registers = 5 if first < 5 else 128
            yield short(f"absent-{word}-D-pair-{first}", some(word, D=pair(first)), registers=registers)
    for word in ICMPS:
        for source, f in (("A", reg), ("B", hi)):
            yield short(f"absent-{word}-{source}", some(word, **{source: f(5)}), registers=5, mask=0)
    yield short("absent-after-steps", MOV + MOV + some("bitop", B=reg(5)), registers=5, budget=9, mask=0x00FF00FF)


def specials():
    for sr, k in ((0, 0), (0, 1), (5, 6), (5, 5), (63, 64), (64, 64), (69, 70), (69, 69), (255, 256), (255, 255)):
        yield short(f"special-{sr}-of-{k}", some("get_sr", SR=sr), specials=32 * k, fill=(1, 0, 0x01010101))
    yield short("special-absent-mask-0", some("get_sr", SR=2), specials=64, mask=0)
    yield short("refusal-5-before-6", some("get_sr", D=reg(3), SR=2), specials=32)
    yield short("refusal-4-before-5-and-6", some("get_sr", D=Operand((0, 0), (7, 2)), SR=2), specials=32)


# ---- jumps and 7

TARGETS = {"itself": 0, "next": 6, "end": 10, "over": 12, "start": -4, "below": -6, "far": 0x7FFFFFFF, "odd": 5, "odd-end": 11}
TARGETS |= {"least": -0x80000000, "minus-one": -1, "most-even": 0x7FFFFFFE, "odd-below": -5}


def jumps():
    """From address 4 of 14, taken and not taken, with one thread active, with all, with none."""
    for word, mask in (("jmp_exec_any", ALL), ("jmp_exec_any", 0), ("jmp_exec_none", 0x00800000), ("jmp_exec_none", 0)):
        for name, offset in TARGETS.items():
            code = MOV + jump(word, offset) + MOV
            yield short(f"{word}-{mask:08x}-{name}", code, mask=mask, budget=4)
    for offset in (0, 4, 5, 6, 7, 8):
        yield short(f"jump-near-odd-end-{offset}", jump("jmp_exec_any", offset) + b"\x62", mask=1 << 31, budget=2)
    for start in (0, 4, 6, 10):
        yield short(f"jump-start-{start}", MOV + jump("jmp_exec_any", 6) + MOV, start=start, budget=3)


# ---- runs


def ends():
    """Finished, spent and refused, with more or less budget than steps."""
    three = MOV + some("mov32") + some("bitop", tt1=1)
    for budget in (1, 2, 3, 4, 7):
        yield short(f"three-steps-budget-{budget}", three, budget=budget)
        yield short(f"refused-after-three-{budget}", three + b"\xff\xff", budget=budget)
    yield short("room-to-spare", three, budget=3, room=100)
    yield short("room-to-spare-refused", MOV + b"\xff\xff", budget=3, room=100)
    yield short("long-loop", jump("jmp_exec_any", 0), budget=40)
    yield short("start-in-the-middle", three, start=4, budget=9)
    yield short("empty-code", b"", mask=0x12345678)
    yield short("start-at-the-end", MOV, start=4, mask=3)
    code = bytes(4090 * 2) + MOV + some("bitrev")
    yield short("end-of-the-longest-code", code[-8192:], start=8192 - 10, budget=3)
    yield short("mask-0", MOV + some("mov32"), mask=0, budget=2)


# ---- 01's bench examples; what 01 prints of each is asserted, the rest follows from g13.py


def says(ending=None, steps=None, mask_after=None, word=None, records=None):
    """A check of the printed facts: `word` is (index, value)."""

    def holds(found, numbers, registers, marks, room):
        facts = [(ending, found), (steps, numbers[0]), (mask_after, numbers[2])]
        facts += [(word[1], registers[word[0]])] if word else []
        facts += [(records, room.hex())] if records else []
        return all(wanted is None or wanted == got for wanted, got in facts)

    return holds


def example(name, code, registers, **facts):
    options = {key: facts.pop(key) for key in ("specials", "regs", "mask", "budget") if key in facts}
    return Vector(f"example-{name}", code, 32 * registers, fill=(0x01000193, 0, 0x01010101), says=says(**facts), **options)


def example_movs():
    kept = 33 * 0x01000193 >> 16 << 16  # r1h of thread 0
    r1l = (32, kept | 0x1234)
    record = "00000401ffffffffffffffff00000000"
    yield example("mov16", bytes.fromhex("62043412"), 2, ending="finished", word=r1l, records=record)
    yield example("mov32", bytes.fromhex("620578563412"), 2, ending="finished", word=(32, 0x12345678))
    yield example("mov16-long", bytes.fromhex("628434120000"), 2, ending="finished", word=r1l)
    yield example("mov16-long-unknown-bits", bytes.fromhex("62843412ffcf"), 2, ending="finished", word=r1l)
    kept = (33 * 32 + 1) * 0x01000193 >> 16 << 16 & ALL
    code = bytes.fromhex("628434120010")
    yield example("mov16-r33l", code, 34, ending="finished", word=(33 * 32, kept | 0x1234))
    yield example("mov16-r33l-refused", code, 33, ending="refused 5", steps=0)
    for cut_short in ("62843412", "620434", "62"):
        yield example(f"cut-{cut_short}", bytes.fromhex(cut_short), 2, ending="refused 2", steps=0)
    code = bytes.fromhex("62043412")
    yield example("mask-0", code, 2, mask=0, ending="finished", steps=1, word=(32, 33 * 0x01000193 & ALL))
    yield example("empty", b"", 2, ending="finished", steps=0)
    for budget in (0, 4097):
        yield example(f"budget-{budget}", code, 2, budget=budget, ending="refused 1", steps=0)


def example_specials():
    yield example("get_sr", bytes.fromhex("72090500"), 3, specials=32 * 6, ending="finished", word=(64, 161 * 0x01010101))
    yield example("get_sr-refused", bytes.fromhex("72090500"), 3, specials=32 * 5, ending="refused 6")
    code, word = bytes.fromhex("72090504"), (64, (69 * 32 + 1) * 0x01010101 & ALL)
    yield example("get_sr-69", code, 3, specials=32 * 70, ending="finished", word=word)
    yield example("get_sr-69-refused", code, 3, specials=32 * 69, ending="refused 6")


def example_shifts():
    top = {32: [0x80000000] * 32}
    for amount, result in ((31, ALL), (127, ALL), (128, 0x80000000)):
        code = assemble("asr", D=reg(2), A=reg(1), B=imm(amount))
        yield example(f"asr-{amount}", code, 3, regs=top, ending="finished", word=(64, result))
    for amount, result in ((0, 0), (31, 0), (32, 0x80000000), (33, 0xC0000000), (127, ALL)):
        code = assemble("asrh", D=reg(2), A=reg(1), B=imm(amount))
        yield example(f"asrh-{amount}", code, 3, regs=top, ending="finished", word=(64, result))


def example_pops():
    for mask in (ALL, 0, 0x80000000):
        code = assemble("pop_exec", n=0)
        regs = {0: [0] * 31 + [3]}
        facts = {"ending": "finished", "steps": 1, "mask_after": 0x7FFFFFFF, "word": (31, 3)}
        yield example(f"pop_exec-0-{mask:08x}", code, 1, regs=regs, mask=mask, **facts)


def examples():
    for made in (example_movs(), example_specials(), example_shifts(), example_pops()):
        yield from made


def files():
    return [
        ("refusal-1", "runs at and beyond the limits of 01's sizes", sizes),
        ("refusal-2", "instructions that are cut short", cut),
        ("refusal-3", "bytes that no built diagram has, and near ones", no_diagram),
        ("refusal-4", "operands and conditions without a meaning", no_meaning),
        ("refusal-5", "registers that are not there", absent),
        ("refusal-6", "special registers that are there and that are not", specials),
        ("jumps", "jumps, taken and not taken, and refusal 7", jumps),
        ("ends", "how runs end", ends),
        ("examples", "the bench examples of 01", examples),
    ]
