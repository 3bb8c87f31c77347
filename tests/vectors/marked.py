"""A vector that lends marks, and says which must be left and how the run must end; what g13.py computes is held to it."""
from assemble import hi, lo, pair, reg
from data import SOURCES, rand32
from vector import ALL, Vector

NONE, CACHE, DISCARD = 1, 2, 3  # hints of a register source
SOME = 0x5A5A3C96  # a mask, and the other threads
REST = ALL ^ SOME
HALVES = {lo: (0,), hi: (1,), reg: (0, 1), pair: (0, 1, 2, 3)}


def row(marks):
    """The marks of one half: bytes as they are, or a 1 for each thread of a mask."""
    return marks if isinstance(marks, bytes) else bytes(marks >> thread & 1 for thread in range(32))


def one(thread, value=1):
    """The mark of one thread."""
    return bytes(thread) + bytes([value]) + bytes(31 - thread)


def mixed(threads):
    """Marks of 1, 2 and 255 by turns, for the threads of a mask."""
    return bytes((1, 2, 255)[thread % 3] if threads >> thread & 1 else 0 for thread in range(32))


def inactive(marks, mask):
    """A row without the marks of the threads of a mask."""
    return bytes(0 if mask >> thread & 1 else mark for thread, mark in enumerate(row(marks)))


def halves(form, register):
    return [2 * register + k for k in HALVES[form]]


def each(numbers, marks=ALL):
    """The same row for several halves."""
    return dict.fromkeys(numbers, marks)


def plain_sources(word, skip=()):
    """Sources that do not discard, in r1, r4 and r5."""
    operands = {"A": reg(1, NONE), "B": lo(4, CACHE), "C": hi(5, NONE)}
    return {name: operands[name] for name in SOURCES[word] if name not in skip}


def marked(name, code, lent=None, left=None, ending="finished", steps=None, registers=8, **options):
    """A run of a list of instructions, with rows of marks by their halves. A row that `lent` lacks is clear; one that `left` lacks
    stays. Where `steps` is not given, each instruction is a step, but the last if the run ends otherwise than finished."""
    before = {half: row(marks) for half, marks in (lent or {}).items()}
    after = before | {half: row(marks) for half, marks in (left or {}).items()}
    done = len(code) - (ending != "finished") if steps is None else steps

    def says(found, numbers, _registers, marks, _records):
        rows = [after.get(half, bytes(32)) for half in range(2 * registers)]
        return (found, numbers[0], marks) == (ending, done, b"".join(rows))

    options.setdefault("fill", (rand32() | 1, 0, 0))
    options.setdefault("budget", len(code))
    mark = {32 * half: marks for half, marks in before.items()}
    return Vector(name, b"".join(code), 32 * registers, mark=mark, says=says, **options)
