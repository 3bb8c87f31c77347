"""Discard hints that would end a run too soon.

Most kernels read the same registers again and again, with hints drawn at random. A step that reads what an earlier one discarded is
refused with 10, and what the kernel is about would not be tried. Such a discard is turned into a cache hint; the others stay.
"""
import g13

SOURCES = ("ALUSrc", "MulSrc", "AddSrc")


def sources(code, address):
    """(first bit of its flag field, the source) of each source of the instruction at an address."""
    decoded = g13.decode(code[address:])
    for name, made, parts in decoded.instruction.operands:
        if made in SOURCES:
            yield decoded.instruction.fields[parts[1][0]][0], decoded.values[name]


def halves_read(code, address):
    read = {half for _, source in sources(code, address) for half in source.halves()}
    return read | ({0} if g13.decode(code[address:]).instruction.kind == "mask" else set())


def last_discard(code, addresses, halves):
    """The bit of the code that makes the hint of the last discard of one of the halves, where these addresses were stepped."""
    for address in reversed(addresses):
        for first, source in sources(code, address):
            if source.discard and halves & set(source.halves()):
                return 8 * address + first
    raise ValueError("the marks were lent")


def lasting(v):
    """The vector, with a cache hint for each discard that would have a later step refused."""
    while True:
        ending, (steps, address, _), _, _, records = v.run()
        if ending != "refused 10":
            return v
        stepped = [int.from_bytes(records[16 * k : 16 * k + 2], "little") for k in range(steps)]
        bit = last_discard(v.code, stepped, halves_read(v.code, address))
        code = bytearray(v.code)
        code[bit // 8] ^= 1 << bit % 8  # discard is 11, cache 10
        v.code = bytes(code)
