#!/usr/bin/env python3
"""Writes the vectors beside this file: runs of short kernels and what they must leave, computed by g13.py.

    make.py                  write every *.txt again
    make.py --check          say whether the *.txt are what would be written; the last line is `N passed, M failed`
    make.py --random S N     N vectors from random kernels with the seed S, to standard output

The form. A file is text, one vector after the other. Every line begins with a key of four letters and a blank. A number is eight
lower-case hexadecimal digits, numbers stand one blank apart. Code, marks and records are bytes, two digits each, with nothing
between.

    name NAME                             letters, digits, - and _, at most 60
    size CODE REGISTERS UNIFORMS SPECIALS RECORDS MARKS
                                          the lent lengths: code, records and marks in bytes, the others in words; MARKS is left
                                          out where it is twice REGISTERS, 64 bytes for a register
    fill REGISTERS UNIFORMS SPECIALS      word j, from 0, is (j + 1) times this number, modulo two to the 32; the code's bytes
                                          are 00, the bytes of the room for records a5, and all marks clear, 00
    code AT BYTES                         bytes of the code from AT on, at most 32 in a line; a line of zeros is left out
    regs AT WORDS                         words of the registers from AT on, at most 32 in a line, in place of the filled ones
    unif AT WORDS                         the same for the uniforms
    spec AT WORDS                         the same for the special registers
    mark AT BYTES                         bytes of the marks from AT on, at most 32 in a line, in place of 00
    call START MASK BUDGET                the run; what follows is what it must leave
    ends HOW STEPS ADDRESS MASK           HOW is `finished`, `spent` or `refused N`, with N in decimal
    regs AT WORDS                         each 32 words from a multiple of 32 on of which some differ from before the run
    mark AT BYTES                         the same of the marks, 32 bytes
    recs AT BYTES                         each 16 bytes of the room from a multiple of 16 on, the last may be fewer, that are not
                                          all a5
    (an empty line)

The lines stand in this order; there may be none or several of code, regs, unif, spec, mark and recs. A file's first line begins
with # and says what is in it. No line is longer than 301 characters. No length is above 2020 (code), 1020 (registers), 101
(uniforms), 2020 (special registers), 10010 (records) and 2040 (marks), all hexadecimal.

A program that runs vectors prints every line up to `call` as it stands, then what its own run left, then an empty line, and passes
over the lines up to the next empty one and that one. Its output is the file itself exactly if every run left what it must; that
holds of several files one after the other too.
"""
import pathlib
import random
import sys

sys.dont_write_bytecode = True

import data
import marks
import masks
import randoms
import refusal10
import refusals

HERE = pathlib.Path(__file__).resolve().parent


def lines_of(key, at, values, most, form):
    """Lines of at most `most` values each."""
    return [f"{key} {at + k:08x} {form(values[k : k + most])}" for k in range(0, len(values), most)]


def hex_words(values):
    return " ".join(f"{value:08x}" for value in values)


def asked(v):
    """The lines of a vector up to `call`."""
    sizes = (len(v.code), v.registers, v.uniforms, v.specials, v.room)
    sizes += (v.marks,) if v.marks != 2 * v.registers else ()
    lines = [f"name {v.name}", f"size {hex_words(sizes)}", f"fill {hex_words(v.fill)}"]
    lines += [line for line in lines_of("code", 0, v.code, 32, bytes.hex) if line[14:].strip("0")]
    for key, given in (("regs", v.regs), ("unif", v.unif), ("spec", v.spec)):
        for at in sorted(given):
            lines += lines_of(key, at, given[at], 32, hex_words)
    for at in sorted(v.mark):
        lines += lines_of("mark", at, v.mark[at], 32, bytes.hex)
    return lines + [f"call {hex_words((v.start, v.mask, v.budget))}"]


def changed(key, before, after, form):
    """Lines of 32 values each, where they are not as before."""
    rows = [at for at in range(0, len(after), 32) if after[at : at + 32] != before[at : at + 32]]
    return [line for at in rows for line in lines_of(key, at, after[at : at + 32], 32, form)]


def left(v):
    """The lines of a vector after `call`."""
    ending, numbers, registers, marks, records = v.run()
    before = v.lent()
    lines = [f"ends {ending} {hex_words(numbers)}"]
    lines += changed("regs", before[0], registers, hex_words) + changed("mark", before[1], marks, bytes.hex)
    for at in range(0, len(records), 16):
        if any(byte != 0xA5 for byte in records[at : at + 16]):
            lines += lines_of("recs", at, records[at : at + 16], 16, bytes.hex)
    v.check(ending, numbers, registers, marks, records)
    return lines


def text_of(vectors):
    return "".join("\n".join(asked(v) + left(v)) + "\n\n" for v in vectors)


def files():
    """(file name, text) of every file."""
    names = set()
    for name, what, made in data.files() + masks.files() + refusals.files() + marks.files() + refusal10.files():
        random.seed(name)
        vectors = list(made())
        for v in vectors:
            assert v.name not in names and len(v.name) <= 60, v.name
            names.add(v.name)
        yield f"{name}.txt", f"# {what}; make.py has the form\n" + text_of(vectors)


def check():
    passed = failed = 0
    wanted = dict(files())
    for path in sorted(set(wanted) | {path.name for path in HERE.glob("*.txt")}):
        kept = HERE / path
        if kept.exists() and kept.read_text() == wanted.get(path):
            passed += 1
        else:
            failed += 1
            print(f"FAIL  {path} is not what make.py writes")
    print(f"{passed} passed, {failed} failed")
    return failed == 0


def main(arguments):
    if arguments == ["--check"]:
        sys.exit(0 if check() else 1)
    elif len(arguments) == 3 and arguments[0] == "--random":
        random.seed(int(arguments[1]))
        for k in range(int(arguments[2])):
            print(text_of([randoms.kernel(f"random-{arguments[1]}-{k}")]), end="")
    elif not arguments:
        for name, text in files():
            (HERE / name).write_text(text)
    else:
        sys.exit(__doc__)


if __name__ == "__main__":
    main(sys.argv[1:])
