"""The rows as two files of the sources have them: crates/isa/specs/Rows.antt, where each is a strip of cells, and crates/rows/src/lib.rt, where
each is three numbers in digits. tools/instructions, tools/against-002 and tests/rows read them by this.

Both are read from the first row to the last, and all that stands there must be of a known form: what can't be read is an error, Unreadable,
never left out.
"""
import collections
import pathlib
import re

ROOT = pathlib.Path(__file__).resolve().parent.parent
DEFINITIONS = pathlib.Path("crates/isa/specs/Rows.antt")
CODE = pathlib.Path("crates/rows/src/lib.rt")


class Unreadable(Exception):
    """A file that is not there, or has something of no known form."""


def text_of(path, name):
    """The text of a file, which an error calls by this name."""
    try:
        return path.read_text(encoding="utf-8")
    except OSError as error:
        raise Unreadable(f"can't read {name}: {error.strerror}") from error
    except UnicodeDecodeError as error:
        raise Unreadable(f"can't read {name}: it is not UTF-8") from error


def pieces(name, text, start, form):
    """The matches of a form that follow one another from `start` to the end of the text, with nothing but white space between."""
    at = re.compile(r"\s*").match(text, start).end()
    while at < len(text):
        match = form.match(text, at)
        if not match:
            raise Unreadable(f"{name}:{text.count(chr(10), 0, at) + 1}: can't read what stands here")
        yield match
        at = re.compile(r"\s*").match(text, match.end()).end()


def begin_after(name, text, line):
    """Where the rows begin."""
    if text.count(line) != 1:
        raise Unreadable(f"{name}: {line.strip()!r} does not stand there once")
    return text.index(line) + len(line)


def entries(name, found):
    """The entries among the pieces, each with the section and the heading that stand above it; a heading has one entry."""
    section = heading = None
    last = False
    for piece in found:
        if last:
            raise Unreadable(f"{name}: something stands after the last row")
        if piece["section"]:
            section = piece["section"]
        elif piece["heading"]:
            if heading or not section:
                raise Unreadable(f"{name}: the heading {piece['heading']} follows a heading with no row, or stands in no section")
            heading = piece["heading"]
        elif piece["entry"]:
            if not heading:
                raise Unreadable(f"{name}: a row has no heading")
            yield section, heading, piece
            heading = None
        else:
            last = True
    if not last or heading:
        raise Unreadable(f"{name}: the rows don't come to their end")


# ---- the definitions

# `printed`: what is printed of each bit, 0, 1 or ?, none for a field alone. `name`: the field, if there is one. `at`: where in the file the
# first printed digit stands, if the file has them.
Cell = collections.namedtuple("Cell", "printed name width at")
# a bit: what is printed, of which field it is and which bit of that, and where in the file its digit stands
Bit = collections.namedtuple("Bit", "printed field index at")

PIECE = re.compile(
    r"-- ---- (?P<section>[^\n]*)|-- (?P<heading>[^\n]*)|(?P<last>∷ \[\])|"
    r'(?P<entry>(?P<next>∷ )?diagram "(?P<word>\w+)" (?P<bytes>\d+) (?P<reader>\w+|\(\w+ [\w.]+\))\s*\((?P<strip>[^()]*)\))'
)
CELL = re.compile(
    r'\s*(?:fixed "(?P<fixed>[01]+)"|"(?P<field>\w+)" of (?P<width>\d+)|unknown (?P<unknown>\d+)|"(?P<above>[01?]+)" above "(?P<below>\w+)")\s*(?:·|\Z)'
)


class Row:
    """A row of the definitions. `cells` go from the top bit down, `bits` from bit 0 up."""

    def __init__(self, section, heading, piece):
        self.section, self.heading, self.word = section, heading, piece["word"]
        self.bytes, self.reader = int(piece["bytes"]), piece["reader"].strip("()").split()[0]
        self.cells = list(cells_of(heading, piece["strip"], piece.start("strip")))
        self.bits = [bit for cell in reversed(self.cells) for bit in bits_of(cell)]
        self.names = [cell.name for cell in self.cells if cell.name]
        if len(self.bits) != 8 * self.bytes:
            raise Unreadable(f"{heading}: its cells have {len(self.bits)} bits, and its {self.bytes} bytes {8 * self.bytes}")
        if len(set(self.names)) != len(self.names):
            raise Unreadable(f"{heading}: a field stands twice in its strip")

    def fixed(self):
        """The numbers of the fixed bits."""
        return [b for b, bit in enumerate(self.bits) if bit.printed in ("0", "1")]

    def mask(self):
        return sum(1 << b for b in self.fixed())

    def value(self):
        return sum(1 << b for b in self.fixed() if self.bits[b].printed == "1")


def cells_of(heading, strip, start):
    at = 0
    while at < len(strip) or at == 0:
        match = CELL.match(strip, at)
        if not match or match["width"] == "0" or match["unknown"] == "0":
            raise Unreadable(f"{heading}: can't read the cell {' '.join(strip[at:].split(' · ')[0].split())}")
        if match["field"]:
            yield Cell("", match["field"], int(match["width"]), None)
        elif match["unknown"]:
            yield Cell("?" * int(match["unknown"]), "", int(match["unknown"]), None)
        else:
            digits = "fixed" if match["fixed"] else "above"
            yield Cell(match[digits], match["below"] or "", len(match[digits]), start + match.start(digits))
        at = match.end()


def bits_of(cell):
    """The bits of a cell, from its lowest."""
    for k in range(cell.width):
        left = cell.width - 1 - k
        at = None if cell.at is None else cell.at + left
        yield Bit(cell.printed[left] if cell.printed else "", cell.name, k if cell.name else None, at)


def definitions(root=ROOT):
    """The rows of the definitions, in their order."""
    text = text_of(root / DEFINITIONS, DEFINITIONS)
    found = pieces(DEFINITIONS, text, begin_after(DEFINITIONS, text, "\nrows =\n"), PIECE)
    rows = [Row(*entry) for entry in entries(DEFINITIONS, found)]
    for what in ("heading", "word"):
        if len({getattr(row, what) for row in rows}) != len(rows):
            raise Unreadable(f"{DEFINITIONS}: a {what} stands there twice")
    if not rows:
        raise Unreadable(f"{DEFINITIONS}: there is no row")
    return rows


# ---- the code

# A number in binary digits. `groups` go from the top bit down, as they stand between underscores, and `at` from bit 0 up: where in the file
# each digit stands. The number 0 has neither.
Digits = collections.namedtuple("Digits", "number groups at")

ARM = re.compile(
    r"// ---- (?P<section>[^\n]*)|// (?P<heading>[^\n]*)|(?P<last>\}\s*\})|"
    r"(?P<entry>(?P<place>\d+|_) => Row \{\s*bytes: (?P<bytes>\d+),\s*bit_l: (?P<bit_l>0b[01_]+|0),\s*"
    r"fixed: (?P<fixed>0b[01_]+),\s*value: (?P<value>0b[01_]+),\s*\},)"
)


class CodeRow:
    """A row of the code."""

    def __init__(self, section, heading, piece):
        self.section, self.heading, self.place, self.bytes = section, heading, piece["place"], int(piece["bytes"])
        self.bit_l, self.fixed, self.value = (digits_of(piece, name) for name in ("bit_l", "fixed", "value"))


def digits_of(piece, name):
    text, start = piece[name], piece.start(name)
    if text == "0":
        return Digits(0, [], [])
    if "" in text[2:].split("_"):
        raise Unreadable(f"{CODE}: a number has an underscore without a digit beside it")
    at = [start + k for k in range(2, len(text)) if text[k] != "_"]
    return Digits(int(text, 2), text[2:].split("_"), at[::-1])


def code(root=ROOT):
    """The rows of the code, in their order."""
    text = text_of(root / CODE, CODE)
    start = begin_after(CODE, text, "\n    match place {\n")
    end = text.find("\n    }\n}\n", start) + len("\n    }\n}\n")
    rows = [CodeRow(*entry) for entry in entries(CODE, pieces(CODE, text[:end], start, ARM))]
    if [row.place for row in rows] != [str(k) for k in range(len(rows) - 1)] + ["_"]:
        raise Unreadable(f"{CODE}: the places are not 0, 1, .. and `_` for the last")
    return rows
