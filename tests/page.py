"""page.py TOOLS: writes a page with the sections, headings and diagrams of the rows, as document 002 prints them, and some that are not built.
TOOLS is the folder whose strips.py reads the rows. On standard error: the number of rows, and of their bits.
"""
import itertools
import sys

sys.dont_write_bytecode = True
sys.path.insert(0, sys.argv[1])
import strips


def line(boxes):
    return "<tr>" + "".join(f'<td colspan="{width}" class="{names}">{text}</td>' for text, width, names in boxes) + "</tr>"


def printed(cell):
    for unknown, run in itertools.groupby(cell.printed, lambda c: c == "?"):
        run = list(run)
        for k, c in enumerate(run):
            names = ["unknown"] * unknown + ["left"] * (k == 0) + ["right"] * (k == len(run) - 1)
            yield c, 1, " ".join(names)


def table(cells, low):
    top = low + sum(cell.width for cell in cells)
    above, below = [], []
    for cell in cells:
        two = cell.printed and cell.name
        above += printed(cell) if cell.printed else [(cell.name, cell.width, "left right")]
        below += [(cell.name, cell.width, "left right")] if two else [("", 1, "")] * cell.width
    numbers = "".join(f"<td>{b}</td>" for b in range(top - 1, low - 1, -1))
    foot = f"<tfoot>{line(below)}</tbody>" if any(name for name, _, _ in below) else ""
    return f'<table class="opcodebits"><thead><tr>{numbers}</tr></thead><tbody>{line(above)}</tbody>{foot}</table>'


def cut(cells):
    """Tables of the low sixteen bits and of the others."""
    low = list(cells)
    while sum(cell.width for cell in low) > 16:
        low.pop(0)
    high = cells[: len(cells) - len(low)]
    return table(low, 0) + (table(high, sum(cell.width for cell in low)) if high else "")


def diagram(heading, cells):
    print(f"<h3>{heading}</h3>")
    print(f'<div class="opcodewrapper wrapped">{cut(cells)}</div><div class="opcodewrapper notwrapped">{table(cells, 0)}</div>\n<pre>\n</pre>')


rows, section = strips.definitions(), ""
print("1\n2\n<!doctype html>\n<style>table { color: black; }</style>\n<h1>Instructions</h1>\n<p>A <code>word</code> &amp; more.</p>")
for row in rows:
    if row.section != section:
        section = row.section
        diagram("call", rows[0].cells)
        print(f"<h2>{section}</h2>")
    diagram(row.heading, row.cells)
print(len(rows), sum(len(row.bits) for row in rows), file=sys.stderr)
