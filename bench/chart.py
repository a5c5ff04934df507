#!/usr/bin/env python3
"""docs/ratios.svg: ours over each other library, made from the first table of docs/PERFORMANCE.md.

    python3 bench/chart.py            writes docs/ratios.svg
    python3 bench/chart.py --check    says whether the picture is what it would write (status 0 or 1)

A line is a row of the table, a dot the number in brackets of one library, on a scale of logarithms. A cell without such a number has none.
"""
import math
import pathlib
import re
import sys

ROOT = pathlib.Path(__file__).resolve().parent.parent
TABLE = ROOT / "docs" / "PERFORMANCE.md"
PICTURE = ROOT / "docs" / "ratios.svg"
COLOURS = ["#111111", "#1f6fb2", "#7fb3e0", "#2e8b57", "#c0392b", "#e08e0b", "#f2c879", "#8e44ad", "#7f8c8d"]
LEAST, MOST = 0.005, 8
LABEL, PLOT, LINE, HEAD, EDGE = 230, 640, 19, 58, 16
RATIO = re.compile(r"\(([0-9.]+)\)")


def rows():
    """The names of the libraries; and of each row its words, with the ratios by library."""
    lines = [line for line in TABLE.read_text().splitlines() if line.startswith("|")]
    cells = [[cell.strip() for cell in line.strip("|").split("|")] for line in lines]
    names, found = [name.replace("`", "") for name in cells[0][3:]], []
    for row in cells[2:]:
        if len(row) != len(cells[0]):
            break
        ratios = [RATIO.search(cell) for cell in row[3:]]
        if any(ratios):
            found.append((f"{row[0]}, {row[1]}".replace("`", ""), [float(r[1]) if r else None for r in ratios]))
    shown = [number for number in range(len(names)) if any(ratios[number] for _, ratios in found)]
    return [names[number] for number in shown], [(words, [ratios[number] for number in shown]) for words, ratios in found]


def place(ratio):
    share = math.log(ratio / LEAST) / math.log(MOST / LEAST)
    if not 0 <= share <= 1:
        sys.exit(f"chart.py: the ratio {ratio} is out of the scale")
    return LABEL + share * PLOT


def text(x, y, words, anchor="start", size=12):
    return f'<text x="{x:.0f}" y="{y:.0f}" font-size="{size}" text-anchor="{anchor}">{words}</text>'


def scale(foot):
    """The lines of the scale: that of one is where both take the same."""
    out = []
    for mark in (0.01, 0.03, 0.1, 0.3, 1, 2, 4):
        x, wide = place(mark), 1.6 if mark == 1 else 0.6
        out += [f'<line x1="{x:.1f}" y1="{HEAD - 8}" x2="{x:.1f}" y2="{foot}" stroke="#9aa0a8" stroke-width="{wide}"/>',
                text(x, foot + 14, f"{mark:g}", "middle", 11)]
    return out + [text(place(0.1), foot + 32, "ours takes less", "middle"), text(place(2.6), foot + 32, "ours takes more", "middle")]


def picture():
    names, found = rows()
    foot = HEAD + LINE * len(found)
    wide = LABEL + PLOT + EDGE
    out = scale(foot)
    if len(names) > len(COLOURS):
        sys.exit("chart.py: there are more libraries than colours")
    for number, (name, colour) in enumerate(zip(names, COLOURS)):
        x, y = EDGE + 172 * (number % 5), 18 + 20 * (number // 5)
        out += [f'<circle cx="{x}" cy="{y - 4}" r="5" fill="{colour}"/>', text(x + 10, y, name)]
    for number, (words, ratios) in enumerate(found):
        y = HEAD + LINE * number + LINE / 2
        out += [f'<line x1="{LABEL}" y1="{y:.1f}" x2="{LABEL + PLOT}" y2="{y:.1f}" stroke="#e3e6ea"/>', text(LABEL - 10, y + 4, words, "end")]
        out += [f'<circle cx="{place(ratio):.1f}" cy="{y:.1f}" r="5" fill="{colour}"><title>{name}: {ratio:g}</title></circle>'
                for name, colour, ratio in zip(names, COLOURS, ratios) if ratio]
    head = f'<svg xmlns="http://www.w3.org/2000/svg" viewBox="0 0 {wide} {foot + 44}" font-family="sans-serif" fill="#222">'
    return "\n".join([head, f'<rect width="{wide}" height="{foot + 44}" fill="#fff"/>', *out, "</svg>"]) + "\n"


def main():
    drawn = picture()
    if sys.argv[1:] == ["--check"]:
        same = PICTURE.exists() and PICTURE.read_text() == drawn
        print("ratios.svg is what PERFORMANCE says" if same else "ratios.svg differs: run bench/chart.py")
        return 0 if same else 1
    PICTURE.write_text(drawn)
    return 0


if __name__ == "__main__":
    sys.exit(main())
