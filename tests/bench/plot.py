#!/usr/bin/env python3
"""Draws the times of a run as an SVG, without any library: plot.py TIMES.TSV OUT.SVG

One panel for each operation and order of keys, one row for each size of tree, in pages of 4096 bytes. A dot is a median, its line the middle half of the
rounds. The number on the right is the library's time as a multiple of the Rust's; of a receipt, as a share of its insert.
"""
import csv
import math
import sys

SIDES = [("Florinwick", "#0b6e4f"), ("Rust", "#c0562a"), ("LMDB", "#5b6bb5"), ("SQLite", "#8d8d8d")]
# A little up or down, so that dots at one place can be told apart.
SHIFTS = {"Florinwick": -3, "Rust": 3, "LMDB": 0, "SQLite": 0}
NAMES = {
    "insert of 128": "insert of a batch of 128",
    "receipt for 128": "the same batch sent again",
    "insert of 1": "insert of one datom",
    "receipt for 1": "the same datom sent again",
    "listed datom": "full listing, per datom",
    "checked datom": "check, per datom",
}
COLUMNS = [("ascending", "ascending entities"), ("fills", "fills: five datoms to an entity"), ("random", "random entities")]
LEFT, PANEL, GAP, ROW, HEAD, TOP = 200, 260, 110, 21, 32, 92


def read(path):
    with open(path, newline="") as file:
        rows = [row for row in csv.DictReader(file, delimiter="\t") if row["page size"] == "4096" and row["keys"] in dict(COLUMNS)]
    times = {}
    for row in rows:
        key = (row["what"], row["keys"], int(row["datoms"]), row["side"])
        times[key] = tuple(float(row[name]) for name in ("quarter", "median", "three quarters"))
    return times


def unit(nanoseconds):
    for size, name in ((1e6, "ms"), (1e3, "µs")):
        if nanoseconds >= size:
            return f"{nanoseconds / size:g} {name}"
    return f"{nanoseconds:g} ns"


class Picture:
    def __init__(self, low, high):
        self.low, self.high, self.parts = math.log10(low), math.log10(high), []

    def x(self, column, nanoseconds):
        share = (math.log10(nanoseconds) - self.low) / (self.high - self.low)
        return LEFT + column * (PANEL + GAP) + share * PANEL

    def text(self, x, y, content, size=12, anchor="start", fill="#222", weight="normal"):
        self.parts.append(f'<text x="{x:.1f}" y="{y:.1f}" font-size="{size}" text-anchor="{anchor}" fill="{fill}" '
                          f'font-weight="{weight}">{content}</text>')

    def line(self, x1, y1, x2, y2, stroke, width=1.0):
        self.parts.append(f'<line x1="{x1:.1f}" y1="{y1:.1f}" x2="{x2:.1f}" y2="{y2:.1f}" stroke="{stroke}" stroke-width="{width}"/>')

    def dot(self, column, y, quartiles, color):
        low, median, high = quartiles
        self.line(self.x(column, low), y, self.x(column, high), y, color, 2)
        self.parts.append(f'<circle cx="{self.x(column, median):.1f}" cy="{y:.1f}" r="4.2" fill="{color}"/>')


def ratio(times, what, keys, datoms):
    ours = times.get((what, keys, datoms, "Florinwick"))
    if what.startswith("receipt"):
        under = times.get((what.replace("receipt for", "insert of"), keys, datoms, "Florinwick"))
    else:
        under = times.get((what, keys, datoms, "Rust"))
    return f"{ours[1] / under[1]:.2f}" if ours and under else ""


def panel(picture, times, what, keys, column, y, sizes):
    ticks = range(math.ceil(picture.low), math.floor(picture.high) + 1)
    for tick in ticks:
        picture.line(picture.x(column, 10.0 ** tick), y - 8, picture.x(column, 10.0 ** tick), y + ROW * len(sizes) - 8, "#e3e3e3")
    for row, datoms in enumerate(sizes):
        middle = y + ROW * row + 3
        if column == 0:
            picture.text(LEFT - 12, middle + 4, f"{datoms:,} datoms", 11, "end", "#555")
        for side, color in reversed(SIDES):
            quartiles = times.get((what, keys, datoms, side))
            if quartiles:
                picture.dot(column, middle + SHIFTS[side], quartiles, color)
        told = ratio(times, what, keys, datoms)
        mark = " of insert" if what.startswith("receipt") else " ×"
        picture.text(LEFT + column * (PANEL + GAP) + PANEL + 10, middle + 4, told + (mark if told else ""), 12, "start", SIDES[0][1], "bold")


def draw(times):
    whats = list(dict.fromkeys(key[0] for key in times))
    sizes = sorted({key[2] for key in times})
    spread = [value for quartiles in times.values() for value in quartiles]
    picture = Picture(10 ** math.floor(math.log10(min(spread))), 10 ** math.ceil(math.log10(max(spread))))
    picture.text(16, 28, "Processor time of one operation: Florinwick, the Rust it was written from, LMDB and SQLite", 16, weight="bold")
    x = 16
    for side, color in SIDES:
        picture.parts.append(f'<circle cx="{x + 5}" cy="48" r="4.5" fill="{color}"/>')
        picture.text(x + 15, 52, "the Rust" if side == "Rust" else side, 12)
        x += 92
    picture.text(x + 4, 52, "left is faster; bold: Florinwick's time as a multiple of the Rust's, a receipt's as a share of its insert", 12, fill="#555")
    for column, (keys, title) in enumerate(COLUMNS):
        picture.text(LEFT + column * (PANEL + GAP), TOP - 14, title, 13, weight="bold")
    y = TOP + 20
    for what in whats:
        picture.text(16, y - 10, NAMES.get(what, what), 13, weight="bold")
        for column, (keys, title) in enumerate(COLUMNS):
            panel(picture, times, what, keys, column, y + 6, sizes)
        y += HEAD + ROW * len(sizes)
    for column in range(len(COLUMNS)):
        for tick in range(math.ceil(picture.low), math.floor(picture.high) + 1):
            picture.text(picture.x(column, 10.0 ** tick), y - 8, unit(10.0 ** tick), 10, "middle", "#555")
    return picture, LEFT + len(COLUMNS) * (PANEL + GAP), y + 10


def main():
    picture, width, height = draw(read(sys.argv[1]))
    with open(sys.argv[2], "w") as file:
        file.write(f'<svg xmlns="http://www.w3.org/2000/svg" viewBox="0 0 {width} {height}" width="{width}" height="{height}" '
                   f'font-family="Helvetica, Arial, sans-serif">\n<rect width="100%" height="100%" fill="white"/>\n')
        file.write("\n".join(picture.parts) + "\n</svg>\n")


main()
