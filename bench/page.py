#!/usr/bin/env python3
"""Writes the figures of a run into a page, between its two marks, and draws the plot.
usage: page.py FIGURES PAGE.md PLOT.svg"""
import html
import math
import sys

BEGIN, END = "<!-- figures of make bench, from here -->", "<!-- up to here -->"
READERS = ["answer", "read", "from_str"]
COLUMNS = ["answer", "place", "read", "from_str"]
TITLES = {"answer": "reader", "read": "reader with report", "from_str": "Rust"}
COLOURS = {"answer": "#1b6ca8", "read": "#7fb2d9", "from_str": "#c8553d"}


def rows(path, part):
    """The figures of one part: (name, bytes) to a figure for each call, without what calling costs."""
    found = {}
    with open(path) as lines:
        for line in lines:
            words = line.rstrip("\n").split("\t")
            if words[0] == part:
                found.setdefault((words[1], int(words[2])), {})[words[3]] = int(words[4])
    for figures in found.values():
        nothing = figures.pop("nothing")
        for call in figures:
            figures[call] -= nothing
    return found


def sizes(path):
    with open(path) as lines:
        return {words[1]: int(words[2]) for words in (line.split("\t") for line in lines) if words[0] == "size"}


def compiler(path):
    with open(path) as lines:
        return next(line.split("\t")[1].split(" (")[0].strip() for line in lines if line.startswith("rustc\t"))


def table(heads, body):
    lines = ["| " + " | ".join(heads) + " |", "|---|" + "--:|" * (len(heads) - 1)]
    return lines + ["| " + " | ".join(str(cell) for cell in row) + " |" for row in body]


def number(n):
    return f"{n:,}"


def of_texts(texts):
    body = []
    for (name, size), f in texts.items():
        body.append([name, number(size)] + [number(f[r]) for r in COLUMNS] + [f"{f[r] / f['from_str']:.2f}" for r in COLUMNS[:3]] + [number(f["drop"])])
    return table(["text", "bytes", "reader", "with record", "with report", "Rust", "reader / Rust", "record / Rust", "report / Rust", "Rust's drop"], body)


def of_growth(growing):
    kinds = list(dict.fromkeys(name for name, _ in growing))
    body = []
    for size in sorted({size for _, size in growing}):
        body.append([number(size)] + [" · ".join(f"{growing[kind, size][r] / size:.1f}" for r in READERS) for kind in kinds])
    return table(["bytes"] + kinds, body)


def of_stack(stack):
    body = [[TITLES[r], number(min(f[r] for f in stack.values())), number(max(f[r] for f in stack.values()))] for r in READERS]
    return table(["bytes of stack", "least", "most"], body)


def page(figures):
    size = sizes(figures)
    return "\n".join(
        [f"Instructions for one text (the Rust compiled by {compiler(figures)}):", ""]
        + of_texts(rows(figures, "text"))
        + ["", "Instructions for a byte (reader · with report · Rust), from 64 to 4,096 bytes:", ""]
        + of_growth(rows(figures, "growing"))
        + ["", "Stack, over the texts of the first table:", ""]
        + of_stack(rows(figures, "stack"))
        + ["", f"The archive has {number(size['text'])} bytes of code and {number(size['rodata'])} of constants, in a file of {number(size['archive'])} bytes."]
    )


class Drawing:
    def __init__(self, width, height):
        self.parts = [
            f'<svg xmlns="http://www.w3.org/2000/svg" viewBox="0 0 {width} {height}" font-family="sans-serif" font-size="12">',
            f'<rect width="{width}" height="{height}" fill="white"/>',
        ]

    def text(self, x, y, words, anchor="start", weight="normal"):
        self.parts.append(f'<text x="{x:.1f}" y="{y:.1f}" text-anchor="{anchor}" font-weight="{weight}">{html.escape(words)}</text>')

    def line(self, points, colour, width=1, dash=""):
        at = " ".join(f"{x:.1f},{y:.1f}" for x, y in points)
        self.parts.append(f'<polyline points="{at}" fill="none" stroke="{colour}" stroke-width="{width}" stroke-dasharray="{dash}"/>')

    def bar(self, x, y, width, height, colour):
        self.parts.append(f'<rect x="{x:.1f}" y="{y:.1f}" width="{width:.1f}" height="{height:.1f}" fill="{colour}"/>')

    def done(self):
        return "\n".join(self.parts + ["</svg>"]) + "\n"


def legend(d, x, y):
    for reader in READERS:
        d.bar(x, y - 9, 10, 10, COLOURS[reader])
        d.text(x + 14, y, TITLES[reader])
        x += 160


def bars(d, texts, top):
    """Each text's instructions as a part of the Rust's."""
    left, right = 290, 890
    most = max(1.0, max(f[r] / f["from_str"] for f in texts.values() for r in READERS[:2]))
    scale = (right - left) / math.ceil(most)
    d.text(20, top, "Instructions for one text, the Rust's being 1", weight="bold")
    bottom = top + 20 + 26 * len(texts)
    y = top + 20
    for (name, size), f in texts.items():
        d.text(left - 8, y + 14, f"{name}, {size:,} bytes", "end")
        for i, reader in enumerate(READERS[:2]):
            d.bar(left, y + 2 + 9 * i, f[reader] / f["from_str"] * scale, 8, COLOURS[reader])
        y += 26
    for part in [0.5] + list(range(math.ceil(most) + 1)):
        x = left + part * scale
        d.line([(x, top + 12), (x, bottom)], COLOURS["from_str"] if part == 1 else "#999999", 2 if part == 1 else 1, "4 3" if part == 0.5 else "")
        d.text(x, bottom + 14, f"{part:g}", "middle")
    return bottom + 40


def growth(d, growing, top):
    """Four kinds of texts, each from 64 to 4,096 bytes, both axes by powers."""
    kinds = list(dict.fromkeys(name for name, _ in growing))
    least, most = 3, math.ceil(math.log10(max(f[r] for f in growing.values() for r in READERS)))
    width, height = 170, 170
    d.text(20, top, "Instructions by the bytes of a text: 64 to 4,096", weight="bold")
    for i, kind in enumerate(kinds):
        left, bottom = 90 + i * (width + 35), top + 30 + height
        x = lambda size: left + (math.log2(size) - 6) / 6 * width
        y = lambda n: bottom - (math.log10(n) - least) / (most - least) * height
        d.text(left + width / 2, top + 20, kind, "middle")
        for power in range(least, most + 1):
            d.line([(left, y(10**power)), (left + width, y(10**power))], "#cccccc")
            if i == 0:
                d.text(left - 6, y(10**power) + 4, f"{10**power:,}", "end")
        for size in (64, 512, 4096):
            d.text(x(size), bottom + 14, f"{size:,}", "middle" if size < 4096 else "end")
        for reader in READERS:
            d.line([(x(size), y(f[reader])) for (name, size), f in growing.items() if name == kind], COLOURS[reader], 2)
    return top + height + 70


def plot(figures):
    texts, growing = rows(figures, "text"), rows(figures, "growing")
    d = Drawing(930, 26 * len(texts) + 340)
    legend(d, 20, 20)
    growth(d, growing, bars(d, texts, 50))
    return d.done()


def main():
    figures, page_path, plot_path = sys.argv[1:]
    made = page(figures)
    print(made)
    with open(plot_path, "w") as out:
        out.write(plot(figures))
    with open(page_path) as old:
        before, rest = old.read().split(BEGIN)
        after = rest.split(END)[1]
    with open(page_path, "w") as out:
        out.write(before + BEGIN + "\n" + made + "\n" + END + after)


main()
