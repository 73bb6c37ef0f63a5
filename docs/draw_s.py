#!/usr/bin/env python3
"""Draws segment S: docs/segment-s.svg, from the bytes of crates/list/stdin and their listing, crates/list/stdout.

    docs/draw_s.py            writes the drawing
    docs/draw_s.py --check    says whether the one that is there is what would be written

Boxes, index entries and their positions come from the bytes; leaves from the listing; what a lookup gives is worked out from the
listing by rule 7. Only the places of texts are made for S.
"""
import math
import pathlib
import sys

ROOT = pathlib.Path(__file__).resolve().parent.parent
SEGMENT, LISTING, DRAWING = ROOT / "crates/list/stdin", ROOT / "crates/list/stdout", ROOT / "docs/segment-s.svg"

LEFT, RIGHT, WIDTH, HEIGHT = 30, 930, 960, 608
TOP, ROW, STEP = 84, 40, 44  # the first row of boxes; how high a row is; from one row to the next
LEAVES, TIMES, CHIPS = 222, 386, 500  # where the leaves in bytes, the time line and the lookups stand
SPAN = 58  # how high the time line is
PAPER, INK, SOFT, EDGE = "#ffffff", "#1f2328", "#57606a", "#8c959f"
PLAIN, INDEX = "#eceff2", "#dcefdc"
TINTS = ["#d8e8fa", "#fce5c8"]  # a leaf's boxes, and the way from its bytes to its time
STRONG = ["#1f5fa8", "#9a5200"]  # the leaf itself, with white text on it
REFUSED, REFUSAL = "#fae0de", "#a3231b"


def number(data, at, width):
    return int.from_bytes(data[at:at + width], "big")


def boxes(data, at, end, depth=0):
    """The boxes of a list: type, first byte, end, depth. Containers are those of document 01."""
    while at < end:
        size, kind = number(data, at, 4), data[at + 4:at + 8].decode("ascii")
        yield kind, at, at + size, depth
        if (kind, depth) in (("moof", 0), ("traf", 1)):
            yield from boxes(data, at + 8, at + size, depth + 1)
        at += size


def leaves(listing):
    """Of each leaf its line and its numbers: number, position, size, start, duration, and two more."""
    return [(line, *map(int, line.split())) for line in listing.splitlines()[1:]]


def lookup(listed, time):
    """Rule 7: the leaf that covers the time, by its place in the list; else 23 before the first start, else 24."""
    for place, (_, _, _, _, start, duration, _, _) in enumerate(listed):
        if start <= time < start + duration:
            return place, None
    return None, 23 if listed and time < listed[0][4] else 24


class Drawing:
    def __init__(self):
        self.lines = []

    def put(self, line):
        self.lines.append("  " + line)

    def text(self, x, y, words, size=12, fill=INK, anchor="middle", more=""):
        self.put(f'<text x="{x:.1f}" y="{y:.1f}" font-size="{size}" fill="{fill}" text-anchor="{anchor}"{more}>{words}</text>')

    def rect(self, x, y, wide, high, fill, stroke=EDGE, more=""):
        self.put(f'<rect x="{x:.1f}" y="{y:.1f}" width="{wide:.1f}" height="{high:.1f}" fill="{fill}" stroke="{stroke}"{more}/>')

    def path(self, points, fill="none", stroke="none", more=""):
        steps = " ".join(f"{x:.1f},{y:.1f}" for x, y in points)
        kind = "polygon" if stroke == "none" else "polyline"
        self.put(f'<{kind} points="{steps}" fill="{fill}" stroke="{stroke}"{more}/>')

    def arrow(self, tail, tip, fill):
        """A line that ends in a head: its two barbs lie 13 before the tip and 6 to each side."""
        far = math.dist(tail, tip)
        x, y = (tip[0] - tail[0]) / far, (tip[1] - tail[1]) / far
        self.path([tail, (tip[0] - 10 * x, tip[1] - 10 * y)], stroke=fill, more=' stroke-width="2"')
        self.path([tip, *((tip[0] - 13 * x - 6 * side * y, tip[1] - 13 * y + 6 * side * x) for side in (1, -1))], fill)


BOLD, CODE = ' font-weight="bold"', ' font-family="monospace" font-weight="bold"'


def draw_bytes(out, data, listed, across):
    def cell(first, end, row, fill, lines, code=True):
        out.rect(across(first), TOP + row * STEP, across(end) - across(first), ROW, fill)
        middle = (across(first) + across(end)) / 2
        for place, words in enumerate(lines):
            y = TOP + row * STEP + (17 + 15 * place if len(lines) == 2 else 12 + 12 * place)
            if code and not place:
                out.text(middle, y, words, 13, more=CODE)
            else:
                out.text(middle, y, words, 10.5 if len(lines) == 2 else 9.5, SOFT)

    out.text(LEFT, 66, "Its bytes, counted from 0: boxes, and below a box what it holds", 12.5, SOFT, "start")
    for kind, first, end, depth in boxes(data, 0, len(data)):
        inside = [place for place, leaf in enumerate(listed) if leaf[2] <= first < leaf[2] + leaf[3]]
        fill = TINTS[inside[0]] if inside else INDEX if kind == "sidx" else PLAIN
        cell(first, end, depth, fill, [kind, f"{first}..{end - 1}"])
        if kind == "sidx":  # version 0, as S has it
            scale, start, count = number(data, first + 16, 4), number(data, first + 20, 4), number(data, first + 30, 2)
            cell(first + 8, first + 32, 1, INDEX, [f"timescale {scale}", f"start {start}"], False)
            for entry in range(count):
                at = first + 32 + 12 * entry
                size, duration = number(data, at, 4) % 2**31, number(data, at + 4, 4)
                cell(at, at + 12, 1, INDEX, [f"entry {entry + 1}", f"{size} bytes", f"{duration} ticks"], False)


def draw_ways(out, listed, across, along):
    """From each leaf in bytes to the same leaf in time, with its line of the listing between them."""
    top, bottom = LEAVES + 34, TIMES - 24
    out.text(LEFT, 293, "The leaves' lines in the listing", 12.5, SOFT, "start")
    out.text(LEFT, TIMES - 32, "Its time, in ticks", 12.5, SOFT, "start")
    spans = [(across(leaf[2]), across(leaf[2] + leaf[3]), along(leaf[4]), along(leaf[4] + leaf[5])) for leaf in listed]
    for tint, (left, right, early, late) in zip(TINTS, spans):
        out.path([(left, top), (right, top), (late, bottom), (early, bottom)], tint)
    for colour, (left, right, early, late), (line, count, first, size, *_) in zip(STRONG, spans, listed):
        over, under, far = (left + right) / 2, (early + late) / 2, bottom - top
        out.rect(left, LEAVES, right - left, 34, colour, PAPER)
        out.text(over, LEAVES + 22, f"leaf {count}: {size} bytes, {first}..{first + size - 1}", 13.5, PAPER, more=BOLD)
        out.arrow(*((over + (under - over) * part, top + far * part) for part in (0.08, 0.93)), colour)
        middle, wide = over + (under - over) * (289 - top) / far, 7.0 * len(line) + 12
        out.rect(middle - wide / 2, 278, wide, 22, PAPER, colour, ' rx="4"')
        out.text(middle, 293, line, 11, more=' font-family="monospace"')


def draw_times(out, listed, along, ticks):
    for tick in ticks:
        x, anchor = along(tick), "start" if tick == ticks[0] else "end" if tick == ticks[-1] else "middle"
        out.path([(x, TIMES - 6), (x, TIMES)], stroke=INK)
        out.text(x, TIMES - 10, tick, 11.5, INK, anchor)
    first, last = listed[0][4], listed[-1][4] + listed[-1][5]
    for early, late, words, given in ((ticks[0], first, "before the list", 23), (last, ticks[-1], "past the list", 24)):
        out.rect(along(early), TIMES, along(late) - along(early), SPAN, REFUSED, REFUSAL, ' stroke-dasharray="4 3"')
        out.text((along(early) + along(late)) / 2, TIMES + 19, words, 12.5, REFUSAL)
        out.text((along(early) + along(late)) / 2, TIMES + 35, f"refused with {given}", 12.5, REFUSAL)
    for place, (_, count, _, _, start, duration, _, _) in enumerate(listed):
        middle = (along(start) + along(start + duration)) / 2
        out.rect(along(start), TIMES, along(start + duration) - along(start), SPAN, STRONG[place], PAPER)
        out.text(middle, TIMES + 22, f"leaf {count}: {duration} ticks", 13.5, PAPER, more=BOLD)
        out.text(middle, TIMES + 40, f"from {start} up to {start + duration - 1}", 12.5, PAPER)
    out.path([(LEFT, TIMES), (RIGHT, TIMES)], stroke=INK, more=' stroke-width="1.5"')


def draw_lookups(out, listed, along):
    """At each edge the tick before it and the edge itself."""
    out.text(LEFT, CHIPS - 22, "Lookups", 12.5, SOFT, "start")
    edges = [leaf[4] for leaf in listed] + [listed[-1][4] + listed[-1][5]]
    for edge in edges:
        for side, time in ((-1, edge - 1), (1, edge)):
            place, refused = lookup(listed, time)
            colour = STRONG[place] if refused is None else REFUSAL
            x, to = along(edge) + 58 * side, along(edge) + 10 * side
            out.path([(x, CHIPS), (to, TIMES + SPAN - 9)], stroke=PAPER, more=' stroke-width="4.5"')
            out.path([(x, CHIPS), (to, TIMES + SPAN - 9)], stroke=colour, more=' stroke-width="1.8"')
            out.put(f'<circle cx="{to:.1f}" cy="{TIMES + SPAN - 9:.1f}" r="4.5" fill="{colour}" stroke="{PAPER}" stroke-width="1.5"/>')
            out.rect(x - 36, CHIPS, 72, 25, PAPER, colour, ' rx="12" stroke-width="1.8"')
            out.text(x, CHIPS + 17, time, 13, colour, more=BOLD)
            if refused is None:
                answer = f"leaf {listed[place][1]}", f"{listed[place][3]} bytes from {listed[place][2]}"
            else:
                answer = f"refused with {refused}", "before the list" if refused == 23 else "past the list"
            out.text(x, CHIPS + 43, answer[0], 12, colour, more=BOLD)
            out.text(x, CHIPS + 59, answer[1], 11.5, SOFT)
    note = "Two lookups at an edge are one tick apart, and are drawn farther apart than they are. A leaf's end belongs to the next."
    out.text(LEFT, HEIGHT - 18, note, 11.5, SOFT, "start")


def drawing():
    data, listed = SEGMENT.read_bytes(), leaves(LISTING.read_text(encoding="ascii"))
    first, last = listed[0][4], listed[-1][4] + listed[-1][5]
    ticks = range(first // 1000 * 1000 - 1000, last + 1001, 1000)

    def across(byte):
        return LEFT + (RIGHT - LEFT) * byte / len(data)

    def along(tick):
        return LEFT + (RIGHT - LEFT) * (tick - ticks[0]) / (ticks[-1] - ticks[0])

    out = Drawing()
    out.put(f'<rect x="0.5" y="0.5" width="{WIDTH - 1}" height="{HEIGHT - 1}" rx="8" fill="{PAPER}" stroke="#d0d7de"/>')
    out.text(LEFT, 38, f"Segment S: {len(data)} bytes, {len(listed)} leaves", 19, INK, "start", BOLD)
    draw_bytes(out, data, listed, across)
    draw_ways(out, listed, across, along)
    draw_times(out, listed, along, ticks)
    draw_lookups(out, listed, along)
    head = [
        f'<svg xmlns="http://www.w3.org/2000/svg" width="{WIDTH}" height="{HEIGHT}" viewBox="0 0 {WIDTH} {HEIGHT}" '
        'font-family="sans-serif" role="img">',
        "  <!-- Made by docs/draw_s.py from crates/list/stdin and crates/list/stdout. -->",
        "  <title>Segment S: its boxes in bytes, its leaves in time, and six lookups</title>",
    ]
    return "\n".join([*head, *out.lines, "</svg>", ""])


def main(words):
    if words not in ([], ["--check"]):
        print("usage: docs/draw_s.py [--check]", file=sys.stderr)
        return 2
    made, name = drawing(), DRAWING.relative_to(ROOT)
    if not words:
        DRAWING.write_text(made, encoding="utf-8")
    elif not DRAWING.exists() or DRAWING.read_text(encoding="utf-8") != made:
        print(f"draw_s: {name} is not what segment S and its listing give; run docs/draw_s.py")
        return 1
    else:
        print(f"draw_s: {name} is what segment S and its listing give")
    return 0


if __name__ == "__main__":
    sys.exit(main(sys.argv[1:]))
