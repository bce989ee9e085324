#!/usr/bin/env python3
"""Draws what was counted and measured: python3 tools/draw_counts.py [COUNTS] [--before BEFORE] [--peers TIMES] [--into FOLDER]

COUNTS is what tools/count.py printed, BEFORE what an earlier run of it printed, TIMES what tools/peers/run.py printed. Writes growth.svg
where COUNTS is given and peers.svg where TIMES is, into docs, or into the FOLDER.
"""

import argparse
import html
import math
import pathlib
import sys

ROOT = pathlib.Path(__file__).resolve().parent.parent

FONT = "DejaVu Sans, Verdana, Arial, sans-serif"
WIDTH = 1000
MARGIN = 14
INK = "#111827"
GRID = "#e5e7eb"
FRAME = "#4b5563"
GUIDE = "#9aa3b2"
GUIDE_DASHES = ' stroke-dasharray="2 3"'
BEFORE_DASHES = ' stroke-opacity="0.6" stroke-dasharray="6 3"'

MODES = {
    "valid": "valid: one answer for the instance",
    "errors": "errors: every error as a line",
    "list": "list: the list of all units",
}

# a colour for each case, in the order in which they come; dark enough to be read as text
COLOURS = ["#1f5fa8", "#c2410c", "#15803d", "#7e22ce", "#b91c1c", "#0f766e", "#a16207", "#be185d", "#475569", "#4d7c0f"]

# a panel of the growth picture, and what its axes need
PANEL_WIDTH = (WIDTH - 3 * MARGIN) / 2
PANEL_HEIGHT = 430
AXIS = {"left": 74, "right": 14, "top": 34, "bottom": 46}

READING_HEIGHT = 200  # how the panels are read, where it stands alone in its row

# the widths of letters of a label
LETTERS = {"i": 4.3, "j": 4.3, "l": 4.3, "f": 5.3, "t": 5.8, "r": 6.0, "-": 5.2, "m": 12.6, "w": 11.2}
LETTER = 8.3
SMALL_LETTER = 6.6  # the width of a letter at an axis
LABEL_HEIGHT = 13
LEADER = 14  # a label that is farther away is led to by a line

BAR_HEIGHT = 26
BAR_GAP = 18
CUT = 10  # a bar that is so many times the shortest is cut


def number_text(value):
    return f"{value:.1f}".rstrip("0").rstrip(".")


def width_of(words):
    """How wide a label is."""
    return sum(LETTERS.get(letter, LETTER) for letter in words)


def in_words(count):
    """A power of ten as it is read at an axis."""
    return f"{count:,}" if count < 10**6 else f"{count // 10**6:,} million"


def style(more=""):
    return (
        f"<style>text{{font-family:{FONT};fill:{INK}}}.title{{font-size:17px;font-weight:bold}}.key{{font-size:12px}}"
        f".panel{{font-size:13px;font-weight:bold}}.tick{{font-size:11px;fill:{FRAME}}}.middle{{text-anchor:middle}}"
        f".end{{text-anchor:end}}{more}</style>"
    )


def picture(height, parts, more_style=""):
    return "\n".join(
        [
            f'<svg xmlns="http://www.w3.org/2000/svg" width="{WIDTH}" height="{number_text(height)}" '
            f'viewBox="0 0 {WIDTH} {number_text(height)}">',
            style(more_style),
            f'<rect width="{WIDTH}" height="{number_text(height)}" fill="#ffffff"/>',
            *parts,
            "</svg>",
            "",
        ]
    )


def text(x, y, words, kind, more=""):
    return f'<text x="{number_text(x)}" y="{number_text(y)}" class="{kind}"{more}>{html.escape(words)}</text>'


def line(x, y, to_x, to_y, colour, width=1.0, more=""):
    points = " ".join(f'{name}="{number_text(at)}"' for name, at in (("x1", x), ("y1", y), ("x2", to_x), ("y2", to_y)))
    return f'<line {points} stroke="{colour}" stroke-width="{number_text(width)}"{more}/>'


def dot(x, y, colour):
    return f'<circle cx="{number_text(x)}" cy="{number_text(y)}" r="3.2" fill="{colour}"/>'


# growth by size


def counts_of(path):
    """What count.py printed: for each mode and case the counts by size. What is not above nothing has no place on the axis."""
    counts = {}
    for row in pathlib.Path(path).read_text(encoding="utf-8").splitlines():
        words = row.split()
        if len(words) == 4 and words[2] in MODES and int(words[3]) > 0:
            counts.setdefault(words[2], {}).setdefault(words[0], {})[int(words[1])] = int(words[3])
    return counts


class Scale:
    """Sizes and counts as places in a panel, both by their logarithms."""

    def __init__(self, sizes, counts):
        self.least_size, self.most_size = min(sizes) / 1.35, max(sizes) * 1.9
        self.least, self.most = min(counts) / 1.6, max(counts) * 1.6
        self.width = PANEL_WIDTH - AXIS["left"] - AXIS["right"]
        self.height = PANEL_HEIGHT - AXIS["top"] - AXIS["bottom"]

    def x(self, size):
        return AXIS["left"] + self.width * math.log(size / self.least_size) / math.log(self.most_size / self.least_size)

    def y(self, count):
        return AXIS["top"] + self.height * (1 - math.log(count / self.least) / math.log(self.most / self.least))

    def sizes(self):
        return [n * 10**k for k in range(9) for n in (1, 2, 5) if self.least_size <= n * 10**k <= self.most_size]

    def powers(self):
        return [10**k for k in range(15) if self.least <= 10**k <= self.most]


def grid(scale, title):
    """A panel's frame, its axes, and what they say."""
    left, right, top, bottom = AXIS["left"], AXIS["left"] + scale.width, AXIS["top"], AXIS["top"] + scale.height
    parts = [text(left, top - 11, title, "panel"), text(left - 8, top - 11, "instructions", "tick end")]
    shown = []
    for size in sorted(scale.sizes(), key=lambda size: str(size)[0] != "1"):  # powers of ten first, others where there is room
        x, width = scale.x(size), SMALL_LETTER * len(str(size))
        parts.append(line(x, top, x, bottom, GRID))
        if all(abs(x - other) > (width + space) / 2 + 7 for other, space in shown):
            shown.append((x, width))
            parts.append(text(x, bottom + 16, f"{size:,}", "tick middle"))
    for count in scale.powers():
        parts.append(line(left, scale.y(count), right, scale.y(count), GRID))
        parts.append(text(left - 6, scale.y(count) + 4, in_words(count), "tick end"))
    parts.append(
        f'<rect x="{left}" y="{top}" width="{number_text(scale.width)}" height="{number_text(scale.height)}" fill="none" '
        f'stroke="{FRAME}" stroke-width="1"/>'
    )
    parts.append(text(left + scale.width / 2, bottom + 34, "size", "tick middle"))
    return parts


def guides(scale):
    """Thin lines on which twice the size takes twice as much, as many as cross the panel."""
    parts = []
    lowest = math.floor(math.log10(scale.least / scale.most_size))
    highest = math.ceil(math.log10(scale.most / scale.least_size))
    for power in range(lowest, highest + 1):
        # where count = size * 10 ** power enters and leaves
        start = max(scale.least_size, scale.least / 10**power)
        end = min(scale.most_size, scale.most / 10**power)
        if start < end:
            from_x, from_y, to_x, to_y = scale.x(start), scale.y(start * 10**power), scale.x(end), scale.y(end * 10**power)
            parts.append(line(from_x, from_y, to_x, to_y, GUIDE, 0.8, GUIDE_DASHES))
    return parts


def points_of(scale, counts):
    return [(scale.x(size), scale.y(count)) for size, count in sorted(counts.items())]


def path(points):
    return "M" + "L".join(f"{number_text(x)} {number_text(y)}" for x, y in points)


def along(points, step=6.0):
    """Places along a line, a few pixels apart."""
    places = list(points)
    for (x, y), (to_x, to_y) in zip(points, points[1:]):
        count = int(math.hypot(to_x - x, to_y - y) / step)
        places += [(x + (to_x - x) * k / count, y + (to_y - y) * k / count) for k in range(1, count)]
    return places


def box_of(place, name):
    """The space that a label takes, from its left end: left, top, right, bottom."""
    x, y = place
    return x - 3, y - LABEL_HEIGHT + 1, x + width_of(name) + 3, y + 5


def leader(box, end):
    """Where a line from a label to the end of its line starts, and how far it goes."""
    x, y = min(max(end[0], box[0] + 3), box[2] - 3), min(max(end[1], box[1] + 2), box[3] - 3)
    return (x, y), math.hypot(x - end[0], y - end[1])


def is_in(box, place):
    return box[0] <= place[0] <= box[2] and box[1] <= place[1] <= box[3]


def overlap(one, other):
    """How much of a box another covers."""
    width = min(one[2], other[2]) - max(one[0], other[0])
    height = min(one[3], other[3]) - max(one[1], other[1])
    return max(0.0, width) * max(0.0, height)


class Labels:
    """Puts each case's name beside the end of its line, where it covers neither lines nor other names."""

    def __init__(self, scale, lines, earlier):
        self.scale = scale
        self.lines = lines
        self.dots = [(60, dot) for points in lines.values() for dot in along(points)]
        self.dots += [(2, dot) for points in earlier.values() for dot in along(points)]
        names = list(lines)
        orders = [names[turn:] + names[:turn] for turn in range(len(names))]
        self.places = min((self.placed(order) for order in orders), key=self.total)

    def placed(self, order):
        """Places the labels in turn, and again as long as one of them finds a better place."""
        self.places = {name: self.choices(name)[0] for name in order}
        for _ in range(6):
            before = dict(self.places)
            for name in order:
                self.places[name] = min(self.choices(name), key=lambda place: self.cost(name, place))
            if self.places == before:
                break
        return self.places

    def total(self, places):
        self.places = places
        return sum(self.cost(name, place) for name, place in places.items())

    def choices(self, name):
        """Places near the end of the line, the nearest first."""
        x, y = self.lines[name][-1]
        width = width_of(name)
        shifts = sorted(range(-45, 46, 3), key=abs)
        beside = [(x + 8, y + 4 + shift) for shift in shifts]
        above = [(left, y - 10 - shift) for shift in range(0, 30, 3) for left in (x - width / 2, x - width + 4)]
        below = [(left, y + 17 + shift) for shift in range(0, 30, 3) for left in (x - width / 2, x - width + 4)]
        before = [(x - width - 10, y - 3 + shift) for shift in shifts]
        return beside + above + below + before

    def cost(self, name, place):
        """What is wrong with a place: what it covers, and how far it is."""
        box, end = box_of(place, name), self.lines[name][-1]
        right, top, bottom = AXIS["left"] + self.scale.width, AXIS["top"], AXIS["top"] + self.scale.height
        outside = max(0, box[2] - right) + max(0, AXIS["left"] - box[0]) + max(0, top - box[1]) + max(0, box[3] - bottom)
        boxes = [box_of(self.places[other], other) for other in self.lines if other != name]
        others = sum(overlap(box, other) for other in boxes)
        crossed = sum(weight for weight, dot in self.dots if is_in(box, dot))
        start, far = leader(box, end)
        if far > LEADER:
            others += 5 * sum(1 for dot in along([start, end]) for other in boxes if is_in(other, dot))
        return 1000 * outside + 40 * others + crossed + far


def panel(mode, counts, before, scale, colours):
    """A mode's lines, each with its case's name."""
    parts = grid(scale, MODES[mode]) + guides(scale)
    earlier = {name: points_of(scale, row) for name, row in before.items() if name in counts}
    for name, points in earlier.items():
        parts.append(f'<path d="{path(points)}" fill="none" stroke="{colours[name]}" stroke-width="1.4"{BEFORE_DASHES}/>')
    lines = {name: points_of(scale, row) for name, row in counts.items()}
    for name, points in lines.items():
        parts.append(f'<path d="{path(points)}" fill="none" stroke="{colours[name]}" stroke-width="2.2"/>')
        for x, y in points:
            parts.append(dot(x, y, colours[name]))
    labels = Labels(scale, lines, earlier)
    for name, place in labels.places.items():
        start, far = leader(box_of(place, name), lines[name][-1])
        if far > LEADER:
            parts.append(line(*lines[name][-1], *start, colours[name], 0.8))
    for name, (x, y) in labels.places.items():
        parts.append(text(x, y, name, "case", f' style="fill:{colours[name]}"'))
    return "".join(parts)


def reading(has_before):
    """How the panels are read."""
    left = AXIS["left"]
    rows = [
        (line(left, 0, left + 34, 0, INK, 2.2) + dot(left + 17, 0, INK), "a case, in each size that was counted"),
        (line(left, 0, left + 34, 0, GUIDE, 0.8, GUIDE_DASHES), "twice for twice the size: what is as steep as these is linear"),
    ]
    if has_before:
        rows.append((line(left, 0, left + 34, 0, INK, 1.4, BEFORE_DASHES), "the same case in the earlier state"))
    words = [
        "To the right: how many records, members, levels, alternatives,",
        "texts or definitions the case has. Up: instructions, with the",
        "reading of the instance set aside. Both are logarithmic.",
    ]
    parts = [text(left, AXIS["top"] - 11, "How to read it", "panel")]
    y = AXIS["top"] + 14
    for mark, meaning in rows:
        parts.append(f'<g transform="translate(0 {y - 4})">{mark}</g>' + text(left + 44, y, meaning, "key"))
        y += 24
    y += 8
    for word in words:
        parts.append(text(left, y, word, "key"))
        y += 19
    return "".join(parts)


def growth(counts, before):
    if not counts:
        sys.exit("no count of instructions in what was given")
    every = [row for table in (counts, before) for cases in table.values() for row in cases.values()]
    scale = Scale([size for row in every for size in row], [count for row in every for count in row.values()])
    names = list(dict.fromkeys(name for cases in counts.values() for name in cases))
    colours = {name: COLOURS[number % len(COLOURS)] for number, name in enumerate(names)}
    panels = [panel(mode, counts[mode], before.get(mode, {}), scale, colours) for mode in MODES if mode in counts]
    panels.append(reading(bool(before)))
    head = 44
    parts = [text(MARGIN, 28, "What each case takes, by its size", "title")]
    for number, drawn in enumerate(panels):
        x, y = MARGIN + (number % 2) * (PANEL_WIDTH + MARGIN), head + (number // 2) * (PANEL_HEIGHT + 6)
        parts.append(f'<g transform="translate({number_text(x)} {number_text(y)})">{drawn}</g>')
    rows = len(panels) // 2
    height = head + rows * (PANEL_HEIGHT + 6) + (READING_HEIGHT if len(panels) % 2 else 0)
    halo = ".case{font-size:12px;font-weight:bold;paint-order:stroke;stroke:#ffffff;stroke-width:3px;stroke-linejoin:round}"
    return picture(height, parts, halo)


# times beside those of the peers


# this engine, asked as the peers are, and once with the building of the schema
OURS = {"ours": "this engine", "ours once": "this engine, once"}


def times_of(path):
    """What peers/run.py printed: names, versions and times, ours first, and what it says of the case and of ours."""
    rows, about = [], []
    for row in pathlib.Path(path).read_text(encoding="utf-8").splitlines():
        words = row.split("\t")
        if row.startswith(("# the case ", "# ours: ", "# ours once: ")):
            about.append(row[2].upper() + row[3:] + ".")
        elif not row.startswith("#") and len(words) == 5:
            rows.append((words[0], words[1], *map(float, words[2:])))
    return sorted(rows, key=lambda row: (row[0] not in OURS, row[2])), about


def times_ours(ratio):
    return f"{ratio:.0f} times ours" if ratio >= 10 else f"{ratio:.2f} times ours"


def rounded(most):
    """A step that divides an axis up to the number into some five parts."""
    step = 10 ** math.floor(math.log10(most / 4))
    return next(step * n for n in (1, 2, 5, 10) if most / (step * n) <= 6)


def milliseconds(value):
    return f"{value:.1f} ms" if value >= 10 else f"{value:.2f} ms"


def peers(rows, about):
    """A bar for each, with a mark from its lowest to its highest time. A bar that would make the others short is cut."""
    if not rows:
        sys.exit("no time in what was given")
    captions = [*about, "A bar is the median of the rounds; its thin mark goes from the lowest to the highest. Shorter is better."]
    near = [row for row in rows if row[2] <= CUT * min(row[2] for row in rows)]
    is_cut = len(near) < len(rows)
    most = max(row[4] for row in near) * (1.25 if is_cut else 1)
    if is_cut:
        captions[-1] += " A bar with a gap goes on."
    left = MARGIN + 10 + max([SMALL_LETTER * len(row[1]) for row in rows] + [width_of(OURS.get(row[0], row[0])) for row in rows])
    right, top = WIDTH - 190, 50 + 18 * len(captions)
    bottom = top + len(rows) * (BAR_HEIGHT + BAR_GAP) + BAR_GAP / 2
    step = rounded(most)

    def x(value):
        return left + (right - left) * value / most

    parts = [text(MARGIN, 28, "What it takes to validate an instance", "title")]
    parts += [text(MARGIN, 50 + 18 * number, caption, "key") for number, caption in enumerate(captions)]
    for number in range(int(most / step + 1e-9) + 1):
        parts.append(line(x(number * step), top, x(number * step), bottom, GRID))
        parts.append(text(x(number * step), bottom + 16, f"{number * step:g}", "tick middle"))
    for number, row in enumerate(rows):
        name, version, median, lowest, highest = row
        y = top + BAR_GAP + number * (BAR_HEIGHT + BAR_GAP)
        middle = y + BAR_HEIGHT / 2
        fill, edge = ("#1f5fa8", "#0b2a4f") if name in OURS else ("#b8c4d3", "#66768a")
        parts.append(text(left - 10, middle - 1, OURS.get(name, name), "name end"))
        parts.append(text(left - 10, middle + 13, version, "tick end"))
        end = x(median) if row in near else right
        parts.append(
            f'<rect x="{number_text(left)}" y="{number_text(y)}" width="{number_text(end - left)}" height="{BAR_HEIGHT}" '
            f'fill="{fill}"/>'
        )
        beside = milliseconds(median)
        if row in near:
            parts.append(line(x(lowest), middle, x(highest), middle, edge, 1.4))
            for value in (lowest, highest):
                parts.append(line(x(value), middle - 5, x(value), middle + 5, edge, 1.4))
            end = x(max(median, highest))
        else:
            gap = right - 34
            parts.append(
                f'<path d="M{number_text(gap)} {number_text(y + BAR_HEIGHT + 1)}l8 {-BAR_HEIGHT - 2}h7l-8 {BAR_HEIGHT + 2}z" '
                f'fill="#ffffff"/>'
            )
            beside += f" ({lowest:.0f} to {highest:.0f})"
        parts.append(text(end + 9, middle + (4 if name in OURS else -2), beside, "key"))
        if name not in OURS and rows[0][0] == "ours":
            parts.append(text(end + 9, middle + 12, times_ours(median / rows[0][2]), "tick"))
    parts.append(line(left, top, left, bottom, FRAME))
    parts.append(text((left + right) / 2, bottom + 34, "milliseconds of processor time", "tick middle"))
    return picture(bottom + 34 + MARGIN, parts, ".name{font-size:13px;font-weight:bold}")


def arguments():
    parser = argparse.ArgumentParser(description=__doc__, formatter_class=argparse.RawDescriptionHelpFormatter)
    parser.add_argument("counts", nargs="?", help="what tools/count.py printed")
    parser.add_argument("--before", help="what an earlier run of it printed")
    parser.add_argument("--peers", metavar="TIMES", help="what tools/peers/run.py printed")
    parser.add_argument("--into", metavar="FOLDER", default=ROOT / "docs", help="where the pictures go, in place of docs")
    return parser.parse_args()


def main():
    given = arguments()
    into = pathlib.Path(given.into)
    if given.counts:
        drawn = growth(counts_of(given.counts), counts_of(given.before) if given.before else {})
        (into / "growth.svg").write_text(drawn, encoding="utf-8")
    if given.peers:
        (into / "peers.svg").write_text(peers(*times_of(given.peers)), encoding="utf-8")


if __name__ == "__main__":
    main()
