#!/usr/bin/env python3
"""Draws the crates as rooms, from bottom to top by what they stand on: python3 tools/draw_crates.py

Reads crates.txt and the first sentence of each crate's root file, and writes docs/crates.svg. A room has the tint of its group: the heading
above its line in crates.txt. Run it at the repository's root, or anywhere: it finds the root beside itself.
"""

import html
import math
import pathlib
import re

ROOT = pathlib.Path(__file__).resolve().parent.parent

MARGIN = 14
ROOM_WIDTH = 178
ROOM_HEIGHT = 86
LAYER_HEIGHT = 136
LEGEND_WIDTH = 1400  # of the tints' names, in a line
HEAD = 116  # room for the legend
LONG_NAME = 21  # letters of a name that still fits a room in full size
LETTERS = 28  # of a purpose, in a line
LINES = 4  # of a purpose, in a room
FONT = "DejaVu Sans, Verdana, Arial, sans-serif"

# a tint for each group, in the order of crates.txt
TINTS = (
    "#ece6f7",  # Theory
    "#e3e8ee",  # Base
    "#d6e9f8",  # Compile
    "#cfeeee",  # Run
    "#d5efdd",  # Solve
    "#bcd9f2",  # Engine
    "#fbe3ec",  # Authoring
    "#e6f2cf",  # Standard
    "#fff1b8",  # Front
    "#f6ead4",  # Bench and examples
    "#f1f1f1",  # Tests
)

# the ways that a schema and an instance take, each through these rooms; the first step may begin in several
WAYS = [
    (
        "the way of a schema",
        "#1f5fa8",
        "left",
        [
            ("schema_drafts", "schema_reports"),
            "schema_traits",
            "schema_node_table",
            "schema_keys",
            "schema_compiler",
            "schema_validator",
        ],
    ),
    (
        "the way of an instance",
        "#c2410c",
        "right",
        [
            "schema_engine",
            "schema_validator",
            "schema_compiled",
            "schema_node",
            "schema_run_steps",
            "schema_run_context",
            "unfinished_matches",
            "unfinished_search",
            "schema_reports",
            "schema_output",
        ],
    ),
]


def groups_of_crates():
    """The group of each crate: the heading above its line in crates.txt."""
    lines = (ROOT / "crates.txt").read_text().splitlines()
    groups, heading = {}, None
    for line in lines:
        if line.startswith("#"):
            heading = line.lstrip("# ")
        elif ":" in line:
            groups[line.split(":", 1)[0].strip()] = heading
    headings = list(dict.fromkeys(groups.values()))
    assert len(headings) <= len(TINTS), "a group of crates.txt has no tint"
    return groups, headings


GROUPS, HEADINGS = groups_of_crates()


def needs_of_crates():
    """What each crate of crates.txt stands on, libraries of the kit left out."""
    lines = (ROOT / "crates.txt").read_text().splitlines()
    pairs = [line.split(":", 1) for line in lines if ":" in line and not line.startswith("#")]
    named = {name.strip() for name, _ in pairs}
    return {name.strip(): [need for need in rest.split() if need in named] for name, rest in pairs}


def below(needs, name):
    """All crates that a crate stands on, at any depth."""
    found = set()
    waiting = list(needs[name])
    while waiting:
        need = waiting.pop()
        if need not in found:
            found.add(need)
            waiting.extend(needs[need])
    return found


def direct_needs(needs):
    """The needs that follow from no other need."""
    depths = {name: below(needs, name) for name in needs}
    return {
        name: sorted({need for need in row if not any(need in depths[other] for other in row)})
        for name, row in needs.items()
    }


def layers_of(direct):
    """For each crate the length of the longest way down from it."""
    layers = {}

    def layer(name):
        if name not in layers:
            layers[name] = 1 + max((layer(need) for need in direct[name]), default=-1)
        return layers[name]

    for name in direct:
        layer(name)
    return layers


def tint_of(heading):
    return TINTS[HEADINGS.index(heading)]


def purpose_of(name):
    """The first sentence of the crate's root file, without the words that a program is called by."""
    for file in ("lib.rt", "main.rt"):
        path = ROOT / "crates" / name / "src" / file
        if path.exists():
            break
    else:
        return ""
    words = []
    for line in path.read_text().splitlines():
        if not line.startswith("//!") or line.strip() == "//!":
            break
        words.append(line[3:].strip())
    text = re.sub(r"^`[^`]*`: ", "", " ".join(words))
    text = re.split(r"(?<=[a-z])\. ", text)[0].rstrip(".")
    text = (text[:1].upper() + text[1:]).replace("`", "")
    return text if len(in_lines(text)) <= LINES else re.split(r"[:;] ", text)[0]


def in_lines(text):
    """The text in lines that are no longer than a room is wide."""
    lines = [""]
    for word in text.split():
        longer = (lines[-1] + " " + word).strip()
        if len(longer) <= LETTERS:
            lines[-1] = longer
        else:
            lines.append(word)
    return [line for line in lines if line]


def wrapped(text):
    """The lines that a room has place for, with three points where the text is cut."""
    lines = in_lines(text)
    if len(lines) > LINES:
        lines = lines[:LINES]
        while len(lines[-1]) > LETTERS - 2:
            lines[-1] = lines[-1].rsplit(" ", 1)[0]
        lines[-1] = lines[-1].rstrip(",") + " …"
    return lines


class Picture:
    """Rooms and the places between rooms where a line passes a layer, with what leads from where to where."""

    def __init__(self, direct, layers):
        self.layers = layers
        self.rows = [[] for _ in range(1 + max(layers.values()))]
        self.widths = {}
        self.links = []  # pairs of neighbours, the lower first
        for name in sorted(direct, key=lambda n: (HEADINGS.index(GROUPS[n]), n)):
            self.rows[layers[name]].append(name)
            self.widths[name] = ROOM_WIDTH
        for name in direct:
            for need in direct[name]:
                self.link(need, name)
        self.links = sorted(set(self.links), key=str)
        self.arrange()
        self.place()

    def link(self, low, high):
        """A line from a room to one above it; all lines of one room share their places on the way."""
        last = low
        for layer in range(self.layers[low] + 1, self.layers[high]):
            passing = (low, layer)
            if passing not in self.widths:
                self.widths[passing] = 4
                self.rows[layer].append(passing)
            self.links.append((last, passing))
            last = passing
        self.links.append((last, high))

    def neighbours(self, node):
        return [a for a, b in self.links if b == node] + [b for a, b in self.links if a == node]

    def crossings(self):
        """How many pairs of links cross."""
        spot = {node: (number, layer) for layer, row in enumerate(self.rows) for number, node in enumerate(row)}
        count = 0
        for number, (a, b) in enumerate(self.links):
            for c, d in self.links[number + 1 :]:
                if spot[a][1] == spot[c][1] and (spot[a][0] - spot[c][0]) * (spot[b][0] - spot[d][0]) < 0:
                    count += 1
        return count

    def arrange(self):
        """Orders each row by the middle of its neighbours, up and down, and keeps the order with the fewest crossings."""
        best = (self.crossings(), [list(row) for row in self.rows])
        for turn in range(40):
            rows = self.rows if turn % 2 == 0 else self.rows[::-1]
            for row in rows:
                spot = {n: i / max(1, len(r) - 1) for r in self.rows for i, n in enumerate(r)}

                def middle(node):
                    near = [
                        other
                        for other in self.neighbours(node)
                        if (self.layer(other) < self.layer(node)) == (turn % 2 == 0)
                    ]
                    return sum(spot[n] for n in near) / len(near) if near else spot[node]

                row.sort(key=middle)
            count = self.crossings()
            if count < best[0]:
                best = (count, [list(row) for row in self.rows])
        self.rows = best[1]
        self.swap()

    def swap(self):
        """Swaps neighbours of a row as long as fewer links cross."""
        count = self.crossings()
        better = True
        while better:
            better = False
            for row in self.rows:
                for i in range(len(row) - 1):
                    row[i], row[i + 1] = row[i + 1], row[i]
                    now = self.crossings()
                    if now < count:
                        count, better = now, True
                    else:
                        row[i], row[i + 1] = row[i + 1], row[i]

    def layer(self, node):
        return node[1] if isinstance(node, tuple) else self.layers[node]

    def place(self):
        """The middle of each node: near its neighbours' middle, apart from the nodes beside it."""
        self.x = {}
        self.width = max(self.needed(row) for row in self.rows)
        for row in self.rows:
            for number, node in enumerate(row):
                self.x[node] = self.width * (number + 0.5) / len(row)
        for turn in range(300):
            for row in self.rows if turn % 2 == 0 else self.rows[::-1]:
                wanted = []
                for node in row:
                    near = [self.x[n] for n in self.neighbours(node)]
                    wanted.append(sum(near) / len(near) if near else self.x[node])
                self.spread(row, wanted)

    def gap(self, left, right):
        """How far apart the middles of two nodes of a row are at least."""
        between = 16 if isinstance(left, str) and isinstance(right, str) else 8
        return (self.widths[left] + self.widths[right]) / 2 + between

    def needed(self, row):
        """How wide the picture has to be for a row."""
        gaps = sum(self.gap(left, right) for left, right in zip(row, row[1:]))
        return math.ceil(2 * MARGIN + (self.widths[row[0]] + self.widths[row[-1]]) / 2 + gaps)

    def spread(self, row, wanted):
        """Puts a row's nodes as near to what they want as their widths and the margins let them."""
        ahead = []
        for number, node in enumerate(row):
            least = MARGIN + self.widths[node] / 2 if number == 0 else ahead[-1] + self.gap(row[number - 1], node)
            ahead.append(max(wanted[number], least))
        back = [0.0] * len(row)
        for number in range(len(row) - 1, -1, -1):
            node = row[number]
            most = (
                self.width - MARGIN - self.widths[node] / 2
                if number == len(row) - 1
                else back[number + 1] - self.gap(node, row[number + 1])
            )
            back[number] = min(wanted[number], most)
        middle = [(one + other) / 2 for one, other in zip(ahead, back)]
        for number, node in enumerate(row):
            least = MARGIN + self.widths[node] / 2 if number == 0 else self.x[row[number - 1]] + self.gap(row[number - 1], node)
            self.x[node] = max(middle[number], least)
        for number in range(len(row) - 1, -1, -1):
            node = row[number]
            most = (
                self.width - MARGIN - self.widths[node] / 2
                if number == len(row) - 1
                else self.x[row[number + 1]] - self.gap(node, row[number + 1])
            )
            self.x[node] = min(self.x[node], most)

    def top(self, node):
        return HEAD + (len(self.rows) - 1 - self.layer(node)) * LAYER_HEIGHT

    def bottom(self, node):
        return self.top(node) + ROOM_HEIGHT


def number_text(value):
    return f"{value:.1f}".rstrip("0").rstrip(".")


def curve(x, y, to_x, to_y):
    """A curve that leaves and arrives upright."""
    half = (to_y - y) / 2
    points = [x, y, x, y + half, to_x, to_y - half, to_x, to_y]
    texts = [number_text(point) for point in points]
    return f"M{texts[0]} {texts[1]}C{' '.join(texts[2:])}"


def edges(picture):
    """A thin line for each direct need; a line that passes a layer goes straight through it."""
    parts = []
    for low, high in picture.links:
        parts.append(curve(picture.x[low], picture.top(low), picture.x[high], picture.bottom(high)))
    for node in picture.widths:
        if isinstance(node, tuple):
            x = number_text(picture.x[node])
            parts.append(f"M{x} {number_text(picture.bottom(node))}V{number_text(picture.top(node))}")
    return f'<path d="{"".join(parts)}" fill="none" stroke="#8a8f98" stroke-width="1.1"/>'


def station(picture, name, side, number):
    """Where a way touches a room: on its upper edge, near a corner."""
    shift = ROOM_WIDTH / 2 - 14
    x = picture.x[name] + (-shift if side == "left" else shift)
    return x, picture.top(name)


def ways(picture):
    """The lines of the ways, which go behind the rooms, and the numbered stations, which stand before them."""
    lines, stations = [], []
    for _, colour, side, steps in WAYS:
        groups = [step if isinstance(step, tuple) else (step,) for step in steps]
        groups = [[name for name in group if name in picture.layers] for group in groups]
        for number, group in enumerate(groups, 1):
            for name in group:
                x, y = station(picture, name, side, number)
                stations.append(
                    f'<circle cx="{number_text(x)}" cy="{number_text(y)}" r="9" fill="{colour}"/>'
                    f'<text x="{number_text(x)}" y="{number_text(y + 4)}" class="station">{number}</text>'
                )
        for group, following in zip(groups, groups[1:]):
            for name in group:
                for other in following:
                    x, y = station(picture, name, side, 0)
                    to_x, to_y = station(picture, other, side, 0)
                    lines.append(
                        f'<path d="{curve(x, y, to_x, to_y)}" fill="none" stroke="{colour}" stroke-width="3.2" '
                        f'stroke-opacity="0.75"/>'
                    )
    return lines, stations


def name_class(name):
    return "name" if len(name) <= LONG_NAME else "name long"


def room(picture, name):
    """A room: its name and its purpose."""
    x, y = picture.x[name] - ROOM_WIDTH / 2, picture.top(name)
    parts = [
        f'<rect x="{number_text(x)}" y="{number_text(y)}" width="{ROOM_WIDTH}" height="{ROOM_HEIGHT}" rx="4" '
        f'fill="{tint_of(GROUPS[name])}" stroke="#4b5563" stroke-width="1"/>',
        f'<text x="{number_text(picture.x[name])}" y="{number_text(y + 21)}" class="{name_class(name)}">{html.escape(name)}</text>',
    ]
    for number, line in enumerate(wrapped(purpose_of(name))):
        parts.append(
            f'<text x="{number_text(picture.x[name])}" y="{number_text(y + 37 + 13 * number)}" class="purpose">'
            f"{html.escape(line)}</text>"
        )
    return "".join(parts)


def legend():
    """What the tints and the coloured lines are."""
    parts = [f'<text x="{MARGIN}" y="26" class="title">The crates, each above those that it stands on</text>']
    x, y = MARGIN, 42
    for heading in HEADINGS:
        step = 60 + 7 * len(heading)
        if x + step > LEGEND_WIDTH:
            x, y = MARGIN, y + 22
        parts.append(
            f'<rect x="{x}" y="{y}" width="18" height="14" fill="{tint_of(heading)}" stroke="#4b5563" stroke-width="1"/>'
            f'<text x="{x + 25}" y="{y + 12}" class="key">{html.escape(heading)}</text>'
        )
        x += step
    x = MARGIN
    for text, colour, _, _ in WAYS:
        parts.append(
            f'<path d="M{x} 94h30" stroke="{colour}" stroke-width="3.2" stroke-opacity="0.75"/>'
            f'<text x="{x + 38}" y="98" class="key">{text}, by its numbers</text>'
        )
        x += 70 + 7 * len(text + ", by its numbers")
    return "".join(parts)


def drawn():
    direct = direct_needs(needs_of_crates())
    picture = Picture(direct, layers_of(direct))
    height = HEAD + len(picture.rows) * LAYER_HEIGHT - (LAYER_HEIGHT - ROOM_HEIGHT) + MARGIN
    lines, stations = ways(picture)
    style = (
        f"text{{font-family:{FONT};fill:#111827}}.name{{font-size:13px;font-weight:bold;text-anchor:middle}}"
        ".long{font-size:10.5px}.purpose{font-size:10.5px;text-anchor:middle}.title{font-size:17px;font-weight:bold}.key{font-size:12px}"
        ".station{font-size:11px;font-weight:bold;text-anchor:middle;fill:#ffffff}"
    )
    parts = [
        f'<svg xmlns="http://www.w3.org/2000/svg" width="{picture.width}" height="{height}" viewBox="0 0 {picture.width} {height}">',
        f"<style>{style}</style>",
        f'<rect width="{picture.width}" height="{height}" fill="#ffffff"/>',
        legend(),
        edges(picture),
        *lines,
        *[room(picture, name) for name in direct],
        *stations,
        "</svg>",
    ]
    return "\n".join(parts) + "\n"


if __name__ == "__main__":
    (ROOT / "docs" / "crates.svg").write_text(drawn())
