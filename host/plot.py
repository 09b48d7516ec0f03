#!/usr/bin/env python3
"""Draws the benchmark's numbers: plot.py NUMBERS.csv PICTURE.png

The standard library alone: a canvas of pixels, written as a PNG. All axes are
logarithmic, as the plain implementation is a hundred times slower than others.
"""
import csv
import math
import struct
import sys
import zlib

# Five columns of eight bits for each character from space to z, lowest bit on top.
FONT = bytes.fromhex(
    "0000000000" "00005f0000" "0007000700" "147f147f14" "242a7f2a12" "2313086462" "3649562050"
    "0008070300" "001c224100" "0041221c00" "2a1c7f1c2a" "08083e0808" "0080703000" "0808080808"
    "0000606000" "2010080402" "3e5149453e" "00427f4000" "7249494946" "2141494d33" "1814127f10"
    "2745454539" "3c4a494931" "4121110907" "3649494936" "464949291e" "0000140000" "0040340000"
    "0008142241" "1414141414" "0041221408" "0201590906" "3e415d594e" "7c1211127c" "7f49494936"
    "3e41414122" "7f4141413e" "7f49494941" "7f09090901" "3e41415173" "7f0808087f" "00417f4100"
    "2040413f01" "7f08142241" "7f40404040" "7f021c027f" "7f0408107f" "3e4141413e" "7f09090906"
    "3e4151215e" "7f09192946" "2649494932" "03017f0103" "3f4040403f" "1f2040201f" "3f4038403f"
    "6314081463" "0304780403" "6159494d43" "007f414100" "0204081020" "0041417f00" "0402010204"
    "4040404040" "0003070800" "2054547840" "7f28444438" "3844444428" "384444287f" "3854545418"
    "00087e0902" "18a4a49c78" "7f08040478" "00447d4000" "2040403d00" "7f10284400" "00417f4000"
    "7c04780478" "7c08040478" "3844444438" "fc18242418" "18242418fc" "7c08040408" "4854545424"
    "04043f4424" "3c4040207c" "1c2040201c" "3c4030403c" "4428102844" "4c9090907c" "4464544c44"
)

WHITE, INK, GRID = (255, 255, 255), (40, 40, 40), (222, 222, 222)
COLOURS = {"plain": (150, 150, 150), "lean": (214, 124, 36), "library": (36, 104, 176)}
OTHER = (96, 150, 80)


class Canvas:
    def __init__(self, width, height):
        self.width, self.height = width, height
        self.pixels = bytearray(bytes(WHITE) * (width * height))

    def box(self, left, top, width, height, colour):
        left, top, width, height = round(left), round(top), round(width), round(height)
        for row in range(max(top, 0), min(top + height, self.height)):
            start = 3 * (row * self.width + left)
            self.pixels[start:start + 3 * width] = bytes(colour) * width

    def line(self, one, two, colour, thick=3):
        (x, y), (u, v) = one, two
        steps = max(1, round(max(abs(u - x), abs(v - y))))
        for step in range(steps + 1):
            at = (x + (u - x) * step / steps, y + (v - y) * step / steps)
            self.box(at[0] - thick / 2, at[1] - thick / 2, thick, thick, colour)

    def text(self, x, y, words, colour=INK, size=2, middle=False, right=False):
        width = 6 * size * len(words) - size
        x -= width / 2 if middle else width if right else 0
        for place, character in enumerate(words):
            self.character(x + 6 * size * place, y, character, colour, size)

    def character(self, x, y, character, colour, size):
        at = 5 * (ord(character) - 32)
        for column, bits in enumerate(FONT[at:at + 5]):
            for row in range(8):
                if bits >> row & 1:
                    self.box(x + size * column, y + size * row, size, size, colour)

    def png(self):
        row = 3 * self.width
        lines = (b"\0" + self.pixels[row * at:row * (at + 1)] for at in range(self.height))
        head = struct.pack(">IIBBBBB", self.width, self.height, 8, 2, 0, 0, 0)
        body = zlib.compress(b"".join(lines), 9)
        parts = ((b"IHDR", head), (b"IDAT", body), (b"IEND", b""))
        return b"\x89PNG\r\n\x1a\n" + b"".join(chunk(name, data) for name, data in parts)


def chunk(name, data):
    return struct.pack(">I", len(data)) + name + data + struct.pack(">I", zlib.crc32(name + data))


def short(value):
    for limit, name in ((1e6, "M"), (1e3, "k")):
        if value >= limit:
            return f"{value / limit:.0f}{name}" if value >= 10 * limit else f"{value / limit:.2g}{name}"
    return f"{value:.0f}" if value >= 10 else f"{value:.2g}"


class Panel:
    """A place on the canvas with a title and an upright logarithmic axis."""

    def __init__(self, canvas, left, top, title, values):
        self.canvas, self.left, self.top = canvas, left + 80, top + 50
        self.width, self.height = 640, 300
        self.low = math.floor(math.log10(min(values)))
        self.high = max(math.ceil(math.log10(max(values))), self.low + 1)
        canvas.text(left + 80, top + 8, title, size=2)
        for power in range(self.low, self.high + 1):
            y = self.y(10.0 ** power)
            canvas.box(self.left, y, self.width, 1, GRID)
            canvas.text(self.left - 10, y - 7, short(10.0 ** power), right=True)

    def y(self, value):
        share = (math.log10(value) - self.low) / (self.high - self.low)
        return self.top + self.height * (1 - share)

    def label(self, x, words):
        self.canvas.text(x, self.top + self.height + 12, words, middle=True)

    def bars(self, groups):
        """groups: a name and its (implementation, value) pairs, for each."""
        room = self.width / len(groups)
        values = []
        for at, (name, pairs) in enumerate(groups):
            wide = room * 0.92 / len(pairs)
            for place, (implementation, value) in enumerate(pairs):
                x, y = self.left + room * (at + 0.04) + wide * place, self.y(value)
                bottom = self.top + self.height
                self.canvas.box(x + 1, y, wide - 2, bottom - y, colour(implementation))
                values.append((x + wide / 2, y - 18, short(value)))
            self.label(self.left + room * (at + 0.5), name)
        # Over all bars, so that no neighbour hides a number.
        for x, y, words in values:
            self.canvas.text(x, y, words, middle=True)

    def lines(self, names, series):
        """series: an implementation and one value for each name, for each."""
        room = self.width / len(names)
        places = [self.left + room * (at + 0.5) for at in range(len(names))]
        for implementation, values in series:
            points = [(x, self.y(value)) for x, value in zip(places, values)]
            for one, two in zip(points, points[1:]):
                self.canvas.line(one, two, colour(implementation))
            for (x, y), value in zip(points, values):
                self.canvas.box(x - 5, y - 5, 10, 10, colour(implementation))
            for at in (0, -1):
                (x, y), value = points[at], values[at]
                others = [self.y(other[at]) for name, other in series if name != implementation]
                crowded = any(y - 40 < other <= y for other in others)
                self.canvas.text(x, y + 12 if crowded else y - 26, short(value), middle=True)
        for x, name in zip(places, names):
            self.label(x, name)


def colour(implementation):
    return COLOURS.get(implementation, OTHER)


def read(path):
    """section -> what it is of -> implementation -> value"""
    numbers = {}
    with open(path, newline="") as file:
        for row in csv.DictReader(file):
            section = numbers.setdefault((row["section"], row["unit"]), {})
            section.setdefault(row["of"], {})[row["implementation"]] = float(row["value"])
    return numbers


def draw(numbers):
    canvas = Canvas(1560, 900)
    calls = numbers["stream", "per second"]["calls"]
    kinds = numbers["kind", "ns"]
    jobs = numbers["jobs", "ns"]
    history = numbers["history", "ns"]
    names = list(calls)

    def flat(section):
        return [value for row in section.values() for value in row.values()]

    def series(section):
        return [(name, [row[name] for row in section.values()]) for name in names]

    x = 80
    for name in names:
        canvas.box(x, 14, 20, 20, colour(name))
        canvas.text(x + 30, 17, name)
        x += 60 + 12 * len(name) + 40
    panel = Panel(canvas, 0, 50, "Calls per second, mixed records", flat({"": calls}))
    panel.bars([("", [(name, calls[name]) for name in names])])
    panel = Panel(canvas, 780, 50, "Each kind of call, ns", flat(kinds))
    panel.bars([(kind, [(name, row[name]) for name in names]) for kind, row in kinds.items()])
    panel = Panel(canvas, 0, 470, "A call with so many jobs open, ns", flat(jobs))
    panel.lines(list(jobs), series(jobs))
    panel = Panel(canvas, 780, 470, "A call after so many records, ns", flat(history))
    panel.lines([short(float(after)) for after in history], series(history))
    return canvas


def main():
    if len(sys.argv) != 3:
        sys.exit(__doc__.splitlines()[0])
    picture = draw(read(sys.argv[1])).png()
    with open(sys.argv[2], "wb") as file:
        file.write(picture)


if __name__ == "__main__":
    main()
