#!/usr/bin/env python3
"""Draws a VCD text as waves, into a PNG file.

    tools/waves.py [--since TIME] [--until TIME] VCD PNG [SIGNAL ..]    the signals in that order, by their paths; all of them where none is named
    tools/waves.py --page                 makes docs/waves.png of the run of examples/uart_tx
    tools/waves.py --page --check         fails where that picture isn't what the script makes

One digit is a line that is high or low, a vector a band with its number in hexadecimal digits. x is red, z is amber, as most viewers have
them. It needs nothing but Python: the PNG is written with `zlib`, and the letters are those of a font of 5 by 7 points below.
"""
import argparse
import struct
import sys
import zlib
from pathlib import Path

ROOT = Path(__file__).resolve().parents[1]
sys.path.insert(0, str(ROOT / "tools"))

from models.run_model import model
from models.vcd_text import STEPS, Reader, vcd
from models.verilog_model import flat_of

WIDTH, NAMES, ROW, MARGIN, SCALE = 1200, 200, 34, 14, 2
SHOWN = (530, 1010)
BACK, GRID, TEXT, WAVE, UNKNOWN, FLOATING = (16, 20, 24), (48, 56, 64), (224, 228, 232), (96, 216, 120), (224, 80, 80), (224, 176, 64)

FONT = {letter: rows.split() for letter, rows in (line.split(" ", 1) for line in """\
0 0E 11 13 15 19 11 0E
1 04 0C 04 04 04 04 0E
2 0E 11 01 02 04 08 1F
3 1F 02 04 02 01 11 0E
4 02 06 0A 12 1F 02 02
5 1F 10 1E 01 01 11 0E
6 06 08 10 1E 11 11 0E
7 1F 01 02 04 08 08 08
8 0E 11 11 0E 11 11 0E
9 0E 11 11 0F 01 02 0C
a 00 00 0E 01 0F 11 0F
b 10 10 16 19 11 11 1E
c 00 00 0E 10 10 11 0E
d 01 01 0D 13 11 11 0F
e 00 00 0E 11 1F 10 0E
f 06 09 08 1C 08 08 08
g 00 0F 11 11 0F 01 0E
h 10 10 16 19 11 11 11
i 04 00 0C 04 04 04 0E
j 02 00 06 02 02 12 0C
k 10 10 12 14 18 14 12
l 0C 04 04 04 04 04 0E
m 00 00 1A 15 15 11 11
n 00 00 16 19 11 11 11
o 00 00 0E 11 11 11 0E
p 00 00 1E 11 1E 10 10
q 00 00 0D 13 0F 01 01
r 00 00 16 19 10 10 10
s 00 00 0E 10 0E 01 1E
t 08 08 1C 08 08 09 06
u 00 00 11 11 11 13 0D
v 00 00 11 11 11 0A 04
w 00 00 11 11 15 15 0A
x 00 00 11 0A 04 0A 11
y 00 00 11 11 0F 01 0E
z 00 00 1F 02 04 08 1F
_ 00 00 00 00 00 00 1F
. 00 00 00 00 00 0C 0C
- 00 00 00 1F 00 00 00""".splitlines())}


class Picture:
    def __init__(self, width, height):
        self.width, self.height = width, height
        self.points = bytearray(bytes(BACK) * (width * height))

    def point(self, x, y, color):
        if 0 <= x < self.width and 0 <= y < self.height:
            at = 3 * (y * self.width + x)
            self.points[at : at + 3] = bytes(color)

    def box(self, left, top, right, bottom, color):
        for y in range(top, bottom + 1):
            for x in range(left, right + 1):
                self.point(x, y, color)

    def text(self, x, y, text, color=TEXT):
        for place, letter in enumerate(text.lower()):
            for row, bits in enumerate(FONT.get(letter, ["00"] * 7)):
                for column in range(5):
                    if int(bits, 16) >> (4 - column) & 1:
                        left, top = x + (6 * place + column) * SCALE, y + row * SCALE
                        self.box(left, top, left + SCALE - 1, top + SCALE - 1, color)

    def png(self):
        rows = b"".join(b"\0" + self.points[3 * self.width * y : 3 * self.width * (y + 1)] for y in range(self.height))
        parts = [(b"IHDR", struct.pack(">IIBBBBB", self.width, self.height, 8, 2, 0, 0, 0)), (b"IDAT", zlib.compress(rows, 9)), (b"IEND", b"")]
        chunks = [struct.pack(">I", len(body)) + name + body + struct.pack(">I", zlib.crc32(name + body)) for name, body in parts]
        return b"\x89PNG\r\n\x1a\n" + b"".join(chunks)


def text_width(text):
    return 6 * len(text) * SCALE


def color_of(digits):
    return UNKNOWN if "x" in digits else FLOATING if "z" in digits else WAVE


def shown(digits):
    """The number of a vector in hexadecimal digits, or x or z where it has such a digit."""
    return next((letter for letter in "xz" if letter in digits), None) or f"{int(digits, 2):0{-(-len(digits) // 4)}x}"


def draw_digit(picture, spans, top):
    before = None
    for left, right, digits in spans:
        level = {"1": top + 4, "0": top + ROW - 12}.get(digits, top + ROW // 2 - 4)
        picture.box(left, level, right, level + 1, color_of(digits))
        if before is not None and before != level:
            picture.box(left, min(before, level), left + 1, max(before, level) + 1, color_of(digits))
        before = level


def draw_vector(picture, spans, top):
    for left, right, digits in spans:
        color = color_of(digits)
        picture.box(left + 2, top + 4, right, top + 5, color)
        picture.box(left + 2, top + ROW - 12, right, top + ROW - 11, color)
        picture.box(left, top + 4, left + 1, top + ROW - 11, color)
        if text_width(shown(digits)) < right - left - 4:
            picture.text(left + 6, top + 8, shown(digits))


def waves(text, names, since=0, until=None):
    """The picture of a VCD text between two times in steps, or to its end."""
    reader = Reader()
    for line in text.splitlines():
        assert reader.take(line), line
    starts = {signal.path: signal.start * signal.width for signal in reader.signals.values()}
    names = names or list(starts)
    end = until or max(1, max((change.time for change in reader.changes), default=0) * 51 // 50)
    picture = Picture(WIDTH, MARGIN * 2 + ROW * (len(names) + 1))
    step = next(words for words in STEPS if words == text.split("\n")[0].removeprefix("$timescale ").removesuffix(" $end"))
    picture.text(MARGIN, MARGIN, step + " steps")
    for part in range(6):
        x, number = NAMES + (WIDTH - NAMES - MARGIN) * part // 6, str(since + (end - since) * part // 6)
        picture.box(x, MARGIN + 20, x, picture.height - MARGIN, GRID)
        picture.text(x + 4, MARGIN, number)
    for row, name in enumerate(names, 1):
        top = MARGIN + ROW * row
        picture.text(MARGIN, top + 8, name)
        changes = [(0, starts[name]), *((change.time, change.digits) for change in reader.changes if change.path == name)]
        places = [NAMES + (WIDTH - NAMES - MARGIN) * (min(max(time, since), end) - since) // (end - since) for time, _ in changes] + [WIDTH - MARGIN]
        spans = [(left, right, digits) for left, right, (_, digits) in zip(places, places[1:], changes) if right > left]
        (draw_digit if len(starts[name]) == 1 else draw_vector)(picture, spans, top)
    return picture.png()


def points_of(png):
    """The points of a picture that this script wrote, however its bytes were packed."""
    at, packed = 8, b""
    while at < len(png):
        size, kind = struct.unpack(">I4s", png[at : at + 8])
        packed += png[at + 8 : at + 8 + size] if kind == b"IDAT" else b""
        at += size + 12
    return zlib.decompress(packed)


def page(check):
    folder = ROOT / "examples" / "uart_tx"
    design, tests = (folder / "d.v").read_text(), (folder / "t.py").read_text()
    made = waves(vcd(flat_of(design), model(design, tests, 10_000_000, 0, True).lines), [], *SHOWN)
    path = ROOT / "docs" / "waves.png"
    if check:
        same = path.exists() and points_of(path.read_bytes()) == points_of(made)
        print("docs/waves.png is" + ("" if same else " not") + " that of the script")
        return 0 if same else 1
    path.write_bytes(made)
    return 0


def main():
    if "--page" in sys.argv[1:]:
        return page("--check" in sys.argv[1:])
    words = argparse.ArgumentParser(description=__doc__.splitlines()[0])
    words.add_argument("--since", type=int, default=0)
    words.add_argument("--until", type=int)
    words.add_argument("files", nargs=2)
    words.add_argument("signals", nargs="*")
    given = words.parse_args()
    Path(given.files[1]).write_bytes(waves(Path(given.files[0]).read_text(), given.signals, given.since, given.until))
    return 0


if __name__ == "__main__":
    sys.exit(main())
