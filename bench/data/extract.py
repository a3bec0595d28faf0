#!/usr/bin/env python3
"""Writes the outlines of a TrueType font's printable ASCII glyphs as quadratic pieces, scaled into the em box.

    python3 bench/data/extract.py /usr/share/fonts/truetype/dejavu/DejaVuSerif.ttf > bench/data/dejavu-serif.outlines

Wants python3-fonttools and fonts-dejavu-core. Glyphs that leave the em box are left out. The file that is in the repository was
written from Debian's fonts-dejavu-core 2.37-6; data/LICENSE-DejaVu is the font's licence.
"""
import sys

from fontTools.pens.recordingPen import DecomposingRecordingPen
from fontTools.ttLib import TTFont

# Font units to em box units, so that the tallest letters end below y = 750.
SCALE = 0.475


def pieces_of(glyph_set, name):
    """The quadratic pieces of a glyph in outline order, as six numbers each; a line has its middle for the control point."""
    pen = DecomposingRecordingPen(glyph_set)
    glyph_set[name].draw(pen)
    pieces, start, here = [], None, None

    def line_to(to):
        if to != here:
            pieces.append((here, ((here[0] + to[0]) / 2, (here[1] + to[1]) / 2), to))

    for operation, points in pen.value:
        if operation == "moveTo":
            start = here = points[0]
        elif operation == "lineTo":
            line_to(points[0])
            here = points[0]
        elif operation == "qCurveTo":
            *controls, end = points
            for i, control in enumerate(controls):
                last = i + 1 == len(controls)
                to = end if last else tuple((a + b) / 2 for a, b in zip(control, controls[i + 1]))
                pieces.append((here, control, to))
                here = to
        elif operation == "closePath":
            line_to(start)
    return pieces


def scaled(pieces):
    """The pieces in whole units of the em box, moved right where they begin left of it."""
    numbers = [[(round(x * SCALE), round(y * SCALE)) for x, y in piece] for piece in pieces]
    left = min(0, min(x for piece in numbers for x, _ in piece))
    return [[(x - left, y) for x, y in piece] for piece in numbers]


def main():
    font = TTFont(sys.argv[1])
    glyph_set, names = font.getGlyphSet(), font.getBestCmap()
    print(f"# Outlines of {font['name'].getDebugName(4)}, {font['name'].getDebugName(5)}, printable ASCII; written by bench/data/extract.py.")
    print("# A piece is a quadratic curve: start, control point, end. Licence: LICENSE-DejaVu.")
    for code in range(33, 127):
        pieces = scaled(pieces_of(glyph_set, names[code]))
        if all(0 <= x <= 1000 and -250 <= y <= 750 for piece in pieces for x, y in piece):
            print("glyph", names[code])
            for piece in pieces:
                print("curve", *(value for point in piece for value in point))


main()
