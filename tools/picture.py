#!/usr/bin/env python3
"""Draws a glyph of bench/data with the disk that the listing program finds for its points, as SVG on standard output:

    tools/picture.py ampersand crates/listing/out/listing > docs/ampersand.svg

The words behind the glyph's name are the listing program; it is given the description of the glyph's points. Everything about the disk
comes from what it prints. A lens shows a support point on the boundary, and the cut: the circle of the whole radius, at most a unit
farther out, which keeps off every point.
"""
import math
import pathlib
import subprocess
import sys

OUTLINES = pathlib.Path(__file__).resolve().parent.parent / "bench" / "data" / "dejavu-serif.outlines"
LENS = 2  # units across
COLUMN = 500  # the room beside the disk, in units
STEPS = 4  # points on each piece of the outline


def pieces_of(glyph):
    """The pieces of a glyph: start, control point and end of each, as six numbers."""
    pieces, name = [], None
    for line in OUTLINES.read_text().splitlines():
        word, *rest = line.split()
        if word == "glyph":
            name = rest[0]
        elif word == "curve" and name == glyph:
            pieces.append([float(number) for number in rest])
    if not pieces:
        sys.exit(f"no glyph {glyph} in {OUTLINES}")
    return pieces


def points_along(pieces):
    """Points of the pieces in outline order, rounded to the lattice, each once."""
    def at(piece, t):
        ax, ay, bx, by, cx, cy = piece
        u = 1 - t
        return round(u * u * ax + 2 * u * t * bx + t * t * cx), round(u * u * ay + 2 * u * t * by + t * t * cy)

    return list(dict.fromkeys(at(piece, k / STEPS) for piece in pieces for k in range(STEPS)))


def listed(command, points):
    """What the listing program prints for the points: the numbers of each line by its first word."""
    text = "".join(f"{x} {y}\n" for x, y in points)
    output = subprocess.run(command, input=text.encode(), stdout=subprocess.PIPE, check=True).stdout.decode()
    return {line.split()[0]: [int(word) for word in line.split()[1:]] for line in output.splitlines()}


def outline(pieces):
    path, here = [], None
    for ax, ay, bx, by, cx, cy in pieces:
        if (ax, ay) != here:
            path.append(f"M {ax:g} {-ay:g}")
        path.append(f"Q {bx:g} {-by:g} {cx:g} {-cy:g}")
        here = (cx, cy)
    return f'<path d="{" ".join(path)}" fill="#e4e4e8" fill-rule="nonzero"/>'


def ring(x, y, radius, style):
    return f'<circle cx="{x:.9g}" cy="{-y:.9g}" r="{radius:.9g}" fill="none" {style}/>'


def dots(points, size, color):
    return "".join(f'<circle cx="{x}" cy="{-y}" r="{size:g}" fill="{color}"/>' for x, y in points)


def scene(pieces, points, answer, size):
    """Everything but the labels; `size` is the radius of a dot in units."""
    x, y, e, s = answer["disk"]
    rim = answer["rim"]
    support = list(zip(rim[::2], rim[1::2]))
    boundary = [p for p in points if (p[0] * e - x) ** 2 + (p[1] * e - y) ** 2 == s]
    return "\n".join([
        outline(pieces),
        ring(x / e, y / e, answer["whole"][0], f'stroke="#c0392b" stroke-width="{size / 3:g}" stroke-dasharray="{2 * size:g} {size:g}"'),
        ring(x / e, y / e, math.sqrt(s) / e, f'stroke="#1f4e9c" stroke-width="{size / 2:g}"'),
        dots(points, size, "#666"),
        dots(boundary, 1.6 * size, "#1f4e9c"),
        dots(support, 2.2 * size, "#d35400"),
        dots([(x / e, y / e)], size, "#1f4e9c"),
    ])


def label(x, y, words):
    return f'<text x="{x:g}" y="{y:g}" font-size="26" font-family="sans-serif" fill="#222" xml:space="preserve">{words}</text>'


def picture(glyph, pieces, points, answer):
    x, y, e, s = answer["disk"]
    cx, cy, radius = x / e, y / e, math.sqrt(s) / e
    rim = answer["rim"]
    left, top, side = cx - radius - 30, -cy - radius - 30, 2 * radius + 60
    px, py = rim[-2], -rim[-1]
    lines = [
        f"{len(points)} points",
        f"centre ({x}/{e},",
        f"    {y}/{e})",
        f"squared radius",
        f"    {s}/{e}²",
        "support set",
        "    " + " ".join(f"({a}, {b})" for a, b in zip(rim[::2], rim[1::2])),
        f"whole radius {answer['whole'][0]}: the cut,",
        "    off every point",
        f"{answer['tests'][0]} tests",
    ]
    caption = [f"{LENS} units about ({rim[-2]}, {rim[-1]}),", "    dashed: the cut"]
    across = left + side + 20
    lens = f"{px - LENS / 2:g} {py - LENS / 2:g} {LENS} {LENS}"
    return "\n".join([
        f'<svg xmlns="http://www.w3.org/2000/svg" viewBox="{left:.6g} {top:.6g} {side + COLUMN:.6g} {side:.6g}" width="960">',
        f"<title>The smallest disk of the glyph {glyph}</title>",
        f'<rect x="{left:.6g}" y="{top:.6g}" width="{side + COLUMN:.6g}" height="{side:.6g}" fill="white"/>',
        scene(pieces, points, answer, 4),
        *[label(across, top + 50 + 36 * i, line) for i, line in enumerate(lines)],
        f'<svg x="{across:.6g}" y="{top + side - 396:.6g}" width="300" height="300" viewBox="{lens}">',
        f'<rect x="{px - LENS / 2:g}" y="{py - LENS / 2:g}" width="{LENS}" height="{LENS}" fill="white"/>',
        scene(pieces, points, answer, LENS / 60),
        f'<rect x="{px - LENS / 2:g}" y="{py - LENS / 2:g}" width="{LENS}" height="{LENS}" fill="none" stroke="#888" stroke-width="{LENS / 60:g}"/>',
        "</svg>",
        *[label(across, top + side - 56 + 36 * i, line) for i, line in enumerate(caption)],
        "</svg>",
    ])


def main():
    glyph, command = sys.argv[1], sys.argv[2:]
    pieces = pieces_of(glyph)
    points = points_along(pieces)
    answer = listed(command, points)
    print(picture(glyph, pieces, points, answer))


main()
