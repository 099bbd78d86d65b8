#!/usr/bin/env bash
# Compiles a source, and compares what the font draws at each master, and at each intermediate layer, with what the source has there:
# the points of paths, the moves of components and the advances, half a unit apart at most. glyphsLib reads the source and fontTools the
# font; where python3 or one of these isn't installed a line says so, nothing is compared, and the status is 0.
# usage: bench/masters.sh [SOURCE]
set -euo pipefail
top="$(cd "$(dirname "$0")/.." && pwd)"
source="${1:-$top/examples/family.glyphs}"

if ! python3 -c 'import fontTools.ttLib, glyphsLib' 2>/dev/null; then
  echo "nothing compared: python3 with fontTools and glyphsLib isn't installed"
  exit 0
fi

room="$(mktemp -d)"
trap 'rm -rf "$room"' EXIT
"$top/fontc" build "$source" "$room/family.ttf"

python3 - "$room/family.ttf" "$source" <<'PROGRAM'
import logging
import sys

import glyphsLib
from fontTools.ttLib import TTFont

logging.disable(logging.WARNING)
font, source = TTFont(sys.argv[1]), glyphsLib.GSFont(sys.argv[2])


class Drawn:
    """What a glyph draws: a list of points for each contour, and a move for each component."""

    def __init__(self):
        self.contours, self.moves = [], []

    def beginPath(self, *_, **__):
        self.contours.append([])

    def endPath(self):
        pass

    def addPoint(self, point, segmentType=None, **_):
        self.contours[-1].append((*point, segmentType is not None))

    def addComponent(self, name, transform, **_):
        self.moves.append((name, *transform[4:]))


def of_source(layer):
    """The same of a layer of the source. A contour begins with the last node of its path."""
    drawn = Drawn()
    for path in layer.paths:
        points = [(node.position.x, node.position.y, node.type != "offcurve") for node in path.nodes]
        drawn.contours.append(points[-1:] + points[:-1])
    drawn.moves = [(component.name, *component.position) for component in layer.components]
    return drawn


def place_of(layer):
    """Where a layer lies, in user coordinates, and nothing for a layer that isn't drawn."""
    for master in source.masters:
        if master.id == layer.layerId:
            return master.axes
    return layer.attributes.get("coordinates")


def numbers(rows):
    return [value for row in rows for value in row]


tags = [axis.axisTag for axis in source.axes]
compared, far = 0, 0
for glyph in source.glyphs:
    if not glyph.export:
        continue
    for layer in glyph.layers:
        place = place_of(layer)
        if place is None:
            continue
        seen = font.getGlyphSet(location=dict(zip(tags, place)))[glyph.name]
        drawn = Drawn()
        seen.drawPoints(drawn)
        wanted = of_source(layer)
        if wanted.moves and not drawn.moves:  # its components are drawn as contours
            continue
        have = numbers(numbers(drawn.contours + [drawn.moves])) + [seen.width]
        want = numbers(numbers(wanted.contours + [wanted.moves])) + [layer.width]
        compared += 1
        is_near = len(have) == len(want) and all(
            a == b if isinstance(a, (str, bool)) else abs(a - b) <= 0.5 for a, b in zip(have, want)
        )
        if not is_near:
            far += 1
            print(f"{glyph.name} at {place}: {have} for {want}")
print(f"{compared} layers compared, {far} drawn otherwise")
sys.exit(far > 0)
PROGRAM
