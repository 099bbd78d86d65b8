#!/usr/bin/env bash
# Compiles the example family, and draws a line of letters in each of its instances, as the picture family.svg or under the name that
# is given. The outlines are those of the font, and fontTools reads them; where python3 or fontTools isn't installed a line says so,
# nothing is drawn, and the status is 0.
# usage: bench/picture.sh [PICTURE]
set -euo pipefail
picture="${1:-family.svg}"
top="$(cd "$(dirname "$0")/.." && pwd)"

if ! python3 -c 'import fontTools.varLib.instancer' 2>/dev/null; then
  echo "no picture: python3 with fontTools isn't installed"
  exit 0
fi

room="$(mktemp -d)"
trap 'rm -rf "$room"' EXIT
"$top/fontc" build "$top/examples/family.glyphs" "$room/family.ttf"

python3 - "$room/family.ttf" "$picture" <<'PROGRAM'
import sys

from fontTools.pens.svgPathPen import SVGPathPen
from fontTools.pens.transformPen import TransformPen
from fontTools.ttLib import TTFont
from fontTools.varLib.instancer import instantiateVariableFont

TEXT = "Hallo fontc ÄÓáöü"
MARGIN, CAPTION, LINE = 200, 1600, 1200

font_path, picture_path = sys.argv[1:]
family = TTFont(font_path)


def drawn(location, y):
    """The text at a location of the design space, as the data of one path, and where it ends."""
    font = instantiateVariableFont(TTFont(font_path), location)
    glyphs, names = font.getGlyphSet(), font.getBestCmap()
    pen = SVGPathPen(glyphs, ntos="{:g}".format)
    x = MARGIN + CAPTION
    for character in TEXT:
        glyph = glyphs[names[ord(character)]]
        glyph.draw(TransformPen(pen, (1, 0, 0, -1, x, y)))
        x += glyph.width
    return pen.getCommands(), x


lines, right, y = [], 0, 0
for instance in family["fvar"].instances:
    y += LINE
    data, end = drawn(dict(instance.coordinates), y)
    caption = family["name"].getDebugName(instance.subfamilyNameID)
    lines.append(f'<text x="{MARGIN}" y="{y}">{caption}</text>')
    lines.append(f'<path d="{data}"/>')
    right = max(right, end)

width, height = right + MARGIN, y + 2 * MARGIN
with open(picture_path, "w", encoding="utf-8") as picture:
    print(f'<svg xmlns="http://www.w3.org/2000/svg" viewBox="0 0 {width} {height}" width="{width // 10}" height="{height // 10}">', file=picture)
    print('<rect width="100%" height="100%" fill="white"/>', file=picture)
    print('<g font-family="sans-serif" font-size="150">', *lines, "</g>", "</svg>", sep="\n", file=picture)
PROGRAM
echo "drew $picture"
