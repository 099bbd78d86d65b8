#!/usr/bin/env bash
# Tells how much memory fontc takes for a source of 500 glyphs (or as many as are asked for) of 100 points each, as a multiple of
# the source's size: for the whole build, and for reading alone, which a source of another format version ends.
# It needs GNU time as /usr/bin/time.
# usage: bench/large_source.sh [GLYPHS]
set -euo pipefail
glyphs="${1:-500}"
top="$(cd "$(dirname "$0")/.." && pwd)"
room="$(mktemp -d)"
trap 'rm -rf "$room"' EXIT

# A source of this format version; the points lie on a grid, no two neighbours at one place.
write_source() {
  awk -v glyphs="$glyphs" -v version="$1" 'BEGIN {
    print "{\n.formatVersion = " version ";\nfamilyName = Large;\nfontMaster = (\n{\nid = m1;\n}\n);\nglyphs = ("
    for (n = 0; n < glyphs; n++) {
      print (n ? "," : "") "{\nglyphname = g" n ";\nlayers = (\n{\nlayerId = m1;\nshapes = (\n{\nclosed = 1;\nnodes = ("
      for (k = 0; k < 100; k++) print "(" (n * 7 + k * 37) % 1000 "," (n * 11 + k * 53) % 1000 - 200 ",l)" (k < 99 ? "," : "")
      print ");\n}\n);\nwidth = 500;\n}\n);\n}"
    }
    print ");\nunitsPerEm = 1000;\n}"
  }'
}

# The most memory that a build of a source takes, as a multiple of its size.
multiple() {
  local size kilobytes
  size="$(stat -c %s "$1")"
  # A refused source ends the program with a status of its own, which is meant here.
  kilobytes="$({ /usr/bin/time -f %M "$top/fontc" build "$1" "$room/font.ttf" || true; } 2>&1 >/dev/null | tail -n 1)"
  awk -v kilobytes="$kilobytes" -v size="$size" 'BEGIN { printf "%.1f", kilobytes * 1024 / size }'
}

write_source 3 >"$room/large.glyphs"
write_source 2 >"$room/refused.glyphs"
"$top/fontc" build "$room/large.glyphs" "$room/font.ttf" >/dev/null
echo "$glyphs glyphs, $(stat -c %s "$room/large.glyphs") bytes in, $(stat -c %s "$room/font.ttf") bytes out"
echo "to build: $(multiple "$room/large.glyphs") times the source's size"
echo "to read:  $(multiple "$room/refused.glyphs") times the source's size"
