#!/usr/bin/env bash
# Times fontc on a source of 2,000 glyphs (or as many as are asked for), each a triangle, and `cat` on the same bytes; and tells
# how much memory it takes, as a multiple of the source's size. It needs GNU time as /usr/bin/time.
# usage: bench/many_glyphs.sh [GLYPHS]
set -euo pipefail
glyphs="${1:-2000}"
top="$(cd "$(dirname "$0")/.." && pwd)"
room="$(mktemp -d)"
trap 'rm -rf "$room"' EXIT

# The source: glyph number n has the code 0x100 + n, and from the surrogates on 0x10000 + n.
awk -v glyphs="$glyphs" 'BEGIN {
  print "{\n.formatVersion = 3;\nfamilyName = Many;\nfontMaster = (\n{\nid = m1;\n}\n);\nglyphs = ("
  for (n = 0; n < glyphs; n++) {
    print (n ? "," : "") "{\nglyphname = g" n ";\nlayers = (\n{\nlayerId = m1;\nshapes = (\n{\nclosed = 1;\nnodes = (\n(0,0,l),\n(500,0,l),\n(250,700,l)\n);\n}\n);\nwidth = 500;\n}\n);\nunicode = " (n < 55040 ? 256 : 65536) + n ";\n}"
  }
  print ");\nunitsPerEm = 1000;\n}"
}' >"$room/many.glyphs"

# The least time of seven runs, in microseconds.
least_time() {
  local least=0 begin end time
  for _ in 1 2 3 4 5 6 7; do
    begin="${EPOCHREALTIME/./}"
    "$@"
    end="${EPOCHREALTIME/./}"
    time=$((end - begin))
    if [ "$least" -eq 0 ] || [ "$time" -lt "$least" ]; then least="$time"; fi
  done
  echo "$least"
}

copied() { cat "$room/many.glyphs" >"$room/copy"; }
compiled() { "$top/fontc" build "$room/many.glyphs" "$room/many.ttf" >/dev/null; }

"$top/fontc" build "$room/many.glyphs" "$room/many.ttf" >/dev/null
fontc_time="$(least_time compiled)"
cat_time="$(least_time copied)"
kilobytes="$({ /usr/bin/time -f %M "$top/fontc" build "$room/many.glyphs" "$room/many.ttf" >/dev/null; } 2>&1)"
echo "$glyphs glyphs, $(stat -c %s "$room/many.glyphs") bytes in, $(stat -c %s "$room/many.ttf") bytes out"
awk -v fontc="$fontc_time" -v cat="$cat_time" -v glyphs="$glyphs" -v kilobytes="$kilobytes" \
  -v size="$(stat -c %s "$room/many.glyphs")" 'BEGIN {
  printf "fontc: %.2f microseconds per glyph, %.1f times the size of the source\n", fontc / glyphs, kilobytes * 1024 / size
  printf "cat:   %.2f microseconds per glyph\n", cat / glyphs
}'
