#!/usr/bin/env bash
# Tells how many microseconds it takes to write the variation data of 5,000 glyphs of 60 points and three masters, for each delta; to
# lay out a tree of 20,000 children of which each is equal to one other, for each child; and to measure 60,000 glyphs of which a third
# are composites, for each glyph; and the same at a tenth of each size. A glyph has 256 deltas: two for each of its points and of the
# four behind them, in each of two regions. What is made first isn't counted, and of three runs the best one is. It needs
# crates/table_bench built, by rt run.
# usage: bench/tables.sh
set -euo pipefail
bench="$(cd "$(dirname "$0")/.." && pwd)/crates/table_bench/out/table_bench"
TIMEFORMAT='%3U %3S'

# The least processor time, in microseconds, of three runs of a task.
best() {
  for _ in 1 2 3; do
    { time "$bench" "$@" >/dev/null; } 2>&1
  done | awk '{ spent = ($1 + $2) * 1000000; if (NR == 1 || spent < least) least = spent } END { print least }'
}

printf '%-10s %7s %9s\n' task size each
while read -r task size times parts; do
  bare="$(best "$task" "$size" 0)"
  whole="$(best "$task" "$size" "$times")"
  awk -v task="$task" -v size="$size" -v all="$((size * times * parts))" -v spent="$((whole - bare))" \
    'BEGIN { printf "%-10s %7d %9.3f\n", task, size, spent / all }'
done <<'SIZES'
variations 500 50 256
variations 5000 5 256
layout 2000 500 1
layout 20000 50 1
measure 6000 100 1
measure 60000 10 1
SIZES
