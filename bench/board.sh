#!/usr/bin/env bash
# Tells how long boards of 10,000, 100,000 and 1,000,000 jobs (or of as many as are asked for) take with one worker, and how much
# memory in all, that of the values and of the plan too: for a chain, for a fan whose last job reads up to 60,000 others, and for
# glyphs of six jobs each. It needs GNU time as /usr/bin/time, and crates/board_bench built, by rt run.
# usage: bench/board.sh [JOBS..]
set -euo pipefail
bench="$(cd "$(dirname "$0")/.." && pwd)/crates/board_bench/out/board_bench"
room="$(mktemp -d)"
trap 'rm -rf "$room"' EXIT
if [ "$#" -eq 0 ]; then set -- 10000 100000 1000000; fi

printf '%-8s %9s %9s %9s\n' plan jobs seconds 'bytes/job'
for plan in chain fan glyphs; do
  for jobs in "$@"; do
    size="$jobs"
    if [ "$plan" = glyphs ]; then size="$((jobs / 6))"; fi
    /usr/bin/time -o "$room/time" -f '%U %S %M' "$bench" "$plan" "$size" >"$room/told"
    awk -v plan="$plan" -v jobs="$jobs" \
      '{ printf "%-8s %9d %9.2f %9.0f\n", plan, jobs, $1 + $2, $3 * 1024 / jobs }' "$room/time"
  done
done
