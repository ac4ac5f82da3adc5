#!/bin/sh
# Times a script of 600,000 lines over the four-value file: registers of 200,000 segment numbers, of
# which the file has one, polls of as many requests, and as many drives.
set -eu
home=$(cd "$(dirname "$0")/.." && pwd)
script=$(mktemp)
trap 'rm -f "$script"' EXIT
awk 'BEGIN { for (number = 0; number < 200000; number++) printf "r %d\np %d\ngo\n", number, number }' >"$script"
"$home/build" >&2
start=$(date +%s%N)
"$home/vx" serve "$home/crates/vx_main/data/four.vortex" <"$script" | tail -n 1
end=$(date +%s%N)
echo "$(wc -l <"$script") lines: $(((end - start) / 1000000)) ms"
