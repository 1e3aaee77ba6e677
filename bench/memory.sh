#!/bin/sh
# Prints the most memory that pargrep and GNU grep hold while they search a large file, in several formats, and while
# they walk over trees of 10,000, 100,000 and 1,000,000 files, of which one in 1,000 has a line: by a text, where a block
# is searched at once, and by an expression, where it waits for a round.
# Usage: bench/memory.sh PARGREP [MEGABYTES]
# The file is lines of 60 bytes, of which one in 100 is selected. It is kept in a folder of its own that is removed at
# the end. The memory is the largest resident set that the system tells of the process, which GNU time prints.
set -eu
export LC_ALL=C

folder=$(mktemp -d)
trap 'rm -rf "$folder"' EXIT

pargrep=${1:?usage: bench/memory.sh PARGREP [MEGABYTES]}
megabytes=${2:-1024}

awk 'BEGIN {
  for (size = 0; size < 1048576; size += 60) {
    printf "%010d %48s\n", size, (size / 60 % 100 == 99 ? "needle" : "hay")
  }
}' > "$folder/part"
i=0
while [ "$i" -lt "$megabytes" ]; do
  cat "$folder/part"
  i=$((i + 1))
done > "$folder/text"

# measure OPTIONS..: the kilobytes that each program holds at most.
measure() {
  /usr/bin/time -f %M -o "$folder/ours" "$pargrep" "$@" -e needle "$folder/text" > "$folder/out"
  /usr/bin/time -f %M -o "$folder/theirs" grep "$@" -e needle "$folder/text" > "$folder/expected"
  cmp -s "$folder/out" "$folder/expected" || { echo "the outputs for $* differ" >&2; exit 1; }
  printf '%-14s pargrep %6d kB  grep %6d kB\n' "$*" "$(tail -n 1 "$folder/ours")" "$(tail -n 1 "$folder/theirs")"
}

echo "$(wc -c < "$folder/text") bytes"
measure -F
measure -nF
measure -cF
measure -F -C 3
measure -nF -B 1000

# directory NUMBER: makes one with 1,000 files, of which the first has a line.
directory() {
  mkdir -p "$folder/tree/$(($1 / 100))/$1"
  (cd "$folder/tree/$(($1 / 100))/$1" && seq 1000 | xargs touch && echo needle > 1)
}

# measure_tree FILES OPTIONS..: the same as measure, over the tree.
measure_tree() {
  files=$1
  shift
  /usr/bin/time -f %M -o "$folder/ours" "$pargrep" "$@" "$folder/tree" > "$folder/out"
  /usr/bin/time -f %M -o "$folder/theirs" grep "$@" "$folder/tree" > "$folder/expected"
  [ "$(wc -l < "$folder/out")" -eq "$files" ] || { echo "a file of the tree is lost" >&2; exit 1; }
  printf '%-24s pargrep %6d kB  grep %6d kB\n' "$*, $files" "$(tail -n 1 "$folder/ours")" "$(tail -n 1 "$folder/theirs")"
}

made=0
for thousands in 10 100 1000; do
  while [ "$made" -lt "$thousands" ]; do
    directory "$made"
    made=$((made + 1))
  done
  measure_tree "${thousands}000" -rc needle
  measure_tree "${thousands}000" -rcE '[a-z]{6}'
done
