#!/bin/sh
# usage: bench/run.sh [--other-sources] SOURCES
# The load of request 13 through the proved `sheet::carry_on` and through the original Rust: checksums, time, instructions, growth; and
# one weight. SOURCES is the folder of the original's Rust sources. README.md here says what is printed.
set -eu
[ $# -eq 1 ] || [ "${1-} $#" = '--other-sources 2' ] || { sed -n 2,4p "$0"; exit 2; }
here=$(cd "$(dirname "$0")" && pwd)
tmp=$(mktemp -d)
trap 'rm -rf "$tmp"' EXIT
trap 'exit 1' HUP INT TERM
"$here/../compare/build.sh" "$@" "$tmp" bench
program=$tmp/bench
export RAYON_NUM_THREADS=1

"$program" compare || { echo 'DIFFERENCES'; exit 1; }

if command -v valgrind > /dev/null; then counting=1; else counting=0; echo 'no valgrind: no instructions are counted'; fi
# Instructions of the whole program: count WORDS
count() {
  valgrind --tool=callgrind --callgrind-out-file="$tmp/calls" "$program" "$@" > /dev/null 2>&1
  sed -n 's/^totals: *//p' "$tmp/calls"
}
# Instructions of CALL less those of a program that stops before it: net KIND CALL BEFORE WORDS
net() {
  if [ $counting -eq 0 ]; then echo 0; return; fi
  kind=$1 call=$2 before=$3
  shift 3
  all=$(count "$kind" "$call" "$@")
  less=$(count "$kind" "$before" "$@")
  echo $((all - less))
}
# Median time of a call in the last timing.
of() { sed -n "s/^$1 //p" "$tmp/time"; }
# Milliseconds and instructions of both sides: sheet LOAD
sheet() {
  "$program" time 11 "$@" > "$tmp/time"
  theirs=$(net work rust nothing "$@")
  ours=$(net work carry-on nothing "$@")
  echo "$(of rust) $(of carry-on) $theirs $ours"
}
# A line with ratios to the Rust: beside WORDS TIME RUST'S INSTRUCTIONS RUST'S
beside() {
  echo "$2 $3 $4 $5" | awk -v words="$1" '{ printf "%-34s %10.2f %7.3f %12d %7.3f\n", words, $1, $1 / $2, $3, ($4 > 0 ? $3 / $4 : 0) }'
}

first=$(sheet 100 6 10 10)
read -r ms ours_ms n ours_n <<EOF
$first
EOF
echo 'request 13, one sheet: milliseconds (median of 11, the sides in turn) and instructions, each with its ratio to the Rust'
beside 'the Rust' "$ms" "$ms" "$n" "$n"
beside 'carry-on (sheet::carry_on)' "$ours_ms" "$ms" "$ours_n" "$n"
beside 'all triplets, no marks (triplet::)' "$(of all-triplets)" "$ms" "$(net work all-triplets nothing 100 6 10 10)" "$n"
echo "$first" | awk '{
  time = $2 <= 0.6 * $1 ? "met" : "NOT MET"
  instr = $3 == 0 ? "not counted" : $4 <= 0.6 * $3 ? "met" : "NOT MET"
  printf "the aim of carry-on, at most 0.6: time %s, instructions %s\n", time, instr
}'

echo 'one call on that sheet: milliseconds and instructions'
while read -r call before words; do
  ours=$(net work "$call" "$before" 100 6 10 10)
  printf '%-34s %10.4f %20d\n' "$words" "$(of "$call")" "$ours"
done <<'EOF'
named nothing a named run (run_piece)
questions nothing the questions of every call alone
closed computed carry-on with no piece open
average computed average_triplet
rust-average computed the Rust's averages of a triplet
open computed open_count
EOF

echo 'the named runs of all pieces in one list against a carry-on: milliseconds, instructions, their ratios; one named run by itself'
for mesh in 12 48; do
  load="100 6 10 10 $mesh"
  "$program" time 11 $load > "$tmp/time"
  echo "$mesh $(of carry-on) $(of list) $(net work carry-on nothing $load) $(net work list nothing $load) $(of named) $(net work named nothing $load)"
done | awk '{
  time = $3 <= 1.3 * $2 ? "met" : "NOT MET"
  instr = $4 == 0 ? "not counted" : $5 <= 1.3 * $4 ? "met" : "NOT MET"
  printf "mesh %2d: carry-on %.2f %d, the list %.2f %d, %.3f %.3f; one run %.4f %d; the aim, at most 1.3: time %s, instructions %s\n", \
    $1, $2, $4, $3, $5, $3 / $2, ($4 > 0 ? $5 / $4 : 0), $6, $7, time, instr
}'

echo 'a listing read back (read_listing): bytes, milliseconds (median of 11), megabytes a second'
for load in '100 6 10 10' '1600 6 10 10'; do
  "$program" listing 11 $load > "$tmp/listing"
  echo "$load $(cat "$tmp/listing")"
done | awk '{
  aim = $5 >= 200e3 * $6 ? "met" : "NOT MET"
  printf "triplets %4d: %d %.2f, %.0f; the aim, at least 200: %s\n", $1, $5, $6, $5 / $6 / 1e3, aim
}'
echo "instructions of the first: $(net work read printed 100 6 10 10)"

# What grows, how many of it, and the load.
while read -r what units load; do
  numbers=$first
  if [ "$load" != '100 6 10 10' ]; then numbers=$(sheet $load); fi
  echo "$what $units $numbers"
done > "$tmp/growth" <<'EOF'
triplets 25 25 6 10 10
triplets 50 50 6 10 10
triplets 100 100 6 10 10
triplets 200 200 6 10 10
pairs 9 100 3 10 10
pairs 36 100 6 10 10
pairs 144 100 12 10 10
points 5 100 6 5 5
points 10 100 6 10 5
points 20 100 6 20 5
EOF
echo 'growth: one more is what one more triplet, pair of bands or point costs carry-on, from the line above'
awk '
  BEGIN {
    printf "%-14s %9s %9s %7s", "", "Rust ms", "ours ms", "ratio"
    printf " %11s %11s %7s %9s %12s\n", "Rust instr.", "ours instr.", "ratio", "more: ms", "more: instr."
  }
  {
    printf "%-9s %4d %9.2f %9.2f %7.3f %11d %11d %7.3f", $1, $2, $3, $4, $4 / $3, $5, $6, ($5 > 0 ? $6 / $5 : 0)
    if ($1 == last) printf " %9.4f %12d", ($4 - ms) / ($2 - n), ($6 - instr) / ($2 - n)
    printf "\n"
    last = $1; n = $2; ms = $4; instr = $6
  }' "$tmp/growth"

echo 'one weight over 24 rows: nanoseconds (median of 11, the variants in turn) and instructions, each with its ratio to the Rust'
"$program" weights 40960 11 > "$tmp/time"
while read -r variant rust words; do
  theirs=$(($(net weight "$rust" none 4096) / 4096))
  ours=$(($(net weight "$variant" none 4096) / 4096))
  beside "$words" "$(of "$variant")" "$(of "$rust")" "$ours" "$theirs"
done <<'EOF'
rust_i rust_i I the Rust
entry_i rust_i I the entry, with its questions
sorted_i rust_i I rows in order already
rust_j rust_j J the Rust
entry_j rust_j J the entry, with its questions
sorted_j rust_j J rows in order already
EOF
echo "one check of a customer's table: microseconds (median of 11) and instructions"
printf '%-34s %10.2f %20d\n' 'a table in use, accepted' "$("$program" checks 4096 11)" $(($(net check 4096 0) / 4096))
echo 'no difference'
