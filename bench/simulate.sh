#!/usr/bin/env bash
# Times `simulate` over a fleet of 200 vessels in five areas, with processor time and peak memory of each run: workloads of
# 100,000 and 1,000,000 adds and revokes over 48 windows, their last lines and the whole report. Each is run three times, and
# the least time counts.
# Usage: bench/simulate.sh [PROGRAM]; build it first (`rt run` in crates/rtec_main). It needs /usr/bin/time (GNU time).
set -eu
program=$(realpath "${1:-$(dirname "$0")/../crates/rtec_main/out/rtec_main}")
folder=$(mktemp -d)
trap 'rm -rf "$folder"' EXIT
cd "$folder"
{
  printf 'window(1200).\nstep(600).\nfrom(1443650400).\nqueries(48).\n'
  printf 'domain vessel [%s].\n' "$(seq -f 'v%g' -s ', ' 200)"
  cat <<'RULES'
domain area [a1, a2, a3, a4, a5].
input enters(vessel, area).
input leaves(vessel, area).
input stops(vessel).
input moves(vessel).
simple within(vessel, area) [true].
simple stopped(vessel) [true].
static anchored(vessel, area) [true].
initiatedAt(within(X, A)=true) :- happensAt(enters(X, A)).
terminatedAt(within(X, A)=true) :- happensAt(leaves(X, A)).
initiatedAt(stopped(X)=true) :- happensAt(stops(X)).
terminatedAt(stopped(X)=true) :- happensAt(moves(X)).
holdsFor(anchored(X, A)=true) :- intersect_all([within(X, A)=true, stopped(X)=true]).
RULES
} > fleet
for words in '100000' '1000000' '1000000 --full'; do
  for _ in 1 2 3; do
    # shellcheck disable=SC2086
    /usr/bin/time -f '%U %S %M' -a -o used "$program" simulate fleet 7 $words > out
  done
  awk -v words="$words" '{ time = $1 + $2; if (NR == 1 || time < least) least = time; if ($3 > peak) peak = $3 }
    END { printf "simulate %-16s %6.2f s of processor time %7.1f MB\n", words, least, peak / 1024 }' used
  tail -1 out
  rm used
done
