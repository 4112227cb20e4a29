#!/usr/bin/env bash
# Lets each allocation of the built program fail in turn on the bundled sample and on one description more, for each command: it has to end with status
# 8 and to have written a beginning of the text, until there are no more allocations and it ends with status 0.
# Usage: bench/allocations.sh [PROGRAM]; build it first (`rt run` in crates/rtec_main). It needs gcc.
set -eu
data=$(realpath "$(dirname "$0")/../crates/rtec_main/data")
program=$(realpath "${1:-$(dirname "$0")/../crates/rtec_main/out/rtec_main}")
folder=$(mktemp -d)
trap 'rm -rf "$folder"' EXIT
cat > "$folder/failing.c" <<'C'
#define _GNU_SOURCE
#include <dlfcn.h>
#include <errno.h>
#include <stdlib.h>
static long count, wanted = -1;
static int fails(void) {
    if (wanted < 0) { const char *text = getenv("FAIL_AT"); wanted = text ? atol(text) : 0; }
    if (++count == wanted) { errno = ENOMEM; return 1; }
    return 0;
}
void *malloc(size_t size) {
    static void *(*real)(size_t);
    if (!real) real = dlsym(RTLD_NEXT, "malloc");
    return fails() ? NULL : real(size);
}
void *realloc(void *old, size_t size) {
    static void *(*real)(void *, size_t);
    if (!real) real = dlsym(RTLD_NEXT, "realloc");
    return fails() ? NULL : real(old, size);
}
C
gcc -shared -fPIC -O1 "$folder/failing.c" -o "$folder/failing.so" -ldl
each_fails() { # the words of a command
  "$program" "$@" > "$folder/whole"
  for number in $(seq 1 10000); do
    status=0
    FAIL_AT=$number LD_PRELOAD=$folder/failing.so "$program" "$@" > "$folder/text" 2> /dev/null || status=$?
    if [ "$status" -eq 0 ]; then
      echo "$1: allocations 1 to $((number - 1)) failed in turn: status 8, a beginning written"
      return
    fi
    if [ "$1" = ground ] && [ -s "$folder/text" ]; then status=9; fi # (a ground text is written whole or not at all)
    if [ "$status" -ne 8 ] || ! cmp -s -n "$(stat -c %s "$folder/text")" "$folder/text" "$folder/whole"; then
      echo "$1, allocation $number: status $status, $(stat -c %s "$folder/text") bytes written"
      exit 1
    fi
  done
  echo "$1: more than 10000 allocations"
  exit 1
}
# values, conditions, a derived event, an opening and a statically determined fluent
cat > "$folder/rooms.rtec" <<'RTEC'
window(10).
step(5).
domain room [hall, attic].
input up(room).
input down(room).
input blows(room).
simple lamp(room) [on, dim].
simple blown(room) [true].
static dark(room) [true].
derived switched(room).
initially(lamp(hall)=on).
initiatedAt(lamp(R)=on) :- happensAt(up(R)), not holdsAt(blown(R)=true).
terminatedAt(lamp(R)=on) :- happensAt(down(R)).
initiatedAt(blown(R)=true) :- happensAt(blows(R)).
happensAt(switched(R)) :- happensAt(start(lamp(R)=on)).
holdsFor(dark(R)=true) :- relative_complement_all(blown(R)=true, [lamp(R)=on, lamp(R)=dim]).
RTEC
cat > "$folder/rooms.csv" <<'CSV'
add,1,2,up,attic
add,1,4,down,hall
add,1,6,blows,hall
add,1,7,up,hall
seal
revoke,2,6,blows,hall
add,2,8,down,attic
add,2,23,up,attic
seal
seal
CSV
each_fails recognise "$data/lamp.rtec" "$data/late_run.csv"
each_fails ground "$data/lamp.rtec"
each_fails recognise "$folder/rooms.rtec" "$folder/rooms.csv"
each_fails ground "$folder/rooms.rtec"
