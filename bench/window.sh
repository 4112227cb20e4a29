#!/usr/bin/env bash
# Times the built program on scripts of 1,000 adds and one seal: over descriptions of just under
# 1,048,576 bytes, over 1,000 entities with three layers, over a rule of eight conditions with 100,000 trigger points, and over
# a static fluent that unites 64 fluents of 500 spans each.
# Usage: bench/window.sh [PROGRAM]; build it first (`rt run` in crates/rtec_main).
set -eu
program=$(realpath "${1:-$(dirname "$0")/../crates/rtec_main/out/rtec_main}")
folder=$(mktemp -d)
trap 'rm -rf "$folder"' EXIT
cd "$folder"
python3 - <<'PYTHON'
head = "window(1000000).\nstep(1000000).\nfrom(0).\nqueries(1).\n"
limit = 1048576

def write(name, lines):
    text = head
    for line in lines:
        if len(text) + len(line) > limit:
            break
        text += line
    open(name, "w").write(text)

# every rule is about one event and one fluent
write("one_fluent", ["input up.\n", "simple on [true].\n"] + ["initiatedAt(on=true) :- happensAt(up).\n"] * 40000)
# one event switches many fluents
fluents = [f"f{i}" for i in range(20000)]
write("many_fluents", ["input up.\n"] + [f"simple {f} [true].\n" for f in fluents] + [f"initiatedAt({f}=true) :- happensAt(up).\n" for f in fluents])
# many events, and few rules
write("many_events", ["input up.\n"] + [f"input e{i}.\n" for i in range(75000)] + ["simple on [true].\n", "initiatedAt(on=true) :- happensAt(up).\n"])
# three layers over 1,000 entities
entities = [f"v{i}" for i in range(1000)]
domain = "domain vessel [" + ", ".join(entities) + "].\n"
open("three_layers", "w").write(head + domain + """input up(vessel).
input down(vessel).
input hot(vessel).
simple heat(vessel) [low, high].
simple on(vessel) [true].
derived alarm(vessel).
initiatedAt(heat(X)=high) :- happensAt(hot(X)).
initiatedAt(heat(X)=low) :- happensAt(down(X)).
initiatedAt(on(X)=true) :- happensAt(up(X)), not holdsAt(heat(X)=high).
terminatedAt(on(X)=true) :- happensAt(down(X)).
happensAt(alarm(X)) :- happensAt(start(on(X)=true)), not holdsAt(heat(X)=high).
""")
words = ["up", "down", "hot"]
open("three_layers.csv", "w").write("".join(
    f"add,1,{(i * 7919) % 1000000 + 1},{words[i % 3]},{entities[(i // 3 * 37) % 1000]}\n" for i in range(1000)) + "seal\n")

# one rule of eight conditions, whose trigger happens 500 times for each of 200 entities
domain = "domain vessel [" + ", ".join(entities[:200]) + "].\n"
open("eight_conditions", "w").write(head + domain + """input up.
input down.
input leaves(vessel).
simple near [true].
simple far(vessel) [some, much].
simple on(vessel) [true].
initiatedAt(near=true) :- happensAt(down).
terminatedAt(near=true) :- happensAt(up).
initiatedAt(far(X)=much) :- happensAt(down), not happensAt(leaves(X)).
terminatedAt(far(X)=much) :- happensAt(up).
initiatedAt(on(X)=true) :- happensAt(up), holdsAt(near=true), holdsAt(far(X)=much), not holdsAt(far(X)=some),
    happensAt(end(near=true)), not happensAt(start(far(X)=much)), not happensAt(leaves(X)), not happensAt(down).
terminatedAt(on(X)=true) :- happensAt(down).
""")
# a static fluent that unites 64 fluents, each with a span for every second add
fluents = [f"f{i}" for i in range(64)]
open("union_of_64", "w").write(head + "input up.\ninput down.\n" + "".join(
    f"simple {f} [true].\ninitiatedAt({f}=true) :- happensAt(up).\nterminatedAt({f}=true) :- happensAt(down).\n" for f in fluents)
    + "static some [true].\nholdsFor(some=true) :- union_all([" + ", ".join(f"{f}=true" for f in fluents) + "]).\n")
# the same fluents without the static one
open("none_of_64", "w").write(open("union_of_64").read().split("static some")[0])
for name in ["union_of_64", "none_of_64"]:
    open(f"{name}.csv", "w").write("".join(f"add,1,{i + 1},{words[i % 2]}\n" for i in range(1000)) + "seal\n")
open("eight_conditions.csv", "w").write("".join(f"add,1,{i + 1},{words[i % 2]}\n" for i in range(1000)) + "seal\n")
open("script", "w").write("".join(f"add,1,{(i * 7919) % 1000000 + 1},up\n" for i in range(1000)) + "seal\n")
PYTHON
for description in one_fluent many_fluents many_events three_layers eight_conditions union_of_64 none_of_64; do
  script=script
  if [ -e "$description.csv" ]; then script="$description.csv"; fi
  start=$(date +%s%N)
  "$program" recognise "$description" "$script" > report
  end=$(date +%s%N)
  printf '%-16s %6d bytes  %5d ms  %s\n' "$description" "$(stat -c %s "$description")" "$(((end - start) / 1000000))" "$(tail -n 1 report)"
done
