#!/usr/bin/env bash
# Times the built program on scripts of many windows, with processor time and peak memory of each run: the workload of a
# fleet, 100,000 and 1,000,000 adds and revokes over 48 windows; 65,536 units of which ten have events, over 256 windows;
# 1,000,000 adds of one event in rising and in falling order; a window of 1,000 steps; and 1,000,000 questions beside as many
# adds over the same fluents.
# Usage: bench/sliding.sh [PROGRAM]; build it first (`rt run` in crates/rtec_main). It needs /usr/bin/time (GNU time).
set -eu
program=$(realpath "${1:-$(dirname "$0")/../crates/rtec_main/out/rtec_main}")
folder=$(mktemp -d)
trap 'rm -rf "$folder"' EXIT
cd "$folder"
python3 - "$program" <<'PYTHON'
import os, subprocess, sys
program = sys.argv[1]

def numbered(letter, count):
    return [f"{letter}{i}" for i in range(1, count + 1)]

vessels, areas = numbered("v", 200), numbered("a", 5)
fleet = f"""window(1200).
step(600).
from(1443650400).
queries(48).
domain vessel [{", ".join(vessels)}].
domain area [{", ".join(areas)}].
input enters(vessel, area).
input leaves(vessel, area).
input stops(vessel).
input moves(vessel).
simple within(vessel, area) [true].
simple stopped(vessel) [true].
static anchored(vessel, area) [true].
initiatedAt(within(X, A)=true) :- happensAt(enters(X, A)).
terminatedAt(within(X, A)=true) :- happensAt(leaves(X, A)).
initiatedAt(stopped(X)=true) :- happensAt(stops(X)).
terminatedAt(stopped(X)=true) :- happensAt(moves(X)).
holdsFor(anchored(X, A)=true) :- intersect_all([within(X, A)=true, stopped(X)=true]).
"""
events = [f"{name},{v},{a}" for name in ["enters", "leaves"] for v in vessels for a in areas]
events += [f"{name},{v}" for name in ["stops", "moves"] for v in vessels]

def workload(seed, size, window=1200, step=600, first=1443650400, queries=48):
    """Adds and revokes, spread over the windows: late, ahead, too late, and withdrawn."""
    state, told, lines = seed, [], []
    def draw(n):
        nonlocal state
        state = (state * 6364136223846793005 + 1442695040888963407) % (1 << 64)
        return state // 2048 % n
    share = -(-size // queries)
    for i in range(size):
        feeder, d = 1 + draw(8), draw(10)
        if d == 0 and i:
            act, (event, at) = "revoke", told[i - 1 - draw(min(i, 64))]
        else:
            event = draw(len(events))
            point = first + i // share * step + 1 + draw(window + step)
            act, at = "add", max(point - step, 0)
        told.append((event, at))
        name, _, arguments = events[event].partition(",")
        lines.append(f"{act},{feeder},{at},{name},{arguments}\n")
        if (i + 1) % share == 0 or i + 1 == size:
            lines.append("seal\n")
    return lines

def timed(name, description, lines):
    open("description", "w").write(description)
    open("script", "w").writelines(lines)
    size = os.path.getsize("script")
    with open("out", "wb") as out:
        ended = subprocess.run(["/usr/bin/time", "-f", "%U %S %e %M", "-o", "used", program, "recognise", "description", "script"], stdout=out, stderr=subprocess.PIPE, timeout=300)
    user, kernel, wall, peak = map(float, open("used").read().split()[-4:])
    last = open("out").read().splitlines()[-1] if ended.returncode == 0 else ended.stderr.decode().strip()
    print(f"{name:40s} {size / 1e6:6.1f} MB {user + kernel:6.2f} s of processor time {wall:6.2f} s {peak / 1024:7.1f} MB  {last}")
    return ended.returncode == 0

well = True
for size in [100000, 1000000]:
    well &= timed(f"fleet, {size} adds and revokes", fleet, workload(1, size))

row = ", ".join(numbered("d", 256))
well &= timed("65,536 units, ten with events", f"window(10).\nstep(5).\nqueries(256).\ndomain d [{row}].\ninput up(d, d).\nsimple on(d, d) [true].\ninitiatedAt(on(X, Y)=true) :- happensAt(up(X, Y)).\n",
    [line for k in range(256) for line in [f"add,1,{5 * k + 6},up,d{k % 10 + 1},d7\n", "seal\n"]])

lamp = "input up.\nsimple on [true].\ninitiatedAt(on=true) :- happensAt(up).\n"
for name, points in [("rising", range(1, 1000001)), ("falling", range(1000000, 0, -1))]:
    well &= timed(f"1,000,000 adds in {name} order", "window(1000000).\nstep(1000000).\nqueries(1).\n" + lamp, [f"add,1,{at},up\n" for at in points] + ["seal\n"])

well &= timed("a window of 1,000 steps", "window(1000).\nstep(1).\nqueries(1000).\n" + lamp, [line for k in range(1000) for line in [f"add,1,{k + 1 + (i * 37) % 1000},up\n" for i in range(16)] + ["seal\n"]])
doors = f"window(10000).\nstep(10000).\nqueries(1).\ndomain d [{', '.join(numbered('d', 200))}].\ninput up(d).\nsimple on(d) [true].\ninitiatedAt(on(X)=true) :- happensAt(up(X)).\n"
some = [f"add,1,{at},up,d{at % 200 + 1}\n" for at in range(1, 10000)] + ["seal\n"]
well &= timed("10,000 adds, and 1,000,000 questions", doors, some + [f"ask,holds,{i % 10000 + 1},true,on,d{i % 200 + 1}\n" for i in range(1000000)])
well &= timed("1,000,000 adds over the same", doors, [f"add,1,{i % 10000 + 1},up,d{i % 200 + 1}\n" for i in range(1000000)] + ["seal\n"])
sys.exit(0 if well else 1)
PYTHON
