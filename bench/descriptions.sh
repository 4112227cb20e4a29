#!/usr/bin/env bash
# Times the built program on descriptions of up to, exactly and one more than 1,048,576 bytes, ordinary and odd.
# Each has to end by itself with the status that its case names.
# Usage: bench/descriptions.sh [PROGRAM]; build it first (`rt run` in crates/rtec_main).
set -eu
program=$(realpath "${1:-$(dirname "$0")/../crates/rtec_main/out/rtec_main}")
folder=$(mktemp -d)
trap 'rm -rf "$folder"' EXIT
cd "$folder"
python3 - "$program" <<'PYTHON'
import random, subprocess, sys, time
program = sys.argv[1]
limit = 1 << 20
head = "window(10).\nstep(5).\nqueries(1).\n"

def filled(front, line, count=None, end=""):
    """The front, lines (of a number) as long as they fit, and the end."""
    text, i = [front], 0
    size = len(front) + len(end)
    while count is None or i < count:
        more = line(i) if callable(line) else line
        if size + len(more) > limit:
            break
        text.append(more)
        size += len(more)
        i += 1
    return "".join(text) + end

lamp = head + "input a.\nsimple b [c].\n"
random.seed(7)
cases = [
    ("60,000 statements", 0, filled(lamp, "initially(b=c).\n", 60000)),
    ("rules of one fluent", 0, filled(lamp, "initiatedAt(b=c) :- happensAt(a).\n")),
    ("rules with variables", 0, filled(head + "domain v [x, y].\ninput a(v).\nsimple b(v) [c].\n", "initiatedAt(b(X)=c) :- happensAt(a(X)), X \\= Y, happensAt(a(Y)).\n")),
    ("expressions of 64 leaves", 0, filled(head + "static s [c].\nsimple b [c].\n", "holdsFor(s=c) :- union_all([" + ",".join(["b=c"] * 64) + "]).\n")),
    ("many names", 0, filled(lamp, lambda i: f"input n{i}.\n")),
    ("many fluents and rules", 0, filled(lamp, lambda i: f"simple f{i} [c]. initiatedAt(f{i}=c) :- happensAt(a).\n")),
    ("many entities", 0, filled(head + "static s [c].\n", lambda i: f"domain d{i} [" + ", ".join(f"e{j}" for j in range(2000)) + "].\n", 64)),
    ("an argument list", 3, filled(head + "domain v [].\ninput a(", "v,", end="v).")),
    ("one comment", 3, filled("%", "x")),
    ("one word", 3, filled("", "x")),
    ("parentheses", 3, filled("", "(")),
    ("not not not", 3, filled("", "not ")),
    ("nested constructs", 3, filled("holdsFor(s=c) :- ", "union_all([")),
    ("a statement of a million tokens", 3, filled("initiatedAt(b=c) :- ", "a,")),
    ("dots", 3, filled("", ".")),
    ("noise", 3, bytes(random.randrange(256) for _ in range(limit))),
    ("one byte more than there may be", 5, "%" * (limit + 1)),
]
open("script", "w").write("add,1,3,a\nseal\n")
failed = False
for name, wanted, text in cases:
    data = text if isinstance(text, bytes) else text.encode()
    open("description", "wb").write(data)
    start = time.monotonic()
    ended = subprocess.run([program, "recognise", "description", "script"], capture_output=True, timeout=60)
    took = time.monotonic() - start
    said = ended.stderr.decode().strip() or ended.stdout.decode().strip().splitlines()[-1]
    print(f"{name:32s} {len(data):8d} bytes {took * 1000:6.0f} ms  status {ended.returncode:2d}  {said}")
    failed = failed or ended.returncode != wanted
sys.exit(1 if failed else 0)
PYTHON
