#!/usr/bin/env bash
# Times the built program on a description of 1 MiB, on the ground text of 262,144 instances, and on scripts of 1,000,000
# records, with the peak memory of each run, and beside the scripts `wc -l` and `sort` on the same file. Then the largest
# and oddest scripts, which have to end with the status that their case names.
# Usage: bench/streams.sh [PROGRAM]; build it first (`rt run` in crates/rtec_main). It needs /usr/bin/time (GNU time).
set -eu
program=$(realpath "${1:-$(dirname "$0")/../crates/rtec_main/out/rtec_main}")
folder=$(mktemp -d)
trap 'rm -rf "$folder"' EXIT
cd "$folder"
python3 - "$program" <<'PYTHON'
import os, random, subprocess, sys, time
program = sys.argv[1]
head = "window(1000000).\nstep(1000000).\nqueries(1).\n"
random.seed(7)

def write(name, text):
    open(name, "wb").write(text if isinstance(text, bytes) else text.encode())

def timed(*command):
    """Milliseconds, peak kilobytes, the exit status and the last line of what was said."""
    start = time.monotonic()
    ended = subprocess.run(["/usr/bin/time", "-f", "%M", "-o", "peak", *command], stdout=open("out", "wb"), stderr=subprocess.PIPE, timeout=120)
    took = (time.monotonic() - start) * 1000
    said = ended.stderr.decode().strip() or f"{os.path.getsize('out')} bytes written"
    return took, int(open("peak").read().split()[-1]), ended.returncode, said

def entities(letter, count):
    return ", ".join(f"{letter}{i}" for i in range(1, count + 1))

failed = False
def show(name, size, run, wanted):
    global failed
    took, peak, status, said = run
    failed = failed or status != wanted
    print(f"{name:36s} {size:9d} bytes {took:7.0f} ms {peak / 1024:7.1f} MB  status {status:2d}  {said}")
    return took

print("descriptions")
rule = "initiatedAt(on=true) :- happensAt(up).\n"
front = head + "input up.\nsimple on [true].\n"
write("long", front + rule * (((1 << 20) - len(front)) // len(rule)))
write("seal", "seal\n")
show("1 MiB of rules, recognise", os.path.getsize("long"), timed(program, "recognise", "long", "seal"), 0)
show("1 MiB of rules, ground", os.path.getsize("long"), timed(program, "ground", "long"), 0)

print("ground texts of 262,144 instances")
write("pairs", head + f"domain d [{entities('d', 512)}].\ninput e(d, d).\nsimple on [true].\ninitiatedAt(on=true) :- happensAt(e(X, Y)).\n")
write("units", head + f"domain d [{entities('d', 256)}].\ninput e(d, d).\nsimple on(d, d) [true].\n" + "initiatedAt(on(X, Y)=true) :- happensAt(e(X, Y)).\nterminatedAt(on(X, Y)=true) :- happensAt(e(Y, X)).\n" * 2)
for name in ["pairs", "units"]:
    show(name, os.path.getsize(name), timed(program, "ground", name), 0)

print("scripts of 1,000,000 records (read to their end, and not run, for the seals at their end)")
lamp = head + "input up.\ninput down.\nsimple on [true].\ninitiatedAt(on=true) :- happensAt(up).\n"
fleet = head + f"domain vessel [{entities('v', 200)}].\ndomain area [{entities('a', 5)}].\ninput enters(vessel, area).\ninput leaves(vessel, area).\nsimple within(vessel, area) [true].\ninitiatedAt(within(X, A)=true) :- happensAt(enters(X, A)).\n"
crowd = head + f"domain d [{entities('d', 4096)}].\ninput e(d).\nsimple on [true].\ninitiatedAt(on=true) :- happensAt(e(X)).\n"
count = 1000000
texts = {
    "lamp": (lamp, lambda: random.choice(["up", "down"])),
    "fleet": (fleet, lambda: f"{random.choice(['enters', 'leaves'])},v{random.randint(1, 200)},a{random.randint(1, 5)}"),
    "crowd": (crowd, lambda: f"e,d{random.randint(1, 4096)}"),
    "unknown": (lamp, lambda: "sideways"),
}
for name, (description, atom) in texts.items():
    write("desc", description)
    write("script", "".join(f"add,{random.randint(1, 8)},{random.randint(1, 1000000)},{atom()}\n" for _ in range(count)) + "seal\n" * 1025)
    took = show(name, os.path.getsize("script"), timed(program, "recognise", "desc", "script"), 5)
    lines = timed("wc", "-l", "script")[0]
    ordered = timed("sort", "script")[0]
    print(f"{'':36s} {count / took / 1000:.2f} million records a second; {took / lines:.1f} times `wc -l`, {took / ordered:.2f} times `sort`")

print("large and odd scripts")
write("desc", lamp)
cases = [
    ("67,108,865 bytes", 5, b"\n" * 67108865),
    ("67,108,864 bytes of empty lines", 0, b"\n" * 67108864),
    ("2,097,152 seals", 5, b"seal\n" * 2097152),
    ("2,097,153 records", 5, b"seal\n" * 2097153),
    ("2,097,153 records, the last bad", 5, b"seal\n" * 2097152 + b"bad\n"),
    ("a record of a million fields", 0, b"add,1,3,up" + b",x" * 1000000 + b"\nseal\n"),
    ("a field of 64 MB", 4, b"x" * 64000000),
    ("a quote that never closes", 0, b"add,1,3,\"up\nseal\n" + b"add,1,3,up\n" * 1000000),
    ("NUL bytes", 4, b"\0" * 1000000),
    ("not UTF-8", 4, bytes(range(128, 256)) * 10000),
    ("carriage returns alone", 5, b"\r" * 1000000 + b"seal\rseal"),
]
for name, wanted, text in cases:
    write("script", text)
    show(name, len(text), timed(program, "recognise", "desc", "script"), wanted)
sys.exit(1 if failed else 0)
PYTHON
