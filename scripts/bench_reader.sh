#!/bin/sh
# Reads one large generated sheet with ntcheck and with serdi (Debian package serdi), in turn, five times each, and
# prints the best time of each, megabytes a second, and their ratio. The sheet is read once before, so that both find it
# in the file cache; nothing else is cleared or kept warm. Both run as whole processes.
# serdi also writes what it read, to /dev/null: it has no run that only reads.
set -eu
cd "$(dirname "$0")/.."
sheet=$(mktemp)
trap 'rm -f "$sheet"' EXIT
python3 - "$sheet" <<'PY'
import random, sys
rng = random.Random(7)
with open(sys.argv[1], "w") as f:
    for i in range(700000):
        s = f"<http://halls.example/card{rng.randrange(100000)}>"
        p = f"<http://halls.example/{rng.choice(['opens', 'holder', 'note', 'shelf'])}>"
        o = rng.choice([f"<http://halls.example/hall{rng.randrange(6)}>", f'"note {i} of the \\"front\\" desk"@en', f'"{i}"^^<http://www.w3.org/2001/XMLSchema#integer>', f"_:b{rng.randrange(1000)}"])
        f.write(f"{s} {p} {o} .\n")
        if i % 1000 == 0:
            f.write("# a page of the sheet\n\n")
PY
cat "$sheet" >/dev/null
python3 - "$sheet" <<'PY'
import os, subprocess, sys, time
size = os.path.getsize(sys.argv[1]) / 1e6
best = {}
for _ in range(5):
    for name, command in (("ntcheck", ["crates/ntcheck/out/ntcheck"]), ("serdi", ["serdi", "-i", "ntriples", "-o", "ntriples", sys.argv[1]])):
        with open(sys.argv[1], "rb") as f:
            start = time.perf_counter()
            subprocess.run(command, stdin=f, stdout=subprocess.DEVNULL, check=True)
            best[name] = min(best.get(name, 1e9), time.perf_counter() - start)
for name, seconds in best.items():
    print(f"{name}: {size:.1f} MB in {seconds:.3f} s, {size / seconds:.0f} MB/s")
print(f"ratio of speeds, ntcheck to serdi: {best['serdi'] / best['ntcheck']:.2f}")
PY
