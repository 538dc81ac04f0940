#!/bin/sh
# Runs the whole gate and tells what it costs: for each crate its lines of code and of proof, and the processor seconds of its
# proof, its tests and its must-fail edits. It is no part of the gate; the gate's own lines go to the file that is named, or to
# gate.log.
#
#     tools/gate.sh [FILE]
#
# The kit's prover is looked at four times a second, so each of its processes is told up to a quarter of a second short; the sum
# at the end is the operating system's own.
cd "$(dirname "$0")/.." || exit 1
exec python3 - "${1:-gate.log}" <<'END'
import os
import re
import resource
import subprocess
import sys
import time

TICKS = os.sysconf("SC_CLK_TCK")
ROOT = os.getcwd()
# what the gate started is known by this word in its environment
os.environ["MEASURED_GATE"] = str(os.getpid())
MARK = f"MEASURED_GATE={os.getpid()}\0".encode()


def prover(pid):
    """What a process of the prover works on and its processor seconds, or None for any other process."""
    try:
        words = open(f"/proc/{pid}/cmdline", "rb").read().decode(errors="replace").split("\0")
        if os.path.basename(words[0]) != "rattle" or "--crate-name" not in words:
            return None
        if MARK not in open(f"/proc/{pid}/environ", "rb").read():
            return None
        fields = open(f"/proc/{pid}/stat").read().rpartition(")")[2].split()
        within = os.readlink(f"/proc/{pid}/cwd").startswith(ROOT)
    except OSError:
        return None
    kind = "edits" if not within else "tests" if "--test" in words else "proof"
    return (words[words.index("--crate-name") + 1], kind), (int(fields[11]) + int(fields[12])) / TICKS


def lines(crate, ends):
    count = 0
    for folder, _, files in os.walk(f"crates/{crate}"):
        if "/out" not in folder:
            count += sum(len(open(f"{folder}/{it}", errors="replace").readlines()) for it in files if it.endswith(ends))
    return count


spent, began = {}, time.time()
with open(sys.argv[1], "w") as log:
    gate = subprocess.Popen(["rt", "ci"], stdout=log, stderr=subprocess.STDOUT)
    while gate.poll() is None:
        for pid in filter(str.isdigit, os.listdir("/proc")):
            found = prover(pid)
            if found:
                spent[found[0], pid] = found[1]
        time.sleep(0.25)
used = resource.getrusage(resource.RUSAGE_CHILDREN)

names = [it.split(":")[0].split()[0] for it in open("crates.txt") if re.match(r"\w", it)]
kinds = ("proof", "tests", "edits")
table = {(name, kind): 0.0 for name in names for kind in kinds}
for (key, _), seconds in spent.items():
    table[key] = table.get(key, 0.0) + seconds
print(f"| {'crate':<15} | code | proof lines | proof | tests | edits |\n|---|---|---|---|---|---|")
for name in names:
    row = [f"{table[name, kind]:.0f}" for kind in kinds]
    print(f"| {name:<15} | {lines(name, '.rt')} | {lines(name, '.antt')} | {' | '.join(row)} |")
sums = [f"{sum(table[name, kind] for name in names) / 60:.1f} min" for kind in kinds]
print(f"| {'all':<15} | {sum(lines(it, '.rt') for it in names)} | {sum(lines(it, '.antt') for it in names)} | {' | '.join(sums)} |")
print(f"{(used.ru_utime + used.ru_stime) / 60:.1f} processor minutes in {(time.time() - began) / 60:.1f} minutes")
print(open(sys.argv[1]).read().splitlines()[-1])
sys.exit(gate.returncode)
END
