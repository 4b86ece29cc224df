#!/usr/bin/env python3
"""Times the command on the largest jobs of the sheet, 64 hosts and blocks of 4096 elements: share, every host's multiply, decode.

    bench/command.py MUKERIHE [FOLDER ..]    MUKERIHE is the built command; each FOLDER is a place for files, as one in memory and one
                                             on a disk; without them, /dev/shm and target

Of each command it prints the median and the slowest of all runs in milliseconds, whole processes with their files and syncs, and the
most memory that a run took. It needs GNU time (Debian's package of that name).
"""
import random
import statistics
import subprocess
import sys
import tempfile
import time
from pathlib import Path

ROOT = Path(__file__).resolve().parent.parent
RUNS = 7

# Sizes, cuts and groups: K is 63, 64 and 50. All 64 hosts answer; counts are 0..2.
JOBS = [
    ("448 448 64", "7 7 1", "1 1"),
    ("256 256 192", "4 4 3", "1 1"),
    ("128 256 192", "2 4 3", "5 5"),
]
PRIMES = [257, 65537, 2147483647]
MOST_COUNT = 2


def run(words):
    """Runs a command: its seconds and the most memory that it took, in KB, as GNU time tells it after all else."""
    began = time.perf_counter()
    ran = subprocess.run(["time", "-f", "%M", *words], stdout=subprocess.DEVNULL, stderr=subprocess.PIPE, text=True)
    took = time.perf_counter() - began
    if ran.returncode != 0:
        sys.exit(f"{' '.join(map(str, words))}:\n{ran.stderr}")
    return took, int(ran.stderr.split()[-1])


def table(path, rows, columns):
    """Writes a table of random counts."""
    lines = ("\t".join(str(random.randint(0, MOST_COUNT)) for _ in range(columns)) for _ in range(rows))
    path.write_text("\n".join(lines) + "\n")


def told(what, runs):
    """Prints the figures of some runs."""
    times = [1000 * seconds for seconds, _ in runs]
    memory = max(kilobytes for _, kilobytes in runs) / 1024
    print(f"    {what:9} {statistics.median(times):8.1f} ms, slowest {max(times):8.1f} ms, {memory:5.1f} MB")


def timed(mukerihe, place, prime, sizes, cuts, groups):
    """Times one job with its files in a place."""
    t, s, r = map(int, sizes.split())
    with tempfile.TemporaryDirectory(dir=place) as folder:
        room = Path(folder)
        (room / "job").write_text(f"prime = {prime}\nsizes = {sizes}\ncuts = {cuts}\ngroups = {groups}\nhosts = 64\n")
        table(room / "a", t, s)
        table(room / "b", s, r)
        shares, products, decodings = [], [], []
        for i in range(RUNS):
            shared = room / f"shared{i}"
            shares.append(run([mukerihe, "share", "--wrap", room / "job", room / "a", room / "b", shared]))
            answers = []
            for host in sorted((shared / "send").iterdir()):
                answers.append(host / "answer.mdo")
                products.append(run([mukerihe, "multiply", *sorted(host.glob("*.mdo")), answers[-1]]))
            decodings.append(run([mukerihe, "decode", shared, room / f"table{i}", *answers]))
        told("share", shares)
        told("multiply", products)
        told("decode", decodings)


def main():
    if len(sys.argv) < 2:
        sys.exit(__doc__)
    mukerihe = Path(sys.argv[1]).resolve()
    random.seed(20)
    for place in sys.argv[2:] or ["/dev/shm", str(ROOT / "target")]:
        for prime in PRIMES:
            for sizes, cuts, groups in JOBS:
                print(f"{place}, prime {prime}, sizes {sizes}, cuts {cuts}, groups {groups}")
                timed(mukerihe, place, prime, sizes, cuts, groups)


if __name__ == "__main__":
    main()
