"""Instructions for a call, by callgrind: the same tables as the times, from counts that do not depend on the machine's load.

    instructions.py BENCH FOLDER

BENCH is the program ultra_bench. It makes a call some times in a function of its own, and callgrind counts what happens in
there, with everything called from it. The profiles stay in FOLDER, for callgrind_annotate.
"""

import os
import re
import subprocess
import sys
from concurrent.futures import ThreadPoolExecutor
from pathlib import Path

MEASURED = "ultra_bench_measured"
# Callgrind counts a rep movsb once for each byte, which says nothing of its cost: let the C library copy by vectors instead.
TUNABLES = "glibc.cpu.x86_rep_movsb_threshold=16777216:glibc.cpu.x86_rep_stosb_threshold=16777216"
# The first calls bind symbols of the C library and warm its heap: they are left out.
FEW, MORE = 2, 12

HEADERS = {
    4: "| input | library | Rust | bare walk | using walk | library / Rust | goal 1.00 | library / bare | library / using |",
    3: "| input | library | Rust | unchecked C | library / Rust | goal 1.00 | library / unchecked |",
    2: "| input | library | Rust | library / Rust | goal 1.00 |",
}


def count(bench, folder, call, source, who):
    """Instructions of one call: what more calls take than few, shared among those between."""
    few, more = (total(bench, folder, call, source, who, times) for times in (FEW, MORE))
    return (more - few) / (MORE - FEW)


def total(bench, folder, call, source, who, times):
    profile = folder / f"{call}.{source}.{who}.{times}"
    command = [
        os.environ.get("VALGRIND", "valgrind"),
        "--tool=callgrind",
        f"--toggle-collect={MEASURED}",
        f"--callgrind-out-file={profile}",
        str(bench), "--once", who, call, source, str(times),
    ]
    environment = {**os.environ, "GLIBC_TUNABLES": TUNABLES}
    run = subprocess.run(command, capture_output=True, text=True, check=False, env=environment)
    collected = re.search(r"Collected *: *(\d+)", run.stderr)
    if run.returncode != 0 or collected is None or int(collected[1]) == 0:
        sys.exit(f"callgrind failed on {who} {call} {source}:\n{run.stderr}")
    return int(collected[1])


def main():
    if len(sys.argv) != 3:
        sys.exit(__doc__)
    bench, folder = Path(sys.argv[1]).resolve(), Path(sys.argv[2])
    folder.mkdir(parents=True, exist_ok=True)
    listed = subprocess.run([str(bench), "--list"], capture_output=True, text=True, check=True).stdout
    tables = {}
    with ThreadPoolExecutor(os.cpu_count()) as pool:
        for line in listed.splitlines():
            call, title, source, described, goal, who = line.split("\t")
            counted = pool.submit(count, bench, folder, call, source, who)
            tables.setdefault(title, {}).setdefault((described, goal), []).append(counted)
        for title, rows in tables.items():
            print(f"\n{title}: instructions\n")
            for place, ((described, goal), counted) in enumerate(rows.items()):
                counts = [one.result() for one in counted]
                if place == 0:
                    header = HEADERS[len(counts)]
                    print(header + "\n" + "|---" * (header.count("|") - 1) + "|")
                print(row(described, goal, counts), flush=True)


def row(described, goal, counts):
    ratios = [counts[0] / other for other in counts[1:]]
    verdict = "PASS" if ratios[0] <= 1 else "MISS"
    cells = [described, *(f"{one:,.0f}" for one in counts), f"{ratios[0]:.2f}", verdict, *(f"{one:.2f}" for one in ratios[1:])]
    return "| " + " | ".join(cells) + " |"


if __name__ == "__main__":
    main()
