#!/usr/bin/env python3
"""Times sessions of the coordinator in worker lanes against plain threads over std's channels.

Usage: bench/lane_speed.py, from anywhere. It needs `rt` and `rustc`, and builds both programs, ours over a copy of the
crates that it stands on. Each session is run seven times, and the best is printed.
"""
import os
import shutil
import subprocess
import sys
import tempfile

HERE = os.path.dirname(os.path.abspath(__file__))
TOP = os.path.dirname(HERE)
RUNS = 7
UNITS = 65536
LANES = (1, 2, 4, 8)


def crates():
    """The crates that coord_run stands on, with their lines."""
    lines = {}
    with open(os.path.join(TOP, "crates.txt")) as listed:
        for line in listed:
            name, found, uses = line.strip().partition(":")
            if found and not name.startswith("#"):
                lines[name] = uses.split()
    wanted, todo = {}, ["coord_run"]
    while todo:
        name = todo.pop()
        if name in lines and name not in wanted:
            wanted[name] = lines[name]
            todo += lines[name]
    return wanted


def copied(room):
    """A copy of these crates with the program beside them."""
    wanted = crates()
    wanted["lane_speed"] = ["coord_run", "lar_bytes", "lease_table", "token_pool", "step_counter", "crossbeam_utils"]
    for name in wanted:
        for part in ("src", "specs", "proofs"):
            given = os.path.join(TOP, "crates", name, part)
            if os.path.isdir(given):
                shutil.copytree(given, os.path.join(room, "crates", name, part))
    crate = os.path.join(room, "crates", "lane_speed")
    os.makedirs(os.path.join(crate, "src"))
    shutil.copy(os.path.join(HERE, "lane_speed.main"), os.path.join(crate, "src", "main.rt"))
    shutil.copy(os.path.join(TOP, "HANDLES"), room)
    with open(os.path.join(room, "crates.txt"), "w") as listed:
        listed.writelines(f"{name}: {' '.join(uses)}\n" for name, uses in wanted.items())
    return crate


def built(room):
    """The program, proved and made."""
    crate = copied(room)
    subprocess.run(["rt", "run"], cwd=crate, input="1 1 0 0\n", text=True, check=True, stdout=sys.stderr)
    return os.path.join(crate, "out", "lane_speed")


def timed(program, lines):
    """For each line the best seconds on the clock and of the processor."""
    given = "".join(f"{line}\n" for line in lines) * RUNS
    done = subprocess.run([program], input=given, text=True, check=True, stdout=subprocess.PIPE)
    rows = [tuple(int(word) / 1e6 for word in line.split()[1:]) for line in done.stdout.splitlines()]
    return [tuple(min(row[k] for row in rows[i :: len(lines)]) for k in (0, 1)) for i in range(len(lines))]


def main():
    with tempfile.TemporaryDirectory() as room:
        plain = os.path.join(room, "plain")
        subprocess.run(["rustc", "-O", "-o", plain, os.path.join(HERE, "lane_speed.rs")], check=True)
        turns = 100_000
        turns = int(turns * 1e-3 / (timed(plain, [f"256 1 0 {turns}"])[0][1] / 256))
        lines = [f"{units} {lanes} {lanes - 1} 0" for lanes in LANES for units in (UNITS, 0)]
        lines += [f"256 1 0 {turns}", f"256 4 3 {turns}", f"1 1 0 {turns * 1000}", f"1 64 63 {turns * 1000}"]
        ours = timed(built(room), lines)
        std = timed(plain, lines)
    print("a unit costs, in microseconds of the processor (on the clock):")
    for i, lanes in enumerate(LANES):
        a, b = [[(full - none) / UNITS * 1e6 for full, none in zip(rows[2 * i], rows[2 * i + 1])] for rows in (ours, std)]
        print(f"  {lanes} lanes: ours {a[1]:6.2f} ({a[0]:6.2f})   std {b[1]:6.2f} ({b[0]:6.2f})")
    at = 2 * len(LANES)
    for name, rows in (("ours", ours), ("std ", std)):
        ideal = rows[at][0] / min(4, os.cpu_count())
        print(f"256 units of a millisecond, {name}: 1 lane {rows[at][0]:.3f} s, 4 lanes {rows[at + 1][0]:.3f} s, {rows[at + 1][0] / ideal:.2f} of the ideal")
    print(f"one unit of a second: {ours[at + 2][1]:.3f} s of the processor in 1 lane, {ours[at + 3][1]:.3f} s in 64")


if __name__ == "__main__":
    main()
