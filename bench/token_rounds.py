#!/usr/bin/env python3
"""Times a round of leases and a round of tokens against their plain counterparts, in one run.

Usage: bench/token_rounds.py [ROUNDS], from anywhere. It needs `rt` and `rustc`, builds both programs, and prints
nanoseconds of processor time a round: the best of five runs, less the time of a run without rounds. Processor time, since
other work on the machine would only show in the time on the clock.
"""
import os
import resource
import subprocess
import sys
import tempfile

HERE = os.path.dirname(os.path.abspath(__file__))
CRATE = os.path.join(os.path.dirname(HERE), "crates", "token_rounds")


def used():
    children = resource.getrusage(resource.RUSAGE_CHILDREN)
    return children.ru_utime + children.ru_stime


def seconds(program, kind, rounds):
    before = used()
    subprocess.run([program], input=f"{kind} {rounds}\n", text=True, check=True, stdout=subprocess.DEVNULL)
    return used() - before


def nanoseconds(program, kind, rounds):
    empty = min(seconds(program, kind, 0) for _ in range(5))
    full = min(seconds(program, kind, rounds) for _ in range(5))
    return (full - empty) / rounds * 1e9


def main():
    rounds = int(sys.argv[1]) if len(sys.argv) > 1 else 5_000_000
    with open(os.path.join(CRATE, "stdin")) as given:
        subprocess.run(["rt", "run"], cwd=CRATE, stdin=given, check=True, stdout=subprocess.DEVNULL, stderr=subprocess.DEVNULL)
    ours = os.path.join(CRATE, "out", "token_rounds")
    with tempfile.TemporaryDirectory() as room:
        plain = os.path.join(room, "plain")
        subprocess.run(["rustc", "-O", "-o", plain, os.path.join(HERE, "token_rounds.rs")], check=True)
        lease = nanoseconds(ours, "lease", rounds)
        atomic = nanoseconds(plain, "atomic", rounds)
        token = nanoseconds(ours, "token", rounds)
        mutex = nanoseconds(plain, "mutex", rounds)
    print(f"lend, begin, end, spend {lease:8.1f} ns   fetch_add {atomic:8.1f} ns   ratio {lease / atomic:5.1f}")
    print(f"take, give              {token:8.1f} ns   mutex, Vec {mutex:7.1f} ns   ratio {token / mutex:5.1f}")


if __name__ == "__main__":
    main()
