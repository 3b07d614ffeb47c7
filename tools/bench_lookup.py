#!/usr/bin/env python3
"""Times look-ups of names: nanoseconds for one, on average over all names of a table, from two runs of the program."""
import pathlib
import subprocess
import sys
import time

program = pathlib.Path(__file__).resolve().parent.parent / "crates" / "names_cases" / "out" / "names_cases"


def seconds(names, each, rounds):
    best = None
    for _ in range(3):
        start = time.perf_counter()
        subprocess.run([program, str(names), str(each), str(rounds)], check=True, stdout=subprocess.DEVNULL)
        taken = time.perf_counter() - start
        best = taken if best is None else min(best, taken)
    return best


def main():
    if not program.exists():
        sys.exit("run 'rt run -- 1 0 1' in crates/names_cases first")
    print("names  in each scope  nanoseconds")
    for names, each in [(1, 0), (8, 0), (8, 4), (32, 0), (32, 4), (128, 4), (1024, 0), (1024, 4)]:
        rounds = 20_000_000 // names // max(1, names // 8)
        taken = seconds(names, each, rounds) - seconds(names, each, 0)
        print(f"{names:5}  {each or 'all':>13}  {taken / rounds / names * 1e9:11.1f}")


main()
