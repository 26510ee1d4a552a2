#!/usr/bin/env python3
"""compare.py DRIVER CONSOLE FIRST COUNT NCALLS [--jobs N] [--stats]: generated scripts, answered by both programs.

Each of the scripts of gen.py with the seeds FIRST to FIRST + COUNT - 1 goes to the driver and to the console; the first
difference of each script is printed. Without the lines that the driver answers with `outside 0`, the whole answers and
the dumps at the end have to be equal, but that `outside N VALUES` of the driver is `refused N VALUES` of the console,
that an error's wording is free, and that clauses of equal content are one. Exit status 0 where all agree.
"""
import argparse
import collections
import time
from concurrent.futures import ThreadPoolExecutor

import gen
import scripts


def compared(args, seed):
    lines = [line.encode() for line in gen.script(seed, args.ncalls)]
    done = scripts.Compared(args.driver, args.console, lines)
    return seed, done.calls, done.difference(), done.stats


def print_stats(total):
    """What the driver answered, by kind of call."""
    table = collections.defaultdict(list)
    for what, count in sorted(total.items()):
        kind, _, end = what.partition(": ")
        table[kind].append(f"{end} {count}")
    for kind, ends in sorted(table.items()):
        print(f"  {kind.strip()}: " + ", ".join(ends))


def main():
    parser = argparse.ArgumentParser(usage=__doc__)
    parser.add_argument("driver")
    parser.add_argument("console")
    for word in ("first", "count", "ncalls"):
        parser.add_argument(word, type=int)
    parser.add_argument("--jobs", type=int, default=1)
    parser.add_argument("--stats", action="store_true")
    args = parser.parse_args()
    start, calls, bad, total = time.time(), 0, 0, collections.Counter()
    with ThreadPoolExecutor(args.jobs) as pool:
        for seed, count, difference, stats in pool.map(lambda seed: compared(args, seed), range(args.first, args.first + args.count)):
            calls += count
            total.update({what: int(n) for what, n in stats.items()})
            if difference:
                bad += 1
                print(f"script {seed}: {difference}", flush=True)
    if args.stats:
        print_stats(total)
    print(f"generated: {args.count} scripts, {calls} calls, {bad} scripts differ, {time.time() - start:.0f} s")
    raise SystemExit(bad != 0)


if __name__ == "__main__":
    main()
