#!/usr/bin/env python3
"""Compares how fast a node answers with a million settled pairs and with a hundred, and prints the ratio.

usage: node.py [--quick]     --quick uses ten thousand pairs instead of a million

Both nodes first answer about the same hundred pairs, which shows the cost of more pairs. Then the larger node answers about all of its pairs in turn, which
shows the cost of fetching them from memory. Times are wall times, the fastest of five runs, without the time to settle the pairs.
"""
import sys

from building import build, seconds

TURNS = 1_000_000


def rate(program, pairs, among):
    """Answers per second: each turn has two, one to an ask and one to a get."""
    took = seconds(program, "node", str(pairs), str(TURNS), str(among)) - seconds(program, "node", str(pairs), "0", "1")
    return 2 * TURNS / max(1e-9, took)


def main():
    many = 10_000 if "--quick" in sys.argv else 1_000_000
    program = build()
    few = rate(program, 100, 100)
    print("| settled pairs | answers about | answers/s | ratio |")
    print("|---|---|---|---|")
    print(f"| 100 | 100 | {few:,.0f} | 1.00 |")
    for among in (100, many):
        found = rate(program, many, among)
        print(f"| {many:,} | {among:,} | {found:,.0f} | {found / few:.2f} |")


if __name__ == "__main__":
    main()
