#!/usr/bin/env python3
"""Writes tables for the benchmark, one behind the other: make_bench_tables.py DIRECTORY [COUNT]."""
import os
import random
import sys

from finds import table


def stretches(rng, n, m):
    """Kinds in stretches of a hidden order: some order fits."""
    order = list(range(n))
    rng.shuffle(order)
    kinds = []
    for _ in range(m):
        length = rng.randrange(2, max(3, n // 3))
        first = rng.randrange(n - length + 1)
        kinds.append(order[first:first + length])
    return kinds


def scattered(rng, n, m):
    """Random kinds: no order fits, as a rule early on."""
    return [[g for g in range(n) if rng.random() < 0.3] for _ in range(m)]


def one_off(rng, n, m):
    """Stretches, and a last kind that ties the ends of the hidden order together with its middle: no order fits, late."""
    kinds = stretches(rng, n, m - 1)
    return kinds + [rng.sample(range(n), n // 2)]


def main():
    folder, count = sys.argv[1], int(sys.argv[2]) if len(sys.argv) > 2 else 200
    os.makedirs(folder, exist_ok=True)
    for n, m in ((24, 40), (64, 128)):
        for name, make in (('stretches', stretches), ('scattered', scattered), ('one-off', one_off)):
            rng = random.Random(n)
            with open(os.path.join(folder, '%s-%d-%d.tables' % (name, n, m)), 'wb') as f:
                for _ in range(count):
                    f.write(table(n, make(rng, n, m)))


if __name__ == '__main__':
    main()
