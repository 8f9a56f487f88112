"""Cases of trees, `kinds`: tables, and how many orders fit after each kind, by a search through all orders."""
import random

from finds import WORKED, fitting, hexed, small_tables, table


def larger_tables():
    """Stretches of a hidden order, with now and then a grave more, and random kinds."""
    rng = random.Random(11)
    for n in (4, 5, 5, 5, 6, 6):
        for _ in range(12):
            order = list(range(n))
            rng.shuffle(order)
            kinds = []
            for _ in range(rng.randrange(2, 6)):
                a, b = sorted(rng.sample(range(n + 1), 2))
                kind = set(order[a:b])
                if rng.random() < 0.15:
                    kind.add(rng.randrange(n))
                kinds.append(sorted(kind))
            yield n, kinds
        for _ in range(6):
            yield n, [[g for g in range(n) if rng.random() < 0.5] for _ in range(3)]


def answer(n, kinds):
    """For each number of first kinds the number of orders that fit, or none and the kind at which there was none."""
    out, dead = [], None
    for j in range(len(kinds) + 1):
        count = len(fitting(n, kinds[:j]))
        if not count and dead is None:
            dead = j - 1
        out.append(str(count) if count else 'none %d' % dead)
    return ' '.join(out)


def cases():
    for n, kinds in WORKED + small_tables() + list(larger_tables()):
        yield 'kinds ' + hexed(table(n, kinds)), answer(n, kinds)
