"""Cases of what is printed: `answer`, for tables of up to seven graves and for refusals; `count`, large numbers of orders; and `text`, whole texts of small tables.

What is expected does not depend on how a tree is arranged: the number of orders and the graves that are certain to lie between others, by a search through all orders.
"""
import random
from math import factorial

from finds import WORKED, fitting, hexed, needs, read, small_tables, table

LENT = needs(24, 40)


def surely_between(orders, n):
    """The graves that lie between the same two others in all of the orders."""
    def between(a, b, c):
        return all((o.index(a) < o.index(b)) == (o.index(b) < o.index(c)) for o in orders)
    others = [[g for g in range(n) if g != b] for b in range(n)]
    return [b for b in range(n) if any(between(a, b, c) for a in others[b] for c in others[b] if a != c)]


def answer(data):
    taken, refusal = read(data, LENT)
    if refusal:
        return 'refused %d at %d' % refusal
    n, sets = taken
    orders = fitting(n, [[g for g in range(n) if s >> g & 1] for s in sets])
    if not orders:
        return 'no order'
    return ' '.join(['orders', str(len(orders)), 'certain'] + [str(b) for b in surely_between(orders, n)])


def case_answer(data):
    return 'answer ' + hexed(data), answer(data)


def case_count(n, kinds, orders):
    return 'count ' + hexed(table(n, kinds)), 'orders ' + (str(orders) if orders < 2 ** 64 else 'many')


def random_tables():
    """Stretches of a hidden order, with now and then a grave more; random kinds; and pieces of a circle, in which much is certain."""
    rng = random.Random(17)
    for n in (4, 5, 5, 6, 6, 6, 7):
        for _ in range(10):
            order = rng.sample(range(n), n)
            kinds = []
            for _ in range(rng.randrange(1, 7)):
                a, b = sorted(rng.sample(range(n + 1), 2))
                kinds.append(sorted(set(order[a:b] + rng.sample(range(n), rng.random() < 0.15))))
            yield n, kinds
        for _ in range(5):
            yield n, [[g for g in range(n) if rng.random() < 0.5] for _ in range(rng.randrange(3, 6))]
        for _ in range(3):
            order = rng.sample(range(n), n)
            kinds = [[order[i - 1], order[i]] for i in range(n)]
            yield n, rng.sample(kinds, rng.randrange(3, n + 1))


def refusals():
    """Each refusal that a table can get, and which of two comes first."""
    too_many_kinds = bytes([5, 129]) + bytes(8 * 129)
    for data in (b'', b'\x00', b'\x05', b'\x00\x00', b'\x41\x00', too_many_kinds, b'\x41' + too_many_kinds[1:]):
        yield case_answer(data)
    for data in (table(5, [[0, 1]])[:-1], table(5, [[0, 1]]) + b'\x00'):
        yield case_answer(data)
    for n, kinds in ((25, []), (64, []), (1, [[0]] * 41), (24, [[0, 1]] * 41), (24, [[0, 1]] * 128), (25, [[25]])):
        yield case_answer(table(n, kinds))
    for n, kinds in ((5, [[5]]), (5, [[0, 1], [4], [2, 63]]), (5, [[0, 1], [8], [5]]), (3, [[0, 1], [1, 2], [0, 2], [3]]), (24, [[0]] * 39 + [[24]])):
        yield case_answer(table(n, kinds))


def counts():
    """Large numbers of orders: without kinds, with one kind, and with a chain."""
    for n in (7, 13, 20, 21, 24):
        yield case_count(n, [], factorial(n))
    yield case_count(24, [[5], [7]], factorial(24))
    for k in (23, 16, 12, 8, 7):
        yield case_count(24, [list(range(k))], factorial(k) * factorial(24 - k + 1))
    for n in (7, 24):
        yield case_count(n, [[i, i + 1] for i in range(n - 1)], 2)


def texts():
    """Whole texts, written by hand: small tables, one grave, kinds in one grave, no kinds."""
    for n, kinds, lines in (
        (3, [], ['{0 1 2}', 'orders 6']),
        (4, [[0, 1], [1, 2]], ['{3 [0 1 2]}', 'orders 4', '1 between 0 and 2']),
        (5, [[0, 1, 2], [2, 3], [3, 4]], ['[{0 1} 2 3 4]', 'orders 4', '2 between 1 and 3', '3 between 2 and 4']),
        (6, [[0, 1], [2, 3], [1, 2, 3], [4, 5]], ['{[0 1 {2 3}] {4 5}}', 'orders 16', '1 between 0 and 2']),
        (6, [[0, 1, 2, 3], [2, 3, 4], [0, 5]],
         ['[4 {2 3} 1 0 5]', 'orders 4', '0 between 1 and 5', '1 between 3 and 0', '2 between 4 and 1', '3 between 4 and 1']),
        (1, [], ['0', 'orders 1']),
        (1, [[0]], ['0', 'orders 1']),
        (3, [[0], [2]], ['{0 1 2}', 'orders 6']),
    ):
        yield 'text ' + hexed(table(n, kinds)), '\n'.join(lines)


def cases():
    more = [(2, []), (2, [[0]]), (6, []), (6, [[g] for g in range(6)]), (6, [list(range(6))] * 40)]
    for n, kinds in WORKED + small_tables() + more + list(random_tables()):
        yield case_answer(table(n, kinds))
    yield from refusals()
    yield from counts()
    yield from texts()
