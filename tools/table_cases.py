"""Cases of the reader of tables, `table` and `lent`, and of the checker of orders, `order`."""
import random

from finds import WORKED, check_order, hexed, needs, read, table


def told(answer):
    taken, refusal = answer
    return 'refused %d at %d' % refusal if refusal else 'taken %d %d' % (taken[0], len(taken[1]))


def case_table(data):
    return 'table ' + hexed(data), told(read(data))


def case_lent(data, lent):
    return 'lent %d %d %d %d ' % lent + hexed(data), told(read(data, lent))


def case_order(data, order):
    order = list(order)
    return 'order %s %s' % (hexed(data), hexed(order)), check_order(data, order)


def missing_graves():
    """A table with two kinds of which each has a grave that is not there."""
    data = bytearray(table(5, [[0], [1], [2]]))
    data[2 + 8 + 1] = 1
    data[2 + 16 + 1] = 1
    return bytes(data)


def bounds():
    """Files: each bound, and lengths one off."""
    for data in [b'', b'\x00', b'\x05', b'\x41', b'\x05\x81', b'\x00\x81', b'\x41\x81', b'\x05\x80', b'\x05\x00', b'\x05\x00\x00', b'\x00\x00', b'\xff\xff']:
        yield case_table(data)
    for n in (0, 1, 24, 25, 64, 65):
        for m in (0, 1, 40, 41, 128, 129):
            whole = bytes([n, m]) + bytes(8 * m)
            for data in (whole, whole[:-1], whole + b'\x00'):
                yield case_table(data)
            yield case_lent(whole, (47, 40, 576, 1104))


def unknown_graves():
    """Graves that are not there: at n and at 63, in the first, a middle and the last kind, and behind an earlier refusal."""
    for n in (1, 5, 24, 63, 64):
        for at in (0, 3, 6):
            for bit in (n - 1, n, 63):
                data = bytearray(table(n, [[0]] * 7))
                if bit < 64:
                    data[2 + 8 * at + bit // 8] |= 1 << bit % 8
                yield case_table(data)
                yield case_table(data[:-1])
                yield case_lent(data, (0, 0, 0, 0))
    yield case_table(missing_graves())


def memory():
    """Memory: just enough, and one short, for each that is lent, and all of them short."""
    for n, m in ((1, 0), (2, 1), (5, 3), (24, 40), (64, 128)):
        data = table(n, [[0]] * m)
        enough = needs(n, m)
        yield case_lent(data, enough)
        for i in range(4):
            if enough[i]:
                short = list(enough)
                short[i] -= 1
                yield case_lent(data, tuple(short))
                yield case_lent(data, tuple(short[:i] + [short[i]] + [0] * (3 - i)))


def orders():
    """Orders: each refusal, then fitting and torn ones."""
    rng = random.Random(7)
    for n, kinds in WORKED:
        data = table(n, kinds)
        yield case_order(data, range(n))
        yield case_order(data, reversed(range(n)))
        yield case_order(data, range(n - 1))
        yield case_order(data, list(range(n)) + [0])
        yield case_order(data, [])
        for p in range(n):
            order = list(range(n))
            order[p] = n
            yield case_order(data, order)
            order[p] = 0 if p else 1
            yield case_order(data, order)
            order[p] = 255
            yield case_order(data, order)
        for _ in range(8):
            order = list(range(n))
            rng.shuffle(order)
            yield case_order(data, order)
    yield case_order(b'\x05', [0])
    yield case_order(missing_graves(), range(5))
    yield case_order(missing_graves(), [])
    for n in (24, 64):
        for _ in range(6):
            order = list(range(n))
            rng.shuffle(order)
            kinds = []
            for _ in range(20):
                a, b = sorted(rng.sample(range(n + 1), 2))
                kinds.append(order[a:b])
            yield case_order(table(n, kinds), order)
            yield case_order(table(n, kinds), order[::-1])
            i, j = rng.sample(range(n), 2)
            order[i], order[j] = order[j], order[i]
            yield case_order(table(n, kinds), order)


def cases():
    for part in (bounds, unknown_graves, memory, orders):
        yield from part()
