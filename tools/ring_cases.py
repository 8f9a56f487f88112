"""Cases of the checker of rings, `ring`: rings whole and damaged; and of the whole call, `whole`: tables of which the answer is known."""
import random

from finds import WORKED, fitting, hexed, read, table


def clash(sets, p, q):
    """Whether two pairs clash, in either sense."""
    if p == (q[1], q[0]):
        return True
    for (a, b), (c, d) in ((p, q), (q, p)):
        if b == c and any(s >> a & 1 and s >> d & 1 and not s >> b & 1 for s in sets):
            return True
    return False


def check_ring(data, ring):
    """What checking a ring answers, as it is printed."""
    taken, refusal = read(data)
    if refusal:
        return 'refused %d at %d' % refusal
    n, sets = taken
    if len(ring) % 2 or len(ring) // 2 % 2 == 0:
        return 'refused 6 at %d' % len(ring)
    pairs = list(zip(ring[::2], ring[1::2]))
    for i, (a, b) in enumerate(pairs):
        if a == b or a >= n or b >= n:
            return 'refused 7 at %d' % i
    for i, p in enumerate(pairs):
        if not clash(sets, p, pairs[(i + 1) % len(pairs)]):
            return 'no clash at %d' % i
    return 'ground'


def find_ring(data):
    """An odd ring of clashing pairs, by a search of its own (depth first), or None."""
    n, sets = read(data)[0]
    pairs = [(a, b) for a in range(n) for b in range(n) if a != b]
    colour, parent = {}, {}
    for seed in pairs:
        if seed in colour:
            continue
        colour[seed], parent[seed], stack = 0, None, [seed]
        while stack:
            p = stack.pop()
            for q in pairs:
                if not clash(sets, p, q):
                    continue
                if q not in colour:
                    colour[q], parent[q] = 1 - colour[p], p
                    stack.append(q)
                elif colour[q] == colour[p]:
                    def up(x):
                        way = []
                        while x is not None:
                            way.append(x)
                            x = parent[x]
                        return way
                    left, right = up(p), up(q)
                    while len(left) > 1 and len(right) > 1 and left[-2] == right[-2]:
                        left.pop()
                        right.pop()
                    return left + right[-2::-1]
    return None


def case_ring(data, ring):
    ring = bytes(ring)
    return 'ring %s %s' % (hexed(data), hexed(ring)), check_ring(data, ring)


def case_whole(data, answer):
    return 'whole ' + hexed(data), answer


def case_searched(n, kinds):
    return case_whole(table(n, kinds), 'tree' if fitting(n, kinds) else 'ground')


def flat(pairs):
    return bytes(g for pair in pairs for g in pair)


def cycle(n):
    """A kind in each two neighbours of a circle: no order fits, and its rings are long."""
    return table(n, [[i, (i + 1) % n] for i in range(n)])


def worked():
    triangle = bytes([0, 1, 1, 2, 2, 0])
    for n, kinds in WORKED:
        data = table(n, kinds)
        yield case_ring(data, triangle)
        yield case_ring(data, [])
        yield case_ring(data, [0])
        yield case_ring(data, [0, 1])
        yield case_ring(data, [0, 1, 1, 0])
        yield case_ring(data, triangle[:-1])
        yield case_ring(data, triangle[:-2])
        yield case_ring(data, [0, 1, 1, 1, 2, 0])
        yield case_ring(data, [0, 1, 1, n, 2, 0])
        yield case_ring(data, [n, 1, 1, 0, 2, 0])
        yield case_searched(n, kinds)
    yield case_ring(b'', triangle)
    yield case_ring(b'\x05', triangle)


def damaged(rng):
    """Rings whole, turned, and damaged at each place."""
    for data in (table(*WORKED[3]), table(*WORKED[5]), cycle(5), cycle(24)):
        ring = flat(find_ring(data))
        yield case_ring(data, ring)
        yield case_ring(data, ring[2:] + ring[:2])
        yield case_ring(data, ring[:-2])
        yield case_ring(data, ring[:-4])
        yield case_ring(data, ring + ring)
        for i in range(len(ring)):
            for other in (data[0], rng.randrange(data[0])):
                wrong = bytearray(ring)
                wrong[i] = other
                yield case_ring(data, wrong)


def wholes(rng):
    """The whole call: circles, large ones too, and small tables against a search through all orders."""
    for n in (3, 4, 5, 24, 63, 64):
        yield case_whole(cycle(n), 'ground')
    yield case_whole(table(64, [[i, i + 1] for i in range(63)]), 'tree')
    yield case_whole(table(64, []), 'tree')
    for n in (4, 5, 6):
        for _ in range(25):
            yield case_searched(n, [[g for g in range(n) if rng.random() < 0.5] for _ in range(rng.randrange(2, 5))])


def cases():
    rng = random.Random(5)
    yield from worked()
    yield from damaged(rng)
    yield from wholes(rng)
