"""Tables of finds in Python, for making examples and test cases: an oracle written apart from the programs."""
import itertools

# the tables of the examples
WORKED = [
    (3, []),
    (4, [[0, 1], [1, 2]]),
    (5, [[0, 1, 2], [2, 3], [3, 4]]),
    (3, [[0, 1], [1, 2], [0, 2]]),
    (6, [[0, 1], [2, 3], [1, 2, 3], [4, 5]]),
    (4, [[0, 1], [0, 2], [0, 3]]),
    (6, [[0, 1, 2, 3], [2, 3, 4], [0, 5]]),
]


# how much memory is to be lent for n graves with m kinds
def needs(n, m):
    return (2 * n - 1, m, n * n, 2 * n * (n - 1))


def sets_of(kinds):
    """The kinds as sets in the bits of a number; each kind is a list of graves."""
    return [sum(1 << g for g in kind) for kind in kinds]


def table(n, kinds):
    """The bytes of a table's file; each kind is a list of graves."""
    out = bytearray([n, len(kinds)])
    for s in sets_of(kinds):
        out += s.to_bytes(8, 'little')
    return bytes(out)


def hexed(data):
    """The bytes as hexadecimal digits, as they stand in a case."""
    return bytes(data).hex() or '-'


def small_tables():
    """All tables of three graves and two kinds; one and two graves; kinds in one grave, in all or in none."""
    tables = []
    for a in range(8):
        for b in range(8):
            tables.append((3, [[g for g in range(3) if s >> g & 1] for s in (a, b)]))
    return tables + [(1, []), (1, [[0]]), (2, [[0], [1], []]), (2, [[0, 1]]), (4, [[], [2], [0, 1, 2, 3]])]


def read(data, lent=None):
    """The table that a file stands for, (n, sets), or the refusal, (number, place)."""
    if len(data) > 0 and not 1 <= data[0] <= 64:
        return None, (1, 0)
    if len(data) > 1 and data[1] > 128:
        return None, (2, 1)
    if len(data) < 2 or len(data) != 2 + 8 * data[1]:
        return None, (3, len(data))
    n, m = data[0], data[1]
    if lent is not None:
        cells, words, colours, rings = needs(n, m)
        if lent[0] < cells or lent[1] < words:
            return None, (8, 0)
        if lent[2] < colours:
            return None, (8, 1)
        if lent[3] < rings:
            return None, (8, 2)
    sets = [int.from_bytes(data[2 + 8 * i:10 + 8 * i], 'little') for i in range(m)]
    for i, s in enumerate(sets):
        if s >> n:
            return None, (4, i)
    return (n, sets), None


def torn(sets, order):
    """The first torn kind and the first grave by its place that lies between two of it, or None."""
    for i, s in enumerate(sets):
        places = [p for p, g in enumerate(order) if s >> g & 1]
        if places:
            for p in range(places[0], places[-1]):
                if not s >> order[p] & 1:
                    return i, order[p]
    return None


def fitting(n, kinds):
    """All orders that fit, by a search."""
    sets = sets_of(kinds)
    return [order for order in itertools.permutations(range(n)) if not torn(sets, order)]


def check_order(data, order):
    """What checking an order answers, as it is printed."""
    taken, refusal = read(data)
    if refusal:
        return 'refused %d at %d' % refusal
    n, sets = taken
    if len(order) != n:
        return 'refused 5 at %d' % len(order)
    for p, g in enumerate(order):
        if g >= n or g in order[:p]:
            return 'refused 5 at %d' % p
    bad = torn(sets, order)
    return 'torn %d at %d' % bad if bad else 'fits'
