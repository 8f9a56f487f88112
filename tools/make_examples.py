#!/usr/bin/env python3
"""Writes the tables under examples/, each with a short text beside it, and the orders that are checked against them."""
import os
import random

from finds import table

ROOT = os.path.join(os.path.dirname(__file__), '..', 'examples')
EXAMPLES = [
    ('free', 3, [], 'Three graves and no kinds: all 6 orders fit, {0 1 2}.'),
    ('chain', 4, [[0, 1], [1, 2]], 'Four graves: kind 0 in 0 1, kind 1 in 1 2. Grave 3 is tied to nothing: {3 [0 1 2]}, 4 orders.'),
    ('steps', 5, [[0, 1, 2], [2, 3], [3, 4]], 'Five graves: kind 0 in 0 1 2, kind 1 in 2 3, kind 2 in 3 4. [{0 1} 2 3 4], 4 orders.'),
    ('triangle', 3, [[0, 1], [1, 2], [0, 2]], 'Three graves, a kind in each two of them: no order fits. A ring that shows it: 0-1 1-2 2-0.'),
    ('two-groups', 6, [[0, 1], [2, 3], [1, 2, 3], [4, 5]], 'Six graves in two groups: kind 0 in 0 1, kind 1 in 2 3, kind 2 in 1 2 3, kind 3 in 4 5. {[0 1 {2 3}] {4 5}}, 16 orders.'),
    ('star', 4, [[0, 1], [0, 2], [0, 3]], 'Four graves, a kind in grave 0 and each other one: no order fits, since 0 cannot lie next to three graves.'),
    ('overlap', 6, [[0, 1, 2, 3], [2, 3, 4], [0, 5]], 'Six graves: kind 0 in 0 1 2 3, kind 1 in 2 3 4, kind 2 in 0 5. [4 {2 3} 1 0 5], 4 orders.'),
    ('single', 1, [[0]], 'One grave with one kind: the tree is the grave itself, 0, and there is one order.'),
    ('twenty', 20, [], 'Twenty graves and no kinds: 2432902008176640000 orders; 21 graves have more than 2^64.'),
    ('many', 24, [[5], [7]], 'Twenty-four graves, and two kinds that lie in one grave each and so tie nothing: 2^64 orders or more, many.'),
]


def write(name, data):
    with open(os.path.join(ROOT, name), 'wb') as f:
        f.write(data)


os.makedirs(ROOT, exist_ok=True)
for name, n, kinds, text in EXAMPLES:
    write(name + '.table', table(n, kinds))
    write(name + '.txt', (text + '\n').encode())

# a larger burial ground: 24 graves in a hidden order, and 20 kinds that lie in a stretch of it each
rng = random.Random(24)
order = list(range(24))
rng.shuffle(order)
kinds = []
while len(kinds) < 20:
    length = rng.choice((2, 2, 3, 4, 5, 7, 9))
    first = rng.randrange(24 - length + 1)
    kind = sorted(order[first:first + length])
    if kind not in kinds:
        kinds.append(kind)
write('burial-ground.table', table(24, kinds))
text = 'Twenty-four graves and 20 kinds, each in a stretch of the order ' + ' '.join(map(str, order)) + ', which therefore fits:\n'
text += ''.join('kind %d in %s\n' % (i, ' '.join(map(str, kind))) for i, kind in enumerate(kinds))
write('burial-ground.txt', text.encode())
write('burial-ground.order', bytes(order))
write('steps.order', bytes([1, 0, 2, 3, 4]))
write('triangle.ring', bytes([0, 1, 1, 2, 2, 0]))
