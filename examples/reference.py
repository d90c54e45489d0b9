#!/usr/bin/env python3
"""A naive reasoner, written apart from the proved one: prints what `settled` must print for a sound block file.

Usage: examples/reference.py FILE [ROWS]
It made crates/settled/stdout from the example file.
"""
import struct
import sys

KINDS = {  # start grade, key that sorts better grades first, join
    "T": (0, lambda g: g, lambda a, b: min(a + b, 4294967295)),
    "L": (0, lambda g: g, max),
    "O": (255, lambda g: -g, lambda a, b: a * b // 255),
}


def read(path):
    data = open(path, "rb").read()
    sizes = tuple(data[8:12])
    records = []
    for at in range(512, len(data), 512):
        for k in range(data[at + 5]):
            record = data[at + 8 + 12 * k:at + 20 + 12 * k]
            records.append((tuple(record[:6]), struct.unpack(">I", record[6:10])[0]))
    return chr(data[4]), sizes, records


def tautologies(S, C, R):
    return ({(1, s, 0, 0, 0, 0) for s in range(S)} | {(1, s, s, 0, 0, 0) for s in range(S)}
            | {(3, 0, 0, 0, c, c) for c in range(C)} | {(3, 0, 0, 0, c, 0) for c in range(C)}
            | {(8, 0, r, r, 0, 0) for r in range(R)})


def unary(p, N):
    k, a, b, c, d, e = p
    if k == 3 and a == c and d == 0:
        yield (3, 0, 0, a, b, e)
    if k == 3 and b == 0:
        yield (3, 0, 0, c, d, e)
    if k == 5 and d == 1:
        yield (3, 0, 0, a, b, 1)
    if k == 3 and d == 0 and e == 1:
        yield (3, 0, 0, a, b, 1)
        if 2 <= b <= N + 1:
            yield (3, 0, 0, 0, 0, 1)
    if k == 4 and d == 1:
        yield (3, 0, 0, a, b, 1)


def binary(p, q):
    k, a, b, c, d, e = p
    m, f, g, h, i, j = q
    if k == m == 8 and a == f and c == g:
        yield (8, a, b, h, 0, 0)
    if k == m == 1 and b == f:
        yield (1, a, g, 0, 0, 0)
    if m == 1:
        if 3 <= k <= 9 and a == g:
            yield (k, f) + p[2:]
        if k == 3 and c == g:
            yield (3, a, b, f, d, e)
    if k == m == 3:
        if p[1:4] == q[1:4] and e == i:
            yield (3, a, b, c, d, j)
        if b == 0 and f == c and g == e:
            yield (3, f, d, h, i, j)
        if d == 0 and f == c and g == e:
            yield (3, a, b, h, i, j)
    if k == 3 and m == 4 and f == c and g == e:
        if b == 0:
            yield (4, f, d, h, i, 0)
        if d == 0:
            yield (4, a, b, h, i, 0)
    if k == 4 and m == 3:
        if p[1:4] == q[1:4] and d == i:
            yield (4, a, b, c, j, 0)
        if f == c and g == d:
            yield (3, a, b, h, i, j)
    if k == m == 4 and f == c and g == d:
        yield (4, a, b, h, i, 0)
    if k == 5 and m == 6 and a == f and c == g and d == h:
        yield (3, 0, 0, a, b, i)


def ternary(p, q, r):
    k, a, b, c, d, e = p
    m, f, g, h, i, j = q
    if k == m == 1 and r[0] == 2 and a == f and (b, g) == r[1:3]:
        yield (1, a, r[3], 0, 0, 0)
    if k == 5 and m == 3 and r[0] == 8 and g == 0 and h == a == r[1] and i == d and r[2] == c:
        yield (5, a, b, r[3], j, 0)
    if k == m == 5 and r[0] == 9 and a == f == r[1] and g == d and (c, h) == r[2:4]:
        yield (5, a, b, r[4], i, 0)
    if k == m == 3 and r[0] == 7 and p[1:5] == q[1:5] and r[1] == c and (e, j) == r[2:4]:
        yield (3, a, b, c, d, r[4])


def settle(kind, sizes, records, rows):
    S, C, R, N = sizes
    start, key, join = KINDS[kind]
    known, settled = {}, {}

    def offer(x, g):
        if x not in settled and (x not in known or key(g) < key(known[x])):
            known[x] = g

    for x in tautologies(S, C, R):
        offer(x, start)
    for x, g in records:
        offer(x, g)
    while True:
        waiting = [(key(g), x) for x, g in known.items() if x not in settled]
        if not waiting:
            return settled, "ended"
        x = min(waiting)[1]
        g = settled[x] = known[x]
        for y in unary(x, N):
            offer(y, g)
        for q, h in list(settled.items()):
            for pair in ((x, q), (q, x)):
                grade = join(settled[pair[0]], settled[pair[1]])
                for y in binary(*pair):
                    offer(y, grade)
            thirds = [r for r in settled if r[0] in (2, 7, 8, 9)]
            for pair in ((x, q), (q, x)):
                for r in thirds:
                    for y in ternary(*pair, r):
                        offer(y, join(join(settled[pair[0]], settled[pair[1]]), settled[r]))
            if x[0] in (2, 7, 8, 9):
                for r in list(settled):
                    for y in ternary(q, r, x):
                        offer(y, join(join(settled[q], settled[r]), g))
        if len(known) > rows:
            return settled, "full"


def main():
    kind, sizes, records = read(sys.argv[1])
    rows = int(sys.argv[2]) if len(sys.argv) > 2 else 4096
    settled, stand = settle(kind, sizes, records, rows)
    for x, g in settled.items():
        print(*x, g)
    print(stand, len(settled))


main()
