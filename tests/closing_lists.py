#!/usr/bin/env python3
"""Works out what the program `closing_lists` must print, straight from the rules of the three closings.

    python3 tests/closing_lists.py > crates/closing_lists/stdout

With r nodes, arcs by position, and the first free variable f; arc a leads from i to j on variable e.

steps, k from 1 to r - 1: y(i,k) = f + i(r-1) + k - 1 and s(a,k) = f + r(r-1) + a(r-1) + k - 1. For each i
and k >= 2: -y(i,k-1) y(i,k). For each arc, for each k: -y(i,k) -s(a,k) and y(j,k) -s(a,k); then
-e s(a,1) .. s(a,r-1).

numbers, b the least with 2^b >= r: y(i,k) = f + ib + k - 1 and t(a,k) = f + rb + ab + k - 1. For each arc:
-t(a,1) -y(i,1), -t(a,1) y(j,1); for k = 2 to b: -t(a,k) -y(i,k) y(j,k), -t(a,k) -y(i,k) t(a,k-1),
-t(a,k) y(j,k) t(a,k-1); then -e t(a,b).

closure: y(i,j) = f + ir + j. Each -y(i,i); each -y(i,j) -y(j,k) y(i,k); each arc -e y(i,j).

That the clauses can be met exactly when the chosen arcs have no ring is checked here too, where few
variables make that quick.
"""
from itertools import product

state = 9


def below(bound):
    global state
    state = (state * 6364136223846793005 + 1442695040888963407) % 2**64
    return (state >> 33) % bound if bound else 0


def steps(r, arcs, f):
    q = max(r - 1, 0)

    def y(i, k):
        return f + i * q + k - 1

    def s(a, k):
        return f + r * q + a * q + k - 1

    for i in range(r):
        for k in range(2, q + 1):
            yield [-y(i, k - 1), y(i, k)]
    for a, (i, j, e) in enumerate(arcs):
        for k in range(1, q + 1):
            yield [-y(i, k), -s(a, k)]
            yield [y(j, k), -s(a, k)]
        yield [-e] + [s(a, k) for k in range(1, q + 1)]


def bits(r):
    b = 0
    while 2**b < r:
        b += 1
    return b


def numbers(r, arcs, f):
    b = bits(r)

    def y(i, k):
        return f + i * b + k - 1

    def t(a, k):
        return f + r * b + a * b + k - 1

    for a, (i, j, e) in enumerate(arcs):
        yield [-t(a, 1), -y(i, 1)]
        yield [-t(a, 1), y(j, 1)]
        for k in range(2, b + 1):
            yield [-t(a, k), -y(i, k), y(j, k)]
            yield [-t(a, k), -y(i, k), t(a, k - 1)]
            yield [-t(a, k), y(j, k), t(a, k - 1)]
        yield [-e, t(a, b)]


def closure(r, arcs, f):
    def y(i, j):
        return f + i * r + j

    for i in range(r):
        yield [-y(i, i)]
    for i in range(r):
        for j in range(r):
            for k in range(r):
                yield [-y(i, j), -y(j, k), y(i, k)]
    for i, j, e in arcs:
        yield [-e, y(i, j)]


def added(name, r, m):
    if name == "closure":
        return r * r
    q = max(r - 1, 0) if name == "steps" else bits(r)
    return (r + m) * q


def has_ring(n, edges):
    reach = set(edges)
    for k in range(n):
        for i in range(n):
            for j in range(n):
                if (i, k) in reach and (k, j) in reach:
                    reach.add((i, j))
    return any((i, i) in reach for i in range(n))


def check_law(r, arcs, f, clauses, m):
    own = set(e for _, _, e in arcs) | set(range(f, f + m))
    assert all(abs(z) in own for c in clauses for z in c)
    assert all(1 <= len(c) <= 64 for c in clauses)
    if m > 10 or len(arcs) > 5:
        return
    for choice in product((False, True), repeat=len(arcs)):
        fixed = {e: chosen for (_, _, e), chosen in zip(arcs, choice)}
        found = False
        for values in product((False, True), repeat=m):
            whole = dict(fixed)
            whole.update((f + k, v) for k, v in enumerate(values))
            if all(any(whole[abs(z)] == (z > 0) for z in c) for c in clauses):
                found = True
                break
        edges = {(i, j) for (i, j, e), chosen in zip(arcs, choice) if chosen}
        assert found == (not has_ring(r, edges))


def show(r, arcs, f, stride, check):
    for name, rule in (("steps", steps), ("numbers", numbers), ("closure", closure)):
        clauses = list(rule(r, arcs, f))
        m = added(name, r, len(arcs))
        print(name, m, len(clauses))
        if check:
            check_law(r, arcs, f, clauses, m)
        for c in clauses[::stride]:
            print(c)


for _ in range(40):
    n = below(6)
    pairs = []
    for u in range(n):
        for w in range(n):
            if below(3) == 0 and u != w:
                pairs.append((u, w))
    turned = below(2) == 1
    arcs = [(u, w, len(pairs) - a if turned else a + 1) for a, (u, w) in enumerate(pairs)]
    f = len(pairs) + below(3) + 1
    print(f"graph {n}")
    show(n, arcs, f, 1, True)

pairs = [(u, w) for u in range(64) for w in range(64) if u != w]
show(64, [(u, w, a + 1) for a, (u, w) in enumerate(pairs)], len(pairs) + 1, 9973, False)
