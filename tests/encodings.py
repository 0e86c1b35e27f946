#!/usr/bin/env python3
"""Works out what the program `encodings` must print, straight from the rules of start and elimination.

    python3 tests/encodings.py > crates/encodings/stdout

Start gives each drawn pair (u, w), ascending, the next free variable e from V + 1 on, and writes -p e.
Elimination of v writes, for each u with an arc into v, ascending, and each w with an arc from v,
ascending: -(u,v) -(v,u) where u is w, else -(u,v) -(v,w) (u,w), where (u,w) gets the next free variable
if it has no arc. Then v and its arcs leave. A call writes all its clauses or none. That the clauses
keep exactly the settings without a ring is checked here too, where few variables make that quick.
"""
from itertools import product

state = 4


def below(bound):
    global state
    state = (state * 6364136223846793005 + 1442695040888963407) % 2**64
    return (state >> 33) % bound


def has_ring(n, edges):
    reach = set(edges)
    for k in range(n):
        for i in range(n):
            for j in range(n):
                if (i, k) in reach and (k, j) in reach:
                    reach.add((i, j))
    return any((i, i) in reach for i in range(n))


def satisfied(clauses, values):
    return all(any(values[abs(z)] == (z > 0) for z in c) for c in clauses)


def check_meaning(n, valves, pipes, arcs, clauses, free):
    """Some added values meet the clauses and leave the arcs ringless iff the open pipes are ringless."""
    if free - 1 > 13:
        return
    for setting in product((False, True), repeat=valves):
        open_pipes = {pair for pair, p in pipes.items() if setting[p - 1]}
        found = False
        for added in product((False, True), repeat=free - 1 - valves):
            values = (None,) + setting + added
            if satisfied(clauses, values) and not has_ring(n, {a for a, e in arcs.items() if values[e]}):
                found = True
                break
        assert found == (not has_ring(n, open_pipes))


def least(n, out, arcs):
    best = None
    for u in range(n):
        if u not in out:
            degree = sum(1 for pair in arcs if u in pair)
            if best is None or degree < best[0]:
                best = (degree, u)
    return None if best is None else best[1]


class Table:
    def __init__(self, places, entries):
        self.places, self.entries, self.clauses = places, entries, []

    def take(self, clauses):
        used = sum(len(c) for c in self.clauses)
        if len(self.clauses) + len(clauses) > self.entries:
            return False
        if used + sum(len(c) for c in clauses) > self.places:
            return False
        self.clauses += clauses
        return True


ROOM = "refused 11: too few entries or units are left"

for _ in range(150):
    n = below(9) + 1
    valves = below(12) + 1
    print(f"sheet {n} {valves}")
    pipes = {}
    for _ in range(below(4 * n)):
        u, w = below(n), below(n)
        p = below(valves) + 1
        if u != w and (u, w) not in pipes:
            pipes[(u, w)] = p
    table = Table(below(200), 300)
    free = valves + 1
    arcs, out = {}, set()
    clauses = [[-pipes[pair], free + k] for k, pair in enumerate(sorted(pipes))]
    if not table.take(clauses):
        print(f"start {ROOM}")
    else:
        for pair in sorted(pipes):
            arcs[pair] = free
            free += 1
        check_meaning(n, valves, pipes, arcs, table.clauses, free)
        for _ in range(below(n + 2)):
            other = below(n + 1)
            v = other if below(3) == 0 else least(n, out, arcs)
            v = other if v is None else v
            if v >= n:
                print(f"out {v} refused 4: the sheet has no such node")
                continue
            if v in out:
                print(f"out {v} refused 8: the node has been eliminated already")
                continue
            planned, following, clauses = dict(arcs), free, []
            for u in sorted(a for a, b in arcs if b == v):
                for w in sorted(b for a, b in arcs if a == v):
                    if u == w:
                        clauses.append([-arcs[(u, v)], -arcs[(v, u)]])
                        continue
                    if (u, w) not in planned:
                        planned[(u, w)] = following
                        following += 1
                    clauses.append([-arcs[(u, v)], -arcs[(v, w)], planned[(u, w)]])
            if not table.take(clauses):
                print(f"out {v} {ROOM}")
                continue
            print(f"out {v}")
            arcs = {pair: e for pair, e in planned.items() if v not in pair}
            free = following
            out.add(v)
            check_meaning(n, valves, pipes, arcs, table.clauses, free)
    for c in table.clauses:
        print(str(c))
    print(f"next {free}")
