#!/usr/bin/env python3
"""Works out what the program `verdicts` must print, straight from the rules of the verdict.

    python3 tests/verdicts.py > crates/verdicts/stdout

The order is built by adding, again and again, the smallest unplaced node with no open pipe from an
unplaced node. Where some stay unplaced, a walk goes from the smallest of them, each time to the
smallest unplaced node with an open pipe into the last, until one repeats; the repeated part, in the
direction of flow and from its smallest node on, is the ring. That an order is one and a ring is one,
and that there is a ring exactly when some node reaches itself, is checked here too.
"""
state = 1


def below(bound):
    global state
    state = (state * 6364136223846793005 + 1442695040888963407) % 2**64
    return (state >> 33) % bound


def reaches_itself(n, edges):
    reach = set(edges)
    for k in range(n):
        for i in range(n):
            for j in range(n):
                if (i, k) in reach and (k, j) in reach:
                    reach.add((i, j))
    return any((i, i) in reach for i in range(n))


def verdict(n, pipes, values):
    for pair in sorted(pipes):
        if values[pipes[pair] - 1] not in (1, 2):
            return f"refused 14: the position of valve {pipes[pair]} is not known"
    edges = {pair for pair in pipes if values[pipes[pair] - 1] == 1}
    order, unplaced = [], set(range(n))
    while True:
        ready = [w for w in unplaced if not any((u, w) in edges for u in unplaced)]
        if not ready:
            break
        order.append(min(ready))
        unplaced.remove(min(ready))
    assert bool(unplaced) == reaches_itself(n, edges)
    if not unplaced:
        assert all(order.index(u) < order.index(w) for u, w in edges)
        return " ".join(["order"] + [str(u) for u in order])
    walk = [min(unplaced)]
    while True:
        source = min(u for u in unplaced if (u, walk[-1]) in edges)
        if source in walk:
            break
        walk.append(source)
    ring = list(reversed(walk[walk.index(source):]))
    at = ring.index(min(ring))
    ring = ring[at:] + ring[:at]
    steps = [(u, w) for u, w in zip(ring, ring[1:] + ring[:1])]
    assert all(step in edges for step in steps)
    listed = "".join(f", {u} -> {w} on valve {pipes[(u, w)]}" for u, w in steps)
    return " ".join(["ring"] + [str(u) for u in ring]) + listed


for _ in range(400):
    nodes = below(8) + 1
    valves = below(10) + 1
    pipes = {}
    for _ in range(below(3 * nodes)):
        u, w = below(nodes), below(nodes)
        p = below(valves) + 1
        if u != w and (u, w) not in pipes:
            pipes[(u, w)] = p
    values = []
    for _ in range(10):
        x = below(24)
        values.append(0 if x == 0 else 2 if x <= 5 else 1)
    print(verdict(nodes, pipes, values))
