#!/usr/bin/env python3
"""Makes the graphs that are put to the oracle and to the library: seeded families, and every graph of up to four vertices.

As a program it prints what a seed gives, one graph a line: n a weights starts neighbours arcs labels.
    make_cases.py SEED COUNT
"""

import itertools
import random
import sys
from dataclasses import dataclass, replace

MOST_VERTICES = 4096
MOST_ARCS = 65535
MOST_WEIGHT = 2147483647
PARTS = 16


@dataclass(frozen=True)
class Graph:
    """A graph in rows with its vertex weights and labels, as document 01 has it."""

    weights: tuple
    starts: tuple
    neighbours: tuple
    arcs: tuple
    labels: tuple

    @property
    def n(self):
        return len(self.labels)

    def numbers(self):
        """n, a and the five lists, in the order of the oracle's and the replay program's lines."""
        sizes = (len(self.labels), len(self.neighbours))
        return (*sizes, *self.weights, *self.starts, *self.neighbours, *self.arcs, *self.labels)

    def labelled(self, labels):
        return replace(self, labels=tuple(labels))


def from_edges(edges, weights, labels):
    """The graph whose pairs are the keys of `edges`, each of its weight in both directions."""
    rows = [[] for _ in labels]
    for (u, v), weight in edges.items():
        rows[u].append((v, weight))
        rows[v].append((u, weight))
    starts, neighbours, arcs = [0], [], []
    for row in rows:
        for v, weight in sorted(row):
            neighbours.append(v)
            arcs.append(weight)
        starts.append(len(neighbours))
    return Graph(tuple(weights), tuple(starts), tuple(neighbours), tuple(arcs), tuple(labels))


def exhaustive():
    """Every graph of up to three vertices with arcs of weight 0, 1 or 2 and three parts, and every graph of four with
    arcs of weight 0 or 1 and two parts. Vertex weights take turns."""
    turns = itertools.cycle(itertools.product((0, 1, 2), repeat=4))
    for n, arc_weights, parts in ((0, (), 1), (1, (), 3), (2, (0, 1, 2), 3), (3, (0, 1, 2), 3), (4, (0, 1), 2)):
        pairs = list(itertools.combinations(range(n), 2))
        for chosen in itertools.product((None, *arc_weights), repeat=len(pairs)):
            edges = {pair: w for pair, w in zip(pairs, chosen) if w is not None}
            for labels in itertools.product(range(parts), repeat=n):
                yield from_edges(edges, next(turns)[:n], labels)


# The families: each gives the pairs of a graph of n vertices.


def no_arcs(rng, n):
    return set()


def sparse(rng, n):
    return {tuple(sorted(rng.sample(range(n), 2))) for _ in range(rng.randrange(2 * n))} if n > 1 else set()


def dense(rng, n):
    density = rng.random()
    return {pair for pair in itertools.combinations(range(n), 2) if rng.random() < density}


def grid(rng, n):
    width = rng.randint(1, max(1, n))
    right = {(v, v + 1) for v in range(n - 1) if (v + 1) % width}
    return right | {(v, v + width) for v in range(n - width)}


def ring(rng, n):
    return {(v, v + 1) for v in range(n - 1)} | ({(0, n - 1)} if n > 2 else set())


def star(rng, n):
    hub = rng.randrange(n) if n else 0
    return {(min(hub, v), max(hub, v)) for v in range(n) if v != hub}


def bundles(rng, n):
    """Cliques of up to five, neighbours joined by one pair."""
    size = rng.randint(2, 5)
    cliques = [range(first, min(first + size, n)) for first in range(0, n, size)]
    inner = {pair for clique in cliques for pair in itertools.combinations(clique, 2)}
    return inner | {(b[0] - 1, b[0]) for b in cliques[1:]}


FAMILIES = (sparse, dense, grid, ring, star, bundles)
SPARSE_FAMILIES = (sparse, grid, ring, star, bundles)


def weighing(rng, most):
    """A way to draw weights: all equal (ties everywhere), nearly all 0, few values, or any up to `most`."""
    kind = rng.randrange(4)
    if kind == 0:
        weight = rng.randint(0, 3)
        return lambda: weight
    if kind == 1:
        return lambda: rng.choice((0, 0, 0, 0, 1))
    if kind == 2:
        return lambda: rng.randint(0, 4)
    return lambda: rng.randint(0, most)


def labelling(rng, n):
    """Up to sixteen parts, in any share; now and then all in one, or in runs as a plan would have them."""
    parts = rng.choice((1, 2, 2, 2, 3, 4, PARTS))
    if rng.random() < 0.3:
        return [v * parts // n for v in range(n)]
    return [rng.randrange(parts) for _ in range(n)]


def drawn(rng, families, n, most=1000):
    edges = rng.choice(families)(rng, n)
    arc, vertex = weighing(rng, most), weighing(rng, most)
    return from_edges({pair: arc() for pair in sorted(edges)}, [vertex() for _ in range(n)], labelling(rng, n))


def small(rng):
    return drawn(rng, FAMILIES, rng.randint(0, 12))


def middle(rng):
    return drawn(rng, SPARSE_FAMILIES, rng.randint(13, 600))


def shares(rng, total, count):
    """`count` whole numbers that sum to `total`."""
    cuts = sorted(rng.randint(0, total) for _ in range(count - 1))
    return [b - a for a, b in zip([0, *cuts], [*cuts, total])]


def at_limits(rng):
    """The most vertices, the most arcs, and both weight sums at their limit. Arcs come in pairs, so theirs are even."""
    n = MOST_VERTICES
    plain = sorted(grid(rng, n))
    yield from_edges(dict.fromkeys(plain, 1), [1] * n, labelling(rng, n))
    for n, pairs in (
        (MOST_VERTICES, sorted(itertools.islice(many_pairs(rng, MOST_VERTICES), MOST_ARCS // 2))),
        (256, list(itertools.combinations(range(256), 2))),
    ):
        arcs = shares(rng, MOST_WEIGHT // 2, len(pairs))
        labels = [rng.randrange(PARTS) for _ in range(n)]
        yield from_edges(dict(zip(pairs, arcs)), shares(rng, MOST_WEIGHT, n), labels)


def many_pairs(rng, n):
    """Different pairs of n vertices without end."""
    seen = set()
    while True:
        pair = tuple(sorted(rng.sample(range(n), 2)))
        if pair not in seen:
            seen.add(pair)
            yield pair


def seeded(seed, count):
    """`count` small graphs and a fiftieth of that of middle size."""
    rng = random.Random(seed)
    for _ in range(count):
        yield small(rng)
    for _ in range(count // 50):
        yield middle(rng)


if __name__ == "__main__":
    for graph in seeded(int(sys.argv[1]), int(sys.argv[2])):
        print(*graph.numbers())
