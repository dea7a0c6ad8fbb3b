"""FM as document 01 and document 02's A4 have it, in plain steps, for what coupe has not: a ceiling for each board. The comparison
holds it to coupe wherever coupe has an answer, and the library to it everywhere."""


class Run:
    def __init__(self, graph, ceilings, moves, bad):
        self.graph, self.ceilings, self.move_limit, self.bad_limit = graph, ceilings, moves, bad
        self.labels = list(graph.labels)

    def row(self, v):
        arcs = range(self.graph.starts[v], self.graph.starts[v + 1])
        return [(self.graph.neighbours[e], self.graph.arcs[e]) for e in arcs]

    def cut(self):
        return sum(weight for v in range(self.graph.n) for u, weight in self.row(v) if u < v and self.labels[u] != self.labels[v])

    def load(self, part):
        return sum(weight for weight, label in zip(self.graph.weights, self.labels) if label == part)

    def gain(self, v):
        return sum(weight if self.labels[u] != self.labels[v] else -weight for u, weight in self.row(v))

    def target(self, v):
        """The load of the other board after v's move."""
        return self.load(1 - self.labels[v]) + self.graph.weights[v]

    def best(self, moved):
        """The vertex that moves next, or None: the largest gain, the smallest target load, the lowest vertex."""
        fit = [v for v in range(self.graph.n) if v not in moved and self.target(v) <= self.ceilings[1 - self.labels[v]]]
        return min(fit, key=lambda v: (-self.gain(v), self.target(v), v), default=None)

    def make_pass(self):
        """Moves made, and those of them that are rewound."""
        moved, bad, kept = [], 0, 0
        least = self.cut()
        while len(moved) < self.move_limit:
            v = self.best(moved)
            if v is None:
                break
            gainless = self.gain(v) <= 0
            if gainless and bad >= self.bad_limit:
                break
            bad = bad + 1 if gainless else 0
            self.labels[v] = 1 - self.labels[v]
            moved.append(v)
            if self.cut() < least:
                least, kept = self.cut(), len(moved)
        for v in moved[kept:]:
            self.labels[v] = 1 - self.labels[v]
        return len(moved), len(moved) - kept

    def passes(self, limit):
        """The rows of the passes, and whether the last one was gainless."""
        rows = []
        while len(rows) < limit:
            before = self.cut()
            rows.append(self.make_pass())
            if self.cut() >= before:
                return rows, True
        return rows, False
