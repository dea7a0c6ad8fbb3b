"""Arc-swap as document 01 and document 02's A4 have it, in plain steps, for what coupe has not: a lent stack that may be too short, a
whole ceiling, and a ceiling for each board. The comparison holds it to coupe wherever coupe has an answer, and the library to it
everywhere."""

NO_GAIN, BAD_BALANCE, MOVED = range(3)


class Run:
    def __init__(self, graph, ceilings, room):
        self.graph, self.ceilings, self.room = graph, ceilings, room
        self.labels = list(graph.labels)
        self.parts = max(2, max(self.labels) + 1)
        self.loads = [0] * self.parts
        for label, weight in zip(self.labels, graph.weights):
            self.loads[label] += weight
        self.counts = [0, 0, 0]
        self.stack, self.full, self.gained = [], False, 0

    def row(self, v):
        arcs = range(self.graph.starts[v], self.graph.starts[v + 1])
        return [(self.graph.neighbours[e], self.graph.arcs[e]) for e in arcs]

    def best(self, v):
        """The largest gain to another part, and the part: the highest among equals."""
        into = [0] * self.parts
        for u, weight in self.row(v):
            into[self.labels[u]] += weight
        own = self.labels[v]
        return max((into[t] - into[own], t) for t in range(self.parts) if t != own)

    def push(self, vertices):
        if len(self.stack) + len(vertices) > self.room:
            self.full = True
        else:
            self.stack += vertices

    def attempt(self, v):
        gain, target = self.best(v)
        if gain <= 0:
            self.counts[NO_GAIN] += 1
        elif self.loads[target] + self.graph.weights[v] > self.ceilings[target]:
            self.counts[BAD_BALANCE] += 1
        else:
            self.counts[MOVED] += 1
            self.gained += gain
            self.loads[self.labels[v]] -= self.graph.weights[v]
            self.loads[target] += self.graph.weights[v]
            self.labels[v] = target
            self.push([u for u, _ in self.row(v) if self.best(u)[0] > 0])

    def make_pass(self):
        """The gain of a pass, which a full stack breaks off."""
        self.gained = 0
        for v in range(self.graph.n):
            if any(self.labels[u] != self.labels[v] for u, _ in self.row(v)):
                self.push([v])
            while self.stack and not self.full:
                self.attempt(self.stack.pop())
            if self.full:
                break
        return self.gained

    def passes(self):
        made = 1
        while self.make_pass() > 0 and not self.full:
            made += 1
        return made
