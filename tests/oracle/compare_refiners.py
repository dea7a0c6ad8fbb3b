"""Compares the refiners, called from C, with coupe: puts the same cases to the oracle and to the driver of the C entry points,
and prints for each source of graphs the cases that were run and those that differ, after all of them the smallest such case and
both answers. compare.py is the command.

Compared are the number, end, passes, cuts and labels, for FM and arc-swap the loads, for FM the rows and for arc-swap the counts
too. `FM` is held to coupe with ties to the lowest vertex, `FM without ties` to coupe unchanged, `arc-swap model` and
`FM model` to arc_swap_model.py and fiduccia_mattheyses_model.py, which have the cases that coupe has not; `by board` are those of them
with a ceiling for each board.
"""

import itertools
import random
from collections import Counter

from make_cases import SPARSE_FAMILIES, at_limits, drawn, exhaustive, small
from programs import build_driver, driver_answers
from refiners import (CARRIED, FM, IMBALANCE, KL, Answer, ArcSwap, answers_of, arc_swap_asks, asks_by_board, fm_asks, kl_answers,
                      kl_asks, modelled_asks, tie_free)


def graphs_of(seed, count):
    """As make_cases.py's, with lighter arcs in the larger graphs: coupe's table is as large as a row's sum."""
    rng = random.Random(seed)
    for _ in range(count):
        yield small(rng)
    for _ in range(count // 50):
        yield drawn(rng, SPARSE_FAMILIES, rng.randint(13, 600), most=30)


def all_limits():
    """FM's and KL's cases of every graph of up to three vertices under every limit from 0 to 3."""
    fm, kl = [], []
    for graph in exhaustive():
        if graph.n > 3 or max(graph.labels, default=0) > 1:
            continue
        for limits in itertools.product(range(4), repeat=3):
            fm += [FM(graph, *limits, CARRIED), FM(graph, *limits, IMBALANCE, imbalance=0.5)]
            kl.append(KL(graph, *limits))
    return fm, kl


def largest(seed):
    """Cases of the largest graphs. coupe's FM scans a table as large as a row's sum, so FM's are short. A dense graph's stack
    passes the length that is lent here, so arc-swap has the sparse ones."""
    fm, kl, swap = [], [], []
    for graph in at_limits(random.Random(seed)):
        two = graph.labelled(label % 2 for label in graph.labels)
        fm += [FM(two, 2, 9, 1, CARRIED), FM(two, 3, 5, 0, IMBALANCE, imbalance=0.25)]
        kl += [KL(two, 2, 5, 1), KL(two, 3, 9, 0)]
        swap += [ArcSwap(graph, CARRIED), ArcSwap(two, IMBALANCE, imbalance=0.25)]
    return fm, kl, swap


class Comparison:
    def __init__(self):
        self.run, self.differ, self.smallest = Counter(), Counter(), None

    def add(self, label, name, asks, wanted, note=""):
        """Puts cases to the driver, holds its answers to those wanted, and prints the count."""
        pairs = [(ask, want) for ask, want in zip(asks, wanted) if want is not None]
        differing = 0
        for (ask, want), line in zip(pairs, driver_answers([ask.driver_line() for ask, _ in pairs])):
            got = Answer.of_driver(line)
            if got != want:
                differing += 1
                self.keep(name, ask, want, got)
        self.run[name] += len(pairs)
        self.differ[name] += differing
        ends = Counter(want.end if want.number == 0 else f"number {want.number}" for _, want in pairs)
        told = ", ".join(f"{'' if isinstance(end, str) else 'end '}{end}: {ends[end]}" for end in sorted(ends, key=str))
        left_out = len(asks) - len(pairs)
        print(f"{label}: {name}: {len(pairs)} runs, {differing} differ ({told}{note}"
              f"{f'; {left_out} too large for coupe' if left_out else ''})", flush=True)

    def keep(self, name, ask, want, got):
        size = (ask.graph.n, len(ask.graph.arcs), len(ask.driver_line()))
        if self.smallest is None or size < self.smallest[0]:
            self.smallest = size, name, ask, want, got

    def compare(self, label, graphs, seed):
        rng = random.Random(seed)
        graphs = list(graphs)
        asks = [[ask for graph in graphs for ask in asks_of(rng, graph)] for asks_of in (fm_asks, kl_asks, arc_swap_asks)]
        self.compare_asks(label, *asks)
        swap = [ask for ask in asks[2] if ask.graph.n <= 12]
        modelled = swap + list(modelled_asks(rng, swap))
        self.add(label, "arc-swap model", modelled, [ask.modelled() for ask in modelled])
        two = [ask for ask in asks[0] if ask.graph.n <= 12 and max(ask.graph.labels, default=0) < 2]
        self.add(label, "FM model", two, [ask.modelled() for ask in two])
        for name, given in (("FM by board", two[::3]), ("arc-swap by board", swap[::3])):
            by_board = list(asks_by_board(rng, given))
            self.add(label, name, by_board, [ask.modelled() for ask in by_board])

    def compare_asks(self, label, fm, kl, swap=()):
        self.add(label, "FM", fm, answers_of(fm))
        self.add(label, "FM without ties", *tie_free([ask for ask in fm if ask.graph.n <= 12]))
        wanted, sites = kl_answers(kl)
        panics = Counter(site for site in sites if site)
        note = "; coupe panics at " + ", ".join(f"{site}: {panics[site]}" for site in sorted(panics)) if panics else ""
        self.add(label, "KL", kl, wanted, note)
        if swap:
            self.add(label, "arc-swap", swap, answers_of(swap))

    def tell(self):
        for name in self.run:
            print(f"{name}: {self.run[name]} runs, {self.differ[name]} differ")
        if self.smallest:
            _, name, ask, want, got = self.smallest
            print(f"the smallest that differs, {name}:\n  oracle: {ask.oracle_line()}\n  driver: {ask.driver_line()}"
                  f"\n  coupe asks {want}\n  the library {got}")
        return self.smallest is not None or not all(self.run.values())


def compare(options):
    """Whether a case differs, or none was run."""
    build_driver(options.archive)
    comparison = Comparison()
    if options.exhaustive:
        comparison.compare("exhaustive", exhaustive(), 0)
        comparison.compare_asks("every limit", *all_limits())
    for seed in options.seeds:
        comparison.compare(f"seed {seed}", graphs_of(seed, options.graphs), seed)
    if options.limits:
        for seed in options.seeds:
            comparison.compare_asks(f"largest {seed}", *largest(seed))
    return comparison.tell()
