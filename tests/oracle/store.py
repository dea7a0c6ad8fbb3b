#!/usr/bin/env python3
"""Makes the stored list of coupe's answers that `rt ci` replays: crates/replay/stdin, and in crates/replay/stdout what the
replay program is to say of it. Run it again after a change of the cases or of the replay program's form."""

import random
from collections import Counter

from algorithms import ALGORITHMS
from compare import cases, lines_of
from make_cases import FAMILIES, MOST_VERTICES, SPARSE_FAMILIES, drawn, exhaustive, no_arcs, ring, small, star
from programs import ROOT, build_oracle
from refiners import CARRIED, FM, KL, ArcSwap, answers_of, arc_swap_asks, fm_asks, kl_answers, kl_asks, modelled_asks

SEED = 20
SMALL = 600  # graphs of up to twelve vertices
STEP = 29  # one in so many of the exhaustive graphs: a prime, so that no kind of them is passed over
# A graph of the most vertices is a long line, so each algorithm has one alone, of the family named here.
LARGEST = {"edge cut": ring, "lambda cut": star, "loads": no_arcs}


def stored_asks():
    rng = random.Random(SEED)
    graphs = [small(rng) for _ in range(SMALL)] + list(exhaustive())[::STEP]
    asks = cases(graphs, ALGORITHMS, SEED)
    for algorithm in ALGORITHMS:
        if algorithm.name in LARGEST:
            graph = drawn(rng, (LARGEST[algorithm.name],), MOST_VERTICES, most=9)
            asks += cases([graph], [algorithm], SEED)
    return asks


DRAWN = 3000  # graphs of up to nine vertices, of whose cases few are stored
STORED = 250  # cases of each refiner
LARGE = 6  # graphs of up to 500 vertices, of which each refiner has one case


def kind(ask, answer, site):
    """What tells stored cases apart: the place of coupe's panic, the number, the choice, the end, the passes, whether the cut falls
    or rises, labels change, moves are rewound, bad moves are allowed, and which counts are not 0."""
    first, last = answer.cut
    rewound = any(not row.endswith("/0") for row in answer.rows)
    told = min(answer.passes, 4), (last > first) - (last < first), rewound, ask.graph.labels != answer.labels
    settings = getattr(ask, "choice", CARRIED), min(getattr(ask, "bad", 0), 1)
    return site, answer.number, answer.end, *settings, *told, tuple(map(bool, answer.counts))


def chosen(cases):
    """STORED of the cases: one of each kind, then a second one of each, and so on."""
    rounds, taken = [[] for _ in cases], Counter()
    for case in cases:
        rounds[taken[kind(*case)]].append(case)
        taken[kind(*case)] += 1
    return [case for alike in rounds for case in alike][:STORED]


def answered(rng, graphs):
    """The refiners' cases of graphs, each with the answer that it asks and the place of coupe's panic: one list a refiner."""
    fm, kl, swap = ([ask for graph in graphs for ask in asks_of(rng, graph)] for asks_of in (fm_asks, kl_asks, arc_swap_asks))
    modelled = list(modelled_asks(rng, swap))
    yield [(ask, answer, None) for ask, answer in zip(fm, answers_of(fm))]
    yield list(zip(kl, *kl_answers(kl)))
    both = zip(swap + modelled, answers_of(swap) + [ask.modelled() for ask in modelled])
    yield [(ask, answer, None) for ask, answer in both]


def stored_refinements():
    rng = random.Random(SEED)
    graphs = [drawn(rng, FAMILIES, rng.randint(0, 9), most=20) for _ in range(DRAWN)]
    large = [drawn(rng, SPARSE_FAMILIES, rng.randint(100, 500), most=9) for _ in range(LARGE)]
    few = [chosen(cases) for cases in answered(rng, graphs)]
    many = [cases[:: max(1, len(cases) // LARGE)][:LARGE] for cases in answered(rng, large)]
    return [case for cases in (*few, *many) for case in cases]


def main():
    build_oracle()
    asks = stored_asks()
    lines, left_out, wrong = lines_of(asks)
    if wrong or left_out:
        raise SystemExit(f"the oracle has no answer to store: {wrong} {left_out}")
    refinements = stored_refinements()
    lines += [ask.replay_line(answer) for ask, answer, _ in refinements]
    crate = ROOT / "crates/replay"
    note = f"# Made by tests/oracle/store.py from coupe's answers: do not edit. Seed {SEED}."
    (crate / "stdin").write_text("".join(line + "\n" for line in [note, *lines]))
    counts = Counter(ask.algorithm.name for ask in asks) + Counter(ask.name for ask, _, _ in refinements)
    rows = [f"{a.name}: {counts[a.name]} agree, 0 differ" for a in (*ALGORITHMS, FM, KL, ArcSwap)]
    (crate / "stdout").write_text("".join(row + "\n" for row in [*rows, "no algorithm: 0 agree, 0 differ"]))
    for name in (FM.name, KL.name, ArcSwap.name):
        told = Counter(site or f"number {answer.number} end {answer.end}" for ask, answer, site in refinements if ask.name == name)
        print(f"{name}:", ", ".join(f"{what}: {told[what]}" for what in sorted(told)))


if __name__ == "__main__":
    main()
