#!/usr/bin/env python3
"""Compares the library with coupe on random graphs: builds the oracle, the proved replay program and the driver of the C entry
points, puts the same cases to both sides, and prints for each algorithm the cases that were run and those that differ. Ends with 1
where one differs. Loads and cuts go through the replay program, the refiners through the C entry points (compare_refiners.py).

    compare.py [--seeds 1 2 3 4] [--graphs 6000] [--exhaustive] [--limits] [--archive FILE] [--refiners]

Each seed gives its own graphs (make_cases.py: n up to 12, and a fiftieth of n up to 600). --exhaustive adds every graph of up to
four vertices, and for those of up to three every limit from 0 to 3; --limits the largest graphs. --archive names an archive of the
C entry points that is there; else it is made. --refiners leaves the loads and cuts out. The replayed text of each seed is kept in
target/compare/, so that a line that differs can be looked at.
"""

import argparse
import random
import sys
from collections import Counter

import compare_refiners
from algorithms import ALGORITHMS, Disagreement
from make_cases import at_limits, exhaustive, seeded
from programs import ROOT, build_oracle, build_replay, oracle_answers, replay

KEPT = ROOT / "target/compare"


def cases(graphs, algorithms, seed):
    rng = random.Random(seed)
    return [ask for graph in graphs for algorithm in algorithms for ask in algorithm.asks(algorithm, rng, graph)]


def lines_of(asks):
    """The replay program's lines for cases, the cases that could not be compared by name, and what the oracle got wrong."""
    lines, left_out, wrong = [], Counter(), []
    for ask, answer in zip(asks, oracle_answers([ask.oracle_line() for ask in asks])):
        try:
            line = ask.replay_line(answer)
        except Disagreement as disagreement:
            wrong.append(f"{ask.algorithm.name}: the oracle says {disagreement}: {ask.oracle_line()[:300]}")
            continue
        if line is None:
            left_out[ask.algorithm.name] += 1
        else:
            lines.append(line)
    return lines, left_out, wrong


class Comparison:
    def __init__(self, algorithms):
        self.algorithms = algorithms
        self.run, self.differ, self.left_out = Counter(), Counter(), Counter()
        self.failed = False

    def fail(self, text):
        print(text)
        self.failed = True

    def add(self, label, graphs, seed):
        """Puts graphs to both programs and counts."""
        asks = cases(graphs, self.algorithms, seed)
        lines, left_out, wrong = lines_of(asks)
        for text in wrong:
            self.fail(text)
        kept = KEPT / f"{label}.txt"
        kept.write_text("".join(line + "\n" for line in lines))
        agree, differ, named = replay(kept.read_text())
        for text in named:
            self.fail(f"{kept.relative_to(ROOT)}: {text}")
        sent = Counter(ask.algorithm.name for ask in asks)
        for name, count in sent.items():
            answered = agree[name] + differ[name]
            if answered + left_out[name] + sum(text.startswith(name + ":") for text in wrong) != count:
                self.fail(f"{label}: {count} cases of {name}, and {answered} answered")
            self.run[name] += answered
            self.differ[name] += differ[name]
            self.left_out[name] += left_out[name]

    def tell(self, sources):
        for algorithm in self.algorithms:
            name = algorithm.name
            parts = [f"{self.run[name]} cases", f"{self.differ[name]} differ"]
            if self.left_out[name]:
                parts.append(f"{self.left_out[name]} not comparable")
            print(f"{name}: {', '.join(parts)} ({sources})")
            self.failed = self.failed or self.run[name] == 0 or self.differ[name] > 0


def compare_measures(options):
    """Whether a case of loads or cuts differs, or none was run."""
    build_replay()
    KEPT.mkdir(parents=True, exist_ok=True)
    comparison = Comparison(ALGORITHMS)
    sources = f"seeds {' '.join(map(str, options.seeds))}"
    for seed in options.seeds:
        comparison.add(f"seed-{seed}", seeded(seed, options.graphs), seed)
    if options.limits:
        sources += ", at the limits"
        for seed in options.seeds:
            comparison.add(f"limits-{seed}", at_limits(random.Random(seed)), seed)
    if options.exhaustive:
        sources += ", exhaustive"
        comparison.add("exhaustive", exhaustive(), 0)
    comparison.tell(sources)
    return comparison.failed


def main():
    parser = argparse.ArgumentParser(description=__doc__, formatter_class=argparse.RawDescriptionHelpFormatter)
    parser.add_argument("--seeds", type=int, nargs="+", default=[1, 2, 3, 4])
    parser.add_argument("--graphs", type=int, default=6000, help="small graphs a seed")
    parser.add_argument("--exhaustive", action="store_true")
    parser.add_argument("--limits", action="store_true")
    parser.add_argument("--archive")
    parser.add_argument("--refiners", action="store_true")
    options = parser.parse_args()
    build_oracle()
    failed = not options.refiners and compare_measures(options)
    sys.exit(1 if compare_refiners.compare(options) or failed else 0)


if __name__ == "__main__":
    main()
