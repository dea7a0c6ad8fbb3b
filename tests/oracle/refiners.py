"""The refiners' cases: how one is put to the oracle, to the driver of the C entry points and to the replay program, and what
coupe's answer asks.

coupe says neither its end nor, where it panics, its cuts; they follow from what it does say:

  - FM's last pass was gainless where all its moves were rewound. KL's was where the cut after one pass less is not above the
    cut that is left: coupe is asked again, with that pass limit.
  - KL panics at SWAPLESS where a pass makes no swap: that pass is gainless, and the labels are those that the panic left. At
    EXHAUSTED a part has no unlocked vertex left: coupe is asked again, with the swap limit at the smaller part's size, after
    which the pass ends here. At LABELS the labels are not of two parts: number 6.
  - FM refuses a label above 1 by an error: number 6.
  - A whole ceiling (choice 1) is put to FM of coupe as an imbalance that has this ceiling.
  - Arc-swap's run ends with a gainless pass: coupe has no other end, as its stack grows and it has no pass limit. A short stack
    and a whole ceiling are put to arc_swap_model.py, which is held to coupe's answers too.
  - A ceiling for each board (choice 3), which coupe has not, is put to arc_swap_model.py and to fiduccia_mattheyses_model.py, which
    is held to coupe's answers too.
"""

import struct
from collections import Counter
from dataclasses import dataclass, replace

import arc_swap_model
import fiduccia_mattheyses_model
from algorithms import Disagreement, fields, numbers
from make_cases import PARTS, Graph
from programs import oracle_answers

MOST_U32 = 4294967295
LABELS = "kernighan_lin.rs:54"
EXHAUSTED = ("kernighan_lin.rs:102", "kernighan_lin.rs:124")
SWAPLESS = "kernighan_lin.rs:152"
DONE, REFUSED_LABEL = 0, 6
PASS_LIMIT, GAINLESS, STACK_FULL, EMPTY = 0, 1, 2, 3
CARRIED, WHOLE, IMBALANCE, EACH = 0, 1, 2, 3
LONG_STACK = 65535  # no run that is compared here needs more


def bits(number):
    return struct.unpack("<Q", struct.pack("<d", number))[0]


def ceiling(total, imbalance, parts=2):
    ideal = total / float(parts)
    return int(ideal + imbalance * ideal)


def ceilings(ask, loads):
    """The ceiling of each part, by the choice, from the loads at the start."""
    if ask.choice == EACH:
        return ask.each
    if ask.choice == CARRIED:
        return (max(loads),) * PARTS
    return (ask.whole if ask.choice == WHOLE else ceiling(sum(loads), ask.imbalance, len(loads)),) * PARTS


def imbalance_for(total, whole):
    """An imbalance, maybe below 0, for which coupe's ceiling is `whole`; None where there is none. Without weight any is."""
    if total == 0:
        return 0.0
    imbalance = (whole + 0.5) / (total / 2.0) - 1.0
    return imbalance if ceiling(total, imbalance) == whole else None


def edge_cut(graph, labels):
    return sum(
        graph.arcs[e]
        for u in range(graph.n)
        for e in range(graph.starts[u], graph.starts[u + 1])
        if graph.neighbours[e] < u and labels[u] != labels[graph.neighbours[e]]
    )


def smaller_part(labels):
    return min(Counter(labels).values())


@dataclass(frozen=True)
class Answer:
    """What a call gives back. KL has no loads; rows are FM's, counts arc-swap's."""

    number: int
    end: int
    passes: int
    cut: tuple
    labels: tuple
    loads: tuple = ()
    rows: tuple = ()
    counts: tuple = ()

    @staticmethod
    def of_driver(line):
        f = dict(word.split("=") for word in line.split())
        rows = tuple(f["rows"].split(",")) if f.get("rows") else ()
        lists = (tuple(numbers(f[name])) if name in f else () for name in ("cut", "labels", "loads"))
        counts = tuple(numbers(f["counts"])) if "counts" in f else ()
        return Answer(int(f["number"]), int(f["end"]), int(f["passes"]), *lists, rows, counts)

    def report(self):
        """What the replay program reads of every refiner's report."""
        return self.number, self.end, self.passes, *self.cut

    def all_loads(self):
        return *self.loads, *[0] * (PARTS - len(self.loads))


@dataclass(frozen=True)
class FM:
    graph: Graph
    passes: int
    moves: int
    bad: int
    choice: int
    whole: int = 0
    imbalance: float = 0.0
    each: tuple = ()  # sixteen numbers with choice 3, which the replay program has not

    name = "FM"  # as the replay program prints it
    code = 4  # as the replay program reads it

    def oracle_line(self, word="fml"):
        imbalance = self.imbalance
        if self.choice == WHOLE:
            imbalance = imbalance_for(sum(self.graph.weights), self.whole)
        setting = "-" if self.choice == CARRIED else f"{bits(imbalance):016x}"
        return " ".join(map(str, (word, self.passes, self.moves, self.bad, setting, *self.graph.numbers())))

    def driver_line(self):
        return " ".join(map(str, ("fm", *self.settings(), *self.graph.numbers())))

    def settings(self):
        return self.passes, self.moves, self.bad, self.choice, self.whole, bits(self.imbalance), *self.each

    def modelled(self):
        """The answer that the model asks, of labels 0 and 1."""
        if self.graph.n == 0:
            return self.answered("")
        run = fiduccia_mattheyses_model.Run(self.graph, (), self.moves, self.bad)
        run.ceilings = ceilings(self, (run.load(0), run.load(1)))
        first, (rows, gainless) = run.cut(), run.passes(self.passes)
        told = tuple(f"{made}/{rewound}" for made, rewound in rows)
        loads = run.load(0), run.load(1)
        return Answer(DONE, GAINLESS if gainless else PASS_LIMIT, len(rows), (first, run.cut()), tuple(run.labels), loads, told)

    def replay_line(self, answer):
        rows = [number for row in answer.rows for number in row.split("/")]
        expected = (*answer.report(), *answer.all_loads(), *rows, *answer.labels)
        return " ".join(map(str, (self.code, *self.graph.numbers(), *self.settings(), *expected)))

    def answered(self, answer):
        """The answer that is asked of the library by coupe's, or None where coupe's table would be too large."""
        if answer == "BIG":
            return None
        labels = self.graph.labels
        if answer.startswith("ERR BiPartitioningOnly"):
            return Answer(REFUSED_LABEL, 0, 0, (0, 0), labels, (0, 0))
        if self.graph.n == 0:
            return Answer(DONE, EMPTY, 0, (0, 0), (), (0, 0))
        f = fields(answer)
        rows = tuple(f["rows"].split(",")) if f["rows"] else ()
        made, rewound = rows[-1].split("/") if rows else (1, 0)
        end = GAINLESS if made == rewound else PASS_LIMIT
        if end == PASS_LIMIT and len(rows) != self.passes:
            raise Disagreement(answer)
        lists = (tuple(numbers(f[name])) for name in ("cut", "labels", "loads"))
        return Answer(DONE, end, len(rows), *lists, rows)


@dataclass(frozen=True)
class KL:
    graph: Graph
    passes: int
    swaps: int
    bad: int

    name = "KL"
    code = 5

    def oracle_line(self):
        return " ".join(map(str, ("kl", self.passes, self.swaps, self.bad, "-", *self.graph.numbers())))

    def driver_line(self):
        return " ".join(map(str, ("kl", *self.settings(), *self.graph.numbers())))

    def settings(self):
        return self.passes, self.swaps, self.bad

    def replay_line(self, answer):
        expected = (*answer.report(), *answer.labels)
        return " ".join(map(str, (self.code, *self.graph.numbers(), *self.settings(), *expected)))


@dataclass(frozen=True)
class ArcSwap:
    graph: Graph
    choice: int
    whole: int = 0
    imbalance: float = 0.0
    each: tuple = ()
    room: int = LONG_STACK

    name = "arc-swap"
    code = 6

    def oracle_line(self):
        setting = "-" if self.choice == CARRIED else f"{bits(self.imbalance):016x}"
        return " ".join(map(str, ("as", "-", "-", "-", setting, *self.graph.numbers())))

    def driver_line(self):
        return " ".join(map(str, ("as", *self.settings(), *self.graph.numbers())))

    def settings(self):
        return self.choice, self.whole, bits(self.imbalance), *self.each, self.room

    def modelled(self):
        """The answer that the model asks."""
        if self.graph.n == 0:
            return self.answered("")
        run = arc_swap_model.Run(self.graph, (), self.room)
        run.ceilings = ceilings(self, run.loads)
        passes, (no_gain, bad_balance, moved) = run.passes(), run.counts
        cut = (edge_cut(self.graph, self.graph.labels), edge_cut(self.graph, run.labels))
        counts = (sum(run.counts), moved, no_gain, bad_balance)
        end = STACK_FULL if run.full else GAINLESS
        return Answer(DONE, end, passes, cut, tuple(run.labels), tuple(run.loads), (), counts)

    def replay_line(self, answer):
        expected = (*answer.report(), *answer.all_loads(), *answer.counts, *answer.labels)
        return " ".join(map(str, (self.code, *self.graph.numbers(), *self.settings(), *expected)))

    def answered(self, answer):
        if self.graph.n == 0:
            return Answer(DONE, EMPTY, 0, (0, 0), (), (), (), (0, 0, 0, 0))
        f = fields(answer)
        cut, labels, loads, counts = (tuple(numbers(f[name])) for name in ("cut", "labels", "loads", "counts"))
        empty = max(self.graph.labels) + 1 - len(loads)  # parts that the oracle no longer sees, as they lost their last vertex
        return Answer(DONE, GAINLESS, int(f["passes"]), cut, labels, loads + (0,) * empty, (), counts)


def panic_site(answer):
    return answer.split()[1].removeprefix("at=") if answer.startswith("PANIC") else None


def answers_of(asks):
    """The answers that are asked of the library by coupe's, to cases of FM or arc-swap."""
    return [ask.answered(answer) for ask, answer in zip(asks, oracle_answers([ask.oracle_line() for ask in asks]))]


def tie_free(asks):
    """The cases in which there are moves and no tie bears on one, so that a set that is ordered upwards or downwards gives the
    same moves; and coupe's unchanged answers to them."""
    sides = [oracle_answers([ask.oracle_line(word) for ask in asks]) for word in ("fml", "fmb")]
    free = [ask for ask, low, high in zip(asks, *sides) if low == high and "moves=" in low and not low.endswith("moves=")]
    return free, [ask.answered(answer) for ask, answer in zip(free, oracle_answers([ask.oracle_line("fm") for ask in free]))]


def kl_answers(asks):
    """The answers that are asked of the library by coupe's, and the place of coupe's panic for each, None without one."""
    asks = list(asks)
    answers = oracle_answers([ask.oracle_line() for ask in asks])
    sites = [panic_site(answer) for answer in answers]
    again = [i for i, site in enumerate(sites) if site in EXHAUSTED]
    for i in again:
        asks[i] = replace(asks[i], swaps=min(asks[i].swaps, smaller_part(asks[i].graph.labels)))
    for i, answer in zip(again, oracle_answers([asks[i].oracle_line() for i in again])):
        answers[i] = answer

    wanted = [None] * len(asks)
    unsure = []
    for i, (ask, answer) in enumerate(zip(asks, answers)):
        site = panic_site(answer)
        if site == LABELS:
            wanted[i] = Answer(REFUSED_LABEL, 0, 0, (0, 0), ask.graph.labels)
        elif site == SWAPLESS:
            f = dict(word.split("=") for word in answer.split()[1:])
            labels, before = tuple(numbers(f["labels"])), f["rows"].split(",") if f["rows"] else []
            cut = (edge_cut(ask.graph, ask.graph.labels), edge_cut(ask.graph, labels))
            wanted[i] = Answer(DONE, GAINLESS, len(before) + 1, cut, labels)
        else:
            f = fields(answer)
            passes = len(f["rows"].split(",")) if f["rows"] else 0
            end = GAINLESS if passes < ask.passes else PASS_LIMIT
            wanted[i] = Answer(DONE, end, passes, tuple(numbers(f["cut"])), tuple(numbers(f["labels"])))
            if passes == ask.passes > 0:
                unsure.append(i)
    shorter = oracle_answers([replace(asks[i], passes=asks[i].passes - 1).oracle_line() for i in unsure])
    for i, answer in zip(unsure, shorter):
        if numbers(fields(answer)["cut"])[1] <= wanted[i].cut[1]:
            wanted[i] = replace(wanted[i], end=GAINLESS)
    return wanted, sites


def a_limit(rng, n):
    """A move, swap or bad limit: 0, few, about n, or the most."""
    return rng.choice((0, 1, 1, 2, 3, n // 2, max(0, n - 1), n, n + 1, MOST_U32))


def pass_limit(rng):
    return rng.choice((0, 1, 1, 2, 2, 3, 5, 64, 1024))


def an_imbalance(rng):
    return rng.choice((0.0, -0.0, 64.0, 0.1, 0.25, 1.0, rng.random(), rng.random() / 10, rng.random() * 64))


def fm_asks(rng, graph):
    """The graph in two parts under each choice; an imbalance also as the whole number that it gives; and as it is, where that
    is more than two parts."""
    def limits():
        return pass_limit(rng), a_limit(rng, graph.n), a_limit(rng, graph.n)

    two = graph.labelled(label % 2 for label in graph.labels)
    total = sum(graph.weights)
    asks = [FM(two, *limits(), CARRIED)]
    same, imbalance = limits(), an_imbalance(rng)
    asks.append(FM(two, *same, IMBALANCE, imbalance=imbalance))
    wholes = [(same, ceiling(total, imbalance)), (limits(), rng.randint(0, total + 1))]
    asks += [FM(two, *s, WHOLE, whole=w) for s, w in wholes if w <= MOST_U32 and imbalance_for(total, w) is not None]
    if max(graph.labels, default=0) > 1:
        asks.append(FM(graph, *limits(), CARRIED))
    return asks


def arc_swap_asks(rng, graph):
    """The graph as it is, and in any number of parts, under the two choices that coupe has. A small graph has a stack that is
    zeroed quickly."""
    parts = rng.randint(2, PARTS)
    many = graph.labelled(rng.randrange(parts) for _ in graph.labels)
    room = LONG_STACK if graph.n > 12 else 1024
    asks = [ArcSwap(g, CARRIED, room=room) for g in (graph, many)]
    return asks + [ArcSwap(g, IMBALANCE, imbalance=an_imbalance(rng), room=room) for g in (graph, many)]


def modelled_asks(rng, asks):
    """Cases of arc-swap that coupe has not: with a short stack, and with a whole ceiling."""
    for ask in asks:
        yield replace(ask, room=rng.choice((0, 1, 1, 2, 2, 3, 4, 5, 8)))
        yield replace(ask, choice=WHOLE, whole=rng.randint(0, sum(ask.graph.weights) + 1))


def asks_by_board(rng, asks):
    """Cases with a ceiling for each board: every board's drawn, the largest load on all, one board full and the others wide, and the most
    that there is."""
    for ask in asks:
        total = sum(ask.graph.weights)
        loads = [sum(w for w, label in zip(ask.graph.weights, ask.graph.labels) if label == part) for part in range(PARTS)]
        full = rng.randrange(PARTS)
        for each in ([rng.randint(0, total + 1) for _ in loads], [max(loads)] * PARTS, [load + rng.randint(0, 3) for load in loads],
                     [load if part == full else MOST_U32 for part, load in enumerate(loads)]):
            yield replace(ask, choice=EACH, whole=rng.randint(0, MOST_U32), each=tuple(min(number, MOST_U32) for number in each))


def kl_asks(rng, graph):
    """The graph in two parts of any names, twice, and now and then as it is."""
    n = graph.n
    asks = []
    if n > 1:
        sides = [label % 2 for label in graph.labels]
        if len(set(sides)) == 1:
            sides[rng.randrange(n)] ^= 1
        names = rng.sample(range(PARTS), 2)
        two = graph.labelled(names[side] for side in sides)
        asks = [KL(two, pass_limit(rng), a_limit(rng, n), a_limit(rng, n)) for _ in range(2)]
    if n < 2 or rng.random() < 0.2:
        asks.append(KL(graph, pass_limit(rng), a_limit(rng, n), a_limit(rng, n)))
    return asks
