"""The algorithms that are compared, as one table: how a graph is put to the oracle, and what its answer asks of the library.

An algorithm to come is one more entry. Its `asks` draws the settings to try on a graph (and fits the labels to the
algorithm, as FM wants two parts); its `expected` turns the oracle's answer into the numbers that the replay program
reads after the labels: the settings as the library takes them, then the answer.
"""

import random
from dataclasses import dataclass
from typing import Callable

from make_cases import PARTS, Graph


class Disagreement(Exception):
    """The oracle does not answer as it should, or not with one voice."""


@dataclass(frozen=True)
class Ask:
    """A case: a graph, the algorithm, and its settings as the oracle's words `P M B E`."""

    algorithm: "Algorithm"
    graph: Graph
    settings: str = "- - - -"

    def oracle_line(self):
        return " ".join((self.algorithm.word, self.settings, *map(str, self.graph.numbers())))

    def replay_line(self, answer):
        """The replay program's line for the oracle's answer, or None where the two cannot be compared."""
        expected = self.algorithm.expected(self, answer)
        if expected is None:
            return None
        return " ".join(map(str, (self.algorithm.code, *self.graph.numbers(), *expected)))


@dataclass(frozen=True)
class Algorithm:
    name: str  # as the replay program prints it
    code: int  # as the replay program reads it
    word: str  # as the oracle reads it
    asks: Callable[["Algorithm", random.Random, Graph], list]
    expected: Callable[[Ask, str], list]


def plain(algorithm, rng, graph):
    """The graph as it is, with no settings."""
    return [Ask(algorithm, graph)]


def fields(answer):
    """The values of the oracle's `OK key=values ..`, by their key."""
    words = answer.split()
    if not words or words[0] != "OK":
        raise Disagreement(answer)
    return dict(word.split("=") for word in words[1:])


def numbers(values):
    return [int(value) for value in values.split(",")] if values else []


def one_cut(ask, answer):
    """coupe's default topology and its sprs topology (on a stub of sprs) each give the cut."""
    default, by_sprs = numbers(fields(answer)[ask.algorithm.word])
    if default != by_sprs:
        raise Disagreement(answer)
    return [default]


def all_loads(ask, answer):
    loads = numbers(fields(answer)["loads"])
    return loads + [0] * (PARTS - len(loads))


ALGORITHMS = (
    Algorithm("edge cut", 1, "cut", plain, one_cut),
    Algorithm("lambda cut", 2, "lambda", plain, one_cut),
    Algorithm("loads", 3, "loads", plain, all_loads),
)
