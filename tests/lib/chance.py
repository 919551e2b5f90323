"""Random tests, each of which gets its dice, a `random.Random`. If python3-hypothesis is installed it throws the dice: it shrinks the
throws of a failing test, keeps them in tests/failed, and tries them first the next time. Otherwise each round has a seed of its own, and
a failing test prints the seed of its round."""
import functools
import os
import random

import helper

try:
    import hypothesis
    from hypothesis.database import DirectoryBasedExampleDatabase
    from hypothesis.strategies import randoms
except ImportError:
    hypothesis = None


def by_chance(rounds):
    """Marks a test that is played this many times, or as often as ROUNDS says."""
    return functools.partial(shrunk if hypothesis else seeded, rounds)


def shrunk(rounds, test):
    kept = DirectoryBasedExampleDatabase(os.path.join(helper.FAILED, "hypothesis"))
    rounds = int(os.environ.get("ROUNDS", rounds))
    return hypothesis.settings(max_examples=rounds, deadline=None, database=kept)(hypothesis.given(dice=randoms())(test))


def seeded(rounds, test):
    @functools.wraps(test)
    def play(self):
        first = helper.number("SEED", 20261127)
        for seed in range(first, first + helper.number("ROUNDS", rounds)):
            try:
                test(self, random.Random(seed))
            except Exception:
                helper.numbers.update(SEED=seed, ROUNDS=1)
                raise
    return play
