"""Random choices. A seed gives the same choices in every version of Python: they use only `random()`, whose numbers Python promises to keep."""
import random


class Chance:
    """A row of choices that a seed decides."""

    def __init__(self, seed):
        self._random = random.Random(str(seed)).random

    def below(self, count):
        """A number from 0 on, below `count`."""
        return int(self._random() * count)

    def happens(self, likely):
        return self._random() < likely

    def one_of(self, items):
        return items[self.below(len(items))]

    def by_weight(self, weights):
        """A key of a table of weights."""
        left = self._random() * sum(weights.values())
        for key, weight in weights.items():
            left -= weight
            if left < 0:
                return key
        return key

    def some_of(self, items, count):
        """So many of the items, in the order of chance."""
        left, taken = list(items), []
        while left and len(taken) < count:
            taken.append(left.pop(self.below(len(left))))
        return taken

    def shuffled(self, items):
        return self.some_of(items, len(items))
