"""Repeatable choices: everything comes from one stream of random bits."""

import random


class Chance:
    def __init__(self, seed):
        self.source = random.Random(seed)

    def below(self, count):
        """A whole number from 0 to count - 1. Only bits are asked of the source, so that a seed stays a script."""
        bits = (count - 1).bit_length()
        while True:
            drawn = self.source.getrandbits(bits) if bits else 0
            if drawn < count:
                return drawn

    def between(self, least, most):
        return least + self.below(most - least + 1)

    def one(self, items):
        return items[self.below(len(items))]

    def often(self, percent):
        return self.below(100) < percent

    def weighted(self, pairs):
        """One of the items, each as often as its weight says."""
        drawn = self.below(sum(weight for _, weight in pairs))
        for item, weight in pairs:
            drawn -= weight
            if drawn < 0:
                return item

    def bytes(self, count):
        return bytes(self.below(256) for _ in range(count))

    def text(self, most):
        return self.bytes(self.between(1, most))

    def shuffled(self, items):
        items = list(items)
        for at in range(len(items) - 1, 0, -1):
            other = self.below(at + 1)
            items[at], items[other] = items[other], items[at]
        return items
