"""Chance from a seed. Only Random.random() is used, the one method that gives the same numbers in every Python."""
from random import Random

# Message lengths at the edges of the cut: 20 + 23 k and its neighbours, the first and the last.
EDGE_LENGTHS = (1, 2, 19, 20, 21, 22, 42, 43, 44, 45, 65, 66, 67, 88, 89, 90)
LONG_LENGTHS = (1445, 1446, 1447, 1468, 1469)
WRONG_LENGTHS = (0, 1470, 1471)


class Chance:
    def __init__(self, seed):
        self.source = Random(seed)

    def below(self, count):
        return int(self.source.random() * count)

    def between(self, first, last):
        return first + self.below(last - first + 1)

    def happens(self, percent):
        return self.below(100) < percent

    def pick(self, items):
        return items[self.below(len(items))]

    def weighted(self, pairs):
        """One of the items, each pair being (weight, item)."""
        place = self.below(sum(weight for weight, _ in pairs))
        for weight, item in pairs:
            if place < weight:
                return item
            place -= weight
        raise AssertionError("the place lies below the sum of the weights")

    def octet(self):
        return self.below(256)

    def octets(self, count):
        return bytes(self.below(256) for _ in range(count))

    def shuffled(self, items):
        rest, result = list(items), []
        while rest:
            result.append(rest.pop(self.below(len(rest))))
        return result

    def other_octet(self, octet):
        """Any octet but this one."""
        return (octet + self.between(1, 255)) % 256

    def message_length(self):
        """Mostly short, often at an edge, now and then of full length."""
        choice = self.below(100)
        if choice < 40:
            return self.between(1, 60)
        if choice < 85:
            return self.pick(EDGE_LENGTHS)
        if choice < 97:
            return self.between(60, 200)
        return self.pick(LONG_LENGTHS)
