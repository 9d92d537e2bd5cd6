"""What is between the station and the devices of a rehearsal: whose turn it is, and how often a frame comes (docs/REHEARSAL.md, "The channel")."""

MULTIPLIER, MODULUS = 48271, 2147483647
# The station and the device at each of eight sockets, in the order of their turns.
ENDS = 16


class WholeChannel:
    """What a tray has without a channel line: the turns go round, and every frame comes once."""

    def __init__(self):
        self.turns = 0

    def turn(self):
        """Whose turn it is, below 16."""
        self.turns += 1
        return (self.turns - 1) % ENDS

    def times(self):
        """How often the frame comes that is sent now."""
        return 1


class LossyChannel:
    """Park and Miller's numbers, behind the one that the seed gives; of each hundred frames so many are lost, of the others so many come twice."""

    def __init__(self, seed, lost, repeated):
        self.number = seed % (MODULUS - 1) + 1
        self.lost = lost
        self.repeated = repeated

    def draw(self):
        self.number = self.number * MULTIPLIER % MODULUS
        return self.number

    def turn(self):
        return self.draw() % ENDS

    def times(self):
        """Two numbers are drawn, whatever the first says."""
        first, second = self.draw(), self.draw()
        if first % 100 < self.lost:
            return 0
        return 2 if second % 100 < self.repeated else 1
