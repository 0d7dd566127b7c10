"""Random inputs of a fixed seed."""

import random


class Draws(random.Random):
    def bytes(self, size):
        return self.getrandbits(8 * size).to_bytes(size, "big") if size else b""

    def up_to(self, most):
        return self.bytes(self.randrange(most + 1))
