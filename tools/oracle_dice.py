"""The dice by which scripts of fixed seeds are drawn. `tools/oracle.py` says what this is for."""

MASK = 2**64 - 1


class Dice:
    """A xorshift generator, whose state isn't 0."""

    def __init__(self, seed: int):
        self.state = seed * 0x9E3779B97F4A7C15 & MASK | 1

    def roll(self, sides: int) -> int:
        """A number below `sides`."""
        state = self.state
        state ^= state << 13 & MASK
        state ^= state >> 7
        state ^= state << 17 & MASK
        self.state = state
        return state % sides
