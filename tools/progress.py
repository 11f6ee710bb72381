"""How far a tool is with a long input, said on standard error."""
import sys
import time

EVERY = 5.0  # seconds
LOOK = 1000  # counts between two looks at the clock


class Progress:
    """Says every few seconds how many there were so far, and nothing of what is done sooner."""

    def __init__(self, tool, what, output=sys.stderr):
        self.tool, self.what, self.output = tool, what, output
        self.begun = self.said = time.monotonic()

    def tell(self, count):
        """Takes the count so far, which grows by one from call to call."""
        if count % LOOK == 0 and time.monotonic() - self.said >= EVERY:
            self.said = time.monotonic()
            print(f"{self.tool}: {count:,} {self.what}, {self.said - self.begun:.0f} s", file=self.output, flush=True)
