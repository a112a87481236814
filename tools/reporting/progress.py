"""How far a long work is, told to a terminal in one line: what is being done, packets, seconds."""
import sys
import time

EVERY = 0.2


class Progress:
    """A line on a terminal, and nothing elsewhere."""

    def __init__(self):
        self.shows = bool(sys.stderr) and sys.stderr.isatty()
        self.began, self.next = time.monotonic(), 0

    def tell(self, what, packets, total=None):
        """What is being done at which packet, of how many where that is known."""
        now = time.monotonic()
        if self.shows and now >= self.next:
            self.next = now + EVERY
            of = f" of {total:,}" if total else ""
            print(f"\r\033[K{what}: packet {packets:,}{of}, {now - self.began:.0f} s", end="", file=sys.stderr, flush=True)

    def clear(self):
        if self.shows:
            print("\r\033[K", end="", file=sys.stderr, flush=True)
