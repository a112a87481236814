"""How many of each kind there were, written from docs/FORMATS.md alone."""

MOST_KINDS = 16


class Tally:
    """How many of each kind there were, with the number of the first: of the first sixteen kinds by themselves, and of the rest together."""

    def __init__(self):
        self.kinds, self.others = {}, None

    def count(self, kind, number):
        """One more of this kind."""
        if kind in self.kinds or len(self.kinds) < MOST_KINDS:
            so_far, first = self.kinds.get(kind, (0, number))
            self.kinds[kind] = so_far + 1, first
        else:
            so_far, first = self.others or (0, number)
            self.others = so_far + 1, first
