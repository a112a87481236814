"""How one control block goes on from frame to frame: how often its lifetime changes, and where it restarts within the lifetime."""
# Where the digits of a time stand in the state of a frame, without its quality; and what stands before stNum.
BEGIN, END, NUMBER = 6, 20, b'"stNum":'
GREATEST = (1 << 32) - 1
# How many restarts are held.
MOST = 10000


class Sequence:
    """The real frames of one control block, in order."""

    def __init__(self, restarts):
        self.restarts, self.sort, self.live, self.changes, self.time, self.number = restarts, None, None, 0, b"", 0

    def go_on(self, sort):
        """The next frames are of another sort than the last one."""
        live = sort.record["timeAllowedtoLive"]
        self.changes += self.live not in (None, live)
        self.sort, self.live = sort, live

    def see(self, found, state):
        """A frame of another state: its fields from t to stNum. A younger t with a lower stNum is a restart, but for one after the greatest."""
        time = state[BEGIN:END]
        if time <= self.time:
            return
        number = int(state[state.rindex(NUMBER) + len(NUMBER):])
        is_wrap = self.number == GREATEST and number <= 1
        if number < self.number and not is_wrap and len(self.restarts) < MOST:
            self.restarts.add(int(found[1]))
        self.time, self.number = time, number


class Sequences:
    """Those of all control blocks, and the packets that restart one."""

    def __init__(self):
        self.held, self.restarts = {}, set()

    def of(self, record):
        key = record["appid"], record["gocbRef"]
        if key not in self.held:
            self.held[key] = Sequence(self.restarts)
        return self.held[key]

    def changes(self, appid, reference):
        """How often the lifetime of a block changed."""
        held = self.held.get((appid, reference))
        return held.changes if held else 0
