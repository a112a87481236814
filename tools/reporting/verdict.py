"""The verdict of a page: statements on what was looked at, each found, not judged or clean, gathered in lines of the summary.

Found is what a person has to look at. Not judged is what could matter and was not, or could not be, looked at: it says what to do.
Clean is said only of what was read and judged whole.
"""
import enum

from reporting import page


class State(enum.IntEnum):
    """The worst of several states is their greatest."""

    CLEAN, NOT_JUDGED, FOUND = range(3)


WORDS = {State.FOUND: "found", State.NOT_JUDGED: "not judged", State.CLEAN: "clean"}
CLASSES = {State.FOUND: "found", State.NOT_JUDGED: "unjudged", State.CLEAN: "clean"}
STATUSES = {State.FOUND: 1, State.NOT_JUDGED: 6, State.CLEAN: 0}
# How many names or kinds a statement tells.
MOST = 3


class Statement:
    """What was seen of one thing, in what state, and what to do where it was not judged."""

    def __init__(self, state, told, todo=None):
        self.state, self.told, self.todo = state, told, todo

    def html(self):
        todo = page.element("span", f" To do: {self.todo}.", class_="todo") if self.todo else ""
        return page.element("span", [self.told, todo], class_=CLASSES[self.state])


def found(told):
    return Statement(State.FOUND, told)


def not_judged(told, todo):
    return Statement(State.NOT_JUDGED, told, todo)


def clean(told):
    return Statement(State.CLEAN, told)


def some(told):
    """The first of some things, and how many more there are."""
    more = f"; {len(told) - MOST:,} more" if len(told) > MOST else ""
    return "; ".join(told[:MOST]) + more


class Line:
    """A line of the summary: its topic, the section that tells more, and its statements, the worst first."""

    def __init__(self, topic, key, statements):
        self.topic, self.key = topic, key
        self.statements = sorted(statements, key=lambda it: -it.state)
        self.state = max((it.state for it in self.statements), default=State.CLEAN)

    def html(self):
        head = page.element("span", f"{self.topic}, {WORDS[self.state]}: ", class_="state")
        told = [part for it in self.statements for part in (page.Raw(it.html()), " ")]
        more = page.element("a", "more", href=f"#{self.key}")
        return page.Raw(page.element("li", [head, *told, more], class_=CLASSES[self.state]) + "\n")


class Verdict:
    """The lines of the summary, the worst first, and what they come to."""

    def __init__(self, lines):
        self.lines = sorted(lines, key=lambda it: -it.state)
        self.state = max((it.state for it in self.lines), default=State.CLEAN)

    @property
    def status(self):
        return STATUSES[self.state]

    def topics(self, state):
        return [it.topic for it in self.lines if it.state == state]

    def sentence(self):
        """The verdict in one sentence."""
        wrong, unjudged = self.topics(State.FOUND), self.topics(State.NOT_JUDGED)
        if wrong:
            also = f" Not judged: {', '.join(unjudged)}." if unjudged else ""
            return f"Found: {', '.join(wrong)}.{also}"
        if unjudged:
            return f"Not judged: {', '.join(unjudged)}. Nothing was found in what was judged."
        return "Clean: nothing was found, and all that could matter was read and judged."

    def html(self):
        return page.Raw(page.element("p", self.sentence(), class_=f"verdict {CLASSES[self.state]}", role="status") + "\n")
