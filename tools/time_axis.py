"""The steps of a time axis, in microseconds, and the digits of their labels."""


def step_of(span):
    """A round step of the axis, in microseconds, of which the span has five to ten or so."""
    step = 1
    while True:
        for factor in (1, 2, 5):
            if span <= step * factor * 10:
                return step * factor
        step *= 10


def places_of(step, unit):
    """How many digits behind the point a step has in a unit of so many microseconds."""
    places = 0
    while step * 10 ** places % unit:
        places += 1
    return places
