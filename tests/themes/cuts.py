"""Frames that are cut, with and without a Length that fits."""
from helpers.frames import WORKED, WORKED_LINE, framed, put, with_length
from helpers.harness import Case, listed, text

TAGGED = framed(WORKED[22:], tag=b"\x81\x00\x80\x00", trailer=bytes(4))
TAGGED_LINE = WORKED_LINE.replace("tag=-", "tag=8000")


def shown(name, frames, lines):
    """Frames in one list, and the lines that show them, without their numbers."""
    return Case(name, ["show"], listed(*frames), text(f"{i} {line}" for i, line in enumerate(lines, 1)))


def cases():
    yield shown("each cut of the worked frame", [WORKED[:n] for n in range(1, 67)],
                [f"fault {n} Truncated" for n in range(1, 67)])
    trailers = [TAGGED_LINE] + [TAGGED_LINE.replace("trailer=-", "trailer=" + "00" * n) for n in (1, 2, 3)]
    yield shown("each cut of a tagged frame with a trailer", [TAGGED[:n] for n in range(1, 75)],
                [f"fault {n} Truncated" for n in range(1, 71)] + trailers)
    yield shown("each cut whose Length fits", [with_length(WORKED[:n], n - 14) for n in range(22, 67)],
                ["fault 22 ElementMissing", "fault 23 Ends"] + ["fault 23 LengthPastEnd"] * 43)
    told = {n: (n, "ElementMissing") for n in (24, 27, 50, 53, 62)}
    told.update({25: (25, "Ends"), 28: (28, "Ends"), 26: (25, "LengthPastEnd")})
    told.update({n: (63, "LengthPastEnd") for n in (64, 65, 66)})
    yield shown("cuts whose Length and APDU fit",
                [put(with_length(WORKED[:n], n - 14), at23=n - 24) for n in sorted(told)],
                ["fault {} {}".format(*told[n]) for n in sorted(told)])
