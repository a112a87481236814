"""The slow programs as one program, which reads lists and captures under the six commands that read events, and lists under
`rewrite`: to try the tests themselves. Its messages are few."""
import os
import re
import sys

sys.path.insert(0, os.path.dirname(os.path.dirname(os.path.abspath(__file__))))
from helpers.harness import never_seen, text  # noqa: E402
from oracles import links, losses, reading, reference, skipping  # noqa: E402


def all_octets(descriptor):
    """What is read there, and whether reading failed."""
    octets = bytearray()
    try:
        while some := os.read(descriptor, 65536):
            octets += some
        return bytes(octets), False
    except OSError:
        return bytes(octets), True


def said(asked, lines, status, passed, linked, unjudged):
    """What standard error says, of a run whose words are right."""
    if status == 4:
        return ["read or write fault: cannot read: Input/output error"]
    told = []
    if passed and passed.kinds:
        name = lambda kind: f" ({skipping.usual_name(kind)})" if skipping.usual_name(kind) else ""
        kinds = [f"{count} of {'' if at else 'EtherType '}{kind:04x}{name(kind)}, from {first} on"
                 for at, (kind, (count, first)) in enumerate(passed.kinds.items())]
        rest = [f"{passed.others[0]} of others, from {passed.others[1]} on"] if passed.others else []
        told.append(f"goose {asked[0]}: passed over: {'; '.join(kinds + rest)}")
    told += [f"goose {asked[0]}: {it}" for it in linked] + [f"goose losses: {it}" for it in losses.not_judged(unjudged)]
    if status == 3:
        number, sort, name = lines[-1].split(" ")
        place = f"line {number}" if sort == "list" else f"packet {number}" if number != "0" else "header"
        told.append(f"goose {asked[0]}: {place}: {name}: that is an error")
    if asked[0] == "replay" and status == 0:
        blocks = [word for word in reading.options_of(asked)[0][1:] if word != "--"]
        told += never_seen(blocks, text(lines)).decode().splitlines()
    return told


def unjudged_of(asked, plain, octets, has_failed):
    """The streams that a command line does not judge."""
    if plain[0] != "losses":
        return []
    given = reading.own_words(plain)[1]
    return [key for key in losses.streams(octets, has_failed, reading.reader_of(asked)) if losses.period_of(given, key) is None]


def refusal(plain):
    """What is wrong with the period of a command line, or with what stands beside it under `losses`; None where all is well."""
    name, *own = plain
    periods = reading.values(own, "--period")
    for text in periods:
        number = text.rpartition("=")[2] if name == "losses" else text
        if not (re.fullmatch(r"\+?[0-9]+", number) and 2 <= int(number) <= 65536):
            value = "[ID=]N" if name == "losses" else "N"
            return f"error: invalid value '{text}' for '--period <{value}>': {number} is not in 2..=65536"
    if name == "watch" and len(periods) > 1:
        return "error: a watch has one --period"
    count = len(own) - own.count("--")
    is_alone = count == len(periods) + sum(word == "--period" for word in own)
    return None if name != "losses" or is_alone else "error: --period is the one option that has a value"


def main(asked):
    plain, _ = reading.options_of(asked)
    if not plain or plain[0] not in reading.COMMANDS or {"-h", "--help"} & set(plain) or (
            plain == asked and asked[0] in reference.COMMANDS):
        return reference.main(asked)
    if {reading.TIME, reading.JSON} <= reading.options_of(asked)[1]:
        reference.put(2, [f"error: {reading.TIME} does not go with {reading.JSON}"])
        return 2
    why = refusal(plain) if plain[0] in ("watch", "losses") else None
    if why:
        reference.put(2, [why])
        return 2
    octets, has_failed = all_octets(reference.LIST_DESCRIPTOR)
    lines, status, passed = reading.answered(asked, octets, has_failed)
    linked = links.told(octets) if reading.CAPTURE in reading.options_of(asked)[1] else []
    status = status if reference.put(1, reading.written(asked, lines, octets, has_failed)) else 4
    reference.put(2, said(asked, lines, status, passed, linked, unjudged_of(asked, plain, octets, has_failed)))
    return status


if __name__ == "__main__":
    sys.exit(main(sys.argv[1:]))
