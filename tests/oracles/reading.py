"""What the commands that read events write of a list or of a capture, by the slow programs."""
from oracles import dates, inventory, losses, objects, packets, reference, skipping, subscriber, unwrapping, watcher

COMMANDS = "show", "check", "blocks", "replay", "watch", "losses"
CAPTURE, SKIP, UNWRAP, TIME, JSON = "--capture", "--skip-other", "--unwrap", "--time", "--json"
OPTIONS = set(reference.OPTIONS) | subscriber.OPTIONS


def options_of(asked):
    """The words of a command line without its options, and those of them that it has."""
    end = asked.index("--") if "--" in asked else len(asked)
    plain = [word for at, word in enumerate(asked) if at > end or word not in OPTIONS]
    return plain, OPTIONS & set(asked[:end])


def values(asked, name):
    """The values of the uses of an option, each in its next word or in its own."""
    found, words = [], iter(asked)
    for word in words:
        if word == name:
            found.append(next(words, ""))
        elif word.startswith(f"{name}="):
            found.append(word[len(name) + 1:])
    return found


def value(asked, name):
    """The value of an option; None where it is not given."""
    return next(iter(values(asked, name)), None)


def reader_of(asked, events_of=None):
    """The reader that a command line asks for, over this one of an input, or over that which its words name."""
    options = options_of(asked)[1]
    reader = events_of or (packets.events if CAPTURE in options else reference.events)
    return unwrapping.Unwrapping(reader) if UNWRAP in options else reader


def answered(asked, octets, has_failed=False, events_of=None):
    """The lines that a command line answers of octets, its exit status, and what it passed over, if it passes over anything. The
    octets are read as the command line says, or by another reader."""
    plain, options = options_of(asked)
    reader = reader_of(asked, events_of)
    passed = skipping.Skipping(reader) if SKIP in options else None
    how = has_failed, passed or reader
    name, *own = own_words(plain)
    if name in ("show", "check"):
        lines, status = {"show": reference.show, "check": reference.check}[name](octets, *how)
    elif name == "blocks":
        lines, status = inventory.blocks(octets, *how)
    elif name == "replay":
        lines, status = subscriber.replay(octets, *own, *how, options)
    elif name == "losses":
        lines, status = losses.losses(octets, *own, *how)
    else:
        lines, status = watcher.watch(octets, *own, *how)
    return lines, status, passed


def own_words(plain):
    """A command's name, and what it is asked for."""
    name, *own = [word for word in plain if word != "--"]
    if name == "watch":
        return name, int(value(own, "--period")), value(own, "--id")
    if name == "losses":
        return name, values(own, "--period")
    return (name, own) if name == "replay" else (name,)


def written(asked, lines, octets, has_failed=False, events_of=None):
    """These lines as the command line has them written."""
    plain, options = options_of(asked)
    reader = reader_of(asked, events_of)
    if TIME in options:
        return list(dates.dated(lines, octets, has_failed, reader))
    if JSON in options:
        name, *own = own_words(plain)
        reader = skipping.Skipping(reader) if SKIP in options else reader
        own += (options,) if name == "replay" else ()
        return list(objects.objects(name, "packet" if CAPTURE in options else "line", own, octets, has_failed, reader))
    return lines
