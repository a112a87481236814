"""What is missing of control blocks and streams, slowly: each frame and each sample is judged by a look back over all that came before it
of its sender or stream. No newest number and no deadline is kept: each is searched for anew."""
import collections
import fractions

from oracles import reference

MOST = 2**64 - 1
SECOND = 10**6
# A frame of a sender: the greatest time so far, stNum and sqNum, the end of the lifetime that it states, what it is beside those before,
# and what is said of it. Of a sample the same: its count and how it is synchronised.
Frame = collections.namedtuple("Frame", "now pair ends way said")
Sample = collections.namedtuple("Sample", "now count synch way said")


# ---- Control blocks ----------------------------------------------------------


def since_restart(earlier):
    """The frames from the last restart on."""
    begun = max((at for at, it in enumerate(earlier) if it.way == "restarted"), default=0)
    return earlier[begun:]


def newest_pair(earlier):
    """The greatest pair since the last restart."""
    return max(it.pair for it in since_restart(earlier))


def renewals(earlier):
    """The frames that set a deadline: the first, those above the newest, those that end a silence."""
    is_silent = lambda it: any(word == "silent" for word, _ in it.said)
    return [it for it in earlier if it.way in ("first", "above", "restarted") or it.way == "repeated" and is_silent(it)]


def deadline(earlier):
    return renewals(earlier)[-1].ends


def gaps(newest, pair):
    """What is missing between the newest pair and one above it. What is missing at the end of a state is not known."""
    (state, sequence), (to_state, to_sequence) = newest, pair
    if to_state > state + 1:
        yield "states-missing", {"from": state + 1, "to": to_state - 1}
    first = sequence + 1 if to_state == state else 0
    if to_sequence > first:
        yield "frames-missing", {"st": to_state, "from": first, "to": to_sequence - 1}


def frame_after(earlier, now, pair, lives):
    """A frame beside the earlier ones of its sender."""
    ends, said = now + 1000 * lives, []
    if not earlier:
        return Frame(now, pair, ends, "first", said)
    until, newest = deadline(earlier), newest_pair(earlier)
    if until <= now:
        said.append(("silent", {"since": until, "for": now - until}))
    if pair > newest:
        return Frame(now, pair, ends, "above", [*said, *gaps(newest, pair)])
    if pair == newest:
        return Frame(now, pair, ends, "repeated", said)
    way = "restarted" if said else "late"
    return Frame(now, pair, ends, way, [*said, (way, {"st": pair[0], "sq": pair[1]})])


def silence_of_sender(earlier, now):
    """The silence of a sender that lasts at the end."""
    until = deadline(earlier)
    return {"since": until, "for": now - until} if until <= now else None


def total_of_sender(earlier, now):
    said, times = [it for frame in earlier for it in frame.said], [it.now for it in renewals(earlier)]
    lost = lambda which: sum(values["to"] - values["from"] + 1 for word, values in said if word == which)
    silences = sum(word == "silent" for word, _ in said) + (silence_of_sender(earlier, now) is not None)
    ways = collections.Counter(it.way for it in earlier)
    return {"frames": len(earlier), "states-missing": lost("states-missing"), "frames-missing": lost("frames-missing"), "late": ways["late"],
            "repeated": ways["repeated"], "restarted": ways["restarted"], "silent": silences,
            "longest": max((later - sooner for sooner, later in zip(times, times[1:])), default=0)}


# ---- Streams -----------------------------------------------------------------


def in_sequence(earlier):
    """The samples that were the newest one when they came."""
    return [it for it in earlier if it.way in ("first", "next", "missing")]


def unbroken(newest):
    """How many samples came one by one up to the newest."""
    begun = max(at for at, it in enumerate(newest) if it.way != "next")
    return len(newest) - begun


def gone_on(newest):
    """How many samples the newest is ahead of the first one."""
    outages = [values["missing"] for it in newest for word, values in it.said if word == "samples-missing"]
    return sum(outages) + len(newest) - 1


def advance(period, newest, now, count):
    """The whole number nearest to what the time says, of those that the counts allow; of two as near, the greater."""
    wanted = fractions.Fraction((now - newest.now) * period, SECOND)
    least = int(wanted) - period
    first = least + (count - newest.count - least) % period
    return min((first, first + period, first + 2 * period), key=lambda it: (abs(it - wanted), -it))


def sample_after(earlier, period, now, count, synch):
    """A sample beside the earlier ones of its stream, and in how many a second they come, if that is known."""
    way, said = ("counted", []) if period is None else judged(in_sequence(earlier), period, now, count)
    before = earlier[-1].synch if earlier else synch
    return Sample(now, count, synch, way, said + [("synch", {"from": before, "to": synch})] * (before != synch))


def judged(newest, period, now, count):
    if count >= period:
        return "out-of-range", [("count-out-of-range", {"cnt": count})]
    if not newest:
        return "first", []
    last = newest[-1]
    more = advance(period, last, now, count)
    if more == 1:
        return "next", []
    if more > 1:
        return "missing", [("samples-missing", {"from": (last.count + 1) % period, "missing": more - 1})]
    is_copy = -more < unbroken(newest)
    if not is_copy and -more > gone_on(newest):
        return "before the first", []
    way = "repeated" if is_copy else "late"
    return way, [(f"sample-{way}", {"cnt": count})]


def silence_of_stream(earlier, now):
    """The silence of a stream that lasts at the end."""
    last = in_sequence(earlier)[-1:]
    return {"since": last[0].now, "for": now - last[0].now} if last and now - last[0].now >= SECOND else None


def total_of_stream(earlier, period):
    if period is None:
        return {"samples": len(earlier)}
    ways = collections.Counter(it.way for it in earlier)
    lost = [values["missing"] for it in earlier for word, values in it.said if word == "samples-missing"]
    return {"samples": len(earlier), "missing": sum(lost), "late": ways["late"], "repeated": ways["repeated"],
            "out-of-range": ways["out-of-range"], "outages": len(lost), "longest": max(lost, default=0)}


# ---- Inputs ------------------------------------------------------------------


def sightings(held):
    """The sender or the streams that the octets of a frame show, and the numbers of each."""
    try:
        it = reference.frame(held)
    except reference.Fault:
        return
    pdu = it["apdu"]
    if it["name"] == "goose":
        key = "goose", it["app_id"], pdu["gocb_ref"], bool(pdu["simulation"])
        yield key, ((pdu["st_num"], pdu["sq_num"]), pdu["live"])
    else:
        for asdu in pdu["asdus"]:
            key = "sv", it["app_id"], it["source"], asdu["sv_id"]
            yield key, tuple(int.from_bytes(asdu[name], "big") for name in ("smp_cnt", "smp_synch"))


def period_of(given, key):
    """The samples of a second of a stream: one number for all; or of texts `N` and `ID=N` the last one of its svID, else the last plain one."""
    if given is None or isinstance(given, int) or key[0] == "goose":
        return given
    divided = [text.rpartition("=") for text in given]
    own = [number for sv_id, mark, number in divided if mark and sv_id.encode() == key[3]]
    plain = [number for _, mark, number in divided if not mark]
    return int([*plain[-1:], *own[-1:]][-1]) if plain or own else None


def far_back(times):
    """By how much the last of these times lies below the greatest of the others, where that is a second or more; else 0."""
    by = max(times[:-1], default=0) - times[-1]
    return by if by >= SECOND else 0


def time_back(times):
    """By how much time goes back at the last of these times; 0 where it does not, or did so right before it too."""
    return 0 if len(times) > 1 and far_back(times[:-1]) else far_back(times)


def findings(octets, period=None, has_failed=False, events_of=reference.events):
    """With this period, or with the texts of several, what is found in the events that are read of octets: the number and the time of the event, a word, of whom it is said, if of anyone,
    and values. At the end, where the input has no error, what has not come back and totals, which have no event."""
    known, now, times = {}, 0, []
    for number, (sort, moment, held) in events_of(octets, has_failed):
        times.append(moment)
        if by := time_back(times):
            yield number, moment, "time-back", None, {"by": by}
        now = max(now, moment)
        for key, numbers in sightings(held) if sort == "frame" else ():
            earlier = known.setdefault(key, [])
            it = frame_after(earlier, now, *numbers) if key[0] == "goose" else sample_after(earlier, period_of(period, key), now, *numbers)
            earlier.append(it)
            yield from ((number, moment, word, key, values) for word, values in it.said)
    yield from closing(known, period, now)


def closing(known, period, now):
    """What is found at the end, each part in the order in which senders and streams first came."""
    for key, earlier in known.items():
        is_sender = key[0] == "goose"
        silence = silence_of_sender(earlier, now) if is_sender else silence_of_stream(earlier, now)
        if silence:
            yield None, None, "end silent", key, silence
    for key, earlier in known.items():
        total = total_of_sender(earlier, now) if key[0] == "goose" else total_of_stream(earlier, period_of(period, key))
        yield None, None, f"total {key[0]}", key, {name: min(it, MOST) for name, it in total.items()}


def streams(octets, has_failed=False, events_of=reference.events):
    """The streams that come in the events that are read of octets, also where these end by an error."""
    seen = {}
    try:
        for _, (sort, _, held) in events_of(octets, has_failed):
            seen.update((key, None) for key, _ in (sightings(held) if sort == "frame" else ()) if key[0] == "sv")
    except reference.ListFault:
        pass
    return list(seen)


def not_judged(keys):
    """What is said of streams that have no period; nothing where there is none."""
    names = list(dict.fromkeys(key[3].decode() for key in keys))
    named = ", ".join([*names[:4], *[".."] * (len(names) > 4)])
    many = "1 stream has" if len(keys) == 1 else f"{len(keys)} streams have"
    return [f"not judged: {many} no period ({named}): give --period N or --period ID=N"] * bool(keys)


def key_text(key):
    """A sender or a stream, as a line names it."""
    sort, app_id, *own = key
    if sort == "goose":
        return f"appid={app_id:04x} ref={reference.quoted(own[0])} sim={'true' if own[1] else 'false'}"
    return f"appid={app_id:04x} source={own[0].hex()} id={reference.quoted(own[1])}"


def line_of(number, word, key, values):
    whose = [] if key is None else [key_text(key)]
    return " ".join([*([] if number is None else [str(number)]), word, *whose, *(f"{name}={it}" for name, it in values.items())])


# What is found and is no loss, in a line of its own.
NO_LOSS = ("sample-repeated", "synch", "total goose", "total sv")


def losses(octets, period=None, has_failed=False, events_of=reference.events):
    """The text of `losses` over the events that are read of octets, and the exit status."""
    lines, has_lost = [], False
    try:
        for number, _, word, key, values in findings(octets, period, has_failed, events_of):
            lines.append(line_of(number, word, key, values))
            has_lost = has_lost or word not in NO_LOSS
    except reference.ListFault as fault:
        return [*lines, fault.text()], fault.status()
    return lines, 1 if has_lost else 0
