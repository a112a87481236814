"""A slow inventory of control blocks and streams, written from docs/FORMATS.md and, for what comes before what, from the
definitions of inventory_engine: each sighting is judged by a look back over all sightings before it, and nothing is kept."""
from oracles import reference


def is_field(text):
    """A text can stand in a BLOCK."""
    return all(0x20 <= octet <= 0x7E and octet != ord(",") for octet in text)


def block_text(app_id, pdu):
    """The text of the control block of a frame."""
    texts = [pdu["gocb_ref"], pdu["dat_set"], pdu["go_id"] or b""]
    numbers = [pdu["conf_rev"], len(pdu["members"])]
    if all(map(is_field, texts)):
        return ",".join([f"{app_id:04x}", *[text.decode() for text in texts], *map(str, numbers)])
    ref, data_set, go_id = (reference.or_dash(pdu[name], reference.quoted) for name in ("gocb_ref", "dat_set", "go_id"))
    return f"appid={app_id:04x} ref={ref} set={data_set} id={go_id} rev={numbers[0]} entries={numbers[1]}"


def sightings(octets):
    """What the octets of a frame show: the word, the key, the text and the fields of each."""
    try:
        it = reference.frame(octets)
    except reference.Fault:
        return []
    if it["name"] == "goose":
        return [("block", (it["app_id"], it["apdu"]["gocb_ref"]), block_text(it["app_id"], it["apdu"]), it)]
    return [
        ("stream", asdu["sv_id"], f"id={reference.quoted(asdu['sv_id'])} rev={reference.number_text(asdu['conf_rev'])}", asdu)
        for asdu in it["apdu"]["asdus"]
    ]


def told(earlier, sighting):
    """The word that tells a sighting behind earlier ones, or None."""
    word, key, shown, _ = sighting
    last = next((text for other, name, text, _ in reversed(earlier) if (other, name) == (word, key)), None)
    return word if last is None else None if last == shown else f"{word}-changed"


def findings(octets, has_failed=False, events_of=reference.events):
    """The sightings that are told of the events that are read of octets, each behind the number and the time of its event, and the word
    that tells it."""
    earlier = []
    for number, (sort, moment, held) in events_of(octets, has_failed):
        for sighting in sightings(held) if sort == "frame" else []:
            word = told(earlier, sighting)
            earlier.append(sighting)
            if word:
                yield number, moment, word, sighting


def blocks(octets, has_failed=False, events_of=reference.events):
    """The text of `blocks` over the events that are read of octets, and the exit status."""
    lines = []
    try:
        for number, _, word, (_, _, shown, _) in findings(octets, has_failed, events_of):
            lines.append(f"{number} {word} {shown}")
    except reference.ListFault as fault:
        return [*lines, fault.text()], fault.status()
    return lines, 0
