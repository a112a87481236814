"""A slow subscriber, written from docs/FORMATS.md alone: it scans every block at every event."""
from oracles import reference


class Block:
    """A control block that is subscribed to, and what is kept of it."""

    def __init__(self, word):
        app_id, self.gocb_ref, self.dat_set, self.go_id, conf_rev, entries = word.split(",")
        self.app_id, self.conf_rev, self.entries = int(app_id, 16), int(conf_rev), int(entries)
        self.best, self.deadline, self.takes_simulated = None, None, False

    def switch(self, takes_simulated):
        self.best, self.takes_simulated = None, takes_simulated

    def has(self, frame):
        return (frame["app_id"], frame["apdu"]["gocb_ref"]) == (self.app_id, self.gocb_ref.encode())

    def reasons(self, pdu, mode):
        """All that holds against a frame of the block."""
        told = {
            "DatSet": pdu["dat_set"] != self.dat_set.encode(),
            "GoId": bool(self.go_id) and pdu["go_id"] != self.go_id.encode(),
            "ConfRev": pdu["conf_rev"] != self.conf_rev,
            "Commissioning": bool(pdu["nds_com"]),
            "Simulated": not mode if pdu["simulation"] else self.takes_simulated,
            "Entries": len(pdu["members"]) != self.entries,
            "StateZero": pdu["st_num"] == 0,
            "LiveZero": pdu["live"] == 0,
        }
        return [reason for reason, holds in told.items() if holds]


def entries_of_frame(blocks, mode, now, octets):
    """The switches and the entry of a frame: the word of each, the position of its block, and what else it has."""
    try:
        it = reference.frame(octets)
    except reference.Fault as fault:
        return [("fault", None, fault)]
    if it["name"] == "sv":
        return [("sampled", None, None)]
    place = next((place for place, block in enumerate(blocks) if block.has(it)), None)
    if place is None:
        return [("not-subscribed", None, None)]
    block, pdu, said = blocks[place], it["apdu"], []
    if mode and pdu["simulation"] and not block.takes_simulated and not block.reasons(pdu, mode):
        block.switch(True)
        said.append(("switched", place, None))
    why = block.reasons(pdu, mode)
    if why:
        return [*said, ("refused", place, why[0])]
    pair, best = (pdu["st_num"], pdu["sq_num"]), block.best
    verdict = "act" if best is None or pair[0] > best[0] else "refreshed" if pair > best else "repeated" if pair == best else "old"
    if verdict in ("act", "refreshed"):
        block.best, block.deadline = pair, now + 1000 * pdu["live"]
    return [*said, (verdict, place, pdu)]


def entry_text(word, place, held):
    """The text of an entry."""
    if word == "fault":
        return str(held)
    if word in ("act", "refreshed", "repeated", "old"):
        line = f"{word} {place} st={held['st_num']} sq={held['sq_num']}"
        return line + f" t={held['t'].hex()} {reference.members_text(held['members'])}" if word == "act" else line
    return " ".join(str(it) for it in (word, place, held) if it is not None)


def twice(blocks):
    """The position of the first block with the APPID and the gocbRef of an earlier one, or None."""
    names = [(block.app_id, block.gocb_ref) for block in blocks]
    return next((place for place, name in enumerate(names) if name in names[:place]), None)


# The options of `replay`: changes alone, and simulated frames from the start.
CHANGES, SIMULATION = "--changes", "--simulation"
OPTIONS = {CHANGES, SIMULATION}
# The words of the entries that --changes leaves out.
LEFT_OUT = {"refreshed", "repeated", "not-subscribed", "sampled"}


def told(options, entries_of):
    """Of entries those that are told with these options."""
    return (it for it in entries_of if CHANGES not in options or it[2] not in LEFT_OUT)


def entries(octets, blocks, has_failed=False, events_of=reference.events, options=()):
    """The entries of the events that are read of octets, each behind the number and the time of its event."""
    now, mode = 0, SIMULATION in options
    for number, (sort, moment, held) in events_of(octets, has_failed):
        now, said = max(now, moment), []
        for place, block in enumerate(blocks):
            if block.best is not None and block.deadline <= now:
                block.best = None
                said.append(("expired", place, None))
        if sort == "mode":
            mode = held
            for place, block in enumerate(blocks):
                if not mode and block.takes_simulated:
                    block.switch(False)
                    said.append(("switched", place, None))
        if sort == "frame":
            said += entries_of_frame(blocks, mode, now, held)
        yield from ((number, moment, *entry) for entry in said)


def replay(octets, words, has_failed=False, events_of=reference.events, options=()):
    """The text of `replay` of these blocks with options of its own over the events that are read of octets, and the exit status."""
    blocks, lines = [Block(word) for word in words], []
    if twice(blocks) is not None:
        return [f"blocks SameBlockTwice {twice(blocks)}"], 3
    try:
        for number, _, *entry in told(options, entries(octets, blocks, has_failed, events_of, options)):
            lines.append(f"{number} {entry_text(*entry)}")
    except reference.ListFault as fault:
        return [*lines, fault.text()], fault.status()
    return lines, 0
