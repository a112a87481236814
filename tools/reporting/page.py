"""The page as HTML: its elements, its style, and the octets of it, which are also XML."""
import datetime
import re

from markup import escaped
from reporting.writing import BEGIN, MARK
from senders import quoted

STYLE = """
:root { color-scheme: light; --paper: #ffffff; --ink: #1f2328; --soft: #57606a; --line: #d0d7de; --band: #f6f8fa; --link: #0550ae;
  --alarm: #a40e26; --alarmed: #fff1f0; --warn: #8a4600; --warned: #fff8e6; --well: #1a7f37; --act: #1a7f37; --refreshed: #0969da; --repeated: #6e7781; --old: #6e7781;
  --refused: #bc4c00; --switched: #8250df; --expired: #cf222e; --held: #aceebb; --silent: #ffc1bc; --lost: #cf222e; --flow: #b6d7f8;
  --wave1: #0550ae; --wave2: #c4432b; --wave3: #1a7f37; --wave4: #57606a; --wave5: #8250df; --wave6: #9a6700; --wave7: #bf3989; --wave8: #0a7f8c; }
@media screen and (prefers-color-scheme: dark) { :root { color-scheme: dark; --paper: #0d1117; --ink: #e6edf3; --soft: #9da7b3;
  --line: #3d444d; --band: #161b22; --link: #79c0ff; --alarm: #ff9a94; --alarmed: #2d1315; --warn: #e3b341; --warned: #2b2111; --well: #56d364; --act: #56d364;
  --refreshed: #79c0ff; --repeated: #9da7b3; --old: #9da7b3; --refused: #f0a35e; --switched: #d2a8ff; --expired: #ff7b72; --held: #1f5a30;
  --silent: #7a2a2a; --lost: #ff7b72; --flow: #1c4a75; --wave1: #79c0ff; --wave2: #ff9a72; --wave3: #56d364; --wave4: #9da7b3; --wave5: #d2a8ff;
  --wave6: #e3b341; --wave7: #ff9bce; --wave8: #56d4dd; } }
* { box-sizing: border-box; }
body { margin: 0 auto; padding: 1rem; max-width: 75rem; background: var(--paper); color: var(--ink);
  font: 1rem/1.45 system-ui, "Segoe UI", Roboto, "DejaVu Sans", Arial, sans-serif; overflow-wrap: break-word; }
h1 { font-size: 1.7rem; line-height: 1.2; margin: 0.3rem 0 1rem; overflow-wrap: anywhere; }
h2 { font-size: 1.3rem; margin: 2rem 0 0.6rem; padding-top: 0.5rem; border-top: 2px solid var(--line); }
h3 { font-size: 1.05rem; margin: 1.3rem 0 0.4rem; }
p { margin: 0.4rem 0; max-width: 60rem; }
a { color: var(--link); }
.soft { color: var(--soft); }
.broken { border: 2px solid var(--alarm); background: var(--alarmed); padding: 0.6rem 0.8rem; font-weight: 600; }
.summary { padding: 0; margin: 0; list-style: none; counter-reset: line; max-width: 60rem; }
.summary li { padding: 0.45rem 0.7rem; margin: 0.35rem 0; border-left: 0.35rem solid var(--well); background: var(--band); }
.summary li.found { border-left-color: var(--alarm); } .summary li.unjudged { border-left-color: var(--warn); }
.summary .state { font-weight: 600; color: var(--well); }
.summary .found .state { color: var(--alarm); } .summary .unjudged .state { color: var(--warn); }
.summary li.found span.unjudged { color: var(--warn); } .summary .todo { font-style: italic; }
.verdict { font-size: 1.15rem; font-weight: 600; padding: 0.6rem 0.8rem; border: 2px solid var(--well); background: var(--band); color: var(--well); }
.verdict.found { border-color: var(--alarm); background: var(--alarmed); color: var(--alarm); }
.verdict.unjudged { border-color: var(--warn); background: var(--warned); color: var(--warn); }
table { border-collapse: collapse; width: 100%; margin: 0.6rem 0 1rem; font-size: 0.86rem; line-height: 1.35; }
caption { text-align: left; font-weight: 600; padding: 0.3rem 0; font-size: 0.95rem; }
th, td { text-align: left; vertical-align: top; padding: 0.3rem 0.5rem; border-bottom: 1px solid var(--line); }
thead th { border-bottom: 2px solid var(--line); color: var(--soft); font-weight: 600; }
tbody th { font-weight: 600; }
td.number, th.number { text-align: right; font-variant-numeric: tabular-nums; }
.mark { color: var(--alarm); font-weight: 600; }
details { margin: 0.6rem 0; } summary { font-weight: 600; cursor: pointer; }
time { font-variant-numeric: tabular-nums; white-space: nowrap; }
td.found { color: var(--alarm); font-weight: 600; }
pre { overflow-wrap: anywhere; }
code, pre, .digits { font-family: ui-monospace, "DejaVu Sans Mono", Menlo, Consolas, monospace; font-size: 0.85em; }
.digits { overflow-wrap: anywhere; }
td .soft.note { display: block; }
.whole { white-space: nowrap; overflow-wrap: normal; }
pre { white-space: pre-wrap; background: var(--band); border: 1px solid var(--line); padding: 0.6rem; margin: 0.4rem 0; }
figure { margin: 1rem 0; }
figcaption { font-size: 0.9rem; margin-bottom: 0.3rem; }
.scroll { overflow-x: auto; border: 1px solid var(--line); }
.scroll svg { display: block; width: 100%; min-width: 44rem; height: auto; }
.legend { list-style: none; padding: 0; margin: 0.5rem 0; display: flex; flex-wrap: wrap; gap: 0.3rem 1.1rem; font-size: 0.86rem; }
.legend svg { width: 1.5rem; flex: none; height: 1.1rem; vertical-align: -0.2rem; margin-right: 0.3rem; }
svg text { fill: var(--ink); font: 13px system-ui, "Segoe UI", Roboto, "DejaVu Sans", Arial, sans-serif; }
svg .scale, svg .state { fill: var(--soft); font-size: 12px; }
svg .lane { font-weight: 600; }
svg .grid { stroke: var(--line); } svg .moment { stroke: var(--alarm); stroke-width: 1.5; stroke-dasharray: 4 3; } svg .words { font-size: 12px; }
svg .lead { stroke: var(--soft); stroke-width: 0.7; }
svg .valid { fill: var(--held); } svg .flow { fill: var(--flow); } svg .silent { fill: var(--silent); }
svg .act { fill: var(--act); } svg .refreshed { stroke: var(--refreshed); stroke-width: 1.5; }
svg .repeated { fill: none; stroke: var(--repeated); stroke-width: 1.5; } svg .old { fill: var(--old); }
svg .refused { fill: none; stroke: var(--refused); stroke-width: 2; } svg .switched { fill: var(--switched); }
svg .expired { stroke: var(--expired); stroke-width: 3; } svg .lost { fill: var(--lost); } svg .late { fill: none; stroke: var(--lost);
  stroke-width: 1.8; } svg text.act { fill: var(--act); font-size: 12px; }
""" + "".join(f"svg .wave{at} {{ fill: none; stroke: var(--wave{at}); stroke-width: 15; stroke-linejoin: round; }} svg .name{at} {{ fill: var(--wave{at}); font-weight: 600; }}\n"
               for at in range(1, 9)) + """svg .wave4 { stroke-dasharray: 50 30; }
svg .lane, svg .words, svg [class^=name] { paint-order: stroke; stroke: var(--paper); stroke-width: 4; stroke-linejoin: round; }
svg .invalid { stroke: var(--expired); stroke-width: 1.4; } svg .doubtful { stroke: var(--warn); stroke-width: 0.8; }
svg .inception { stroke: var(--warn); stroke-width: 1.5; } svg .opening { stroke: var(--soft); stroke-width: 1.5; stroke-dasharray: 2 2; }
@media screen and (min-width: 940px) { .wide td.number, .wide th.number { width: 1%; } }
@media print { .wide td.number, .wide th.number { width: 1%; } }
@media screen and (min-width: 1200px) { .wide .name { display: inline-block; min-width: 9rem; } }
@media screen and (max-width: 939px) {
  body { padding: 0.7rem; } h1 { font-size: 1.35rem; }
  table.wide thead { position: absolute; width: 1px; height: 1px; overflow: hidden; clip-path: inset(50%); }
  table.wide, table.wide tbody, table.wide tr, table.wide th, table.wide td, table.wide caption { display: block; }
  table.wide tbody tr { border: 1px solid var(--line); margin: 0 0 0.6rem; padding: 0.2rem 0; }
  table.wide tbody th, table.wide tbody td { border: 0; padding: 0.15rem 0.6rem 0.15rem 8.2rem; min-height: 1.5rem; display: flow-root;
    text-align: left; }
  table.wide tbody [data-of]::before { content: attr(data-of); float: left; width: 7.2rem; margin-left: -7.6rem; color: var(--soft);
    font-weight: 400; white-space: normal; }
  table.wide tbody td:empty { display: none; }
}
@page { size: A4; margin: 12mm; }
@media print {
  body { max-width: none; padding: 0; font-size: 9.5pt; } h1 { font-size: 14pt; margin: 0 0 0.3rem; }
  h2 { font-size: 12pt; margin: 0.9rem 0 0.3rem; padding-top: 0.2rem; } p { margin: 0.2rem 0; }
  .verdict { font-size: 10.5pt; padding: 0.25rem 0.5rem; } .summary, p { max-width: none; }
  .summary li { font-size: 8pt; line-height: 1.25; padding: 0.12rem 0.5rem; margin: 0.1rem 0; }
  .wide .name { display: inline-block; width: max-content; max-width: 14em; } .wide .sender { max-width: 22.5em; }
  .wide [data-of="Reference"] .name, .wide [data-of^="Data set"] .name { width: auto; min-width: 9.4em; max-width: 10.4em; }
  .wide [data-of="Channels"] .name { width: auto; max-width: 34em; }
  .wide [data-of="First and last"], .wide [data-of^="Beside"] { max-width: 9.6em; } .wide [data-of="Lifetime"] { max-width: 6em; }
  .wide thead th { max-width: 9.6em; } .wide [data-of="Addresses"] { font-size: 7pt; } .legend { break-after: avoid; break-inside: avoid; }
  h2, h3, caption, figcaption { break-after: avoid; } tr, .summary li, figure { break-inside: avoid; } thead { display: table-header-group; break-after: avoid; } thead tr { break-after: avoid; }
  table { font-size: 7.6pt; } .wide .whole { white-space: normal; overflow-wrap: anywhere; } .wide .number .whole { white-space: nowrap; }
  figure { margin: 0.4rem 0; } .legend, figcaption { font-size: 8pt; } th, td { padding: 0.15rem 0.2rem; } .summary a { display: none; }
  a { color: inherit; text-decoration: none; }
  .scroll { overflow: visible; border: 0; } .scroll svg { min-width: 0; max-height: 255mm; } pre { font-size: 7.5pt; }
  body, .summary li, svg, .broken, .verdict { print-color-adjust: exact; -webkit-print-color-adjust: exact; }
}
"""


# What means something else in HTML, or perhaps does not print; what does not print and stays: ends of lines, and blanks that hold words together.
SPECIAL = re.compile("[&<>\"'\\0-\\x1f\\x7f-\\x9f\\xad\\u0300-\\U0010ffff]")
KEPT = "\n\u00a0"


# The most rows of a table, the most octets of them, and of all tables together; what a table has in any case.
MOST_ROWS, MOST_OCTETS, ALL_OCTETS, LEAST_OCTETS = 200, 250_000, 900_000, 8_000


class Raw(str):
    """A piece of the page that is HTML already."""


def text(value):
    """A value as HTML: what does not print, or turns round what does, is told by its number."""
    if isinstance(value, Raw):
        return value
    told = "" if value is None else str(value)
    return Raw(escaped(told, KEPT, quote=True) if SPECIAL.search(told) else told)


def element(tag, inside, **attributes):
    """An element; what stands in it is a value, or a list of values."""
    told = "".join(f' {name.rstrip("_").replace("_", "-")}="{text(it)}"' for name, it in attributes.items() if it is not None)
    inside = "".join(text(it) for it in inside) if isinstance(inside, (list, tuple)) else text(inside)
    return Raw(f"<{tag}{told}>{inside}</{tag}>")


def named(reference):
    """A reference, which can go on in a new line behind its parts, and a long part anywhere."""
    parts = (part[at:at + 24] for part in re.split(r"(?<=[/$])", reference) for at in range(0, len(part), 24))
    return Raw("<wbr/>".join(map(text, parts)))


def digits(value):
    return element("span", value, class_="digits")


class Zone:
    """The time zone whose local times are told beside UTC, where one is asked for."""

    zone = None

    @classmethod
    def local(cls, time, day):
        """The local time of a time, with its day where that is another one than is told."""
        if cls.zone is None:
            return ""
        try:
            told = datetime.datetime.fromisoformat(time.replace("Z", "+00:00")).astimezone(cls.zone)
        except OverflowError:  # later than dates go
            return ""
        form = "%H:%M:%S.%f %Z" if told.date().isoformat() == day else "%Y-%m-%d %H:%M:%S.%f %Z"
        return element("span", f" {told.strftime(form)}", class_="soft local")


def moment(time, short=True):
    """A time of the program's, in UTC; the day is left out where the page says it once. A local time is told behind it."""
    if time is None:
        return Raw("")
    day, _, hour = time.rstrip("Z").partition("T")
    return Raw(element("time", hour if short else f"{day} {hour}", datetime=time) + Zone.local(time, day))


def when(place, short=True):
    """The time of a place, or its microseconds where that is later than dates go. At 0 a packet has no time."""
    if not place.microseconds:
        return "no time"
    return moment(place.time, short) if place.time else f"{place.microseconds} \u03bcs"


def duration(microseconds):
    """A length of time with its unit."""
    size, sign = abs(microseconds), "\u2212" if microseconds < 0 else ""
    if size == 0:
        return "0 ms"
    if size < 1_000_000:
        return f"{sign}{size / 1000:.3f} ms"
    if size < 1_000_000 * 600:
        return f"{sign}{size / 1_000_000:.{6 if size % 1000 else 3}f} s"
    minutes, rest = divmod(size // 1_000_000, 60)
    hours, minutes = divmod(minutes, 60)
    days, hours = divmod(hours, 24)
    parts = [(days, "d"), (hours, "h"), (minutes, "min"), (rest, "s")]
    return sign + " ".join(f"{it:,} {unit}" for it, unit in parts if it)


def count(number, one, many=None):
    """A number of things, in words."""
    return f"{number:,} {one if number == 1 else many or one + 's'}"


def packets(first, last):
    """The packets from one to another."""
    return f"packet\u00a0{first}" if first == last else f"packets\u00a0{first} to\u00a0{last}"


class Column:
    """A column of a table: what is over it, and whether it holds numbers. On a narrow screen each cell has its head beside it."""

    def __init__(self, head, sort=None):
        self.head, self.sort = head, sort
        self.frames = {how: self.frame(*how) for how in ((False, False), (False, True), (True, False), (True, True))}

    def frame(self, is_first, is_found):
        """What stands before and behind the value of a cell."""
        tag, how = ("th", 'scope="row" role="rowheader"') if is_first else ("td", 'role="cell"')
        sort = " ".join(it for it in (self.sort, "found" if is_found else None) if it)
        how += f' class="{sort}"' if sort else ""
        return f'<{tag} {how} data-of="{text(self.head)}">', f"</{tag}>"

    def cell(self, value, is_first, is_found):
        before, behind = self.frames[is_first, is_found]
        return f"{before}{text(value)}{behind}"


NUMBER = "number"


def row(columns, values, found=None):
    """A row; the first cell names it. The cell of the column `found` is set apart."""
    cells = (column.cell(value, at == 0, at == found) for at, (column, value) in enumerate(zip(columns, values)))
    return Raw(f'<tr role="row">{"".join(cells)}</tr>\n')


def head(caption, columns, is_wide=True):
    """What a table begins with. On a narrow screen each row of a wide one becomes a list."""
    heads = [element("th", it.head, scope="col", role="columnheader", class_=it.sort) for it in columns]
    begin = '<table class="wide" role="table">' if is_wide else '<table role="table">'
    return Raw(f'{begin}\n{element("caption", caption)}\n'
               f'{element("thead", element("tr", heads, role="row"), role="rowgroup")}\n<tbody role="rowgroup">\n')


FOOT = Raw("</tbody>\n</table>\n")


class Room:
    """How much room the tables of a page have: rows of one, and octets of one and of all. A table has a little where the room is taken.
    There is no limit where all rows were asked for."""

    def __init__(self, is_all=False):
        self.rows, self.left, self.is_all = None if is_all else MOST_ROWS, ALL_OCTETS, is_all

    def of_table(self):
        return None if self.is_all else max(min(MOST_OCTETS, self.left), LEAST_OCTETS)


class Limited:
    """Rows of a table, as many as there is room for. The others are counted."""

    def __init__(self, rows, room):
        self.rows, self.room, self.shown, self.octets, self.more = rows, room, 0, 0, 0

    def __iter__(self):
        most = self.room.of_table()
        for it in self.rows:
            if self.more or (most is not None and self.shown and (self.shown >= self.room.rows or self.octets + len(it) > most)):
                self.more += 1
            else:
                self.shown, self.octets = self.shown + 1, self.octets + len(it)
                yield it
        self.room.left -= self.octets

    def left_out(self, one, many=None):
        """What is told behind the table of those that are not in it."""
        return left_out(self.more, one, many)


def left_out(number, one, many=None):
    """A sentence on what a table leaves out, or nothing."""
    if not number:
        return Raw("")
    told = f"{count(number, f'more {one}', many and f'more {many}')} {'is' if number == 1 else 'are'} not listed: --all lists all."
    return Raw(element("p", told, class_="soft") + "\n")


def bounded(caption, columns, rows, room, one, many=None):
    """A table of as many rows as there is room for, and behind it how many are left out."""
    held = Limited(rows, room)
    return pieces([table(caption, columns, held), behind(held, one, many)])


def behind(held, *names):
    """What is known only when a table is over."""
    yield held.left_out(*names)


def table(caption, columns, rows, is_wide=True):
    """A table of rows, each ready, piece by piece."""
    return pieces([head(caption, columns, is_wide), rows, FOOT])


def pieces(parts):
    """The pieces of the page that parts are made of, one by one: so nothing long is held whole."""
    for part in parts:
        if isinstance(part, str):
            yield text(part)
        else:
            yield from pieces(part)


def begin(title):
    return Raw(f'{BEGIN}<html lang="en">\n<head>\n<meta charset="utf-8"/>\n{MARK}\n'
            f'<meta name="viewport" content="width=device-width, initial-scale=1"/>\n<meta name="color-scheme" content="light dark"/>\n'
            f"{element('title', title)}\n<style>{STYLE}</style>\n</head>\n<body>\n<main>\n{element('h1', title)}\n")


END = Raw("</main>\n</body>\n</html>\n")


def shown(member):
    """The value of a member of a data set."""
    if isinstance(member, bool):
        return "true" if member else "false"
    if isinstance(member, str):
        return quoted(member)
    ((kind, told),) = [(name, it) for name, it in member.items() if name not in ("value", "time", "quality")]
    if kind == "float":
        return f"{member['value']}" if member.get("value") is not None else f"float:{told}"
    if kind == "utc":
        return member["time"] or f"utc:{told}"
    return f"{told}" if kind in ("int", "uint", "bits") else f"{kind}:{told}"
