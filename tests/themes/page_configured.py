"""A page holds streams beside nofASDU and smpRate of an SCL file, and control blocks beside MinTime and MaxTime."""
import tempfile

from helpers.asked_tools import ask
from helpers.frames import element
from helpers.harness import run
from helpers.page_station import SECOND, START, capture, configured_blocks, configured_stream, in_order, packets, stream
from themes.page_states import AMBER, GREEN, RED, Judged, changed, leapt
from themes.report import BLOCKS, STREAMS

MINIMUM = '<MinTime unit="s" multiplier="m">{}</MinTime>'


def configured(least=None, greatest=None, least_of=MINIMUM):
    """The blocks of the station with a MinTime and a MaxTime. Each sends at least once a second; sqNum 1 comes 499 ms after sqNum 0, and
    timeAllowedtoLive is 2,500 ms."""
    scd = configured_blocks(range(1, 5), greatest)
    return scd.replace("</Address>", f"</Address>{least_of.format(least)}") if least else scd


def paces():
    good, told = capture(packets()), "4 control blocks do not keep the times of of.scd: D1LD0/LLN0$GO$gcb1: "
    first = f"{told}499.000 ms from sqNum 0 to 1 (packet 21), MinTime"
    for name, least, greatest, wanted in (
            ("MinTime", 500, None, (GREEN,)), ("MinTime by a tenth", 454, None, (GREEN,)), ("less than MinTime by a tenth", 453, None, (AMBER, f"{first} 453 ms")),
            ("a MinTime with a fraction", "453.5", None, (AMBER, f"{first} 453.5 ms")), ("another MinTime than a number", "1e3", None,
                                                                                         (AMBER, "MinTime '1e3' of")),
            ("no MinTime", 0, None, (GREEN,)), ("MaxTime", None, 1000, (GREEN,)), ("MaxTime by a tenth", None, 910, (GREEN,)),
            ("a MaxTime that is too short", None, 909, (AMBER, f"{told}1.000 s between two frames (packet 5), MaxTime 909 ms")),
            ("MaxTime below the lifetime", None, 2499, (GREEN,)),
            ("MaxTime that is the lifetime", None, 2500, (AMBER, f"{told}no timeAllowedtoLive above MaxTime 2,500 ms: 2,500 ms (packet 1)")),
            ("MaxTime as long as the capture", None, 11000, (AMBER, "no timeAllowedtoLive above MaxTime 11,000 ms")),
            ("MaxTime longer than the capture", None, 11001, (GREEN,)),
            ("both", 100, 100, (AMBER, f"{first} 100 ms and 1.000 s between two frames (packet 5), MaxTime 100 ms"))):
        yield Judged(f"pauses beside {name}", good, {"Configuration": wanted}, scd=configured(least, greatest))
    exact = packets(changed(lambda it: (it.device, it.state, it.sequence) == (1, 6, 1), at=lambda it: it.at + 400))
    yield Judged("a pause of exactly a tenth more than MinTime", capture(exact), {}, scd=configured(454))
    late = packets(lambda it: (it.device, it.state, it.sequence) != (1, 5, 103))
    told = "1 control block does not keep the times of of.scd: D1LD0/LLN0$GO$gcb1: 1.501 s between two frames (packet 16), MaxTime 1,200 ms"
    yield Judged("a long pause before a new state", capture(late), {"Configuration": (AMBER, told)}, scd=configured(None, 1200))
    for name, text, wanted in (("seconds", '<MinTime unit="s" multiplier="">{}</MinTime>', GREEN), ("no multiplier", "<MinTime>{}</MinTime>", AMBER),
                               ("another multiplier", '<MinTime multiplier="k">{}</MinTime>', AMBER)):
        yield Judged(f"a MinTime of {name}", good, {"Configuration": (wanted,)}, scd=configured(1, least_of=text))


class Held(Judged):
    """A capture whose page says this of some senders beside the SCL file."""

    def __init__(self, name, octets, told, rows, *asked, **how):
        super().__init__(name, octets, told, *asked, **how)
        self.rows = rows

    def why_page_wrong(self, page, status):
        yield from super().why_page_wrong(page, status)
        rows = {row[0]: row[-1] for caption in (BLOCKS, STREAMS) for row in page.rows(caption)}
        yield from (f"{name} is {rows.get(name)!r}" for name, wanted in self.rows.items() if rows.get(name) != wanted)


D1, D2 = "D1LD0/LLN0$GO$gcb1", "D2LD0/LLN0$GO$gcb1"


def keeping():
    """A block that does not keep the times does not agree, and the others are told in the same sentence."""
    scd = configured_blocks(range(1, 5)).replace("</Address>", "</Address>" + MINIMUM.format(100), 1)
    told = (f"1 control block does not keep the times of of.scd: {D1}: 499.000 ms from sqNum 0 to 1 (packet 21), MinTime 100 ms; "
            "3 others agree with it in")
    rows = {D1: "agrees otherwise\n499.000 ms from sqNum 0 to 1 (packet 21), MinTime 100 ms", D2: "agrees"}
    yield Held("one block that does not keep the times", capture(packets()), {"Configuration": (AMBER, told)}, rows, scd=scd,
               lacks=["4 agree", "3 agree"])
    told = "1 more; no other agrees with it in packets 1 to 56."
    yield Held("blocks none of which keeps the times", capture(packets()), {"Configuration": (AMBER, told)}, {}, scd=configured(100),
               lacks=["agree with of.scd"])


def unread():
    """What of an SCL file is no number is named with its line, and what would be held beside it is not judged."""
    good, lines = capture(packets()), configured_blocks(range(1, 5)).replace("<GSE ", "\n<GSE ").replace("<GSEControl ", "\n<GSEControl ")
    address = '<P type="MAC-Address">01-0C-CD-01-00-02</P>'
    for name, told, more in (("MaxTime", "abc", "<MaxTime>abc</MaxTime>"), ("MinTime", "-5", "<MinTime>-5</MinTime>"),
                             ("MinTime", "0", "<MinTime>0</MinTime>"),
                             ("MaxTime", "", "<MaxTime/>"), ("MaxTime", "1 Ms", '<MaxTime multiplier="M">1</MaxTime>')):
        first, rest = lines.split(address)
        scd = first + address + rest.replace("</Address>", f"</Address>{more}", 1)
        value = f"1 value of of.scd cannot be read, and what would be held beside it is not judged: {name} {told!r} of {D2} (line 3)"
        yield Held(f"a {name} that is {told or 'nothing'}", good, {"Configuration": (AMBER, value, "3 agree with of.scd")},
                   {D1: "agrees", D2: f"agrees otherwise\nnot compared: {name} {told!r} (line 3)"}, scd=scd)
    for name, part in (("VLAN-ID", "VLAN 5"), ("VLAN-PRIORITY", "8"), ("MAC-Address", "01-0C-CD-01-00")):
        scd = lines.replace(address, f'<P type="{name}">{part}</P>')
        yield Held(f"a {name} that is none", good, {"Configuration": (AMBER, f"{name} {part!r} of {D2} (line 3)")},
                   {D2: f"agrees otherwise\nnot compared: {name} {part!r} (line 3)"}, scd=scd)
    for name, old, new in (("APPID", '"APPID">1002<', '"APPID">1O02<'), ("confRev", 'confRev="1"', 'confRev="4294967296"'),
                           ("confRev", 'confRev="1"', 'confRev="-1"')):
        front, mark, back = lines.partition('"APPID">1002<' if name == "APPID" else 'IED name="D2"')
        scd = front + (mark + back).replace(old, new, 1)
        number = new.strip('<').rpartition('"' if name == "APPID" else '="')[2].strip('">')
        why = f"{number!r} is no number of a BLOCK"
        yield Held(f"a {name} of {number}", good, {"Configuration": (AMBER, f"1 control block of of.scd cannot be compared: {D2} (line 7): {why}",
                                                                     "3 agree")},
                   {D2: f"not compared: {why}"}, scd=scd, lacks=["not in of.scd"])
    twice = lines.replace('<P type="APPID">1002</P>', '<P type="APPID">1002</P><P type="APPID">1102</P><P type="VLAN-ID">x</P>')
    yield Held("a value of two addresses", good,
               {"Configuration": (RED, "1 is missing", f"1 value of of.scd cannot be read, and what would be held beside it is not "
                                                                    f"judged: VLAN-ID 'x' of {D2} (line 3).")}, {}, scd=twice)


def unread_streams():
    octets = capture(stream(4000, 0.45))
    for name, old, value in (("smpRate", 'smpRate="80"', "-80"), ("smpRate", 'smpRate="80"', "0"), ("smpRate", 'smpRate="80"', ""),
                             ("smpRate", 'smpRate="80"', "4294967296"),
                             ("smpRate", 'smpRate="80"', "\u0668"), ("nofASDU", 'nofASDU="8"', "x"), ("smpMod", 'smpMod="SmpPerSec"', "SmpPerHour")):
        scd = configured_stream("MU1", 80, "SmpPerSec" if name == "smpMod" else None).replace("<SampledValueControl", "\n<SampledValueControl")
        scd = scd.replace(old, f'{name}="{value}"')
        shown = "of.scd: smpRate 80, a period at 50 Hz" if name == "nofASDU" else "what the capture shows"
        yield Held(f"a {name} of {value or 'nothing'}", octets, {"Configuration": (AMBER, f"1 value of of.scd cannot be read",
                                                                                   f"{name} {value!r} of MU1 (line 2)", "0 agree"),
                   "Samples": (GREEN, f"4,000 samples a second by {shown}")}, {"MU1": f"agrees otherwise\nnot compared: {name} {value!r} (line 2)"},
                   scd=scd,
                   lacks=["at 0 Hz", "too few"])
    for name, mode in (("a period", b"\0\0"), ("a second", b"\0\1"), ("what is not told", None)):
        fields = {"smp_rate": element(0x86, bytes(2)), "smp_mod": element(0x88, mode) if mode else b""}
        yield Held(f"frames whose smpRate is 0, of {name}", capture(stream(4000, 0.45, **fields)),
                   {"Samples": (AMBER, "smpRate of its frames is 0")}, {},
                   lacks=["at 0 Hz", "0 samples a second"])
    comma = configured_stream("MU1", 80).replace('confRev="1"', 'confRev="x"')
    yield Held("a stream whose confRev is none", octets, {"Configuration": (AMBER, "cannot be compared", "'x' is no number of a BLOCK")},
               {"MU1": "not compared: 'x' is no number of a BLOCK"}, scd=comma, lacks=["not in of.scd"])


def missing():
    """What is no pause of the device: frames that are missing, copies, simulated frames, and a leap of the clock."""
    scd = configured(None, 1000)
    lost = capture(packets(lambda it: (it.device, it.state, it.sequence) != (1, 5, 101)))
    yield Judged("a pause over a frame that is missing", lost, {"Losses": (RED, "1 frame missing"), "Configuration": (GREEN,)}, scd=scd)
    twice = capture([pair for pair in packets() for _ in range(2)])
    yield Judged("pauses of frames that come twice", twice, {"Configuration": (AMBER, "1.000 s between two frames (packet 9), MaxTime 909 ms"), "Events acted on": (GREEN,)},
                 scd=configured(None, 909))
    simulated = capture(packets(changed(lambda it: it.device < 5, simulated=True)))
    yield Judged("pauses of simulated frames", simulated, {"Simulation": (RED,), "Events acted on": (RED,), "Configuration": (GREEN,)}, scd=configured(400))
    late = in_order([*packets(), *((at + 200_000, octets) for at, octets in packets())])
    yield Judged("pauses of frames whose copies come 200 ms later", capture(late), {
        "Configuration": (AMBER, "1.000 s between two frames (packet 9), MaxTime 909 ms")}, scd=configured(None, 909))
    longer = packets(changed(lambda it: it.device == 1 and it.at > START + 6_500_000, at=lambda it: it.at + 300_000))
    after = capture(leapt(longer, 20 * SECOND, START + 5 * SECOND + 800_000))
    yield Judged("a long pause from the frame on that ends a leap of the clock", after, {
        "Capture": (AMBER,), "Losses": (AMBER,), "Clocks": (AMBER,), "Events acted on": (RED,),
        "Configuration": (AMBER, "D1LD0/LLN0$GO$gcb1: 1.300 s between two frames")},
        scd=configured(None, 1100))
    shifted = capture(leapt(packets(), 20 * SECOND, START + 5 * SECOND + 800_000))
    told = {"Capture": (AMBER,), "Losses": (AMBER,), "Clocks": (AMBER,), "Events acted on": (RED,)}
    yield Judged("a pause in which the capture's clock leaps", shifted, {**told, "Configuration": (GREEN,)}, scd=scd)


def streams():
    fields = {"smp_rate": element(0x86, (80).to_bytes(2, "big"))}
    octets = capture(stream(4000, 0.45, **fields))
    scd = configured_stream("MU1", 80)
    yield Judged("a stream of the configured nofASDU and smpRate", octets, {"Configuration": (GREEN, "1 agrees")}, scd=scd)
    yield Judged("a stream of another nofASDU", octets, {"Configuration": (RED, "1 differs (MU1, packet 1)")}, scd=scd.replace('nofASDU="8"', 'nofASDU="1"'))
    two = capture([*stream(4000, 0.45, **fields)][:200] + [*stream(4000, 0.45, a_frame=4, **fields)][400:])
    yield Judged("a stream whose nofASDU changes", two, {"Configuration": (RED, "1 differs (MU1, packet 201)")}, scd=scd)
    octets = capture(stream(4000, 0.45, smp_rate=element(0x86, (4000).to_bytes(2, "big"))))
    yield Judged("a stream of another smpRate", octets, {"Configuration": (RED, "1 differs (MU1, packet 1)")}, scd=scd)
    octets = capture(stream(4000, 0.45, smp_rate=element(0x86, (4000).to_bytes(2, "big")), smp_mod=element(0x88, b"\0\1")))
    yield Judged("a stream of the configured smpMod", octets, {}, scd=configured_stream("MU1", 4000, "SmpPerSec"))


class Beside:
    """What compare_blocks says of a stream beside its SampledValueControl."""

    def __init__(self, name, scd, fields, wanted):
        self.name, self.scd, self.fields, self.wanted = f"compare_blocks: {name}", scd, fields, wanted

    def why_wrong(self, program):
        configured, said, _ = ask(program, "scl_blocks", ["--json", "/dev/stdin"], self.scd.encode())
        shown, _, _ = run(program, ["show", "--capture", "--json"], capture(stream(4000, 0.01, **self.fields)))
        with tempfile.NamedTemporaryFile() as file:
            file.write(configured)
            file.flush()
            wrote, complained, status = ask(program, "compare_blocks", [file.name], shown)
        why = [] if (wrote.decode(), status) == (self.wanted, 0 if self.wanted.startswith("agrees") else 1) else [f"{wrote} {status}"]
        return why + ([f"complained: {said + complained}"] if said + complained else [])


def beside():
    told, rate = 'stream id="MU1" rev=1', {"smp_rate": element(0x86, (80).to_bytes(2, "big"))}
    yield Beside("the configured nofASDU and smpRate", configured_stream("MU1", 80), rate, f"agrees {told}\n")
    other = configured_stream("MU1", 256).replace('nofASDU="8"', 'nofASDU="2"')
    yield Beside("another nofASDU and smpRate", other, rate, f"differs {told}: the capture has nofASDU 8, smpRate 80\n")
    yield Beside("frames without smpRate", other, {}, f"differs {told}: the capture has nofASDU 8\n")
    yield Beside("another smpMod", configured_stream("MU1", 80, "SmpPerSec"), rate, f"differs {told}: the capture has smpMod SmpPerPeriod\n")


def cases():
    yield from paces()
    yield from keeping()
    yield from unread()
    yield from unread_streams()
    yield from missing()
    yield from streams()
    yield from beside()
