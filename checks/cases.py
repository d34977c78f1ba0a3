"""The cases of checks/compare and checks/mistakes: command words, files and standard input, drawn from a seed and aimed at the edges of
each rule of docs/FORMATS.md. Where a case holds a report, reference.py made it, and it was changed afterwards."""
import random
from collections import namedtuple

from reference import KIND_WEIGHTS, SETTINGS, answer, put_stamp, read_stamp

Case = namedtuple("Case", "family words files given")
FIRST_SECOND = read_stamp(b"2024-03-01T10:00:00Z")
KINDS, SETTING_NAMES = [kind.decode() for kind in KIND_WEIGHTS], [name.decode() for name in SETTINGS]
TREE = """source,S
device,B1,breaker,S,A,closed,-
device,F1,fuse,A,C,closed,-
device,T1,transformer,A,D,closed,-
device,T2,transformer,A,E,closed,-
meter,M1,C,10
meter,M2,C,20
meter,M3,D,5
meter,M4,E,5
"""


class Grid:
    """A small network: trees under one or two sources, ties, and now and then parts that aren't fed."""

    def __init__(self, draw):
        self.draw, self.above, self.states, self.nodes, self.rows, self.unfed = draw, {}, {}, [], [], []
        self.sources = [self.node() for _ in range(draw.choice([0, 1, 1, 1, 1, 1, 2, 2, 2]))]
        for _ in range(draw.randint(3, 7) if self.sources else 0):
            self.hang(draw.choice(self.nodes[-3:] if draw.random() < 0.6 else self.nodes))
        if draw.random() < 0.3:
            start = self.node()
            for _ in range(draw.randint(0, 2)):
                start = self.hang(start)
                self.unfed.append(f"D{len(self.states) - 1}")
        for _ in range(draw.choice([0, 1, 1, 2]) if len(self.nodes) > 1 else 0):
            self.device(*draw.sample(self.nodes, 2), "open")
        self.settings = {name: str(self.value(name)) for name in SETTING_NAMES if draw.random() < 0.25}
        self.meters = {f"M{number}": draw.choice(self.nodes[-4:] if draw.random() < 0.7 else self.nodes) for number in range(draw.randint(2, 5))} if self.nodes else {}
        self.rows += [f"source,{node}" for node in self.sources]
        self.rows += [f"meter,{name},{node},{draw.choice([5, 5, 5, draw.randint(1, 40)])}" for name, node in self.meters.items()]
        self.rows += [f"set,{name},{value}" for name, value in self.settings.items()]
        draw.shuffle(self.rows)

    def value(self, setting):
        return self.draw.choice({"live_hold": [0, 60, 600], "grace": [0, 60, 120], "ok_hold": [0, 60, 900]}.get(setting, [10, 20, 30, 40, 100]))

    def node(self):
        self.nodes.append(f"N{len(self.nodes)}")
        self.above[self.nodes[-1]] = []
        return self.nodes[-1]

    def weight(self):
        return self.draw.choice(["-", "-", "-", "30", "40", "60", "90", str(self.draw.randint(1, 120)), self.draw.choice(["r1", "r953", "r954", "r1000000"])])

    def device(self, first, second, state):
        name = f"D{len(self.states)}"
        self.states[name] = state
        ends = [first, second]
        self.draw.shuffle(ends)
        self.rows.append(f"device,{name},{self.draw.choice(KINDS)},{ends[0]},{ends[1]},{state},{self.weight()}")
        return name

    def hang(self, start):
        """A new node below another, by a closed device."""
        node = self.node()
        self.above[node] = self.above[start] + [self.device(start, node, "closed")]
        return node

    def hold(self, name):
        return int(self.settings.get(name, SETTINGS[name.encode()].default))

    def text(self):
        return spelled(self.draw, self.rows)


def spelled(draw, rows):
    """A text of these lines, ended and mixed with skipped ones in some way that a text may be."""
    if draw.random() < 0.6:
        return "".join(f"{row}\n" for row in rows).encode()
    text = ""
    for row in rows:
        text += draw.choice(["", "", "", "", "\n", "# a note\n", "\r\n", "#" + 511 * "x" + "\n", '#"\r\n'])
        text += row + draw.choice(["\n", "\n", "\r\n"])
    return (text[:-1] if rows and not text.endswith("\r\n") and draw.random() < 0.5 else text).encode()


class Storm:
    """Events of a small network: reports on few meters, crews and orders, at seconds on and beside the end of each hold."""

    def __init__(self, draw, grid):
        self.draw, self.grid, self.second, self.lines, self.edges = draw, grid, FIRST_SECOND, [], []
        self.meters = draw.sample(list(grid.meters), min(len(grid.meters), 3))
        self.devices = list(grid.states)
        steps = [self.report, self.report, self.live_signal, self.crew, self.crew, self.order, self.left_behind, self.left_behind, self.stacked,
                 self.interruption, self.odd, self.clock, self.together, self.switched, self.found_fine]
        for _ in range(draw.randint(2, 7)):
            draw.choice(steps)()
        if draw.random() < 0.5:
            self.two_groups()
        if draw.random() < 0.3:
            self.left_behind()
        if grid.unfed:
            self.not_fed()

    def say(self, what, *holds):
        """An event, and the seconds at which what it says begins or ends to count."""
        self.lines.append(f"{put_stamp(self.second)},{what}")
        for hold in [*(self.grid.hold(name) for name in holds), 300, 301]:
            self.edges += [self.second + hold - 1, self.second + hold, self.second + hold + 1]

    def wait(self):
        """Goes to a second on or beside an edge, or some seconds further."""
        later = sorted({edge for edge in self.edges if edge >= self.second})[:8]
        self.second = self.draw.choice(later) if later and self.draw.random() < 0.6 else self.second + self.draw.choice([0, 0, 0, 1, 5, 60])

    def meter(self):
        if not self.meters or self.draw.random() < 0.03:
            return "M9"
        return self.draw.choice(self.meters)

    def device(self, meter=None):
        """A device: often one that a meter is below."""
        above = self.grid.above[self.grid.meters[meter]] if meter in self.grid.meters else []
        if not self.devices or self.draw.random() < 0.02:
            return "D99"
        return self.draw.choice(above if above and self.draw.random() < 0.8 else self.devices)

    def report(self):
        self.wait()
        self.say(self.draw.choice(["gasp,{}", "gasp,{}", "call,{}", "call,{}", "ping,{},down"]).format(self.meter()))

    def live_signal(self):
        self.wait()
        self.say(self.draw.choice(["powerup,{}", "ping,{},up"]).format(self.meter()), "live_hold")

    def crew(self):
        self.wait()
        what = self.draw.choice(["confirm,{},open", "confirm,{},open", "confirm,{},ok", "confirm,{},clear", "restore,{}", "restore,{}"])
        self.say(what.format(self.device(self.meter())), "ok_hold", "grace")

    def order(self):
        self.wait()
        self.say(self.draw.choice(["open,{}", "close,{}", "close,{}"]).format(self.device()))

    def clock(self):
        self.wait()
        self.say("clock")

    def left_behind(self):
        """A dark signal, a restoration above its meter, and a look at or beside the end of the grace."""
        meter = self.meter()
        self.say(self.draw.choice(["gasp,{}", "gasp,{}", "ping,{},down"]).format(meter))
        if self.draw.random() < 0.4:
            self.say(f"call,{meter}")
        self.wait()
        self.say(f"restore,{self.device(meter)}", "grace", "ok_hold")
        self.second += max(0, self.grid.hold("grace") + self.draw.choice([-1, 0, 0, 0, 1]))
        self.say(self.draw.choice(["clock", "clock", f"confirm,{self.device(meter)},open"]))

    def together(self):
        """Gasps below one device, which is then found fine: what hangs below it is blamed at once."""
        above = self.grid.above[self.grid.meters[self.draw.choice(self.meters)]] if self.meters else []
        if above:
            for meter in self.grid.meters:
                if above[0] in self.grid.above[self.grid.meters[meter]]:
                    self.say(f"gasp,{meter}")
            self.wait()
            self.say(f"confirm,{above[0]},ok", "ok_hold")

    def found_fine(self):
        """A device that gasps tell of is found fine, and a look at or beside the end of that hold."""
        meter = self.meter()
        self.say(f"gasp,{meter}")
        self.say(f"{self.draw.choice(['confirm,{},ok', 'restore,{}']).format((self.grid.above.get(self.grid.meters.get(meter)) or [self.device()])[-1])}", "ok_hold")
        self.second += max(0, self.grid.hold("ok_hold") + self.draw.choice([-1, -1, 0, 0, 1]))
        self.say("clock")

    def switched(self):
        """A restoration in a part that isn't fed, since a device above is open."""
        meter = self.draw.choice(self.meters) if self.meters else None
        above = self.grid.above[self.grid.meters[meter]] if meter else []
        if len(above) > 1:
            for what in (f"open,{above[0]}", f"gasp,{meter}", f"restore,{above[-1]}", f"close,{above[0]}"):
                self.second += self.draw.choice([0, 0, 1])
                self.say(what)

    def stacked(self):
        """Two devices of one walk that are found open."""
        meter = self.meter()
        for _ in range(2):
            self.wait()
            self.say(f"confirm,{self.device(meter)},open")
        if self.draw.random() < 0.5:
            self.report()

    def not_fed(self):
        """Reports from a part that isn't fed, and a device that is found open there."""
        self.second += self.draw.choice([0, 1, 60])
        if self.draw.random() < 0.6:
            self.say(f"confirm,{self.draw.choice(self.grid.unfed)},open")
        for meter, node in self.grid.meters.items():
            if not self.grid.above[node] or self.grid.above[node][0] in self.grid.unfed:
                self.say(self.draw.choice(["powerup,{}", "gasp,{}", "ping,{},up"]).format(meter), "live_hold")

    def two_groups(self):
        for _ in range(3):
            self.second += self.draw.choice([0, 1, 60])
            self.say(f"confirm,{self.draw.choice(self.devices or ['D99'])},open")
        self.report()

    def interruption(self):
        """A device opens and closes, about five minutes later."""
        device = self.device(self.meter())
        by_crew = self.draw.random() < 0.5
        self.say(f"confirm,{device},open" if by_crew else f"open,{device}")
        self.second += self.draw.choice([299, 300, 300, 301, 301, 301, 600])
        self.say(f"confirm,{device},clear" if by_crew else f"close,{device}")

    def odd(self):
        """A line that says nothing, or nothing that can be applied."""
        meter, at = self.meter(), put_stamp(self.second)
        self.lines.append(self.draw.choice([f"{put_stamp(self.second - 1)},close,{self.device()}", f"{put_stamp(self.second - self.draw.choice([1, 1, 5000]))},call,{meter}", f"{at},shout", f"{at},call", f"{at},ping,{meter},left",
                                            f"{at},call,M 1", "", "# a note", f"{at},clock,x", f"{at},call,M9", f"{at},restore,D99"]))


def replay_words(draw, storm):
    """The words of a replay: with bounds, and with a period that begins and ends about where an interruption may begin."""
    words, ends = [b"replay", b"net", b"events"], []
    seconds = [second + more for second in [FIRST_SECOND] + [read_stamp(line[:20].encode()) for line in storm.lines if "," in line] for more in (0, 0, 1)]
    if draw.random() < 0.5:
        ends = sorted({draw.choice(seconds), draw.choice(seconds) + draw.choice([0, 1, 3600])})
    options = [b"--bounds"] if draw.random() < 0.6 else []
    names = [b"--from", b"--to"] if len(ends) == 2 else draw.choice([[b"--from"], [b"--to"]])
    for name, end in zip(names, ends):
        options.append(name + b"=" + put_stamp(end).encode())
    for option in options:
        words.insert(draw.randint(1, len(words)), option)
    return words


def storm_case(draw):
    grid = Grid(draw)
    storm = Storm(draw, grid)
    words, files = replay_words(draw, storm), {b"net": grid.text(), b"events": spelled(draw, storm.lines)}
    if draw.random() < 0.05:
        words[words.index(b"events")] = b"-"
        return Case("storms", words, files, files.pop(b"events"))
    return Case("storms", words, files, b"")


# Lines of events

LONG = "x" * 512
AT = "2024-03-01T10:00:00Z"
ODD_LINES = [
    "#" + LONG[1:], "#" + LONG, LONG, LONG + "x", LONG + '"', "x" * 511 + "\r", f"{AT},clock" + "x" * 600, "", "#", " ", ",", ",,", ",,,", ",,,,",
    AT, f"{AT},", f"{AT},clock", f"{AT},clock,", f"{AT},clock,M1", f"{AT},call", f"{AT},call,M1,x", f"{AT},call,M1,x,y", f"{AT},ping,M1", f"{AT},ping,M1,up,x",
    f"{AT},confirm,F1", f"{AT},gasp", f"{AT},powerup,M1,up", f"{AT},restore,F1,ok", f"{AT},open", f"{AT},close,F1,x", f'{AT},call,"M1"', f"{AT},clock\r\r",
    f"\ufeff{AT},clock", f"\ufeff# a note", "now,shout", "now,shout,a,b,c", f"{AT},ping,M1,left", f"{AT},ping,M1,", f"{AT},ping,M 1,Up", f"{AT},confirm,F1,opened",
    f"{AT},Clock", f"{AT}, clock", f"{AT},outage,M1", "now,call,M1", "now,call,M 1", "now,clock", "2024-03-01T10:00:00z,clock", "2024-03-01 10:00:00Z,clock",
    "2023-02-29T10:00:00Z,clock", "2024-02-30T10:00:00Z,clock", "2100-02-29T10:00:00Z,clock", "2024-00-01T10:00:00Z,clock", "2024-13-01T10:00:00Z,clock",
    "2024-04-31T10:00:00Z,clock", "2024-03-00T10:00:00Z,clock", "2024-03-01T24:00:00Z,clock", "2024-03-01T10:60:00Z,clock", "2024-03-01T10:00:60Z,clock",
    "1969-12-31T23:59:59Z,clock", "10000-01-01T00:00:00Z,clock", "2024-03-01T10:00:00,clock", " 2024-03-01T10:00:00Z,clock", "2024-3-01T10:00:00Z,clock",
    f"{AT},call,", f"{AT},call,-", f"{AT},call,M 1", f"{AT},call,{33 * 'M'}", f"{AT},call,{32 * 'M'}", f"{AT},open,\u00e9", f"{AT},call,M9", f"{AT},close,M1", f"{AT},gasp,F1",
    f"{AT},confirm,M1,ok", f"{AT},restore,X9", "2000-01-01T00:00:00Z,call,M9", "2000-01-01T00:00:00Z,close,X1", "2000-01-01T00:00:00Z,close,X2", "2000-01-01T00:00:00Z,close,F1", "2000-01-01T00:00:00Z,confirm,X1,ok", f"{AT},confirm,X1,ok", f"{AT},restore,X1",
    f"{AT},confirm,X1,open", f"{AT},confirm,X1,clear", f"{AT},close,X1", f"{AT},close,X2", f"{AT},close,F1", f"{AT},open,X1", f"{AT},call,M-.1/_a",
    "2000-02-29T00:00:00Z,clock", "2000-01-01T00:00:00Z,gasp,M1",
]
ODD_NETWORK = TREE + f"""source,R
device,B2,breaker,R,H,closed,-
device,X1,tie,D,E,open,-
device,X2,tie,H,E,open,-
device,X3,tie,P,Q,open,-
device,L1,line,P,Q,open,-
meter,{32 * 'M'},H,3
meter,M-.1/_a,D,4
"""
ENDS = ["1970-01-01T00:00:00Z,clock", "1970-01-01T00:00:00Z,gasp,M1", "2000-02-29T00:00:00Z,clock"]


def line_case(draw):
    """Lines of all kinds, and beside them events of which each changes what is printed."""
    lines = []
    for _ in range(draw.randint(8, 12)):
        lines.append(draw.choice(ODD_LINES))
        if draw.random() < 0.2:
            lines.append(draw.choice([f"{AT},{what}" for what in ("open,F1", "close,F1", "gasp,M1", "close,X3", "close,L1", "confirm,F1,open", "ping,M3,down", "close,X1", "open,B2", "close,X2")]))
    text = "".join(line + draw.choice(["\n", "\n", "\n", "\r\n"]) for line in draw.sample(ENDS, draw.choice([0, 0, 0, 1])) + lines)
    text += draw.choice(["", "", "\r", "9999-12-31T23:59:59Z,clock", "9999-12-31T23:59:59Z,clock\r", "#\r", "\r\r\n"])
    return Case("lines", [b"replay", b"net", b"events"], {b"net": ODD_NETWORK.encode(), b"events": text.encode()}, b"")


# Networks

WRONG_ROWS = {
    "BadRow": ["meter,M9,C," + 600 * "1", "device," + LONG + ",fuse,C,Z,closed,-", "set," + LONG + ",3", "meter," + LONG + ",C,1", "source," + 2 * LONG, "device,Q,fuse,C,Z,Closed,-",
               "device,Q,tie,Z,Y,,-", "source,Z,", "set,call,3,", "device,Q,fuse,C,Z,ajar,-", "device,Q,fuse,C,Z,closed", "source", "source,Z,Y", "Source,Z", "meter,M9,C", "set,call", "set,call,3,4", "#" + LONG, LONG, "source," + LONG,
               'source,"Z"', "source,Z\r", "\ufeffsource,Z", "\r", "source, Z,", "device,B1,pole,C,C,ajar,0", "device,-,fuse,C,Z,,-"],
    "BadName": ["meter,M 9,C,1", "meter,-,C,1", "source,", "source,-", f"source,{33 * 'Z'}", "device,Q,pole,C,,closed,-", "device,Q,fuse,-,Z,closed,x", "device,,fuse,C,Z,closed,-",
                "meter,M9,\u00e9,0", "meter,M1,-,1", "device,-,fuse,C,C,closed,-"],
    "UnknownKind": ["device,Q,pole,C,Z,closed,-", "device,Q,Fuse,C,Z,closed,0", "device,B1,,C,C,closed,-", "device,Q,fuses,C,C,closed,-"],
    "UnknownSetting": ["set,calls,3", "set,,3", "set,call ,3", "set,Grace,0", "set,ping,-1", "set,hold,x"],
    "BadNumber": ["meter,M9,C,0", "meter,M9,C,007", "meter,M9,C,1000001", "meter,M9,C,", "meter,M1,C,-1", "device,Q,fuse,C,Z,closed,0", "device,Q,fuse,C,Z,closed,1000001",
                  "device,Q,fuse,C,Z,closed,r0", "device,Q,fuse,C,Z,closed,r1000001", "device,Q,fuse,C,C,closed,r", "device,B1,fuse,C,Z,closed,01", "device,Q,fuse,C,Z,closed,R5",
                  "device,Q,fuse,C,Z,closed,", "set,call,0", "set,call,0", "set,call,0", "set,grace,10000001", "set,gasp,1000001", "set,grace,10000001", "set,ok_hold,+1", "set,live_hold,00", "set,ping_up,1.5"],
    "SameEnds": ["device,Q,fuse,C,C,closed,-", "device,B1,fuse,C,C,closed,-", "device,Q,tie,Z,Z,open,5", "device,F1,line,A,A,open,r7"],
    # rows that break two rules, of which the first one is told
    "two rules": ["device,-,pole,C,Z,closed,-", "device,Q,pole,C,-,closed,0", "device,Q 1,pole,A,B,open,5", "device,,x,A,B,open,5", "device,Q,pole,C,Z,closed,0", "device,Q,pole,A,B,open,r0",
                  "device,Q,fuse,C,C,closed,0", "device,Q,fuse,Z,Z,open,007", "device,Q,line,A,A,closed,r", "device,Q,tie,C,C,closed,x", "device,B1,fuse,C,C,open,-", "device,F1,tie,Z,Z,closed,-",
                  "device,T1,line,Q,Q,closed,3", "device,B1,fuse,C,C,ajar,-", "device,Q,pole,C,Z,ajar,-"],
    "DuplicateSource": ["source,S", "source,S"],
    "DuplicateDevice": ["device,B1,fuse,C,Z,closed,-", "device,B1,tie,C,D,closed,-", "device,T2,tie,Y,Z,open,3"],
    "DuplicateMeter": ["meter,M1,A,3", "meter,M4,Z,1"],
    "DuplicateSetting": ["set,ping_up,50", "set,ping_up,3"],
    "Loop": ["device,X1,tie,C,D,closed,-", "source,E", "device,X1,tie,S,C,closed,-", "device,X2,line,E,A,closed,7", "source,A", "device,X1,tie,R,E,closed,-"],
}
FINE_ROWS = ["source,Z", "source,C9", f"source,{32 * 'Z'}", "device,Q,fuse,C,Z,open,-", "device,Q,line,C,Z,closed,r1", "device,S,switch,C,Y,closed,1000000", "device,M1,recloser,Y,Z,closed,1",
             "meter,B1,C,1000000", "meter,S,Z,1", "meter,M5,B1,1", "set,grace,10000000", "set,live_hold,0", "set,call,1", "set,gasp,1000000", "set,powerup,7", "device,X1,tie,C,D,open,-",
             "meter,a_b-c.d/E,E,2", "device,Q2,tie,Z,Y,open,r1000000", "meter,M6,E,3", "source,W", "# a note", "", "#" + LONG[1:]]
SHOWS = [f"{AT},{what}" for what in ("gasp,M1", "gasp,M2", "powerup,M3", "confirm,F1,open", "confirm,Q,open", "confirm,S,open", "confirm,M1,open", "gasp,B1", "gasp,M5", "ping,M3,up", "call,M4")]


def network_case(draw):
    """A network with rows of all kinds behind, before and among those of a small tree: one or two that break a rule, or none."""
    rows = TREE.split("\n")[:-1] + ["set,ping_up,60"] + (["source,R"] if draw.random() < 0.5 else [])
    draw.shuffle(rows)
    for row in draw.sample(FINE_ROWS, draw.randint(0, 4)):
        rows.insert(draw.randint(0, len(rows)), row)
    for rule in ["Loop"] if draw.random() < 0.1 else ["two rules"] if draw.random() < 0.15 else draw.sample(list(WRONG_ROWS), draw.choice([0, 1, 1, 1, 2])):
        rows.insert(draw.randint(len(rows) - 4, len(rows)), draw.choice(WRONG_ROWS[rule]))
    text = "".join(row + draw.choice(["\n", "\n", "\n", "\r\n"]) for row in rows) + draw.choice(["", "", "", "source,Y", "source,Y\r", "\r", "#\r"])
    events = [line for line in SHOWS if draw.random() < 0.6]
    words = [b"replay", b"net", b"events"] + ([b"--bounds"] if draw.random() < 0.7 else [])
    return Case("networks", words, {b"net": text.encode(), b"events": "\n".join(events).encode()}, b"")


def large_cases(draw, sorts=("nodes", "devices", "meters"), each=5):
    """Networks of one node, device or meter more than there may be."""
    cases = []
    for sort in [sort for sort in sorts for _ in range(each)]:
        skip = [draw.choice(["# a note", ""]) for _ in range(draw.randint(0, 5))]
        if sort == "nodes":
            rows = [f"source,{number:x}" for number in range(200_001)]
        elif sort == "devices":
            rows = [f"device,{number:x},tie,A,B,open,-" for number in range(400_001)]
        else:
            rows = [f"meter,{number:x},A,1" for number in range(500_001)]
        behind = draw.choice([[], ["source"], [rows[-1]], ["source,A", "meter,X,A,0"]])
        text = "\n".join(skip + rows + behind).encode() + draw.choice([b"", b"\n"])
        cases.append(Case("large", [b"replay", b"net", b"events"], {b"net": text, b"events": b""}, b""))
    return cases


# Reports

class Table:
    """The bounds part of a report as lists of fields, to be changed."""

    def __init__(self, draw, report, grid, lines):
        rows = report[report.index(b"bounds,"):].decode().split("\n")[:-2]
        self.draw, self.grid, self.cost = draw, grid, int(rows[0].split(",")[1])
        fields = [line.split(",") for line in lines if line.count(",") > 1]
        self.told = {at[2]: [at[0], at[1], *at[3:]] for at in fields if at[1] in ("confirm", "restore", "open", "close") and at[2] in grid.states}
        self.cuts = [row.split(",")[1] for row in rows if row.startswith("cut,")]
        self.rows = [row.split(",")[1:] for row in rows if row.startswith("row,")]

    def text(self):
        rows = [f"bounds,{self.cost}"] + [f"cut,{name}" for name in self.cuts] + [f"row,{','.join(row)}" for row in self.rows] + ["endbounds"]
        return "".join(f"{row}\n" for row in rows).encode()

    def row(self):
        return self.draw.choice(self.rows) if self.rows else ["N0", "-", "0", "0", "0"]

    def add(self, place, more):
        row = self.row()
        row[place] = str(max(0, int(row[place]) + more))

    def order_cuts(self, cuts):
        numbers = {row.split(",")[1]: number for number, row in enumerate(row for row in self.grid.rows if row.startswith("device,"))}
        self.cuts = sorted(cuts, key=lambda name: numbers[name])

    def other_cuts(self):
        chosen = self.draw.sample(list(self.grid.states), min(len(self.grid.states), self.draw.randint(1, 2)))
        self.order_cuts(set(self.cuts) ^ set(chosen))

    def cut_fine(self):
        """Cuts a device that was found fine, or put in again."""
        named = [device for device, (_, *what) in self.told.items() if what in (["confirm", "ok"], ["restore"])]
        self.order_cuts({*self.cuts, *named[:1]})

    def drop_row(self):
        if self.rows:
            self.rows.remove(self.row())

    def drop_below(self):
        """Unlists a node with all that hang below it."""
        row = self.row()
        below = [name for name, above in self.grid.above.items() if row[1] in above]
        self.rows = [row for row in self.rows if row[0] not in below]

    def change_both(self):
        """Makes a live cost and a dark cost too great, maybe of two nodes."""
        self.add(3, 1)
        self.add(4, 1)

    def change_source(self):
        """Gives a source a parent or a depth."""
        for row in self.rows:
            if row[1] == "-":
                row[1], row[2] = self.draw.choice([("-", "1"), ("-", "1"), (self.draw.choice(list(self.grid.states)), "0")]) if self.grid.states else ("-", "1")

    def change_parent(self):
        self.row()[1] = self.draw.choice(list(self.grid.states) + ["-"] if self.grid.states else ["-"])

    def shift(self):
        """Adds to the first line what the first source's row has more."""
        more = self.draw.choice([-1, 1, 5])
        self.cost = max(0, self.cost + more)
        if self.rows:
            self.rows[0][3] = str(max(0, int(self.rows[0][3]) + more))

    def lower(self):
        for row in self.rows:
            row[3], row[4] = "0", "0"

    def lower_source(self):
        for row in self.rows:
            if row[1] == "-" and int(row[3]) > 0:
                row[3] = str(int(row[3]) - 1)

    def change(self):
        draw = self.draw
        draw.choice([lambda: self.add(3, 1), lambda: self.add(3, 1), lambda: self.add(3, -1), lambda: self.add(4, 1), lambda: self.add(4, 1), lambda: self.add(4, -1),
                     lambda: self.add(2, draw.choice([-1, 1])), self.other_cuts, self.other_cuts, self.cut_fine, self.cut_fine, self.change_both, self.change_both, self.change_source, self.change_source, self.drop_row, self.drop_below, self.change_parent, self.shift, self.lower,
                     self.lower_source, lambda: setattr(self, "cost", max(0, self.cost + draw.choice([-1, 1])))])()


def reported(draw):
    """A storm with the report that is right for it."""
    while True:
        grid = Grid(draw)
        storm = Storm(draw, grid)
        files = {b"net": grid.text(), b"events": spelled(draw, storm.lines)}
        status, report, _ = answer([b"replay", b"net", b"events", b"--bounds"], files)
        if status == 0 and len(grid.sources) > 0:
            return grid, storm.lines, files, report


def behind(draw, events, what):
    """A line behind these events, at their last second or when all holds are over."""
    seconds = [read_stamp(line[:20]) for line in events.split(b"\n")]
    last = max((second for second in seconds if second is not None), default=FIRST_SECOND) + draw.choice([0, 0, 10_000_000])
    return (b"" if events.endswith(b"\n") or not events else b"\n") + f"{put_stamp(last)},{what}".encode()


def check_case(draw):
    """A report whose bounds part was changed once or twice, or not at all."""
    grid, lines, files, report = reported(draw)
    table = Table(draw, report, grid, lines)
    for _ in range(draw.choice([0, 1, 1, 1, 1, 2, 2])):
        table.change()
    if grid.states and draw.random() < 0.15:
        files[b"events"] += behind(draw, files[b"events"], draw.choice(["open,{}", "open,{}", "confirm,{},open", "confirm,{},ok"]).format(draw.choice(list(grid.states))))
    files[b"report"] = draw.choice([b"", report[:report.index(b"bounds,")]]) + table.text()
    return Case("checks", [b"check", b"net", b"events", b"report"], files, b"")


def broken_report(draw, lines, first):
    """A report's lines with a line that breaks a rule, or that a report may have."""
    at = draw.randint(first, len(lines) - 1)
    cut = next((at for at, line in enumerate(lines) if line.startswith(b"cut,")), first)
    row = next((at for at, line in enumerate(lines) if line.startswith(b"row,")), first)

    def put(place, line):
        return lines[:place] + [line] + lines[place + 1:]

    def field(place, number, text):
        fields = lines[place].split(b",")
        return put(place, b",".join(fields[:number] + [text] + fields[number + 1:])) if number < len(fields) else put(place, text)

    rows = [at for at, line in enumerate(lines) if line.startswith(b"row,")] or [first]
    some, other = draw.choice(rows), draw.choice(rows)
    listed = [at for at, line in enumerate(lines) if line.startswith(b"cut,")] or rows
    twice = draw.choice(listed)
    great = b"1000000000000001"
    number = draw.choice([b"01", b"", b"-1", b"1000000000000001", b"1e3", b" 1"])
    return draw.choice([
        lambda: lines[:first], lambda: lines[:-1], lambda: lines[:at] + [b"", *lines[at:]], lambda: lines + [b""], lambda: lines + [b"end"],
        lambda: lines[:at] + [lines[at] + b"\r"] + lines[at + 1:], lambda: put(first, b"bounds,1,2"), lambda: put(first, b"bounds,"), lambda: field(first, 1, number),
        lambda: field(some, 3, draw.choice([number, b"1000001", b"1000000"])), lambda: field(some, 4, draw.choice([number, b"1000000000000000"])), lambda: field(some, 5, number),
        lambda: field(some, 1, draw.choice([b"-", b"N 1", b"", b"NX"])), lambda: field(some, 2, draw.choice([b"N 1", b"", b"D99", b"D98", b"--", b"NX"])),
        lambda: lines[:-1] + [b"row,NX,D99,0,0,0", b"endbounds"], lambda: lines[:row] + [b"row,NX,D 9,0,00,0"] + lines[row:], lambda: lines[:row] + [b"row,NX,-,0,00,0"] + lines[row:],
        lambda: lines[:row] + [b"cut," + draw.choice([b"D99", b"D99", b"-", b"D 1", b""])] + lines[row:], lambda: lines[:-1] + [b"cut,D0", b"endbounds"],
        lambda: lines[:at] + [lines[at]] + lines[at:], lambda: lines[:cut] + [b"cut,D1", b"cut,D0"] + lines[cut:], lambda: lines[:some] + [lines[some]] + lines[some:],
        lambda: lines[:twice] + [lines[twice]] + lines[twice:], lambda: lines[:twice] + [lines[twice]] + lines[twice:],
        lambda: lines[:min(some, other)] + [lines[max(some, other)]] + lines[min(some, other) + 1:max(some, other)] + [lines[min(some, other)]] + lines[max(some, other) + 1:],
        lambda: lines[:some] + lines[some + 1:-1] + [lines[some], lines[-1]], lambda: field(first, 1, great), lambda: field(some, draw.choice([4, 5]), great),
        lambda: lines[:at + 1] + [b"bounds,40"] + lines[at + 1:], lambda: put(first, b"bounds," + b"1" * 600), lambda: put(some, b"row," + b"x" * 600 + b",-,0,0,0"), lambda: lines[:row] + [b"cut," + b"x" * 600] + lines[row:],
        lambda: put(some, lines[some] + b",0"), lambda: put(some, b'row,"N0",-,0,0,0'), lambda: put(len(lines) - 1, b"endbounds,"),
        lambda: [b"x" * 600, b'"bounds,"\r', b"bounds", b"\xff\x00", *lines], lambda: [line for line in lines if not line.startswith(b"bounds")],
        lambda: [b" bounds,4", *lines[:-1]], lambda: put(some, lines[some].replace(b"row", b"Row")),
    ])()


def report_case(draw):
    """A report that breaks a rule of a report, or is just within it."""
    _, _, files, report = reported(draw)
    lines = report.split(b"\n")[:-1]
    first = next(at for at, line in enumerate(lines) if line.startswith(b"bounds,"))
    for _ in range(draw.choice([1, 1, 1, 2])):
        lines = broken_report(draw, lines, first if first < len(lines) else 0) if lines else lines
        first = next((at for at, line in enumerate(lines) if line.startswith(b"bounds,")), 0)
    files[b"report"] = b"\n".join(lines) + draw.choice([b"\n", b"\n", b"\n", b"", b"\nendbounds", b"\n\n"])
    return Case("reports", [b"check", b"net", b"events", b"report"], files, b"")


# Words

FROM, TO, FROM_ALONE, TO_ALONE = b"--from=2024-03-01T10:00:00Z", b"--to=2024-03-01T10:05:00Z", b"2024-03-01T10:00:01Z", b"2024-03-01T10:06:00Z"
WORDS = [
    [], [b"replay"], [b"replay", b"net"], [b"replay", b"net", b"events", b"events"], [b"check", b"net", b"events"], [b"check", b"net", b"events", b"report", b"report"],
    [b"trial"], [b"trial", b"0"], [b"trial", b"--", b"0"], [b"trial", b"0", b"--"], [b"trial", b"101"], [b"trial", b"--", b"101"], [b"trial", b"101", b"--"],
    [b"trial", b"1", b"2"], [b"trial", b"01"], [b"trial", b"one"], [b"trial", b""], [b"trial", b"-1"], [b"trial", b"1", b"--bounds"], [b"trial", FROM, b"1"], [b"trial", b"1", TO], [b"Replay", b"net", b"events"], [b"--bounds", b"replay", b"net", b"events"], [b"", b"net", b"events"], [b"-", b"net", b"events"], [b"--", b"replay", b"net", b"events"],
    [b"check", b"net", b"events", b"report", b"--bounds"], [b"check", b"net", b"events", b"report", FROM], [b"check", b"--", b"net", b"events", b"report"],
    [b"follow"], [b"follow", b"net"], [b"follow", b"--", b"net"], [b"follow", b"net", b"--"], [b"follow", b"-"], [b"follow", b"net", b"-"], [b"follow", b"net", b"events"],
    [b"follow", b"net", b"--bounds"], [b"follow", FROM, b"net"], [b"follow", b"net", TO], [b"follow", b"--", b"-net"], [b"follow", b"-net"], [b"follow", b"bad"], [b"follow", b"missing"], [b"Follow", b"net"],
    [b"replay", b"missing", b"missing"], [b"replay", b"net", b"missing"], [b"check", b"net", b"events", b"missing"], [b"replay", b"", b"events"], [b"replay", b"net", b""],
    [b"replay", b"bad", b"missing"], [b"check", b"bad", b"missing", b"missing"], [b"check", b"net", b"missing", b"report"], [b"check", b"net", b"events", b"events"],
    [b"replay", b"--", b"-net", b"events"], [b"replay", b"-net", b"events"], [b"replay", b"net", b"--", b"--from"], [b"replay", b"net", b"--", b"--bounds"], [b"check", b"--", b"-net", b"events", b"report"],
    [b"replay", b"-", b"events"], [b"replay", b"net", b"-"], [b"check", b"net", b"events", b"-"], [b"check", b"-", b"events", b"report"],
    [b"check", b"--to=2024-03-01T10:05:00Z", b"net", b"events", b"report"], [b"check", b"net", b"--bounds", b"-", b"report"], [b"replay", b"net", b"-x"], [b"replay", b"-b", b"net"],
    [b"check", b"net", b"events", b"--report"], [b"replay", b"net", b"events", b"report"], [b"replay", b"--bounds", b"bad", b"missing"], [b"check", b"bad", b"missing", b"report"],
    [b"help"], [b"--help"], [b"-h"], [b"replay", b"--help"], [b"replay", b"-V"], [b"--version"], [b"replay", b"help", b"net"], [b"check", b"help"],
]
TWICE = [[b"replay", b"-", b"-"], [b"follow", b"-"], [b"replay", b"--bounds", b"-", b"-"], [b"check", b"-", b"-", b"report"], [b"check", b"-", b"events", b"-"], [b"check", b"net", b"-", b"-"], [b"check", b"-", b"-", b"-"]]
OPTIONS = [[b"--bounds"], [FROM], [TO], [b"--from", FROM_ALONE], [b"--to", TO_ALONE]]
WRONG_OPTIONS = [
    [b"--bounds", b"--bounds"], [b"--bounds", FROM, b"--bounds"], [b"--to=1970-01-01T00:00:00Z", b"--from=1970-01-01T00:00:00Z"], [FROM, FROM], [TO, b"--to", TO_ALONE], [b"--bounds=yes"], [b"--bounds="], [b"--from"], [b"--to"], [b"--from="], [b"--to=noon"], [b"--from=2024-02-30T10:00:00Z"],
    [b"--from", b"--bounds"], [b"--from", b"--"], [b"-b"], [b"--bound"], [b"--boundsy"], [b"--From", FROM_ALONE], [FROM, b"--to=2024-03-01T10:00:00Z"], [b"--to=1970-01-01T00:00:00Z", FROM],
    [b"---"], [b"-from=2024-03-01T10:00:00Z"], [b"--frm=2024-03-01T10:00:00Z"], [b"--to", b""], [b"--from=2024-03-01T10:00:00z"], [b"--to=9999-12-31T23:59:60Z"], [b"--from 2024-03-01T10:00:00Z"],
]
EDGE_OPTIONS = [[FROM, b"--to=2024-03-01T10:00:01Z"], [b"--to=1970-01-01T00:00:00Z"], [b"--from=1970-01-01T00:00:00Z"], [b"--to=9999-12-31T23:59:59Z"], [b"--from=9999-12-31T23:59:59Z"],
                [b"--to=2024-03-01T10:00:00Z"], [b"--from=2024-03-01T10:00:01Z"], [b"--to", b"2024-03-01T10:00:01Z"], [b"--from", b"2024-03-01T10:00:00Z"]]
WORD_EVENTS = b"2024-03-01T10:00:00Z,gasp,M1\n2024-03-01T10:05:01Z,restore,F1\n2024-03-01T10:06:00Z,gasp,M3\n2024-03-01T10:20:00Z,clock\n"


def word_files():
    files = {b"net": TREE.encode(), b"-net": TREE.encode() + b"meter,M5,E,3\n", b"events": WORD_EVENTS, b"--from": b"2024-03-01T10:00:00Z,gasp,M1\n", b"--bounds": b"shout\n", b"bad": b"source,S,S\n"}
    files[b"report"] = answer([b"replay", b"net", b"events", b"--bounds"], files)[1]
    return files


def word_cases(draw, count):
    """Words of each form and of none, with options at any place."""
    files = word_files()
    cases = [Case("words", words, files, TREE.encode() if words[1] == b"-" or b"--bounds" in words else WORD_EVENTS) for words in TWICE]
    drawn = WRONG_OPTIONS * 2 + EDGE_OPTIONS
    givens = [b"", TREE.encode(), WORD_EVENTS, files[b"report"], b"source,S,S\n"]
    for number in range(count):
        words = list(WORDS[number]) if number < len(WORDS) else [b"replay", b"net", b"events"]
        if number >= len(WORDS):
            options = draw.sample(OPTIONS, draw.randint(1, 2)) if number >= len(WORDS) + len(drawn) else [drawn[number - len(WORDS)]]
            for option in [part for option in options for part in ([option] if len(option) == 2 and option[0] in (b"--from", b"--to") else [[word] for word in option])]:
                at = draw.randint(1, len(words))
                while at < len(words) and words[at - 1] in (b"--from", b"--to"):
                    at += 1
                words[at:at] = option
        cases.append(Case("words", words, files, givens[number % len(givens)]))
    return cases


# Edges that draws seldom meet, three cases each

def later(seconds, what):
    return f"{put_stamp(FIRST_SECOND + seconds)},{what}"


EDGE_ROWS = ["device,Q,fuse,C,Z,closed,r1000001", "device,Q,fuse,C,Z,closed,1000001", "set,call,0", "set,grace,10000001", "meter,M9,C,0", "meter,M9,C,1000001"]
EDGE_STORMS = [
    # a call that a power-up answers
    *([later(0, f"call,{meter}"), later(1, f"powerup,{meter}")] for meter in ("M1", "M2", "M3")),
    # the last second of a live signal's hold
    *([later(0, f"confirm,{device},open"), later(1, f"powerup,{meter}"), later(900, "clock"), later(901, "clock")] for device, meter in (("F1", "M1"), ("T1", "M3"), ("T2", "M4"))),
    # two groups of as many customers, with the later number first, since one of them is told of earlier, or at all
    *([later(0, f"{what},M4{more}"), later(second, f"{what},M3{more}")] for what, more, second in (("gasp", "", 1), ("gasp", "", 60), ("ping", ",down", 300))),
    [later(0, "confirm,T1,open"), later(0, "gasp,M4")], [later(0, "gasp,M4"), later(5, "confirm,T1,open")], [later(0, "confirm,T1,open"), later(1, "ping,M4,down")],
]
EDGE_EVENTS = [[later(0, "gasp,M1"), later(0, "call,M2")], [later(0, "gasp,M3"), later(7, "gasp,M1"), later(9, "gasp,M2")], [later(0, "gasp,M1"), later(0, "gasp,M4"), later(0, "gasp,M2"), later(1, "powerup,M3")]]


def edge_reports(report):
    """A report, changed at one edge at a time: what is read of it, and what a check says."""
    first = report.index(b"bounds,")
    before, lines = report[:first], report[first:].split(b"\n")[:-1]
    source = next(at for at, line in enumerate(lines) if line.startswith(b"row,S,"))

    def field(place, number, text):
        fields = lines[place].split(b",")
        return lines[:place] + [b",".join(fields[:number] + [text] + fields[number + 1:])] + lines[place + 1:]

    below = next(at for at, line in enumerate(lines) if line.startswith(b"row,A,"))
    live = int(lines[below].split(b",")[4])
    changed = [lines + [b""], lines[:source] + lines[source + 1:], field(source, 3, b"1000001"), field(source, 2, b"B1")]
    changed += [field(0, 1, cost) for cost in (b"1000000000000001", b"1000000000000000", b"1" + 30 * b"0")] + [field(source, 4, b"1000000000000000")]
    changed += [field(below, 4, str(live + more).encode()) for more in (1, 10)]
    return [before + b"".join(line + b"\n" for line in it) for it in changed]


def edge_cases():
    replay, check = [b"replay", b"net", b"events", b"--bounds"], [b"check", b"net", b"events", b"report"]
    rows, cases = TREE.split("\n")[:-1], []
    for row in EDGE_ROWS:
        for at in (len(rows), len(rows) - 1, len(rows) - 4):
            cases.append(Case("edges", replay, {b"net": "\n".join(rows[:at] + [row] + rows[at:]).encode(), b"events": b""}, b""))
    cases += [Case("edges", replay, {b"net": TREE.encode(), b"events": "\n".join(lines).encode()}, b"") for lines in EDGE_STORMS]
    for lines in EDGE_EVENTS:
        files = {b"net": TREE.encode(), b"events": "\n".join(lines).encode()}
        report = answer(replay, files)[1]
        cases += [Case("edges", check, {**files, b"report": changed}, b"") for changed in edge_reports(report)]
    return cases


def all_cases(count, seed):
    """So many storms, cases of the other families in proportion, and all edges."""
    cases = []
    for family, part in ((storm_case, 1), (line_case, 0.4), (network_case, 0.6), (check_case, 0.8), (report_case, 0.5)):
        draw = random.Random(f"{seed} {family.__name__}")
        cases += [family(draw) for _ in range(round(count * part))]
    return cases + word_cases(random.Random(f"{seed} words"), max(170, round(count / 2))) + edge_cases()
