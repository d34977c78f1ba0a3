"""The rules of docs/FORMATS.md once more, written from that text alone and by brute force: every set of closed devices is tried, every
walk is followed, and every event's meaning is read off the whole list of events. It shares nothing with the program, and is meant for
networks of a dozen devices. `answer` is what the program has to answer. The greatest sizes of files aren't here, but those of a network.

A set of nodes, or of devices, is a number that has a bit for each of them."""
import calendar
import itertools
import math
import re
import time
from collections import namedtuple

KIND_WEIGHTS = {b"fuse": 40, b"transformer": 50, b"recloser": 90, b"breaker": 120, b"line": 150, b"switch": 200, b"tie": 200}
Setting = namedtuple("Setting", "default least most")
SETTINGS = {
    b"call": Setting(30, 1, 1_000_000),
    b"gasp": Setting(60, 1, 1_000_000),
    b"ping_down": Setting(20, 1, 1_000_000),
    b"ping_up": Setting(50, 1, 1_000_000),
    b"powerup": Setting(60, 1, 1_000_000),
    b"live_hold": Setting(900, 0, 10_000_000),
    b"grace": Setting(300, 0, 10_000_000),
    b"ok_hold": Setting(3600, 0, 10_000_000),
}
ROW_FIELDS = {b"source": 2, b"device": 7, b"meter": 4, b"set": 3}
EVENT_FIELDS = {b"call": 3, b"gasp": 3, b"ping": 4, b"powerup": 3, b"confirm": 4, b"restore": 3, b"open": 3, b"close": 3, b"clock": 2}
LAST_FIELDS = {b"ping": (b"up", b"down"), b"confirm": (b"open", b"ok", b"clear")}
OF_METERS = (b"call", b"gasp", b"ping", b"powerup")
PLACES = {b"replay": 2, b"follow": 1, b"check": 3, b"trial": 1}
USAGE = "usage: replay NET EVENTS [--bounds] [--from T] [--to T], follow NET, check NET EVENTS REPORT, trial N"
MOST_LINE = 512
MOST_NODES, MOST_DEVICES, MOST_METERS = 200_000, 400_000, 500_000
MOST_COST, MOST_DEPTH = 1_000_000_000_000_000, 1_000_000

Device = namedtuple("Device", "name first second is_closed weight")
Meter = namedtuple("Meter", "name node customers")
Event = namedtuple("Event", "second word number last")
Reports = namedtuple("Reports", "dark live since came_back")
Outage = namedtuple("Outage", "above meters customers since is_nested")
Row = namedtuple("Row", "parent depth live dark")


class End(Exception):
    """The run ends without output: its status, and its line on standard error."""

    def __init__(self, status, line):
        super().__init__(status, line)
        self.status, self.line = status, f"outage: {line}\n".encode()


# Texts

def lines_of(text):
    """The lines of a network or of events."""
    *ended, last = text.split(b"\n")
    return [line[:-1] if line.endswith(b"\r") else line for line in ended] + ([last] if last else [])


def is_skipped(line):
    return line == b"" or (line.startswith(b"#") and len(line) <= MOST_LINE)


def fields_of(line):
    """What stands between the commas, or None where the line has no fields."""
    if b'"' in line or b"\r" in line or line.startswith(b"\xef\xbb\xbf"):
        return None
    return line.split(b",")


def is_name(text):
    return re.fullmatch(rb"[A-Za-z0-9_./-]{1,32}", text) is not None and text != b"-"


def read_decimal(text, least, most):
    """The number that a text says, where it is a decimal within these bounds, else None."""
    if not re.fullmatch(rb"0|[1-9][0-9]*", text):
        return None
    return int(text) if least <= int(text) <= most else None


def read_stamp(text):
    """The second that a text names, counted from the first one of 1970, or None."""
    found = re.fullmatch(rb"([0-9]{4})-([0-9]{2})-([0-9]{2})T([0-9]{2}):([0-9]{2}):([0-9]{2})Z", text)
    if not found:
        return None
    year, month, day, hour, minute, second = map(int, found.groups())
    if year < 1970 or not 1 <= month <= 12 or not 1 <= day <= calendar.monthrange(year, month)[1]:
        return None
    return calendar.timegm((year, month, day, hour, minute, second)) if hour <= 23 and minute <= 59 and second <= 59 else None


def put_stamp(second):
    return time.strftime("%Y-%m-%dT%H:%M:%SZ", time.gmtime(second))


def put_fraction(top, under):
    if under == 0:
        return "none"
    divisor = math.gcd(top, under)
    top, under = top // divisor, under // divisor
    return f"{top}/{under},{top // under}.{top % under * 10_000 // under:04}"


def members(numbers):
    """The numbers that a set has, from the least one on."""
    return [number for number in range(numbers.bit_length()) if numbers >> number & 1]


def subsets(numbers):
    """All sets of these numbers, the empty one first."""
    found = [0]
    for number in members(numbers):
        found += [chosen | 1 << number for chosen in found]
    return found


# The network

def weight_of(kind, text):
    """The weight of a device, or None where the text isn't of its form or range."""
    if text == b"-":
        return KIND_WEIGHTS[kind]
    if text.startswith(b"r"):
        rate = read_decimal(text[1:], 1, 1_000_000)
        return rate and 10 * next(k for k in itertools.count() if rate * 2**k >= 10**9)
    return read_decimal(text, 1, 1_000_000)


class Network:
    """The network of the rows so far. Nodes, devices and meters are numbers; names tell them."""

    def __init__(self):
        self.nodes, self.device_numbers, self.meter_numbers = {}, {}, {}
        self.devices, self.meters, self.device_lines = [], [], []
        self.sources, self.set, self.live_nodes, self.all_walks, self.weights = 0, {}, {}, {}, {}

    def setting(self, name):
        return self.set.get(name, SETTINGS[name].default)

    def mention(self, name):
        return self.nodes.setdefault(name, len(self.nodes))

    def take(self, line, number):
        """Takes the row of a line, or gives the first rule that it breaks."""
        fields = fields_of(line)
        if len(line) > MOST_LINE or fields is None or ROW_FIELDS.get(fields[0]) != len(fields):
            return "BadRow"
        take = {b"source": self.take_source, b"device": self.take_device, b"meter": self.take_meter, b"set": self.take_setting}[fields[0]]
        broken = take(number, *fields[1:])
        if broken is None and len(self.nodes) > MOST_NODES:
            return "TooManyNodes"
        if broken is None and len(self.devices) > MOST_DEVICES:
            return "TooManyDevices"
        return "TooManyMeters" if broken is None and len(self.meters) > MOST_METERS else broken

    def take_source(self, _, node):
        if not is_name(node):
            return "BadName"
        if node in self.nodes and self.sources >> self.nodes[node] & 1:
            return "DuplicateSource"
        self.sources |= 1 << self.mention(node)
        return None

    def take_device(self, number, name, kind, first, second, state, weight):
        if state not in (b"closed", b"open"):
            return "BadRow"
        if not (is_name(name) and is_name(first) and is_name(second)):
            return "BadName"
        if kind not in KIND_WEIGHTS:
            return "UnknownKind"
        weight = weight_of(kind, weight)
        if weight is None:
            return "BadNumber"
        if first == second:
            return "SameEnds"
        if name in self.device_numbers:
            return "DuplicateDevice"
        self.device_numbers[name] = len(self.devices)
        self.devices.append(Device(name, self.mention(first), self.mention(second), state == b"closed", weight))
        self.device_lines.append(number)
        return None

    def take_meter(self, _, name, node, customers):
        if not (is_name(name) and is_name(node)):
            return "BadName"
        customers = read_decimal(customers, 1, 1_000_000)
        if customers is None:
            return "BadNumber"
        if name in self.meter_numbers:
            return "DuplicateMeter"
        self.meter_numbers[name] = len(self.meters)
        self.meters.append(Meter(name, self.mention(node), customers))
        return None

    def take_setting(self, _, name, value):
        if name not in SETTINGS:
            return "UnknownSetting"
        value = read_decimal(value, SETTINGS[name].least, SETTINGS[name].most)
        if value is None:
            return "BadNumber"
        if name in self.set:
            return "DuplicateSetting"
        self.set[name] = value
        return None

    def joined(self, start, devices):
        """The nodes that walks of these devices join to one of the starts."""
        ends = [1 << self.devices[device].first | 1 << self.devices[device].second for device in members(devices)]
        found, before = start, 0
        while found != before:
            before = found
            for both in ends:
                if found & both:
                    found |= both
        return found

    def live(self, devices):
        """The nodes that walks of these devices join to a source."""
        if devices not in self.live_nodes:
            self.live_nodes[devices] = self.joined(self.sources, devices)
        return self.live_nodes[devices]

    def loops(self, device, closed):
        """Whether a walk of the closed devices joins its ends, all sources being one point."""
        first, second = 1 << self.devices[device].first, 1 << self.devices[device].second
        return bool(self.joined(first, closed) & second) or self.live(closed) & (first | second) == first | second

    def weight(self, devices):
        if devices not in self.weights:
            self.weights[devices] = sum(self.devices[device].weight for device in members(devices))
        return self.weights[devices]

    def walks(self, closed):
        """The walk of closed devices from its source to each fed node: its nodes, and its devices."""
        if closed not in self.all_walks:
            found, more = {}, [([source], []) for source in members(self.sources)]
            for nodes, devices in more:
                found[nodes[-1]] = nodes, devices
                for device in members(closed):
                    _, first, second, _, _ = self.devices[device]
                    if nodes[-1] in (first, second) and device not in devices:
                        more.append((nodes + [first + second - nodes[-1]], devices + [device]))
            self.all_walks[closed] = found
        return self.all_walks[closed]


def read_network(text):
    """The network of a text."""
    network = Network()
    for number, line in enumerate(lines_of(text), 1):
        broken = None if is_skipped(line) else network.take(line, number)
        if broken:
            raise End(5, f"network line {number}: {broken}")
    earlier = 0
    for device, (_, _, _, is_closed, _) in enumerate(network.devices):
        if is_closed and network.loops(device, earlier):
            raise End(5, f"network line {network.device_lines[device]}: Loop")
        earlier |= is_closed << device
    return network


# The events

def read_event(network, line):
    """The event of a line, or the first rule that refuses it."""
    fields = fields_of(line)
    if len(line) > MOST_LINE:
        return "TooLong"
    if fields is None or not 2 <= len(fields) <= 4 or EVENT_FIELDS.get(fields[1], len(fields)) != len(fields):
        return "BadFields"
    second, word, name, last = (fields + [None, None])[:4]
    if word not in EVENT_FIELDS or (word in LAST_FIELDS and last not in LAST_FIELDS[word]):
        return "BadWord"
    second = read_stamp(second)
    if second is None:
        return "BadTime"
    if word == b"clock":
        return Event(second, word, None, None)
    if not is_name(name):
        return "BadName"
    numbers = network.meter_numbers if word in OF_METERS else network.device_numbers
    if name not in numbers:
        return "UnknownMeter" if word in OF_METERS else "UnknownDevice"
    return Event(second, word, numbers[name], last)


class History:
    """What a list of applied events comes to. `earlier` has the history of each front part of it."""

    def __init__(self, network, events, earlier):
        self.network, self.events, self.earlier = network, events, earlier
        self.now = events[-1].second if events else 0
        orders = {event.number: event.word for event in events if event.word in (b"open", b"close")}
        self.closed = sum(1 << number for number, device in enumerate(network.devices)
                          if (orders[number] == b"close" if number in orders else device.is_closed))
        self.fed = network.live(self.closed)
        self.marks = [self.mark(number) for number in range(len(network.devices))]
        self.forced = sum(1 << number for number, mark in enumerate(self.marks) if mark == "open")
        self.restored = [(place, event.second, earlier[place].below(event.number))
                         for place, event in enumerate(events) if event.word == b"restore"]
        self.reports = [self.reports_of(number) for number in range(len(network.meters))]

    def mark(self, device):
        told = [event for event in self.events if event.number == device and event.word in (b"open", b"close", b"confirm", b"restore")]
        if not told:
            return None
        second, word, _, last = told[-1]
        if word == b"confirm" and last == b"open":
            return "open"
        is_fine = word == b"restore" or (word == b"confirm" and last == b"ok")
        return "ok" if is_fine and self.now < second + self.network.setting(b"ok_hold") else None

    def below(self, device):
        """The nodes that are fed, and wouldn't be if the device were open."""
        return self.fed & ~self.network.live(self.closed & ~(1 << device))

    def restorations(self, meter, place):
        """The seconds of the restorations behind a place, of devices that the meter was below."""
        return [second for later, second, below in self.restored if later > place and below >> self.network.meters[meter].node & 1]

    def reports_of(self, meter):
        """What the counted reports of a meter weigh, since when it is dark by them, and whether a dark signal outlived a restoration."""
        told = [(place, event) for place, event in enumerate(self.events) if event.word in OF_METERS and event.number == meter]
        dark, live, since, came_back = 0, 0, [], False
        for place, (second, word, _, last) in [it for it in told if it[1].word != b"call"][-1:]:
            restored = self.restorations(meter, place)
            if word == b"powerup" or last == b"up":
                if self.now < second + self.network.setting(b"live_hold"):
                    live = self.network.setting(b"powerup" if word == b"powerup" else b"ping_up")
            elif all(self.now >= at + self.network.setting(b"grace") for at in restored):
                dark += self.network.setting(b"gasp" if word == b"gasp" else b"ping_down")
                since.append(second)
                came_back = restored != []
        for place, (second, _, _, _) in [it for it in told if it[1].word == b"call"][-1:]:
            is_answered = any(later > place and (event.word == b"powerup" or event.last == b"up") for later, event in told)
            if not is_answered and not self.restorations(meter, place):
                dark += self.network.setting(b"call")
                since.append(second)
        return Reports(dark, live, min(since, default=None), came_back)

    def contradicted(self, live):
        """What the reports weigh that are wrong where exactly these nodes are live."""
        return sum(reports.dark if live >> meter.node & 1 else reports.live for meter, reports in zip(self.network.meters, self.reports))

    def diagnosis(self):
        """The least cost of the feasible sets, and the one of them under which only those nodes are dark that are dark under all of them."""
        free = sum(1 << device for device in members(self.closed) if self.marks[device] is None)
        wrong, found = {}, []
        for chosen in subsets(free):
            opened = self.forced | chosen
            live = self.network.live(self.closed & ~opened)
            if live not in wrong:
                wrong[live] = self.contradicted(live)
            found.append((self.network.weight(opened) + wrong[live], opened, live))
        least = min(cost for cost, _, _ in found)
        best = [(opened, live) for cost, opened, live in found if cost == least]
        live_under_any = 0
        for _, live in best:
            live_under_any |= live
        return least, next(opened for opened, live in best if live == live_under_any)

    def refusal(self, event):
        if event.second < self.now:
            return "Backwards"
        is_open = event.number is not None and event.word not in OF_METERS and not self.closed >> event.number & 1
        if event.word in (b"confirm", b"restore") and is_open:
            return "NotClosed"
        return "Loop" if event.word == b"close" and is_open and self.network.loops(event.number, self.closed) else None


class Run:
    """What becomes of the lines of an event text: what is printed of them, and what they come to."""

    def __init__(self, network, text):
        self.network, self.entries, self.refused, self.opened, self.cost = network, [], 0, 0, 0
        self.histories = [History(network, [], [])]
        # the second of each event, and the nodes that are live after it; before the first one the fed ones
        self.judged = [(0, self.histories[0].fed)]
        for number, line in enumerate(lines_of(text), 1):
            if not is_skipped(line):
                self.take(number, line)

    @property
    def last(self):
        return self.histories[-1]

    def take(self, number, line):
        event = read_event(self.network, line)
        refused = event if isinstance(event, str) else self.last.refusal(event)
        if refused:
            self.refused += 1
            self.entries.append(f"refused,{number},{refused}")
            return
        self.histories.append(History(self.network, self.last.events + [event], self.histories[:]))
        cost, opened = self.last.diagnosis()
        self.entries += [f"leaves,{number},{self.name(device)}" for device in members(self.opened & ~opened)]
        self.entries += [f"enters,{number},{self.name(device)}" for device in members(opened & ~self.opened)]
        self.entries += [f"cost,{number},{cost}"] if cost != self.cost else []
        self.opened, self.cost = opened, cost
        self.judged.append((event.second, self.network.live(self.last.closed & ~opened)))

    def name(self, device):
        return self.network.devices[device].name.decode()

    def is_dark(self, node):
        return not self.judged[-1][1] >> node & 1

    def ledger(self, meter):
        """The interruptions of a meter: the seconds of their first event, and of the one that ended them, or None."""
        node, found = self.network.meters[meter].node, []
        for (_, live_before), (second, live) in zip(self.judged, self.judged[1:]):
            was_dark, is_dark = not live_before >> node & 1, not live >> node & 1
            if is_dark and not was_dark:
                found.append((second, None))
            elif was_dark and not is_dark and found:
                found[-1] = (found[-1][0], second)
        return found

    def cuts_to(self, node):
        """The devices of the diagnosis on the walk from its source to a node."""
        _, devices = self.network.walks(self.last.closed).get(node, ([], []))
        return [device for device in devices if self.opened >> device & 1]

    def above(self, device):
        """The last other device of the diagnosis on the walk from the source to a device, or None."""
        ends = self.network.devices[device][1:3]
        walks = [self.cuts_to(end) for end in ends if device in self.cuts_to(end)]
        before = walks[0][:walks[0].index(device)] if walks else []
        return before[-1] if before else None

    def outages(self):
        """The outage of each device of the diagnosis."""
        found = {}
        for device in members(self.opened):
            meters = [number for number, meter in enumerate(self.network.meters) if self.cuts_to(meter.node)[-1:] == [device]]
            reports = [self.last.reports[meter] for meter in meters]
            found[device] = Outage(
                self.above(device),
                len(meters),
                sum(self.network.meters[meter].customers for meter in meters),
                min((it.since for it in reports if it.since is not None), default=None),
                any(it.came_back for it in reports),
            )
        return found


# The output

def top_and_depth(outages, device):
    """The topmost device above an outage, and how many outages are above it."""
    depth = 0
    while outages[device].above is not None:
        device, depth = outages[device].above, depth + 1
    return device, depth


def crew_order(outages):
    def key(device):
        top, depth = top_and_depth(outages, device)
        group = [outage for other, outage in outages.items() if top_and_depth(outages, other)[0] == top]
        since = min((outage.since for outage in group if outage.since is not None), default=None)
        return -sum(outage.customers for outage in group), since is None, since or 0, top, depth, device

    return sorted(outages, key=key)


def indices(run, start, until):
    """The rows of the indices of a period."""
    interrupted = seconds = 0
    for number, meter in enumerate(run.network.meters):
        for begun, ended in run.ledger(number):
            length = (run.last.now if ended is None else ended) - begun
            if start <= begun and (until is None or begun < until) and length > 300:
                interrupted += meter.customers
                seconds += meter.customers * length
    served = sum(meter.customers for meter in run.network.meters)
    return [f"index,saifi,{put_fraction(interrupted, served)}", f"index,saidi,{put_fraction(seconds, 60 * served)}",
            f"index,caidi,{put_fraction(seconds, 60 * interrupted)}"]


def report(run, start, until):
    """The rows of the report."""
    events, outages = run.last.events, run.outages()
    rows = [f"report,{put_stamp(run.last.now) if events else 'none'}", f"counts,{len(events)},{run.refused}", f"total,{run.cost}"]
    for device, (above, meters, customers, since, is_nested) in outages.items():
        rows.append(f"outage,{run.name(device)},{'none' if above is None else run.name(above)},{meters},{customers},"
                    f"{'none' if since is None else put_stamp(since)},{'nested' if is_nested else 'plain'}")
    rows += [f"crew,{place},{run.name(device)}" for place, device in enumerate(crew_order(outages), 1)]
    for meter, reports in zip(run.network.meters, run.last.reports):
        is_dark = run.is_dark(meter.node)
        weight = reports.live if is_dark else reports.dark
        rows += [f"unexplained,{meter.name.decode()},{'live' if is_dark else 'dark'},{weight}"] if weight > 0 else []
    for number, meter in enumerate(run.network.meters):
        rows += [f"line,{meter.name.decode()},{put_stamp(begun)},{'open' if ended is None else put_stamp(ended)}" for begun, ended in run.ledger(number)]
    return rows + indices(run, start, until) + ["end"]


def node_weights(history):
    """What the counted reports of darkness, and those of life, weigh at each node."""
    dark, live = [0] * len(history.network.nodes), [0] * len(history.network.nodes)
    for meter, reports in zip(history.network.meters, history.reports):
        dark[meter.node] += reports.dark
        live[meter.node] += reports.live
    return dark, live


def part_costs(history, node):
    """The least cost of a fed node's part where the node is live, over all sets of the part's devices, and its cost where it is dark."""
    network, walks = history.network, history.network.walks(history.closed)
    part = [other for other, (nodes, _) in walks.items() if node in nodes]
    devices = sum(1 << walks[other][1][-1] for other in part if other != node)
    dark, live = node_weights(history)
    forced = devices & history.forced
    free = sum(1 << device for device in members(devices) if history.marks[device] is None)
    costs = []
    for chosen in subsets(free):
        joined = network.joined(1 << node, devices & ~(forced | chosen))
        costs.append(network.weight(forced | chosen) + sum(dark[other] if joined >> other & 1 else live[other] for other in part))
    return min(costs), network.weight(forced) + sum(live[other] for other in part)


def bounds_part(run):
    """The rows of the bounds part."""
    names, walks = list(run.network.nodes), run.network.walks(run.last.closed)
    rows = [f"bounds,{run.cost}"] + [f"cut,{run.name(device)}" for device in members(run.opened)]
    for node in members(run.last.fed):
        _, devices = walks[node]
        live, dark = part_costs(run.last, node)
        rows.append(f"row,{names[node].decode()},{run.name(devices[-1]) if devices else '-'},{len(devices)},{live},{dark}")
    return rows + ["endbounds"]


# The check

def read_report(network, text):
    """The cost, the devices that are cut, and the rows of a report by node."""
    *lines, unended = text.split(b"\n")
    first = next((number for number, line in enumerate(lines, 1) if line.startswith(b"bounds,")), None)
    if first is None:
        raise End(6, f"report line {len(lines) + 1}: NoBounds")
    bounds = Bounds(network)
    for number, line in enumerate(lines[first - 1:], first):
        if line == b"endbounds":
            if number < len(lines) or unended:
                raise End(6, f"report line {number + 1}: Trailing")
            return bounds
        broken = bounds.take(line)
        if broken:
            raise End(6, f"report line {number}: {broken}")
    raise End(6, f"report line {len(lines) + 1}: NoEnd")


class Bounds:
    """The bounds part of a report, up to a line."""

    def __init__(self, network):
        self.network, self.cost, self.cuts, self.rows = network, None, [], {}

    def take(self, line):
        """Takes a line, or gives the first rule that it breaks."""
        fields = line.split(b",")
        if len(line) > MOST_LINE or b"\r" in line or b'"' in line:
            return "BadRow"
        if self.cost is None:
            self.cost = read_decimal(fields[1], 0, MOST_COST) if len(fields) == 2 else None
            return None if self.cost is not None else "BadNumber" if len(fields) == 2 else "BadRow"
        if fields[0] == b"cut" and len(fields) == 2 and not self.rows:
            return self.take_cut(fields[1])
        return self.take_row(*fields[1:]) if fields[0] == b"row" and len(fields) == 6 else "BadRow"

    def take_cut(self, name):
        if not is_name(name):
            return "BadName"
        if name not in self.network.device_numbers:
            return "UnknownDevice"
        device = self.network.device_numbers[name]
        if self.cuts and device <= self.cuts[-1]:
            return "OutOfOrder"
        self.cuts.append(device)
        return None

    def take_row(self, name, parent, depth, live, dark):
        if not is_name(name) or not (is_name(parent) or parent == b"-"):
            return "BadName"
        depth, live, dark = read_decimal(depth, 0, MOST_DEPTH), read_decimal(live, 0, MOST_COST), read_decimal(dark, 0, MOST_COST)
        if depth is None or live is None or dark is None:
            return "BadNumber"
        if name not in self.network.nodes:
            return "UnknownNode"
        if parent != b"-" and parent not in self.network.device_numbers:
            return "UnknownDevice"
        node = self.network.nodes[name]
        if self.rows and node <= max(self.rows):
            return "OutOfOrder"
        self.rows[node] = Row(None if parent == b"-" else self.network.device_numbers[parent], depth, live, dark)
        return None


class Check:
    """The ten conditions over the history of events and the bounds of a report. Each gives the numbers at which it is broken, and a
    condition is only asked where those before it hold."""

    def __init__(self, history, bounds):
        self.history, self.bounds, self.rows = history, bounds, bounds.rows
        self.network, self.cuts = history.network, bounds.cuts
        self.dark, self.live = node_weights(history)
        self.closed = members(history.closed)

    def verdict(self):
        """Valid, or the first condition that is broken, with its first place."""
        names = {"device": [device.name for device in self.network.devices], "node": list(self.network.nodes), "": [b"-"]}
        conditions = [
            ("NotClosed", "device", self.not_closed), ("MarkedOk", "device", self.marked_ok), ("MissingOpen", "device", self.missing_open),
            ("BadSource", "node", self.bad_source), ("BadParent", "node", self.bad_parent), ("StrayDevice", "device", self.stray_device),
            ("LiveRow", "node", self.live_row), ("DarkRow", "node", self.dark_row), ("CutCost", "", self.cut_cost), ("Total", "", self.total),
        ]
        for rule, sort, condition in conditions:
            broken = condition()
            if broken:
                return f"invalid,{rule},{names[sort][min(broken)].decode()}"
        return "valid"

    def not_closed(self):
        return [device for device in self.cuts if device not in self.closed]

    def marked_ok(self):
        return [device for device in self.cuts if self.history.marks[device] == "ok"]

    def missing_open(self):
        return [device for device in members(self.history.forced) if device not in self.cuts]

    def bad_source(self):
        return [node for node in members(self.network.sources) if node not in self.rows or self.rows[node][:2] != (None, 0)]

    def others(self):
        return [node for node in self.rows if not self.network.sources >> node & 1]

    def other_end(self, node):
        """The node at the other end of a row's parent device."""
        return sum(self.network.devices[self.rows[node].parent][1:3]) - node

    def bad_parent(self):
        return [node for node in self.others()
                if self.rows[node].parent not in self.closed or node not in self.network.devices[self.rows[node].parent][1:3]
                or self.other_end(node) not in self.rows or self.rows[self.other_end(node)].depth + 1 != self.rows[node].depth]

    def is_stray(self, device):
        """Whether both ends of the device are unlisted."""
        return not any(end in self.rows for end in self.network.devices[device][1:3])

    def stray_device(self):
        return [device for device in self.closed if not self.is_stray(device) and all(device != row.parent for row in self.rows.values())]

    def children(self, node):
        return [child for child in self.others() if self.other_end(child) == node]

    def choice(self, child):
        """What a child's part costs at least below a live node."""
        _, _, live, dark = self.rows[child]
        opened = self.network.devices[self.rows[child].parent].weight + dark
        return {"open": opened, "ok": live, None: min(opened, live)}[self.history.marks[self.rows[child].parent]]

    def live_row(self):
        return [node for node, row in self.rows.items() if row.live > self.dark[node] + sum(map(self.choice, self.children(node)))]

    def below_dark(self, child):
        """What a child's part costs below a dark node."""
        device = self.rows[child].parent
        return self.rows[child].dark + (self.network.devices[device].weight if self.history.marks[device] == "open" else 0)

    def dark_row(self):
        return [node for node, row in self.rows.items() if row.dark > self.live[node] + sum(map(self.below_dark, self.children(node)))]

    def is_dark(self, node):
        """Whether a node is unlisted, or a device on its chain of parents is cut."""
        if node not in self.rows:
            return True
        parent = self.rows[node].parent
        return parent is not None and (parent in self.cuts or self.is_dark(self.other_end(node)))

    def cut_cost(self):
        cost = sum(self.network.devices[device].weight for device in self.cuts)
        cost += sum(self.live[node] if self.is_dark(node) else self.dark[node] for node in range(len(self.network.nodes)))
        return [0] if cost != self.bounds.cost else []

    def total(self):
        cost = sum(self.rows[node].live for node in members(self.network.sources))
        cost += sum(self.live[node] for node in range(len(self.network.nodes)) if node not in self.rows)
        cost += sum(self.network.devices[device].weight for device in members(self.history.forced) if self.is_stray(device))
        return [0] if cost != self.bounds.cost else []


# The command

def read_words(words):
    """The command, its places and its options by the words behind the program's name."""
    options, places, rest = {}, [], list(words[1:])
    while rest:
        word = rest.pop(0)
        name, equals, value = word.partition(b"=")
        if word == b"--":
            places, rest = places + rest, []
        elif name in (b"--from", b"--to") and name not in options and (equals or rest):
            options[name] = read_stamp(value if equals else rest.pop(0))
        elif word == b"--bounds" and word not in options:
            options[word] = True
        elif word.startswith(b"-") and word != b"-":
            raise End(2, USAGE)
        else:
            places.append(word)
    command, start, until = words[0] if words else None, options.get(b"--from", 0), options.get(b"--to")
    is_period = None not in options.values() and not (b"--from" in options and b"--to" in options and start >= until)
    if PLACES.get(command) != len(places) or (options and command != b"replay") or not is_period:
        raise End(2, USAGE)
    if command == b"trial" and read_decimal(places[0], 1, 100) is None:
        raise End(2, USAGE)
    if command == b"follow":
        # the replay of events from standard input
        places = places + [b"-"]
    return command, places, b"--bounds" in options, start, until


def answer(words, files, given=b""):
    """The status, standard output and standard error of the program on these words, with these files and this standard input."""
    files = {**files, b"-": given}

    def read(place):
        if place not in files:
            raise End(3, "a read failed")
        text = files[place]
        if place == b"-":
            files[place] = b""
        return text

    try:
        command, places, is_bounded, start, until = read_words(words)
        if command == b"trial":
            # what a trial writes is compared with a replay of the same texts in checks/run
            return 0, b"", b""
        run = Run(read_network(read(places[0])), read(places[1]))
        if command == b"check":
            verdict = Check(run.last, read_report(run.network, read(places[2]))).verdict()
            return 0 if verdict == "valid" else 1, f"{verdict}\n".encode(), b""
        rows = run.entries + report(run, start, until) + (bounds_part(run) if is_bounded else [])
        return 0, "".join(f"{row}\n" for row in rows).encode(), b""
    except End as end:
        return end.status, b"", end.line
