#!/usr/bin/env python3
"""Reckons the requests of a capture anew, plainly, line by line: of each attempt of a request when it arrived, was started and was
completed, and what is counted of those of which the capture lacks one of these."""
from __future__ import annotations

import csv
import os
import re
from dataclasses import dataclass

STATISTICS = ("CPU", "Total (", "Throughput", "Events (", "Skips", "Input file", "Read", "PC Read", "IO unplugs")
IGNORED = ("G", "I", "A", "X", "m", "P", "U", "UT", "B", "S")
MAX_DRIVERS, MAX_DEVICES, MAX_LINE, MAX_TIMES = 256, 32, 65_536, 16
NEEDED, COLUMNS = {"arrival", "start", "device"}, ("arrival", "start", "end", "device", "driver", "priority", "size", "comm", "pid", "cgroup")
COUNTS = ("never_started", "without_arrival", "lost_starts", "requests_without_starts", "other_devices", "other_times",
          "refused_lines", "without_partner", "dropped_runs", "early_starts", "from_before", "still_waiting")
# By how much the clocks of two processors may differ.
SKEW = 100_000
# The driver of flushes and commands that the block layer issues; the sector of a flush, which is none.
FLUSH, NO_SECTOR = "flush", 2**64 - 1
# The kernel's events that say something of a request, as blkparse calls them.
EVENTS = {"bio_queue": "Q", "bio_backmerge": "M", "bio_frontmerge": "F", "rq_merge": "M", "rq_issue": "D", "rq_requeue": "R", "rq_complete": "C"}
BLANKS = " \t\r\n\f"


class Refused(Exception):
    """A line, or the whole, is refused."""


@dataclass
class Request:
    """An attempt of a request. It waits until it is started, and flies until it is completed or put back."""
    arrival: int
    device: str
    driver: str
    priority: int
    started: int | None = None
    completed: int | None = None
    # When a write was completed once more, after the flush behind it.
    second: int | None = None
    put_back: int | None = None
    # Its sector, if it has sectors; how many, or in a table bytes; and its kind and sectors, by which its end is known.
    place: int | None = None
    size: int = 0
    form: tuple[str, int] = ("", 0)
    # Its number in the order of arrivals, and of equal ones of the lines.
    number: int = 0
    kept: bool = True
    # Whether its arrival was seen; its priority by direction, and by its I/O class if that is known.
    seen: bool = True
    by_direction: int = 896
    by_class: int | None = None


def must(so: bool) -> None:
    if not so:
        raise Refused


def number(text: str, base: int = 10) -> int:
    must(re.fullmatch("[0-9]+" if base == 10 else "[0-9a-fA-F]+", text) is not None and int(text, base) < 2**64)
    return int(text, base)


def time_of(text: str, digits: int) -> int:
    match = re.fullmatch(r"([0-9]+)(?:\.([0-9]+))?", text)
    if match is None:
        raise Refused
    return number(str(int(match[1]) * 10**digits + int("0" + (match[2] or "")[:digits].ljust(digits, "0"))))


def takes(pick: str, name: str) -> str | None:
    """The name as which a pick takes a device, if it does."""
    pattern, sign, listed = pick.rpartition("=")
    if not sign:
        return name if name == pick else None
    return listed if re.fullmatch(".*".join(map(re.escape, pattern.split("*"))), name, re.S) else None


@dataclass
class Options:
    picks: tuple[str, ...] = ()
    drivers: tuple[tuple[str, int], ...] = ()
    priorities: str = "by-class"
    begin: int = 0
    end: int = 2**64
    hosts: tuple[tuple[str, int, int], ...] = ()
    rated: tuple[tuple[str, int], ...] = ()
    depths: tuple[tuple[str, int], ...] = ()
    driver_by: str | None = None
    unit: str = "us"

    def listed(self, name: str) -> str | None:
        return next((it for pick in self.picks if (it := takes(pick, name)) is not None), None) if self.picks else name


class Reader:
    # Whether flights, and what the capture lacks of them, are told.
    tells_flights = True

    def __init__(self, options: Options) -> None:
        self.options = options
        self.requests: list[Request] = []
        # All, by arrival, once the capture is finished; those whose arrival isn't in the capture; and flights that began before it, of
        # which only the end was seen: the device as it is listed, the begin of the capture, and the end.
        self.found: list[Request] = []
        self.early_all: list[Request] = []
        self.before: list[tuple[str, int, int]] = []
        # The latest time of the capture, and how long at the most a request waits there.
        self.last = self.longest_wait = 0
        self.devices: list[str] = []
        self.drivers: list[str] = []
        self.counts = dict.fromkeys(COUNTS, 0)

    def take(self, line: str) -> None:
        raise NotImplementedError

    def add(self, request: Request, counts: bool = True) -> Request:
        if counts:
            self.name(request.driver, self.drivers, MAX_DRIVERS)
        self.name(self.options.listed(request.device) or "", self.devices, 2**64)
        self.requests.append(request)
        return request

    @staticmethod
    def name(name: str, names: list[str], most: int) -> None:
        must(name in names or len(names) < most)
        names += [] if name in names else [name]

    def priority(self, driver: str, by_class: int | None, by_direction: int) -> int:
        """A driver's own priority, or else that by class, where there is one, or direction."""
        own = [priority for name, priority in self.options.drivers if name == driver]
        usual = {"by-class": by_direction if by_class is None else by_class, "by-direction": by_direction, "flat": 896}
        return own[0] if own else usual[self.options.priorities]

    def may_be_empty(self) -> bool:
        """Whether the file that was begun may have no lines."""
        return False

    def end(self) -> None:
        """No file comes any more."""

    def all(self) -> list[Request]:
        return self.requests

    def finish(self) -> list[Request]:
        """The requests at the times that are taken, by arrival, of the devices as which theirs are listed."""
        found = sorted(self.all(), key=lambda request: request.arrival)
        taken = [request for request in found if self.options.begin <= request.arrival < self.options.end]
        for number, request in enumerate(sorted(found + self.early_all, key=lambda it: (it.arrival, it.number))):
            request.number, request.device = number, self.options.listed(request.device) or ""
        self.found = found
        self.counts["other_times"] = len(found) - len(taken)
        waiting = [request for request in taken if request.started is None]
        self.counts["still_waiting" if self.tells_flights else "never_started"] = len(waiting)
        self.longest_wait = max((self.last - request.arrival for request in waiting), default=0)
        for kind, names in ("device", self.devices), ("driver", self.drivers):
            names[:] = [name for name in names if any(getattr(request, kind) == name for request in taken)]
        if len(self.devices) > MAX_DEVICES:
            raise Refused(f"camxpt: {len(self.devices)} devices, and a recording has at most 32: pick some by --device, or several as one\n")
        return taken


@dataclass
class Event:
    """What an event says of a request. Without sectors it may still have the number of one."""
    device: str
    action: str
    flags: str
    sector: int | None
    sectors: int
    process: str
    pid: str
    by_class: int | None = None

    @property
    def place(self) -> int | None:
        return self.sector if self.sectors else None

    @property
    def end(self) -> int:
        return (self.sector or 0) + self.sectors

    @property
    def kind(self) -> str:
        """What is done, as a letter. An F before it says that a flush comes first."""
        return self.flags[1] if re.match("F[RWD]", self.flags) else self.flags[0]

    @property
    def form(self) -> tuple[str, int]:
        return self.kind, self.sectors


class Events(Reader):
    """Attempts are one list, in the order in which they came."""

    def __init__(self, options: Options) -> None:
        super().__init__(options)
        self.begin: int | None = None
        self.attempts: list[Request] = []
        # Those that wait or fly, by device and sector; of flushes and commands there is none.
        self.open: dict[tuple[str, int | None], list[Request]] = {}
        # The writes that were completed once, by device and first sector.
        self.written: dict[tuple[str, int], list[Request]] = {}
        self.starts: set[str] = set()
        # The devices of requests that were completed and never started, and when others of which nothing was seen before were completed.
        self.ended: list[str] = []
        self.unknown: list[tuple[str, int]] = []

    def parse(self, line: str) -> tuple[int, Event | None] | None:
        """The time of a line, and what it says of a request. None if it isn't an event."""
        raise NotImplementedError

    def take(self, line: str) -> None:
        parsed = self.parse(line)
        if parsed is None:
            return
        time, event = parsed
        must(time + SKEW >= self.last)
        self.last = time = max(time, self.last)
        self.begin = time if self.begin is None else self.begin
        if event is None:
            return
        listed = self.options.listed(event.device)
        if listed is None:
            self.counts["other_devices"] += event.action == "Q" and event.sectors > 0
            return
        self.name(listed, self.devices, 2**64)
        self.starts |= {event.device} if event.action == "D" else set()
        if event.sectors:
            self.apply(time, event)
        else:
            self.apply_without_sectors(time, event)

    @staticmethod
    def direction_priority(flags: str) -> int:
        if flags[0] in "RW" and "M" not in flags:
            if flags[0] == "R":
                return 896 if "A" in flags else 640
            return 896 if "S" in flags or "F" in flags else 1152
        return 1279 if flags[0] == "D" else 640

    def here(self, device: str, place: int | None) -> list[Request]:
        return self.open.setdefault((device, place), [])

    def waiting(self, device: str, place: int | None) -> Request | None:
        """The one that has waited longest there."""
        return min((it for it in self.here(device, place) if it.started is None), key=lambda it: it.number, default=None)

    def newest(self, event: Event) -> Request | None:
        """Of those in flight whose end the event can be the one that was started last. Of one whose arrival wasn't seen nobody knows more than
        where it is."""
        fitting = [it for it in self.here(event.device, event.place) if it.started is not None
                   and (not it.seen or it.form == event.form)]
        return max(fitting, key=lambda it: (it.started or 0, it.number), default=None)

    def come(self, request: Request) -> Request:
        request.number = len(self.attempts)
        self.attempts.append(request)
        self.here(request.device, request.place).append(request)
        return request

    def leave(self, request: Request) -> None:
        self.here(request.device, request.place).remove(request)

    def drop(self, request: Request) -> None:
        request.kept = False
        self.leave(request)

    def apply(self, time: int, event: Event) -> None:
        waiting = self.waiting(event.device, event.place)
        if event.action == "Q":
            self.arrive(time, event)
        elif event.action == "F":
            behind = self.waiting(event.device, event.end)
            if behind is not None:
                self.leave(behind)
                behind.place = event.place
                self.here(event.device, event.place).append(behind)
                if waiting is not None:
                    self.drop(waiting)
        elif event.action == "M" and waiting is not None:
            self.drop(waiting)
        elif event.action == "D":
            started = waiting or self.come(Request(time, event.device, "", 0, place=event.place, seen=False))
            started.started, started.size, started.form = time, event.sectors, event.form
            started.by_class = started.by_class if event.by_class is None else event.by_class
        elif event.action in "CR":
            newest = self.newest(event)
            if newest is not None:
                self.end_flight(time, event, newest)
            elif event.action == "C" and waiting is not None:
                self.drop(waiting)
                self.ended.append(event.device)
            elif event.action == "C":
                self.unknown.append((event.device, time))

    def apply_without_sectors(self, time: int, event: Event) -> None:
        """A flush or a command: a request that arrives when it is started. That a process asks for a flush is no request."""
        if event.action == "D":
            self.name_driver(FLUSH, time)
            self.come(Request(time, event.device, FLUSH, 0, started=time, form=event.form, by_direction=640))
        elif event.action in "CR":
            ended = self.written.get((event.device, event.sector), []) if event.sector not in (None, NO_SECTOR) else []
            newest = self.newest(event)
            if event.action == "C" and event.kind == "W" and ended:
                # (the flush behind a write has ended, and so the write, once more)
                write = max(ended, key=lambda it: (it.started or 0, it.number))
                write.second = time
                ended.remove(write)
            elif newest is not None:
                self.end_flight(time, event, newest)
            elif event.action == "C" and event.kind != "W":
                self.unknown.append((event.device, time))

    def end_flight(self, time: int, event: Event, request: Request) -> None:
        self.leave(request)
        if event.action == "C":
            request.completed = time
            if event.kind == "W" and event.sectors:
                self.written.setdefault((event.device, event.sector), []).append(request)
            return
        request.put_back = time
        if request.seen and request.place is not None:
            self.come(Request(time, event.device, request.driver, 0, place=request.place, by_direction=request.by_direction, by_class=request.by_class))

    def arrive(self, time: int, event: Event) -> None:
        driver = event.pid if self.options.driver_by == "pid" else event.process
        self.name_driver(driver, time)
        by_direction = self.direction_priority(event.flags)
        early = next((it for it in self.here(event.device, event.place) if not it.seen and it.arrival >= time - SKEW), None)
        if early is None:
            self.come(Request(time, event.device, driver, 0, place=event.place, by_direction=by_direction))
        else:
            # (another processor's clock saw its start first: it arrived then)
            early.seen, early.driver, early.by_direction, early.size = True, driver, by_direction, event.sectors
            self.counts["early_starts"] += 1

    def name_driver(self, driver: str, time: int) -> None:
        if time < self.options.end:
            self.name(driver, self.drivers, MAX_DRIVERS)

    def all(self) -> list[Request]:
        seen = [it for it in self.attempts if it.seen and it.kept]
        for it in seen:
            it.priority = self.priority(it.driver, it.by_class, it.by_direction)
        self.early_all = [it for it in self.attempts if not it.seen]
        self.counts["without_arrival"] = sum(it.put_back is None for it in self.early_all)
        idle = [it.device for it in seen if it.device not in self.starts]
        self.counts["requests_without_starts"] = len(idle) + sum(d not in self.starts for d in self.ended)
        self.counts["lost_starts"] = sum(d in self.starts for d in self.ended)
        return [it for it in seen if it.device in self.starts]

    def finish(self) -> list[Request]:
        taken = super().finish()
        self.sort_unknown()
        return taken

    def sort_unknown(self) -> None:
        """Of what was completed and not seen before, at devices that are taken: flights from before the capture, if they then took no longer
        than others of the device; the others have lost their starts."""
        longest = dict.fromkeys(self.devices, 0)
        for it in self.attempts:
            if it.completed is not None and it.started is not None and it.device in longest:
                longest[it.device] = max(longest[it.device], it.completed - it.started)
        begin = self.begin or 0
        for device, time in self.unknown:
            name = self.options.listed(device) or ""
            if device not in self.starts or name not in longest:
                continue
            if time <= begin + longest[name]:
                # (one that ends where the capture begins holds no slot)
                self.counts["from_before"] += 1
                self.before.append((name, begin, time))
            else:
                self.counts["lost_starts"] += 1


class Blkparse(Events):
    def parse(self, line: str) -> tuple[int, Event | None] | None:
        text = line.strip(BLANKS)
        if not text or (not text[0].isdigit() and text.startswith(STATISTICS)):
            return None
        head = re.match(r"(\d+,\d+)\s+(\d+)\s+(\d+)\s+(\d+\.\d{9})\s+(\d+)\s+(\S+)\s+(\S+)(.*)", text, re.A | re.S)
        if head is None:
            raise Refused
        for digits in (*head[1].split(","), head[2], head[3], head[5]):
            number(digits)
        time, action, rest = time_of(head[4], 9), head[6], head[8]
        must(action in IGNORED or action in "QMFDRC")
        if action in IGNORED:
            return time, None
        process = re.search(r"\[(.*)\]", rest, re.S)
        must(re.fullmatch("[A-Z]+", head[7]) is not None and process is not None)
        sector, sectors = self.extent(rest)
        return time, Event(head[1], action, head[7], sector, sectors, process[1] if process else "", head[5])

    @staticmethod
    def extent(rest: str) -> tuple[int | None, int]:
        """The first sector, if there is one, and how many there are. (Before a command stands its count of bytes, but not where it ends.)"""
        words = rest.split()
        if words[0][0] in "[(":
            return None, 0
        sector, kind = number(words[0]), words[1][0] if len(words) > 1 else ""
        must(kind in ("+", "(", "[") and (kind != "+" or len(words) > 2))
        return sector, number(words[2]) if kind == "+" else 0


class Tracepoints(Events):
    def parse(self, line: str) -> tuple[int, Event | None] | None:
        text = line.strip(BLANKS)
        if not text or text.startswith(("#", "cpus=", "CPU ", "version =")):
            return None
        head = re.match(r"(.*?)\[(\d+)\]((?:\s*\S*[^:\s]){0,2}?)\s*([^\s:]+):\s+(\S+):(.*)", text, re.A | re.S)
        if head is None:
            raise Refused
        must("." in head[4])
        time, kind = time_of(head[4], 9), head[5].removeprefix("block:").removeprefix("block_")
        if kind not in EVENTS or not head[5].removeprefix("block:").startswith("block_"):
            return time, None
        form = {"b": r"", "rq_i": r"(\d+)\s+\((.*?)\)\s+", "rq_m": r"(\d+)\s+\((.*?)\)\s+"}.get(kind[:1] if kind[0] == "b" else kind[:4], r"()\((.*?)\)\s+")
        rest = re.fullmatch(r"\s*(\d+,\d+)\s+([A-Z]+)\s+" + (form or "()()") + r"(\d+)\s+\+\s+(\d+)\s+(?:([^\s\[]\S*)\s+)?\[(.*)\][^\]]*", head[6], re.A | re.S)
        if rest is None:
            raise Refused
        device, flags, _, command, sector, sectors, ioprio, process = rest.groups()
        place, count = number(sector), number(sectors)
        task = re.sub(r"\s*\(.*\)$", "", head[1].strip(BLANKS))
        pid = re.search(r"\d*$", task, re.A)
        return time, Event(device, EVENTS[kind], flags, place, 0 if command else count, process, pid[0] if pid else "", self.by_class(ioprio))

    @staticmethod
    def by_class(ioprio: str | None) -> int | None:
        match = re.fullmatch(r"(rt|be|idle|0x[1-3]),[^,]*,([0-7])(?:,.*)?", ioprio or "")
        if match is None:
            return None
        return {"rt": 0, "be": 768, "idle": 1024, "0x1": 0, "0x2": 768, "0x3": 1024}[match[1]] + 32 * int(match[2])


class Fio(Reader):
    tells_flights = False

    def __init__(self, options: Options) -> None:
        super().__init__(options)
        self.jobs: dict[str, list[tuple[tuple[int, ...], Request]]] = {}
        self.epochs: dict[str, int] = {}
        self.job, self.kind, self.clock = "", "none", 0
        self.first: dict[str, str] = {}
        self.logs: set[str] = set()

    def begin_file(self, path: str) -> None:
        self.job, self.kind = re.sub(r"(\.iolog|(_lat)?(\.[0-9.]+)?\.log)$", "", os.path.basename(path)), "begun"
        self.first.setdefault(self.job, path)
        self.logs |= {self.job} & set(self.jobs)

    def take(self, line: str) -> None:
        line = line.strip(BLANKS)
        header = re.fullmatch("fio version ([23]) iolog", line)
        must(not line or self.kind != "begun" or (header is None) == (self.job in self.jobs))
        if header and self.kind != "lat":
            self.counts["dropped_runs"] += self.kind != "begun"
            self.jobs[self.job], self.clock, self.kind = [], 0, header[1]
            self.name(self.job, self.drivers, MAX_DRIVERS)
        elif line and self.kind in "23":
            self.action(line.split())
        elif line:
            self.kind = "lat"
            self.record([word.strip(BLANKS) for word in line.split(",")])

    def action(self, words: list[str]) -> None:
        time = number(str(number(words.pop(0)) * 1000)) if self.kind == "3" else self.clock
        name = words[1] if len(words) > 1 else ""
        if name in ("read", "write", "trim"):
            must(len(words) == 4)
            mode = ("read", "write", "trim").index(name)
            offset, size = number(words[2]), number(words[3])
            request = Request(time, words[0], self.job, self.priority(self.job, None, (640, 1152, 1279)[mode]), size=size)
            self.jobs[self.job].append(((mode, size, offset), request))
            if self.options.listed(words[0]) is not None:
                self.name(self.options.listed(words[0]) or "", self.devices, 2**64)
        elif name == "wait" and len(words) > 2:
            self.clock = number(str(self.clock + 1000 * number(words[2])))
        else:
            must(name in ("add", "open", "close", "sync", "datasync", "sync_file_range"))

    def record(self, words: list[str]) -> None:
        must(len(words) in (6, 7))
        ms, ns, *piece = (number(word) for word in words[:5])
        by_class = words[5].startswith("0x")
        ioprio = number(words[5][2:], 16) if by_class else number(words[5])
        must(piece[0] <= 2 and piece[1] > 0)
        request = next((r for p, r in self.jobs[self.job] if p == tuple(piece) and r.kept), None)
        self.counts["without_partner"] += request is None
        if request is not None:
            request.kept, request.started = False, number(str(request.arrival + ns))
            level = 32 * (ioprio & 7)
            by_level = {1: level, 2: 768 + level, 3: 1024 + level}.get(ioprio >> 13 & 7, 896) if by_class else None
            request.priority = self.priority(self.job, by_level, request.priority)
            if ms >= 10**11 and request.started <= ms * 10**6 < 2**64:
                epoch = ms * 10**6 - request.started
                self.epochs[self.job] = min(epoch, self.epochs.get(self.job, epoch))

    def may_be_empty(self) -> bool:
        return self.job in self.logs

    def end(self) -> None:
        lacking = [self.first[job] for job, pairs in self.jobs.items() if pairs and job not in self.logs]
        if lacking:
            raise Refused(f"camxpt: {lacking[0]}: no latency log of this job comes after it: ")

    def all(self) -> list[Request]:
        origin = min(self.epochs.values(), default=0)
        for job, pairs in self.jobs.items():
            shift = self.epochs.get(job, origin) - origin
            for _, request in pairs:
                request.arrival += shift
                request.started = None if request.started is None else request.started + shift
        requests = [request for pairs in self.jobs.values() for _, request in pairs]
        self.counts["other_devices"] = sum(self.options.listed(request.device) is None for request in requests)
        return [request for request in requests if self.options.listed(request.device) is not None]


class Csv(Reader):
    def __init__(self, options: Options, digits: int) -> None:
        super().__init__(options)
        self.digits, self.header = digits, [""][:0]
        self.others = self.header

    def take(self, line: str) -> None:
        if not line.strip(BLANKS):
            return
        line = line.removeprefix("\ufeff")
        # A quoted field, or one that doesn't begin with a quote.
        must(re.fullmatch(r'(?:"(?:[^"]|"")*"|(?!")[^,]*)(?:,(?:"(?:[^"]|"")*"|(?!")[^,]*))*', line) is not None)
        row = [cell.strip(BLANKS) for cell in next(csv.reader([line]), [])]
        if not self.header:
            must(NEEDED <= set(row) and all(row.count(name) < 2 for name in COLUMNS))
            must({"comm": {"comm", "driver"}, "pid": {"pid"}, "cgroup": {"cgroup"}, None: set(row)}[self.options.driver_by] & set(row) != set())
            self.header, self.others = row, [name for name in row if name not in COLUMNS]
            return
        must(len(row) == len(self.header))
        cells = dict(zip(self.header, row))
        arrival = time_of(cells["arrival"], self.digits)
        started, completed = (time_of(cells[n], self.digits) if cells.get(n) else None for n in ("start", "end"))
        message, by = number(cells.get("priority") or "896"), self.options.driver_by
        size = number(cells.get("size") or "0")
        names = {None: ("driver", "comm"), "comm": ("comm", "driver"), "pid": ("pid",), "cgroup": ("cgroup",)}[by]
        driver = next((cells[name] for name in names if cells.get(name)), "driver")
        must(message <= 1279 and (started is None or started + SKEW >= arrival))
        must(completed is None or (started is not None and completed >= started))
        self.row(Request(arrival, cells["device"], driver, self.priority(driver, message, 896), started, completed, size=size))

    def row(self, request: Request) -> None:
        """A request of a table."""
        if self.options.listed(request.device) is None:
            self.counts["other_devices"] += 1
            return
        is_early = request.started is not None and request.started < request.arrival
        request.arrival = min(request.arrival, request.started if request.started is not None else request.arrival)
        taken = self.options.begin <= request.arrival < self.options.end
        self.counts["early_starts"] += is_early and taken
        self.add(request, taken)
        self.note(request)

    def note(self, request: Request) -> None:
        """Gives a request the number of its line, and notes how late the table is then."""
        request.number = len(self.requests) + len(self.early_all)
        self.last = max([self.last, *(time for time in (request.arrival, request.started, request.completed) if time is not None)])

    def all(self) -> list[Request]:
        if not self.header:
            raise Refused("camxpt: a column is missing: arrival, start and device are needed\n")
        return self.requests


class Biosnoop(Csv):
    """Requests when they end. One that arrived before time 0 of the capture holds a slot, and is no request of it."""

    def __init__(self, options: Options) -> None:
        super().__init__(options, 6)

    def take(self, line: str) -> None:
        words = line.split()
        if not words:
            return
        if words[0] == "TIME(s)":
            must("QUE(ms)" in words)
            return
        must(len(words) >= 8)
        pid, device, flags, sector, size, queued, latency = words[-7:]
        completed, took = time_of(words[0], 9), time_of(latency, 6)
        wait = time_of(queued.removeprefix("-"), 6) * (-1 if queued.startswith("-") else 1)
        number(sector)
        must(wait >= -SKEW)
        start, comm = completed - took, " ".join(words[1:-7])
        arrival = start - wait
        driver = (pid if self.options.driver_by == "pid" else comm) or "driver"
        must(re.fullmatch("[A-Z]+", flags) is not None)
        request = Request(max(arrival, 0), device, driver, self.priority(driver, None, Events.direction_priority(flags)), max(start, 0), completed, size=number(size))
        if min(arrival, start) >= 0:
            self.row(request)
        elif self.options.listed(device) is None:
            self.counts["other_devices"] += 1
        else:
            self.counts["without_arrival"] += 1
            self.name(self.options.listed(device) or "", self.devices, 2**64)
            self.early_all.append(request)
            self.note(request)

    def all(self) -> list[Request]:
        return self.requests
