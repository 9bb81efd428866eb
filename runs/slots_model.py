#!/usr/bin/env python3
"""Reckons from the requests of a capture what a disk could have taken: flights, slots, service time, spare starts and caps; and the
recording, of either version. Times of requests are whole nanoseconds, and all numbers exact integers. `waits_model.py` goes on from the recording.

Run as a script it is `slots_held.py`, which holds both against a slow reckoning and against the figures of real captures."""
from __future__ import annotations

import collections
import itertools
import sys
from dataclasses import dataclass, field

import imported_model
import imported_recording

MAX_CAP, MAX_OPENINGS, MAX_ROUND = 65_535, 255, 4_294_967_295
# With fewer requests that took the last slot, the service time is that of all.
ENOUGH = 16


@dataclass(frozen=True)
class Request:
    """One attempt of a request, in ns. Without an arrival: the capture began later. Without a start: it was never started. It ends by
    a completion, or is put back, or neither is known. A write may be completed a second time, when its slot has long been free.
    `number` is its place in the order of arrivals, and of equal ones of the lines."""
    device: str
    driver: str
    priority: int
    arrival: int | None
    start: int | None
    completion: int | None = None
    put_back: int | None = None
    second: int | None = None
    number: int = field(default=0, compare=False)


@dataclass
class Capture:
    """All attempts of the devices that are taken, those with an arrival by arrival; and what the options say: the times that are
    taken, from `begin` up to before `end`; the adapter and its openings of a device; the openings that a device is rated at; and its
    slots. The names of devices and drivers are in the order of their numbers. `before` are flights that began before the capture: device,
    begin of the capture, and end. `last` is the latest time of the capture. `links` (no capture has them) are the openings of each
    link, and `on_link` says on which one an adapter is."""
    requests: list[Request]
    devices: list[str]
    drivers: list[str]
    begin: int = 0
    end: int = 2**64
    hosts: dict[str, tuple[int, int]] = field(default_factory=dict)
    rated: dict[str, int] = field(default_factory=dict)
    depths: dict[str, int] = field(default_factory=dict)
    before: list[tuple[str, int, int]] = field(default_factory=list)
    last: int = 0
    links: list[int] = field(default_factory=list)
    on_link: dict[int, int] = field(default_factory=dict)

    def is_taken(self, request: Request) -> bool:
        return request.arrival is not None and request.start is not None and self.begin <= request.arrival < self.end

    def taken(self) -> list[Request]:
        """The requests of the recording, in its order."""
        return [request for request in self.requests if self.is_taken(request)]

    def of(self, device: str) -> list[Request]:
        return [request for request in self.requests if request.device == device]


class Refused(Exception):
    """What the options say can't be. (Windows refuse a depth below what was in flight; a whole capture is cut to it.)"""


# Flights and slots


def mean(times: list[int]) -> int:
    """Rounded up."""
    return -(-sum(times) // len(times))


def times_of_service(requests: list[Request]) -> list[int]:
    return [r.completion - r.start for r in requests if r.completion is not None and r.start is not None]


@dataclass
class Flight:
    """A request in flight, up to its end. If that is of its completion, the flight says how long the service is; if the capture has none, the
    end is a guess; and the completion is missing, unless the capture ended first."""
    number: int
    start: int
    end: int
    is_completed: bool = False
    is_guess: bool = False
    is_missing: bool = False


class Flights:
    """The flights of a device, by their starts, each until its slot is free, with no more at a time than the device has slots; and for how
    many ns just 1, 2, .. were in flight. If no completion of the device is known (`is_known`), none counts as missing."""

    def __init__(self, capture: Capture, name: str) -> None:
        own = sorted((it for it in capture.of(name) if it.start is not None), key=lambda it: it.number)
        services = times_of_service(own)
        usual, longest = (mean(services), max(services)) if services else (0, 0)
        last = max((it.completion for it in own if it.completion is not None), default=0)
        self.is_known, self.started = bool(services), len(own)
        flights = [Flight(0, begin, end) for device, begin, end in capture.before if device == name]
        for it in own:
            if it.completion is not None or it.put_back is not None:
                flights.append(Flight(0, it.start, it.put_back if it.completion is None else it.completion, it.completion is not None))
            elif services and it.start + longest < last:
                # (others that were started with it, or later, are completed: it has lost its completion)
                flights.append(Flight(0, it.start, it.start + usual, is_guess=True, is_missing=True))
            else:
                flights.append(Flight(0, it.start, max(capture.last, it.start + usual), is_guess=True))
        for number, flight in enumerate(flights):
            flight.number = number
        self.missing = sum(flight.is_missing for flight in flights)
        known = counts([(it.start, it.end) for it in flights if not it.is_guess and it.start < it.end])
        self.slots = capture.depths.get(name, max([1, *(number for _, number in known)]))
        self.all = sorted(flights, key=lambda it: (it.start, it.number))
        self.cut()
        flying = counts([(it.start, it.end) for it in self.all if it.start < it.end])
        self.ns = [0] * max([0, *(number for _, number in flying)])
        for (first, number), (end, _) in zip(flying, flying[1:]):
            if number:
                self.ns[number - 1] += end - first

    def cut(self) -> None:
        """Ends a flight wherever one starts for which no slot is free."""
        flying: list[Flight] = []
        for flight in self.all:
            if flight.start < flight.end:
                flying = [it for it in flying if it.end > flight.start]
                if len(flying) == self.slots:
                    ended = self.first_to_go(flying, flight)
                    ended.end = flight.start
                flying.append(flight)

    @staticmethod
    def first_to_go(flying: list[Flight], new: Flight) -> Flight:
        """The one that ends where a new one starts: one whose end is a guess before others, and of these that which would end last. The new
        one doesn't go if another one was there before it."""
        guessed = [it for it in flying if it.is_guess] or [new] * new.is_guess
        is_new_alike = all(it.start == new.start for it in flying)
        return max(guessed or [*flying, *[new] * is_new_alike], key=lambda it: (it.end, it.number))

    def times_of_service(self) -> list[int]:
        return [it.end - it.start for it in self.all if it.is_completed]


def counts(spans: list[tuple[int, int]]) -> list[tuple[int, int]]:
    """How many of the half open spans there are from a time on, where that changes."""
    changes: collections.Counter[int] = collections.Counter()
    for first, end in spans:
        changes[first] += 1
        changes[end] -= 1
    times = sorted(changes)
    return list(zip(times, itertools.accumulate(changes[time] for time in times)))


@dataclass
class Device:
    """What a device could have taken. `in_flight` is the most at one time. `spans` are those in which a level is idle and a request waits:
    the level, the first ns, and the first one after it. `spare` are the spare starts by round. Where slots can't be seen, there is no
    service time."""
    slots: int
    in_flight: int
    service: int | None
    by_last_slot: int = 0
    flights: Flights | None = None
    spans: list[tuple[int, int, int]] = field(default_factory=list)
    spare: collections.Counter[int] = field(default_factory=collections.Counter)

    @property
    def spare_starts(self) -> int:
        return sum(self.spare.values())


def device_of(capture: Capture, name: str, begin: int, span: int) -> Device:
    """What a device could have taken, in rounds of so many ns from `begin` on."""
    flights = Flights(capture, name)
    if not any(flights.times_of_service()):
        return Device(flights.slots, 0, None, flights=flights)
    flying = counts([(it.start, it.end) for it in flights.all if it.start < it.end])
    most = max(number for _, number in flying)
    device = Device(flights.slots, most, None, flights=flights)
    # The last slot is taken by who was in flight when it was started, and as many as ever with it.
    at = dict(flying)
    took = [it.end - it.start for it in flights.all if it.is_completed and it.start < it.end and at.get(it.start) == most]
    device.by_last_slot = len(took)
    device.service = mean(took if len(took) >= ENOUGH else flights.times_of_service())
    waiting = counts([(r.arrival, r.start) for r in capture.of(name) if capture.is_taken(r) and r.arrival < r.start])
    device.spans = idle_spans(device.slots, flying, waiting)
    for _, first, end in device.spans:
        spread(device.spare, first, (end - first) // device.service, device.service, begin, span)
    return device


def idle_spans(slots: int, flying: list[tuple[int, int]], waiting: list[tuple[int, int]]) -> list[tuple[int, int, int]]:
    """The maximal spans in which a level is idle and a request waits."""
    flies, waits, fly, wait = dict(flying), dict(waiting), 0, 0
    # While a request waits, the levels from the lowest idle one on have a span, which has begun at some time.
    lowest, begun, spans = slots + 1, {}, []
    for time in sorted({*flies, *waits}):
        fly, wait = flies.get(time, fly), waits.get(time, wait)
        now = fly + 1 if wait > 0 else slots + 1
        spans += [(level, begun.pop(level), time) for level in range(lowest, now)]
        begun |= dict.fromkeys(range(now, lowest), time)
        lowest = now
    return spans


def spread(spare: collections.Counter[int], first: int, count: int, service: int, begin: int, span: int) -> None:
    """Puts so many spare starts into their rounds: one at `first`, and the others one service time after the other."""
    while count > 0:
        round = 1 + (first - begin) // span
        within = min(count, -(-(begin + round * span - first) // service))
        spare[round] += within
        first, count = first + within * service, count - within


# Rounds and caps


@dataclass
class Resources:
    """The caps of all rounds, from round 1 on, and the usual number, of devices, adapters and links; where a device and an adapter
    are."""
    devices: list[list[int]]
    adapters: list[list[int]]
    device_openings: list[int]
    adapter_openings: list[int]
    adapter_of: list[int]


def caps_of_device(sent: list[int], waits: list[bool], spare: list[int], rated: int | None) -> tuple[list[int], int]:
    """The caps of a device, and what is usual: by what was started in a round, whether a request waits at its end, and how many
    spare starts fall into it."""
    if rated is not None:
        return [max(rated, number) for number in sent], rated
    pressed = [number for number, is_waiting in zip(sent, waits) if is_waiting]
    usual = min(MAX_OPENINGS, max(1, imported_recording.lower_median(pressed)))
    room = [min(MAX_CAP, number + more) for number, more in zip(sent, spare)]
    return [number if is_waiting else max(number, usual) for number, is_waiting in zip(room, waits)], usual


class Rounds:
    """The requests that are taken, in rounds of so many ns. Round 1 begins when the first one arrives."""

    def __init__(self, capture: Capture, span: int) -> None:
        self.capture, self.span, self.taken = capture, span, capture.taken()
        self.begin = self.taken[0].arrival
        self.last = max(self.at(request.start) for request in self.taken)
        self.devices = {name: device_of(capture, name, self.begin, span) for name in capture.devices}

    def at(self, time: int) -> int:
        return 1 + (time - self.begin) // self.span

    def sent_and_waiting(self, name: str) -> tuple[list[int], list[bool]]:
        """How many of a device's requests were started in each round, and whether one waits at its end."""
        sent, change = [0] * (self.last + 1), [0] * (self.last + 2)
        for request in self.taken:
            if request.device == name:
                sent[self.at(request.start)] += 1
                change[self.at(request.arrival)] += 1
                change[self.at(request.start)] -= 1
        return sent[1:], [number > 0 for number in itertools.accumulate(change)][1:self.last + 1]

    def done(self, request: Request) -> int | str:
        """The round in which a request was completed at last, or nothing, if that isn't known or is too late for a recording."""
        done = None if request.completion is None else self.at(request.second or request.completion)
        return "" if done is None or done > MAX_ROUND else done

    def resources(self) -> Resources:
        capture = self.capture
        caps, usual, loads = [], [], []
        for name in capture.devices:
            sent, waits = self.sent_and_waiting(name)
            spare = self.devices[name].spare
            own, openings = caps_of_device(sent, waits, [spare.get(round, 0) for round in range(1, self.last + 1)], capture.rated.get(name))
            caps, usual, loads = [*caps, own], [*usual, openings], [*loads, sent]
        given = {name: capture.hosts[name] for name in capture.devices if name in capture.hosts}
        last = max((adapter for adapter, _ in given.values()), default=-1)
        adapter_of = [given[name][0] if name in given else last + 1 for name in capture.devices]
        openings_of = dict(given.values())
        adapter_caps, adapter_openings = [], []
        for adapter in range(max([last, *adapter_of]) + 1):
            own = [device for device, at in enumerate(adapter_of) if at == adapter]
            together = sum(usual[device] for device in own)
            openings = openings_of.get(adapter)
            adapter_openings.append(openings or max(1, min(MAX_OPENINGS, together)))
            least = loads if openings else caps
            numbers = [min(MAX_CAP, max(adapter_openings[-1], sum(least[device][at] for device in own))) for at in range(self.last)]
            adapter_caps.append([MAX_CAP] * self.last if not openings and together > MAX_OPENINGS else numbers)
        return Resources(caps, adapter_caps, usual, adapter_openings, adapter_of)

    def text(self, unit: tuple[int, str], version: int | None = None) -> str:
        """The recording: of version 2 where a completion is known, or of the given one."""
        capture, resources = self.capture, self.resources()
        version = version or (2 if any(self.done(request) for request in self.taken) else 1)
        rows = [(f"camrecord{version}", *"abcdefg"), ("unit", *unit), ("rounds", self.last)]
        rows += [("weight", *row) for row in imported_recording.WEIGHTS] + [("link", openings) for openings in capture.links]
        rows += [("sim", openings, capture.on_link.get(adapter, "")) for adapter, openings in enumerate(resources.adapter_openings)]
        for device, adapter in enumerate(resources.adapter_of):
            rows.append(("dev", adapter, resources.adapter_of[: device + 1].count(adapter), 0, resources.device_openings[device]))
        for kind, names in ("driver", capture.drivers), ("dev", capture.devices):
            rows += [("name", kind, number, name) for number, name in enumerate(names) if imported_recording.is_name(name)]
        rows += cap_rows("dev", resources.devices, resources.device_openings)
        rows += cap_rows("sim", resources.adapters, resources.adapter_openings)
        for request in self.taken:
            start = self.at(request.start)
            is_retried = request.put_back is not None and request.put_back < capture.end
            end = max(start, self.at(request.put_back) - 1) if is_retried else self.last
            done = self.done(request) if version == 2 else ""
            rows.append(("request", capture.drivers.index(request.driver), capture.devices.index(request.device), request.priority,
                         self.at(request.arrival), end if end < self.last else "", start, done))
        return imported_recording.spelled(rows)


def cap_rows(kind: str, caps: list[list[int]], openings: list[int]) -> list[tuple]:
    return [("cap", kind, number, *run) for number, own in enumerate(caps) for run in imported_recording.caps(own, openings[number])]


# Reading


def capture_of(reader: imported_model.Reader, **more: dict) -> Capture:
    """The capture that a finished reader has read."""
    options = reader.options
    requests = [(request, request.arrival) for request in reader.found] + [(request, None) for request in reader.early_all]
    attempts = [Request(r.device, r.driver, r.priority, arrival, r.started, r.completed, r.put_back, r.second, r.number) for r, arrival in requests]
    hosts = {name: (adapter, openings) for name, adapter, openings in options.hosts}
    given = {"rated": dict(options.rated), "depths": dict(options.depths), "before": list(reader.before), "last": reader.last, **more}
    return Capture(attempts, list(reader.devices), list(reader.drivers), options.begin, options.end, hosts, **given)


def counted(reader: imported_model.Reader, rounds: Rounds) -> dict:
    """What stands before a recording: what the capture lacks, and for how long how many were in flight."""
    known = {name: device.flights for name, device in rounds.devices.items() if device.flights.is_known}
    return {"lost_events": 0, "written_events": 0, **{name: reader.counts[name] for name in ("without_arrival", "lost_starts", "from_before")},
            "missing_completions": sum(it.missing for it in known.values()), "started": sum(it.started for it in known.values()),
            "still_waiting": reader.counts["still_waiting"], "longest_wait_ns": reader.longest_wait,
            "slots": [{"device": name, "slots": it.slots, "in_flight_ns": it.ns} for name, it in known.items()]}


def read_blkparse(text: str, options: imported_model.Options, **more: dict) -> Capture:
    reader = imported_model.Blkparse(options)
    for line in text.splitlines():
        reader.take(line)
    reader.end()
    reader.finish()
    return capture_of(reader, **more)


if __name__ == "__main__":
    import slots_held

    sys.exit(slots_held.main(sys.argv[1:]))
