#!/usr/bin/env python3
"""Reckons from the requests of a capture its windows: spans of a whole number of rounds, one after the other, each with a recording of
what was started in it and a cap for each device and adapter by what had happened until its end; what its requests waited before it;
and the sums. Slots, spare starts and caps are those of `slots_model.py`, of a part of the capture. All numbers are exact integers.

  runs/window_model.py [OPTIONS] [FILE..]

  FILE..                   prints the windows of these captures by blkparse, plain or by gzip, and what they come to
  --count N                holds two laws on N made captures, 100 if it is left out and there is no file: of the whole, with the caps of
                           the windows one after the other, the recorded cost is that of the windows and what is carried, and its
                           excess is at least the sum of theirs. Best costs are the program's (`program.py` says which one)
  --window TIME            how long a window of the files is; 10s if it is left out
  --round TIME             how long a round of the files is; the usual one of the first window if it is left out
  --driver NAME=PRIORITY   as of `camxpt import`, several times

The last line says how much was found. The status is 1 at the first capture that differs."""
from __future__ import annotations

import argparse
import collections
import gzip
import itertools
import random
import re
import subprocess
import sys
from dataclasses import dataclass, field, replace
from types import SimpleNamespace

import imported_recording
import made_captures
import nets
import slots_model
from imported_model import Options
from program import build, program
from slots_model import Capture, Device, Refused, Request, caps_of_device, counts, idle_spans, mean, spread

MAX_ROUNDS, MAX_REQUESTS = 65_535, 1_048_576
# A time after all that is known.
NEVER = 2**64


@dataclass
class Caps:
    """What devices and adapters take in each round, from a first one on, and their usual openings, by name. An adapter's name is its
    number, or None for the one of the devices that no option places."""
    devices: dict[str, list[int]]
    openings: dict[str, int]
    adapters: dict[int | None, list[int]]
    adapter_openings: dict[int | None, int]


@dataclass
class Window:
    """A window: its place from 0 on, its first and last round in the capture, and its first ns and the first one after it. `requests` are
    those that were started in it, in their order. `devices` and `drivers` are in the order of their numbers. `found` is what each device
    could have taken, also of those of which nothing was started. `carried` is what its requests waited before it, in weighted rounds."""
    place: int
    first: int
    last: int
    begin: int
    end: int
    requests: list[Request] = field(default_factory=list)
    found: dict[str, Device] = field(default_factory=dict)
    caps: Caps | None = None
    carried: int = 0

    @property
    def rounds(self) -> int:
        return self.last - self.first + 1

    @property
    def devices(self) -> list[str]:
        return list(dict.fromkeys(request.device for request in self.requests))

    @property
    def drivers(self) -> list[str]:
        return list(dict.fromkeys(request.driver for request in self.requests))


def weight(priority: int) -> int:
    return next(weight for last, weight in imported_recording.WEIGHTS if priority <= last)


def rounds_in(time: int, span: int) -> int:
    """How many rounds of so many ns a window of so much time has."""
    return min(MAX_ROUNDS, max(1, time // span))


def default_round(capture: Capture, time: int) -> tuple[int, str] | None:
    """The round where none is given: the usual one of what was started in the first `time` ns. The other windows keep it."""
    taken = capture.taken()
    first = [it for it in taken if it.start < taken[0].arrival + time]
    started = [SimpleNamespace(device=it.device, arrival=it.arrival, started=it.start) for it in first]
    return imported_recording.usual_round(capture, started) if started else None


class Windows:
    """The windows of a capture, in rounds of `span` ns, each of at most `rounds` and `requests`. Round 1 begins at `begin`, or with the first
    arrival of what is started. As many windows as `whole` says have all their rounds, also after the last start."""

    def __init__(self, capture: Capture, span: int, rounds: int, requests: int = MAX_REQUESTS, begin: int | None = None, whole: int = 0) -> None:
        self.capture, self.span, self.taken = capture, span, capture.taken()
        self.begin = self.taken[0].arrival if begin is None else begin
        rounds = min(rounds, MAX_ROUNDS)
        self.fill(self.borders(rounds, requests, whole * rounds))

    def fill(self, borders: list[tuple[int, int]]) -> None:
        """Makes the windows of these first and last rounds."""
        self.windows = [Window(place, first, last, self.begin + (first - 1) * self.span, self.begin + last * self.span)
                        for place, (first, last) in enumerate(borders)]
        for window in self.windows:
            window.requests = [request for request in self.taken if window.first <= self.at(request.start) <= window.last]
            window.found = {name: self.device(name, window) for name in self.capture.devices}
            window.caps = self.caps(window)
            window.carried = sum(weight(request.priority) * max(0, window.first - self.at(request.arrival)) for request in window.requests)

    def known_until(self, time: int) -> Windows:
        """The same windows up to a time, of what is known of the capture then."""
        other = object.__new__(Windows)
        other.capture = replace(self.capture, requests=[it for request in self.capture.requests if (it := known(request, time))])
        other.span, other.begin, other.taken = self.span, self.begin, other.capture.taken()
        other.fill([(window.first, window.last) for window in self.windows if window.end <= time])
        return other

    def at(self, time: int) -> int:
        return 1 + (time - self.begin) // self.span

    def borders(self, rounds: int, requests: int, least: int) -> list[tuple[int, int]]:
        """The first and the last round of each window: all its rounds, up to the last start or the least end, and before a round with which it
        would have too many requests."""
        started = collections.Counter(self.at(request.start) for request in self.taken)
        first, end, found = 1, max(least, *started), []
        while first <= end:
            last, count = first - 1, 0
            while last < min(first + rounds - 1, end) and count + started[last + 1] <= requests:
                last += 1
                count += started[last]
            if last < first:
                raise Refused(f"round {first}: {started[first]} were started")
            found.append((first, last))
            first = last + 1
        return found

    # What is known of a device at a window's end

    def own(self, request: Request) -> Window:
        """The window in which a request was started: the first, if it was before that."""
        return next(window for window in self.windows if request.start < window.end or window is self.windows[-1])

    def held(self, name: str, window: Window) -> list[tuple[Request, int, int]]:
        """Who held a slot of a device until the window's end, from when and until when: until it was completed or put back, and at most to the
        end of the window after its own."""
        held = []
        for request in self.capture.of(name):
            if request.start is not None and request.start < window.end:
                known = [time for time in (request.completion, request.put_back) if time is not None and time < window.end]
                after = self.windows[self.own(request).place + 1:][:1]
                held.append((request, request.start, min([*known[:1], window.end, *(it.end for it in after)])))
        return held

    def waits_until(self, request: Request) -> int:
        """When a request stops to wait. One that isn't started waits on: nobody knows that it never will be."""
        return next((time for time in (request.start, request.completion, request.put_back) if time is not None), NEVER)

    def waiting(self, name: str) -> list[Request]:
        """The requests of a device that wait at some time, started or not."""
        capture = self.capture
        return [request for request in capture.of(name) if request.arrival is not None and capture.begin <= request.arrival < capture.end]

    def device(self, name: str, window: Window) -> Device:
        """What a device could have taken in a window. Its service time is None as long as it had no completion after a start."""
        held = [it for it in self.held(name, window) if it[1] < it[2]]
        flying = counts([(first, end) for _, first, end in held])
        most = max([number for _, number in flying], default=0)
        if self.capture.depths.get(name, most) < most:
            raise Refused(f"{name}: {most} were in flight")
        device = Device(self.capture.depths.get(name, max(1, most)), most, None)
        device.service, device.by_last_slot = self.service(name, window, dict(flying), most)
        if device.service is None:
            return device
        flying = counts(within([(first, end) for _, first, end in held], window))
        waiting = counts(within([(it.arrival, self.waits_until(it)) for it in self.waiting(name)], window))
        device.spans = idle_spans(device.slots, flying, waiting)
        for _, first, end in device.spans:
            spread(device.spare, first, (end - first) // device.service, device.service, window.begin, self.span)
        return device

    def service(self, name: str, window: Window, at: dict[int, int], most: int) -> tuple[int | None, int]:
        """The service time of a device, over the completions in the window of what was started in it or in the one before, or else as in the
        window before; and how many took the last slot."""
        done = [request for request in self.capture.of(name) if request.completion is not None and request.completion < window.end
                and (window.place == 0 or window.begin <= request.completion)
                and request.start is not None and self.own(request).place >= window.place - 1]
        times = slots_model.times_of_service(done)
        took = slots_model.times_of_service([it for it in done if it.start is not None and it.start < it.completion and at.get(it.start) == most])
        if any(times):
            return mean(took if len(took) >= slots_model.ENOUGH else times), len(took)
        before = self.windows[window.place - 1].found.get(name) if window.place else None
        return (before.service if before else None), len(took)

    # Caps

    def adapter_of(self, name: str) -> int | None:
        return self.capture.hosts[name][0] if name in self.capture.hosts else None

    def caps(self, window: Window) -> Caps:
        """The caps of the window's rounds, of all devices of the capture. An adapter takes what those of its devices take of which something was
        started in the window; if there is none, what all of them do."""
        capture, caps, openings, sent_by = self.capture, {}, {}, {}
        for name in capture.devices:
            sent, waits = self.sent_and_waiting(name, window)
            spare = [window.found[name].spare.get(round, 0) for round in range(1, window.rounds + 1)]
            caps[name], openings[name] = caps_of_device(sent, waits, spare, capture.rated.get(name))
            sent_by[name] = sent
        given = dict(capture.hosts[name] for name in capture.devices if name in capture.hosts)
        adapter_caps, adapter_openings = {}, {}
        for adapter in dict.fromkeys(self.adapter_of(name) for name in capture.devices):
            all_on = [name for name in capture.devices if self.adapter_of(name) == adapter]
            on = [name for name in all_on if name in window.devices] or all_on
            together = sum(openings[name] for name in on)
            known = given.get(adapter)
            most = known or max(1, min(slots_model.MAX_OPENINGS, together))
            least = sent_by if known else caps
            numbers = [min(slots_model.MAX_CAP, max(most, sum(least[name][at] for name in on))) for at in range(window.rounds)]
            is_open = not known and together > slots_model.MAX_OPENINGS
            adapter_caps[adapter] = [slots_model.MAX_CAP] * window.rounds if is_open else numbers
            adapter_openings[adapter] = most
        return Caps(caps, openings, adapter_caps, adapter_openings)

    def sent_and_waiting(self, name: str, window: Window) -> tuple[list[int], list[bool]]:
        """How many of a device's requests were started in each round of the window, and whether one waits at the round's end."""
        sent, change = [0] * window.rounds, [0] * (window.rounds + 1)
        for request in window.requests:
            if request.device == name:
                sent[self.at(request.start) - window.first] += 1
        for request in self.waiting(name):
            # (from the round of its arrival to the one before the one in which it doesn't wait any more)
            first, end = self.at(request.arrival), self.at(self.waits_until(request))
            if first <= window.last and end > window.first:
                change[max(first, window.first) - window.first] += 1
                change[min(end, window.last + 1) - window.first] -= 1
        return sent, [number > 0 for number in itertools.accumulate(change)][:window.rounds]

    # Recordings

    def last_of(self, request: Request, end: int, rounds: int) -> int | str:
        """The last round of the capture in which a request could have been started, as far as that is known at a time: nothing for the last of
        these rounds."""
        is_retried = request.put_back is not None and request.put_back < min(self.capture.end, end)
        last = max(self.at(request.start), self.at(request.put_back) - 1) if is_retried else rounds
        return last if last < rounds else ""

    def row(self, request: Request, window: Window, devices: list[str], drivers: list[str]) -> tuple:
        """A request as its window has it."""
        offset, last = window.first - 1, self.last_of(request, window.end, window.last)
        done = request.completion is not None and request.completion < window.end
        return ("request", drivers.index(request.driver), devices.index(request.device), request.priority,
                max(1, self.at(request.arrival) - offset), last and last - offset, self.at(request.start) - offset,
                self.at(request.completion) - offset if done else "")

    def text(self, window: Window) -> str:
        """The recording of a window in which something was started."""
        devices, drivers, caps = window.devices, window.drivers, window.caps
        rows = [self.row(request, window, devices, drivers) for request in window.requests]
        return recording(window.rounds, devices, self.adapter_of, caps, rows, self.span)

    def whole(self) -> str:
        """The recording of all requests, with the caps of the windows one after the other."""
        end, devices, drivers = self.windows[-1].last, self.capture.devices, list(dict.fromkeys(request.driver for request in self.taken))
        usual = self.windows[0].caps
        caps = Caps({name: [it for window in self.windows for it in window.caps.devices[name]] for name in devices}, usual.openings,
                    {name: [it for window in self.windows for it in window.caps.adapters[name]] for name in usual.adapters}, usual.adapter_openings)
        all_of_it = Window(0, 1, end, self.begin, NEVER)
        return recording(end, devices, self.adapter_of, caps, [self.row(request, all_of_it, devices, drivers) for request in self.taken], self.span)


def known(request: Request, time: int) -> Request | None:
    """What is known of a request at a time, if anything is."""
    then = {name: value if value is not None and value < time else None for name in ("arrival", "start", "completion", "put_back")
            for value in [getattr(request, name)]}
    return replace(request, **then) if then["arrival"] is not None or then["start"] is not None else None


def within(spans: list[tuple[int, int]], window: Window) -> list[tuple[int, int]]:
    """What of these spans lies in the window."""
    cut = [(max(first, window.begin), min(end, window.end)) for first, end in spans]
    return [(first, end) for first, end in cut if first < end]


def numbered(used: list[int | None]) -> list[int | None]:
    """The adapters of a recording: those that options name by their numbers, with the ones between them, and then that of the other devices."""
    return [*range(1 + max([it for it in used if it is not None], default=-1)), *([None] if None in used else [])]


def recording(rounds: int, devices: list[str], adapter_of, caps: Caps, requests: list[tuple], span: int) -> str:
    """The text of a recording of these devices and requests."""
    used = list(map(adapter_of, devices))
    adapters = numbered(used)
    rows = [("camrecord2", *"abcdefg"), ("unit", *imported_recording.exact(span)), ("rounds", rounds)]
    rows += [("weight", *row) for row in imported_recording.WEIGHTS]
    rows += [("sim", caps.adapter_openings.get(adapter, 1) if adapter in used else 1, "") for adapter in adapters]
    on = [adapters.index(adapter_of(name)) for name in devices]
    rows += [("dev", adapter, on[:number].count(adapter), 0, caps.openings[devices[number]]) for number, adapter in enumerate(on)]
    rows += slots_model.cap_rows("dev", [caps.devices[name] for name in devices], [caps.openings[name] for name in devices])
    rows += slots_model.cap_rows("sim", [caps.adapters[it] if it in used else [1] * rounds for it in adapters],
                                 [caps.adapter_openings[it] if it in used else 1 for it in adapters])
    return imported_recording.spelled(rows + requests)


# The laws


class Differs(Exception):
    """Something isn't as it must be."""


def same(what: str, given: object, due: object) -> None:
    if given != due:
        raise Differs(f"{what}: {given!r}\n  due is {due!r}")


def costs(text: str) -> tuple[int, int]:
    """The recorded cost of a recording and the best one, as the program reckons them."""
    done = subprocess.run([program, "audit", "--summary", "-"], input=text, capture_output=True, text=True)
    if done.returncode:
        raise Differs(f"audit ended with status {done.returncode}: {done.stderr}")
    found = dict(re.findall(r"^(live|best) (\d+)$", done.stdout, re.M))
    return int(found["live"]), int(found["best"])


def moved(row: tuple, window: Window) -> tuple:
    """A row of the whole as a cut before the window's first round and after its last one leaves it: the numbers from the priority on."""
    _, _, _, priority, arrival, last, sent, done = row
    offset = window.first - 1
    last = last if last != "" and last < window.last else ""
    done = done if done != "" and done <= window.last else ""
    return priority, max(1, arrival - offset), last and last - offset, sent - offset, done and done - offset


@dataclass
class Sums:
    """What is summed over captures."""
    windows: int = 0
    without_start: int = 0
    recorded: int = 0
    carried: int = 0
    excess: int = 0
    found: int = 0
    refused: int = 0
    more: int = 0


def hold_caps(cut: Windows) -> None:
    """Devices and adapters take in the rounds of a window what they take there in the whole."""
    whole, devices = nets.read(cut.whole()), cut.capture.devices
    adapters = numbered(list(map(cut.adapter_of, devices)))
    for window in cut.windows:
        if window.requests:
            net = nets.read(cut.text(window))
            pairs = [(("dev", number), ("dev", devices.index(name))) for number, name in enumerate(window.devices)]
            used = list(map(cut.adapter_of, window.devices))
            pairs += [(("sim", numbered(used).index(adapter)), ("sim", adapters.index(adapter))) for adapter in dict.fromkeys(used)]
            for own, other in pairs:
                same(f"caps of window {window.place}", net.caps[own][1:], whole.caps[other][window.first:window.last + 1])


def hold(number: int, sums: Sums) -> None:
    """Holds the laws on a made capture, in windows of a length by chance."""
    given = made_captures.made(number)
    if given is None:
        return
    rng = random.Random(f"windows {number}")
    capture = given.capture()
    rounds, requests = rng.choice([1, 3, rng.randint(2, 12), rng.randint(5, 40), rng.randint(10, 80)]), rng.choice([MAX_REQUESTS, MAX_REQUESTS, rng.randint(8, 20)])
    capture.depths = {name: depth + 40 for name, depth in capture.depths.items()}
    try:
        cut = Windows(capture, given.span, rounds, requests)
    except Refused:
        sums.refused += 1
        return
    # Each request is in one window, each round too, and a window has as many as it may.
    same("requests", sorted(map(id, (it for window in cut.windows for it in window.requests))), sorted(map(id, cut.taken)))
    same("rounds", [round for window in cut.windows for round in range(window.first, window.last + 1)], list(range(1, cut.windows[-1].last + 1)))
    same("long windows", [window.place for window in cut.windows if window.rounds > rounds or len(window.requests) > requests], [])
    # The windows are what cuts of the whole leave.
    all_of_it = Window(0, 1, cut.windows[-1].last, cut.begin, NEVER)
    for window in cut.windows:
        rows = [cut.row(request, all_of_it, capture.devices, capture.drivers) for request in window.requests]
        own = [cut.row(request, window, window.devices, window.drivers)[3:] for request in window.requests]
        same(f"window {window.place}", own, [moved(row, window) for row in rows])
    hold_caps(cut)
    # No window knows what comes after it.
    place = rng.randrange(len(cut.windows))
    then = cut.known_until(cut.windows[place].end)
    same("what is known", [then.text(it) for it in then.windows if it.requests], [cut.text(it) for it in cut.windows[:place + 1] if it.requests])
    live, best = costs(cut.whole())
    lives, bests = zip(*(costs(cut.text(window)) if window.requests else (0, 0) for window in cut.windows))
    carried = sum(window.carried for window in cut.windows)
    same("the recorded cost", live, sum(lives) + carried)
    excess, found = live - best, sum(lives) - sum(bests)
    if excess < found:
        raise Differs(f"the excess: {excess}\n  that of the windows is {found}")
    sums.windows += len(cut.windows)
    sums.without_start += sum(not window.requests for window in cut.windows)
    sums.recorded, sums.carried, sums.excess, sums.found = sums.recorded + live, sums.carried + carried, sums.excess + excess, sums.found + found
    sums.more += excess > found


def made_captures_hold(count: int) -> Sums:
    """The sums over so many made captures, of which each holds."""
    sums, held, number = Sums(), 0, 0
    while held < count:
        before = sums.windows
        try:
            hold(number, sums)
        except Differs as why:
            raise Differs(f"capture {number}: {why}") from None
        held += sums.windows > before
        number += 1
    return sums


def in_ns(word: str) -> int:
    count, unit = re.fullmatch(r"(\d+)(ns|us|ms|s)", word).groups()
    return int(count) * imported_recording.UNITS[unit]


def show(path: str, window: int, span: int | None, drivers: list[str]) -> None:
    """Prints a line for each window of a capture, and one for all."""
    given = tuple((name, int(priority)) for name, _, priority in (word.rpartition("=") for word in drivers))
    with (gzip.open if path.endswith(".gz") else open)(path, "rt") as file:
        capture = slots_model.read_blkparse(file.read(), Options((), drivers=given))
    if span is None:
        count, unit = default_round(capture, window)
        span = count * imported_recording.UNITS[unit]
    cut = Windows(capture, span, rounds_in(window, span))
    live, best = costs(cut.whole())
    excess = 0
    print(f"{path}: rounds of {span} ns")
    for it in cut.windows:
        own, least = costs(cut.text(it)) if it.requests else (0, 0)
        excess += own - least
        print(f"window {it.place}: rounds {it.first} to {it.last}, {len(it.requests)} requests, recorded {own}, best {least}, carried {it.carried}")
    carried = sum(it.carried for it in cut.windows)
    print(f"{len(cut.windows)} windows: recorded {live}, of it carried {carried}; excess {live - best}, in the windows {excess}")


def main(words: list[str]) -> int:
    reader = argparse.ArgumentParser(prog="runs/window_model.py", usage=__doc__, add_help=False)
    reader.add_argument("files", nargs="*")
    reader.add_argument("--count", type=int)
    reader.add_argument("--window", type=in_ns, default=10 * 10**9)
    reader.add_argument("--round", type=in_ns)
    reader.add_argument("--driver", action="append", default=[])
    asked = reader.parse_args(words)
    build()
    for path in asked.files:
        show(path, asked.window, asked.round, asked.driver)
    count = asked.count if asked.count is not None else 0 if asked.files else 100
    if count:
        try:
            sums = made_captures_hold(count)
        except Differs as why:
            print(why)
            return 1
        print(f"{count} captures, {sums.windows} windows, {sums.without_start} of them without a start; recorded {sums.recorded}, of it carried "
              f"{sums.carried}; excess {sums.excess}, in the windows {sums.found}; in {sums.more} captures the whole finds more; {sums.refused} refused")
    return 0


if __name__ == "__main__":
    sys.exit(main(sys.argv[1:]))
