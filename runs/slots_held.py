"""Holds the models of what a disk could have taken (`slots_model.py`) and of who waited (`waits_model.py`) against a slow reckoning
(`slow_slots.py`) on made captures (`made_captures.py`) and random recordings, and against the figures of real captures. Prints a line a
part; the status is 1 at the first that differs.

  runs/slots_model.py                300 made captures, random recordings and random traces
  runs/slots_model.py [OPTIONS] FILE..

  FILE..                             these of blkparse too, plain or by gzip
  --count N                          that many of each in place of 300
  --import                           holds what `camxpt import` prints of them against the model, too
  --round TIME                       rounds of the files; 2ms if it is left out
  --driver NAME=PRIORITY             as of `camxpt import`, several times
  --due SLOTS,SERVICE,SPARE,LIVE,PACE,BEST   the figures of a file: the nth is of the nth FILE
  --slo NAME:PERCENTILE=TIME         a limit of latency: of `driver:NAME`, `level:N` or `all`; several times
"""
from __future__ import annotations

import argparse
import gzip
import os
import random
import re
import subprocess
import tempfile
import time
from dataclasses import replace

import explanations
import imported_model
import imported_recording
import pace_model
import random_recordings
import random_traces
import slots_model
import waits_model
from imported_recording import UNITS
from made_captures import Made, made, with_links
from program import build, program
from slots_model import Capture, Flights, Request, Rounds
from slow_slots import SlowDevice, SlowFlights, SlowRecording, slow_caps
from waits_model import Recording

RANKS = {"p50": 500, "p90": 900, "p99": 990, "p999": 999, "max": 1000}


class Differs(Exception):
    """Two reckonings differ."""


def same(what: str, given: object, due: object) -> None:
    if given != due:
        raise Differs(f"{what}: {given!r}\n  due is {due!r}")


# Made captures


def hold_reading(given: Made) -> Capture:
    """The text is read as what it was made of."""
    capture = given.capture()
    known = [request for request in capture.requests if request.arrival is not None]
    early = [request for request in capture.requests if request.arrival is None]
    # (nobody knows whose request it was that arrived before)
    due = [request if request.arrival is not None else replace(request, driver="") for request in given.attempts]
    same("requests", known + sorted(early, key=lambda request: request.start), due)
    return capture


def hold_slots(given: Made, capture: Capture) -> int:
    """Flights, slots, service time, spare starts and caps. The spare starts."""
    begin, starts = capture.taken()[0].arrival, 0
    for name in capture.devices:
        slow = SlowDevice(capture, name)
        device = slots_model.device_of(capture, name, begin, given.span)
        hold_flights(name, slow.flights, device.flights, name in capture.depths)
        if not slow.can_be_seen:
            same(f"{name}, not seen", (device.service, device.spare_starts), (None, 0))
            continue
        same(f"{name}, slots and service", (device.slots, device.in_flight, device.service), (slow.slots, slow.most, slow.service))
        by_round: dict[int, int] = {}
        for at in slow.spare:
            by_round[1 + (at - begin) // given.span] = by_round.get(1 + (at - begin) // given.span, 0) + 1
        same(f"{name}, spare starts", dict(device.spare), by_round)
        starts += device.spare_starts
    return starts


def hold_flights(name: str, slow: SlowFlights, flights: Flights, has_depth: bool) -> None:
    """Until when each slot was held. No more are in flight than there are slots, and unless a depth is given, just those are cut that
    lack their ends."""
    given = sorted((flight.number, flight.start, flight.end, flight.is_missing) for flight in flights.all)
    same(f"{name}, flights", given, [(at, it.start, slow.until[at], slow.is_missing[at]) for at, it in enumerate(slow.own)])
    same(f"{name}, slots, and the ns of each number in flight", (flights.slots, flights.ns), (slow.slots, slow.ns))
    same(f"{name}, more than its slots", max([0, *(len(slow.at(time)) for time in slow.times)]) > slow.slots, False)
    if not has_depth:
        cut = [at for at, end in enumerate(slow.until) if end < slow.uncut[at]]
        same(f"{name}, what is cut and is known", [at for at in cut if not slow.is_guess[at]], [])


def hold_caps(given: Made, capture: Capture) -> tuple[Recording, str]:
    """The caps, as the text has them. The recording, on links too."""
    rounds = Rounds(capture, given.span)
    resources = rounds.resources()
    for at, name in enumerate(capture.devices):
        same(f"{name}, caps", resources.devices[at], slow_caps(capture, given.span, name, SlowDevice(capture, name)))
    loads = [[sum(device.count(round) for device in own) for round in range(1, rounds.last + 1)] for own in
             ([[rounds.at(r.start) for r in rounds.taken if r.device == name] for name, on in zip(capture.devices, resources.adapter_of)
               if on == adapter] for adapter in range(len(resources.adapters)))]
    text = rounds.text((given.span, "ns"))
    read = Recording(text)
    for kind, caps in ("dev", resources.devices), ("sim", resources.adapters):
        for number, own in enumerate(caps):
            same(f"{kind} {number}, caps read", [read.cap(kind, number, round) for round in range(1, rounds.last + 1)], own)
    hosted = {adapter: openings for name, (adapter, openings) in capture.hosts.items() if name in capture.devices}
    for adapter, own in enumerate(resources.adapters):
        on = [device for device, at in enumerate(resources.adapter_of) if at == adapter]
        for round, cap in enumerate(own, 1):
            least = loads[adapter][round - 1] if adapter in hosted else sum(resources.devices[device][round - 1] for device in on)
            usual = hosted[adapter] if adapter in hosted else sum(resources.device_openings[device] for device in on)
            same(f"adapter {adapter}, round {round}", cap, max(1, usual, least))
    rounds = Rounds(with_links(capture, len(given.text), loads), given.span)
    return Recording(rounds.text((given.span, "ns"))), rounds.text((given.span, "ns"))


def hold_waits(text: str, unit: int) -> dict[str, int]:
    """The pace net, the three parts, blame and latency, of a recording of either version. Best costs are the program's."""
    recording, slow = waits_model.planned(text), SlowRecording(text)
    rounds = range(1, recording.round + 1)
    due = {("dev", device): [slow.pace_cap(device, round) for round in rounds] for device in range(len(recording.devices))}
    same("caps at the recorded pace", pace_model.pace_caps(recording), due)
    at_pace = Recording(pace_model.pace_text(text))
    for device in range(len(recording.devices)):
        same(f"device {device} at the recorded pace", [at_pace.cap("dev", device, round) for round in rounds], due["dev", device])
    costs = waits_model.costs(recording.stays)
    if not costs["live"] >= costs["pace"] >= costs["best"]:
        raise Differs(f"the three costs: {costs}")
    for key in "driver", "level", "adapter", "device":
        of_parts = [waits_model.costs(stays) for stays in waits_model.parts(recording, key).values()]
        same(f"costs by {key}", {name: sum(own[name] for own in of_parts) for name in costs}, costs)
    table = waits_model.blame(recording)
    same("blame", {(row["waiting"], row["by"]): row["cost"] for row in table}, slow.blame())
    for driver, stays in waits_model.parts(recording, "driver").items():
        same(f"blame of driver {driver}", sum(row["cost"] for row in table if row["waiting"] == driver), waits_model.costs(stays)["live"])
    hold_latency(recording, unit)
    return costs


def hold_latency(recording: Recording, unit: int) -> None:
    """Percentiles by counting, and a limit of latency."""
    done = sorted(stay["done"] - stay["arrival"] for stay in recording.stays if stay["done"] is not None)
    given = waits_model.latency(recording.stays)
    same("latency of", given["stays"], len(done))
    for name, thousandths in RANKS.items():
        enough = [number for number in done if 1000 * sum(other <= number for other in done) >= thousandths * len(done)]
        same(f"latency, {name}", given[name], min(enough, default=0))
    for limit in unit * (done[len(done) // 2] if done else 1), 7 * unit // 2:
        found = waits_model.slo(recording, recording.stays, 900, limit)
        same("a limit", found["over"], sum(number * unit > limit for number in done))
        kept = {key: [(stay["done"] - stay["live"]) + (stay[key] - stay["arrival"]) for stay in recording.stays
                      if stay["done"] is not None and (stay["done"] - stay["arrival"]) * unit > limit] for key in ("pace", "best")}
        late = [[took * unit > limit for took in both] for both in zip(kept["pace"], kept["best"])]
        same("a limit's parts", [found[key] for key in ("by_order", "by_slots", "device")],
             [sum(not by_pace for by_pace, _ in late), late.count([True, False]), late.count([True, True])])
        same("a limit that is met", found["met"], 10 * sum(number * unit <= limit for number in done) >= 9 * len(done))


def hold_import(given: Made, capture: Capture, text: str) -> None:
    """What the program's `import` prints."""
    with tempfile.NamedTemporaryFile("w", suffix=".blkparse") as file:
        file.write(given.text)
        file.flush()
        words = given.words()
        done = subprocess.run([program, "import", *words, file.name], capture_output=True, text=True)
    # (a line of what was counted comes first)
    same(f"import {' '.join(words)}", (done.returncode, done.stdout.partition("\n")[2]), (0, text))


def hold_made(count: int, with_import: bool) -> None:
    numbers = {"held": 0, "requests": 0, "spare": 0, "by_last": 0, "deep": 0, "missing": 0}
    live = pace = best = tried = 0
    while numbers["held"] < count:
        given = made(tried)
        tried += 1
        if given is None:
            continue
        try:
            capture = hold_reading(given)
            spare = hold_slots(given, capture)
            if with_import:
                hold_import(given, capture, Rounds(capture, given.span).text((given.span, "ns")))
            recording, text = hold_caps(given, capture)
            costs = hold_waits(text, given.span)
            if recording.version == 2:
                hold_waits(waits_model.version_1(text), given.span)
        except Differs as why:
            raise Differs(f"made capture {tried - 1}: {why}") from None
        devices = Rounds(capture, given.span).devices.values()
        numbers = {"held": numbers["held"] + 1, "requests": numbers["requests"] + len(capture.requests), "spare": numbers["spare"] + spare,
                   "by_last": numbers["by_last"] + sum(device.by_last_slot >= slots_model.ENOUGH for device in devices),
                   "deep": numbers["deep"] + sum(device.slots > device.in_flight for device in devices if device.service),
                   "missing": numbers["missing"] + sum(device.flights.missing for device in devices)}
        live, pace, best = live + costs["live"], pace + costs["pace"], best + costs["best"]
    print(f"{count} made captures alike: {numbers['requests']} attempts, {numbers['spare']} spare starts, {numbers['by_last']} devices with"
          f" a service time by the last slot, {numbers['deep']} with a greater depth, {numbers['missing']} flights whose completions are missing;"
          f" recorded {live}, at the recorded pace {pace}, best {best}",
          flush=True)


def one_device(spans: list[tuple[int, int, int]]) -> Capture:
    """A capture of requests of one device: arrival, start and completion of each."""
    return Capture([Request("sda", "db", 16, *span) for span in sorted(spans)], ["sda"], ["db"])


def hold_edges() -> None:
    """What the limits change, worked by hand."""
    for count in 15, 16, 17:
        # One request is in flight all the time, and beside it one after the other takes the second slot for 7 ns.
        spans = [(0, 0, 1000)] + [(at, at, at + 7) for at in range(10, 10 + 20 * count, 20)]
        device = slots_model.device_of(one_device(spans), "sda", 0, 50)
        of_all = (1000 + 7 * count) // (count + 1) + 1
        same(f"the service time where {count} took the last slot", device.service, 7 if count >= 16 else of_all)
    # The disk serves in 1 ns, and lets a request wait for longer than a cap goes.
    for waited, cap in (65_534, 65_534), (65_535, 65_535), (65_536, 65_535):
        rounds = Rounds(one_device([(0, 0, 1), (1, 1 + waited, 2 + waited)]), waited)
        same(f"spare starts in {waited} ns", rounds.devices["sda"].spare_starts, waited)
        same(f"the caps with {waited} spare starts", rounds.resources().devices[0][0], cap)
    # The last round that a completion may have.
    for done, field in (slots_model.MAX_ROUND - 1, str(slots_model.MAX_ROUND)), (slots_model.MAX_ROUND, ""):
        text = Rounds(one_device([(0, 1, 2), (0, 2, done)]), 1).text((1, "ns"))
        same(f"a completion in round {done + 1}", text.splitlines()[-1].rpartition(",")[2], field)
    print("edges alike: 16 requests that took the last slot, the greatest cap, the last round of a completion", flush=True)


def with_completions(number: int) -> str | None:
    """A random recording, in version 2, with a completion of some of its requests, and a table of weights and a unit in any case."""
    text, rng = random_recordings.recording(number), random.Random(f"completions {number}")
    if text is None:
        return None
    rows = [line.split(",") for line in text.splitlines()[1:]]
    units, weights = ([row for row in rows if row[0] == word] for word in ("unit", "weight"))
    units, weights = units or [["unit", "2", "ms"]], weights or [["weight", *row] for row in imported_recording.WEIGHTS]
    rounds = next(row for row in rows if row[0] == "rounds")
    others = [row for row in rows if row[0] not in ("unit", "weight", "rounds")]
    for row in others:
        if row[0] == "request" and rng.random() < 0.8:
            row[7] = str(int(row[6]) + rng.choice([0, 1, 2, 5, 30]))
    return imported_recording.spelled([["camrecord2", *"abcdefg"], *units, rounds, *weights, *others])


def hold_recordings(count: int) -> None:
    """Of random recordings: adapters and links that stop, and drivers that don't go by weight."""
    held = number = 0
    while held < count:
        text = with_completions(number)
        number += 1
        if text is None:
            continue
        held += 1
        try:
            hold_waits(text, Recording(text).unit)
            hold_waits(waits_model.version_1(text), Recording(text).unit)
        except Differs as why:
            raise Differs(f"random recording {number - 1}: {why}") from None
    print(f"{count} random recordings alike", flush=True)


def hold_traces(count: int) -> None:
    """The blame of traces adds up to what each driver's waiting cost, and is nobody's just where no resource was full."""
    held = number = 0
    while held < count:
        text = random_traces.trace(number)
        number += 1
        if text is None:
            continue
        trace, held = waits_model.Trace(text), held + 1
        for key in "driver", "level":
            table = waits_model.blame(trace, key)
            for waiting in {stay[key] for stay in trace.stays}:
                stays = [stay for stay in trace.stays if stay[key] == waiting]
                same(f"trace {number - 1}, blame of {key} {waiting}", sum(row["cost"] for row in table if row["waiting"] == waiting),
                     sum(stay["weight"] * (stay["live"] - stay["arrival"]) for stay in stays))
                nobody = explanations.costs(trace, stays)["causes"]
                same(f"trace {number - 1}, nobody in the way of {key} {waiting}",
                     sum(row["cost"] for row in table if (row["waiting"], row["by"]) == (waiting, None)),
                     sum(cost for cause, cost in nobody.items() if not cause.endswith("_full")))
    print(f"{count} made traces: blame adds up", flush=True)


# Real captures


def hold_file(name: str, words: argparse.Namespace, due: str | None) -> None:
    began = time.monotonic()
    with (gzip.open if name.endswith(".gz") else open)(name, "rt") as file:
        drivers = tuple((driver, int(priority)) for driver, priority in (it.rsplit("=", 1) for it in words.driver))
        capture = slots_model.read_blkparse(file.read(), imported_model.Options(drivers=drivers))
    unit = time_of(words.round)
    rounds = Rounds(capture, unit[0] * UNITS[unit[1]])
    text = rounds.text(unit)
    took = time.monotonic() - began
    recording = waits_model.planned(text)
    costs = waits_model.costs(recording.stays)
    name = os.path.basename(name)
    figures = []
    for device, its in rounds.devices.items():
        print(f"{name}: {device}: {its.slots} slots, service {its.service} ns ({its.by_last_slot} by the last slot), {its.spare_starts} spare"
              f" starts; {len(rounds.taken)} requests in {rounds.last} rounds, {took:.1f} s")
        figures = [its.slots, its.service, its.spare_starts]
    figures += [costs[key] for key in ("live", "pace", "best")]
    print(f"{name}: recorded {costs['live']}, at the recorded pace {costs['pace']}, best {costs['best']}: by order {costs['by_order']},"
          f" by idle slots {costs['by_slots']}, needed {costs['needed']}")
    if due is not None:
        same(f"{name}, figures", figures, [int(number) for number in due.split(",")])
    for key in "driver", "level":
        for number, stays in waits_model.parts(recording, key).items():
            called = recording.names.get((key, number), number)
            print(f"{name}: {key} {called}: {waits_model.costs(stays)}, waits {waits_model.waits(stays)}, latency {waits_model.latency(stays)}")
    table = waits_model.blame(recording)
    for number, stays in waits_model.parts(recording, "driver").items():
        blamed = sum(row["cost"] for row in table if row["waiting"] == number)
        same(f"{name}, blame of driver {number}", blamed, waits_model.costs(stays)["live"])
    for row in table:
        print(f"{name}: blame {called_of(recording, row['waiting'])} by {called_of(recording, row['by'])}: {row['cost']}")
    for slo in words.slo:
        of, percentile, limit = re.fullmatch(r"(.*):(p\d+|max)=(\S+)", slo).groups()
        count, word = time_of(limit)
        found = waits_model.slo(recording, waits_model.named(recording, of), RANKS[percentile], count * UNITS[word])
        print(f"{name}: {slo}: {found}")


def called_of(recording: Recording, driver: int | None) -> str:
    return "nobody" if driver is None else recording.names.get(("driver", driver), str(driver))


def time_of(word: str) -> tuple[int, str]:
    count, unit = re.fullmatch("([0-9]+)(ns|us|ms|s)", word).groups()
    return int(count), unit


def main(words: list[str]) -> int:
    parser = argparse.ArgumentParser(description=__doc__, formatter_class=argparse.RawDescriptionHelpFormatter)
    parser.add_argument("files", nargs="*", metavar="FILE")
    parser.add_argument("--count", type=int, default=300)
    parser.add_argument("--import", action="store_true", dest="with_import")
    parser.add_argument("--round", default="2ms")
    for option in "--driver", "--due", "--slo":
        parser.add_argument(option, action="append", default=[])
    given = parser.parse_args(words)
    build()
    try:
        hold_edges()
        hold_made(given.count, given.with_import)
        hold_recordings(given.count)
        hold_traces(given.count)
        for at, name in enumerate(given.files):
            hold_file(name, given, given.due[at] if at < len(given.due) else None)
    except Differs as why:
        print(why)
        return 1
    return 0
