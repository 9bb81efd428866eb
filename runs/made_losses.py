"""Captures of disks of 1 to 8 slots made by chance, as blkparse or the kernel's tracepoints print them, of which some completions or starts
are lost; and what is true of them. The same number always gives the same capture."""
from __future__ import annotations

import heapq
import random
from dataclasses import dataclass

from imported_model import NO_SECTOR

DEVICE = "8,0"
# Sectors of flushes, which have none, and of commands of SG_IO.
NONE, COMMAND = None, -1


@dataclass(frozen=True)
class Event:
    """What the block layer did at a time in ns, to sectors from a first one on. Without sectors, the first one is a number or none."""
    time: int
    action: str
    flags: str
    sector: int | None
    sectors: int
    process: str


@dataclass(frozen=True, eq=False)
class Flight:
    """A request that was started, and how long it really flew."""
    start: int
    end: int
    is_flush: bool


@dataclass
class Disk:
    """A capture up to some time. `first` and `last` are those of the events that are the start and the completion of a flight."""
    events: list[Event]
    first: dict[Event, Flight]
    last: dict[Event, Flight]

    def without(self, lost: set[Event]) -> list[Event]:
        return [event for event in self.events if event not in lost]


def blkparse(event: Event) -> str:
    place = f"{event.sector} + {event.sectors}" if event.sectors else ""
    if event.sector == COMMAND:
        place = "36 (12 00 00 00 24 00 ..)" if event.action == "D" else "(12 00 00 00 24 00 ..)"
    elif not event.sectors and event.action in "CR":
        place = str(NO_SECTOR if event.sector is NONE else event.sector)
    return f"  {DEVICE} 0 1 {event.time // 10**9}.{event.time % 10**9:09} 901 {event.action} {event.flags} {place} [{event.process}]\n"


def tracepoint(event: Event) -> str:
    name = {"Q": "bio_queue", "D": "rq_issue", "R": "rq_requeue", "C": "rq_complete"}[event.action]
    command = "12 00 00 00 24 00" if event.sector == COMMAND else ""
    between = {"Q": "", "D": f"{36 if command else 512 * event.sectors} ({command}) "}.get(event.action, f"({command}) ")
    sector = 0 if command or event.sector is NONE and event.action != "C" else NO_SECTOR if event.sector is NONE else event.sector
    return (f"{event.process:>16} 901 [000] {event.time // 10**9}.{event.time % 10**9:09}: block:block_{name}: {DEVICE} {event.flags} {between}"
            f"{sector} + {event.sectors} [{event.process}]\n")


PRINTED = {"blkparse": blkparse, "tracepoints": tracepoint}


def text(kind: str, events: list[Event]) -> str:
    return "".join(map(PRINTED[kind], events))


def disk(number: int) -> Disk:
    """Reads and writes, some of one sector, and flushes behind writes. No two of one sector, kind and size, and no two flushes, are in flight at
    once: nobody could tell then which one ended. The capture ends while some are in flight."""
    rng = random.Random(f"losses {number}")
    slots, hot = 1 + number % 8, [8 * rng.randrange(1000) for _ in range(6)]
    usual, count = rng.randrange(300_000, 5_000_000), rng.randint(200, 500)
    busy = {}
    free, ready, time = [0] * slots, [], rng.randrange(10**9)
    for at in range(count):
        # (somewhat more than the slots can take, or less)
        time += 1000 * rng.randrange(1, max(2, usual * 2 // slots // 1000)) * rng.choice([1, 1, 1, 0, 2])
        flags, sector = rng.choice(["R", "R", "WS", "W"]), rng.choice(hot) if rng.random() < 0.3 else 10_000 + 512 * at
        heapq.heappush(ready, (time, at, (flags, sector, rng.choice([8, 16, 256]))))
    events, first, last = [], {}, {}
    while ready:
        arrival, at, (flags, sector, sectors) = heapq.heappop(ready)
        slot = free.index(min(free))
        start = max(arrival, free[slot], busy.get((flags[0], sector, sectors), 0)) + 1000 * rng.randrange(1, 20)
        end = start + 1000 * max(1, int(usual * rng.choice([1, 1, rng.uniform(0.3, 2)]) / 1000))
        free[slot] = busy[flags[0], sector, sectors] = end
        is_flush, flight = sector is NONE, Flight(start, end, sector is NONE)
        is_flushed = flags == "WS" and rng.random() < 0.4
        if not is_flush:
            events.append(Event(arrival, "Q", "FWS" if is_flushed else flags, sector, sectors, rng.choice(["db", "web"])))
        begun = Event(start, "D", flags, sector, sectors, "kworker/0:1H" if is_flush else "db")
        ended = Event(end, "C", flags, sector, sectors, "0")
        events, first[begun], last[ended] = [*events, begun, ended], flight, flight
        if is_flush:
            # The write before the flush is completed once more.
            events.append(Event(end + 1000, "C", "WS", at, 0, "0"))
        if is_flushed:
            heapq.heappush(ready, (end + 1000, sector, ("FN", NONE, 0)))
    events.sort(key=lambda event: (event.time, "CQD".index(event.action)))
    until = events[len(events) * 49 // 50].time
    return Disk([event for event in events if event.time <= until], first, last)


def chosen(number: int, what: str, events: dict[Event, Flight], given: Disk) -> set[Event]:
    """Of these events 0 to 5 per cent, by chance."""
    rng = random.Random(f"{what} {number}")
    part = rng.uniform(0, 0.05)
    return {event for event in given.events if event in events and rng.random() < part}


def missing(given: Disk, lost: set[Event]) -> int:
    """How many of the flights that began have lost their completions, and don't fly at the end: as long as any took, they would have ended
    before the last one did."""
    known = [flight for event, flight in given.last.items() if event in given.events and event not in lost]
    longest, end = max(it.end - it.start for it in known), max(it.end for it in known)
    begun = [flight for event, flight in given.first.items() if event in given.events]
    return sum(it not in known and it.start + longest < end for it in begun)


def lost_starts(given: Disk, lost: set[Event]) -> tuple[int, int]:
    """How many ends have no start, and how many of flushes seem to be of flights from before the capture."""
    flights = {given.first[event] for event in lost}
    ended = [flight for event, flight in given.last.items() if event in given.events]
    longest = max(it.end - it.start for it in ended if it not in flights)
    begin = given.events[0].time
    gone = [it for it in ended if it in flights]
    before = sum(it.is_flush and begin < it.end <= begin + longest for it in gone)
    return len(gone) - before, before
