#!/usr/bin/env python3
"""Makes recordings for the benches. Their scheduler takes the requests of an adapter as they come, and writes them as they are
sent. The same kind and number of requests always give the same text.

  bench/recordings.py KIND REQUESTS   writes the recording to standard output

  closed     Eight devices on four adapters. 256 requests are always waiting: whenever one was sent to a device, another one
             comes for it.
  bursts     32 devices on eight adapters. Up to 64 requests come at once for one device, and 0.8 of the openings are used.
  overload   32 devices on eight adapters. All requests come in the first half of the rounds, twice as many as if they came
             evenly, and a twentieth of the caps is 0.
  shared     The same with the 32 devices on one adapter, which has as many openings as those eight.
"""
import collections
import random
import sys
import typing

# How many of a hundred requests are of each priority. Each priority has a driver.
SHARES = {128: 10, 640: 20, 896: 30, 1152: 40}
PRIORITIES = list(SHARES)
# Rows to write at once.
MANY = 10_000


class Shape(typing.NamedTuple):
    """How many devices and adapters there are, what each takes in a round, how many requests there are for each round, and
    which part of the caps is 0."""
    devices: int
    adapters: int
    device_openings: int
    adapter_openings: int
    each_round: float
    stopped: float = 0


SHAPES = {
    "closed": Shape(8, 4, 3, 4, 1_000_000 / 63_000),
    "bursts": Shape(32, 8, 2, 4, 25),
    "overload": Shape(32, 8, 2, 3, 20, 0.05),
    "shared": Shape(32, 1, 2, 24, 20, 0.05),
}
# How many wait in a closed loop.
WAITING = 256
MAX_BURST = 64


def rounds_of(kind, requests):
    """The number of the last round. Where there are few requests, there are more rounds for them."""
    return round(requests / SHAPES[kind].each_round) + (50 if requests < 100_000 else 0)


def stopped_rounds(choose, shape, rounds):
    """For each device and then each adapter, the rounds in which it takes nothing."""
    rows = []
    for _ in range(shape.devices + shape.adapters):
        rows.append({round for round in range(1, rounds + 1) if shape.stopped and choose.random() < shape.stopped})
    return rows


def cap_rows(shape, stopped):
    """The rows of these caps, a run of rounds in each."""
    for row, rounds in enumerate(stopped):
        kind, number = ("dev", row) if row < shape.devices else ("sim", row - shape.devices)
        for first in sorted(rounds):
            if first - 1 not in rounds:
                last = next(last for last in range(first, first + len(rounds)) if last + 1 not in rounds)
                yield f"cap,{kind},{number},{first},{last},0,,\n"


def closed_arrivals(choose, shape, rounds, requests):
    """For each round, the devices for which a request comes. It gets how many were sent to each in the round before."""
    left = requests
    coming = [device for device in range(shape.devices) for _ in range(WAITING // shape.devices)]
    for _ in range(rounds):
        coming = coming[:left]
        left -= len(coming)
        sent = yield coming
        coming = [device for device, count in enumerate(sent) for _ in range(count)]


def burst_arrivals(choose, shape, rounds, requests):
    """The same of bursts, which end so early that the last is sent in the last rounds."""
    bursts = collections.defaultdict(list)
    left, last, most = requests, rounds - max(20, rounds // 20), max(1, min(MAX_BURST, requests // 1500))
    while left:
        count = min(left, choose.randint(1, most))
        left -= count
        bursts[choose.randint(1, last)] += count * [choose.randrange(shape.devices)]
    for round in range(1, rounds + 1):
        yield bursts.pop(round, [])


def even_arrivals(choose, shape, rounds, requests):
    """The same where as many come in each round of the first half."""
    half = rounds // 2
    for round in range(1, rounds + 1):
        count = requests * round // half - requests * (round - 1) // half if round <= half else 0
        yield choose.choices(range(shape.devices), k=count)


ARRIVALS = {"closed": closed_arrivals, "bursts": burst_arrivals, "overload": even_arrivals, "shared": even_arrivals}


class Queues:
    """What waits for the devices of one adapter: of each the rounds of arrival and the priorities, in order."""

    def __init__(self, shape, adapter):
        self.shape, self.adapter = shape, adapter
        self.waiting = {device: collections.deque() for device in range(adapter, shape.devices, shape.adapters)}

    def sends(self, round, stopped, sent):
        """The rows of those that are sent in this round, first come, first served. Counts them by device."""
        room = 0 if round in stopped[self.shape.devices + self.adapter] else self.shape.adapter_openings
        ready = {device: queue for device, queue in self.waiting.items() if queue and round not in stopped[device]}
        while room and ready:
            device = min(ready, key=lambda device: ready[device][0])
            arrival, priority = ready[device].popleft()
            yield f"request,{PRIORITIES.index(priority)},{device},{priority},{arrival},,{round},\n"
            room -= 1
            sent[device] += 1
            if not ready[device] or sent[device] == self.shape.device_openings:
                del ready[device]


def recording(kind, requests, seed=1):
    """The rows of a recording of this kind."""
    choose, shape, rounds = random.Random(seed), SHAPES[kind], rounds_of(kind, requests)
    yield f"camrecord1,a,b,c,d,e,f,g\nunit,1,ms,,,,,\nrounds,{rounds},,,,,,\n"
    yield from (f"sim,{shape.adapter_openings},,,,,,\n" for _ in range(shape.adapters))
    yield from (f"dev,{device % shape.adapters},{device},0,{shape.device_openings},,,\n" for device in range(shape.devices))
    stopped = stopped_rounds(choose, shape, rounds)
    yield from cap_rows(shape, stopped)
    arrivals = ARRIVALS[kind](choose, shape, rounds, requests)
    queues = [Queues(shape, adapter) for adapter in range(shape.adapters)]
    sent, left = None, requests
    for round in range(1, rounds + 1):
        coming = arrivals.send(sent)
        priorities = choose.choices(PRIORITIES, SHARES.values(), k=len(coming))
        for device, priority in zip(coming, priorities):
            queues[device % shape.adapters].waiting[device].append((round, priority))
        sent = [0] * shape.devices
        for queue in queues:
            yield from queue.sends(round, stopped, sent)
        left -= sum(sent)
    if left:
        raise ValueError(f"{left} requests weren't sent")


def write(file, kind, requests):
    """Writes the recording of this kind to a file."""
    rows = []
    for row in recording(kind, requests):
        rows.append(row)
        if len(rows) == MANY:
            file.write("".join(rows))
            rows = []
    file.write("".join(rows))


if __name__ == "__main__":
    if len(sys.argv) != 3 or sys.argv[1] not in SHAPES:
        sys.exit(__doc__)
    write(sys.stdout, sys.argv[1], int(sys.argv[2]))
