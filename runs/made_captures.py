"""Captures of some ns made by chance: completions in any order, attempts that are put back, requests that never start, starts without an
arrival, flushes, cuts, several devices, adapters and links. The same number always gives the same capture."""
from __future__ import annotations

import random
from dataclasses import dataclass, field, replace

from slots_model import Capture, Request, read_blkparse
from imported_model import FLUSH, Options

DRIVERS = ("db", "web", "log", "backup")
PRIORITIES = (("db", 16), ("web", 896), ("backup", 1248))
ACTIONS = "QDRC"


@dataclass
class Made:
    """A capture as blkparse prints it, and the words of the command line that go with it. `attempts` are all that the text has."""
    text: str
    options: Options
    attempts: list[Request]
    span: int
    rated: dict[str, int] = field(default_factory=dict)
    depths: dict[str, int] = field(default_factory=dict)

    def capture(self) -> Capture:
        return read_blkparse(self.text, self.options, rated=dict(self.rated), depths=dict(self.depths))

    def words(self) -> list[str]:
        """The options of `camxpt import`; the file comes after them."""
        options, words = self.options, ["--from", "blkparse", "--round", f"{self.span}ns"]
        for word, given in (("--driver", [f"{name}={priority}" for name, priority in options.drivers]),
                            ("--device", options.picks), ("--host", [f"{name}={at}:{most}" for name, at, most in options.hosts]),
                            ("--rated", [f"{name}={most}" for name, most in self.rated.items()]),
                            ("--depth", [f"{name}={slots}" for name, slots in self.depths.items()])):
            words += [it for one in given for it in (word, one)]
        words += ["--from-time", f"{options.begin / 10**9:.9f}"] if options.begin else []
        return words + (["--to-time", f"{options.end / 10**9:.9f}"] if options.end < 2**64 else [])


def ends(rng: random.Random, start: int, how: str) -> tuple[int | None, int | None]:
    """When an attempt is completed, or put back."""
    if how == "unseen" or rng.random() < 0.06:
        return None, None
    if how == "coarse":
        return start, None
    if rng.random() < 0.12:
        return None, start + rng.randint(0, 30)
    return start + rng.choice([0, 1, 5, 10, 20, rng.randint(0, 60)]), None


def by_chance(rng: random.Random, device: str, how: str) -> list[list[Request]]:
    """Requests, each with its attempts, that are started and completed in any order."""
    requests = []
    for at in range(rng.randint(1, 14)):
        arrival, driver, attempts = rng.randint(0, 250), rng.choice(DRIVERS), []
        is_flush = at == 0 and rng.random() < 0.3
        driver = FLUSH if is_flush else driver
        if rng.random() < 0.1 and not is_flush:
            arrival = None
        for attempt in range(5):
            priority = 0 if arrival is None else dict(PRIORITIES).get(driver, 640)
            if arrival is not None and (attempt == 4 or rng.random() < 0.07):
                # (a flush is a request as soon as it is started)
                attempts += [] if is_flush else [Request(device, driver, priority, arrival, None)]
                break
            start = (arrival or rng.randint(0, 120)) + rng.choice([0, 0, 1, rng.randint(0, 90)])
            if arrival is None and attempts:
                start = attempts[-1].put_back + rng.randint(0, 20)
            attempts.append(Request(device, driver, priority, start if is_flush else arrival, start, *ends(rng, start, how)))
            if attempts[-1].put_back is None:
                break
            # The next attempt arrives where this one is put back, unless nobody knows when it arrived.
            arrival = None if arrival is None else attempts[-1].put_back
        if attempts:
            requests.append(attempts)
    return requests


def in_turn(rng: random.Random, device: str) -> list[list[Request]]:
    """Requests of which few are in flight at once, so that many take the last slot; some are held back."""
    free, requests = [0] * rng.randint(1, 3), []
    for arrival in sorted(rng.randint(0, 300) for _ in range(rng.randint(17, 45))):
        slot = min(range(len(free)), key=lambda at: free[at])
        start = max(arrival, free[slot]) + (rng.randint(0, 25) if rng.random() < 0.25 else 0)
        free[slot] = start + rng.randint(4, 14)
        driver = rng.choice(DRIVERS)
        requests.append([Request(device, driver, dict(PRIORITIES).get(driver, 640), arrival, start, free[slot])])
    # Some that take no time, and so no slot.
    for _ in range(rng.choice([0, 0, 2])):
        arrival = rng.randint(0, 300)
        start = arrival + rng.randint(0, 20)
        requests.append([Request(device, "log", 640, arrival, start, start)])
    return requests


def event(time: int, device: str, action: str, flags: str, place: str, process: str) -> str:
    return f"{device} 0 1 {time // 10**9}.{time % 10**9:09} 901 {action} {flags} {place} [{process}]"


def lines(requests: list[list[Request]]) -> list[tuple[int, int, int, str]]:
    """The events of these requests, each with its time and its place among those of its time."""
    found = []
    for number, attempts in enumerate(requests):
        device, driver, is_flush = attempts[0].device, attempts[0].driver, attempts[0].driver == FLUSH
        place, flags = ("", "FN") if is_flush else (f"{number * 64} + 8", "R")
        for at, attempt in enumerate(attempts):
            # A next attempt arrives by the line that puts back the one before.
            times = (attempt.arrival if at == 0 else None, attempt.start, attempt.put_back, attempt.completion)
            for step, (action, time) in enumerate(zip(ACTIONS, times)):
                if time is not None:
                    line = event(time, device, action, flags, f"{0} " if is_flush and action in "RC" else place, driver)
                    found.append((time, number, 4 * at + step, line))
    return sorted(found)


def read_order(requests: list[list[Request]]) -> list[Request]:
    """All attempts as a reader has them: by arrival, and after them those without one, by start."""
    started = {attempts[0].device for attempts in requests if any(attempt.start is not None for attempt in attempts)}
    known, early = [], []
    for number, attempts in enumerate(requests):
        for at, attempt in enumerate(attempts):
            if attempt.device in started and attempt.arrival is not None:
                known.append((attempt.arrival, number, at, attempt))
            elif attempt.arrival is None:
                early.append((attempt.start, number, at, attempt))
    return [it[-1] for it in sorted(known, key=lambda it: it[:3]) + sorted(early, key=lambda it: it[:3])]


def made(number: int) -> Made | None:
    """The capture of this number; None if nothing in it is taken."""
    rng = random.Random(f"capture {number}")
    devices = [f"8,{16 * at}" for at in range(rng.randint(1, 4))]
    picks = rng.choice([(), (), (), (), ("8,1*=both",), ("8,0", "*=rest")])
    requests: list[list[Request]] = []
    for device in devices:
        how = rng.choice(["any", "any", "any", "turn", "turn", "unseen", "coarse"])
        requests += in_turn(rng, device) if how == "turn" else by_chance(rng, device, how)
    begin, end = (rng.choice([0, rng.randint(0, 100)]), rng.choice([2**64, rng.randint(100, 300)])) if rng.random() < 0.5 else (0, 2**64)
    openings = [rng.randint(1, 3) for _ in range(3)]
    options = Options(picks, drivers=PRIORITIES, begin=begin, end=end)
    listed = dict.fromkeys(name for device in devices if (name := options.listed(device)))
    options.hosts = tuple((name, at, openings[at]) for name in listed if rng.random() < 0.5 for at in [rng.randrange(3)])
    text = "".join(line + "\n" for *_, line in lines(requests))
    attempts = [replace(it, device=name) for it in read_order(requests) if (name := options.listed(it.device))]
    given = Made(text, options, attempts, 1, {name: rng.randint(1, 3) for name in listed if rng.random() < 0.1})
    capture = given.capture()
    if not capture.taken():
        return None
    half = sum(request.start - request.arrival for request in capture.taken()) // (2 * len(capture.taken()))
    given.span = rng.randint(max(1, half // 3), max(1, half))
    given.depths = {device: rng.randint(1, 9) for device in capture.devices if rng.random() < 0.25}
    return given


def with_links(capture: Capture, number: int, loads: list[list[int]]) -> Capture:
    """The capture with some of its adapters on links that take just what was sent over them in a round at most; `loads` are what was sent
    on each adapter, round by round."""
    rng = random.Random(f"links {number}")
    count = rng.choice([0, 1, 1, 2])
    capture.on_link = {adapter: rng.randrange(count) for adapter in range(len(loads)) if count and rng.random() < 0.8}
    over = [[own for adapter, own in enumerate(loads) if capture.on_link.get(adapter) == link] for link in range(count)]
    capture.links = [max([1, *map(sum, zip(*own))]) for own in over]
    return capture
