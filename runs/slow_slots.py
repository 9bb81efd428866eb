"""What a disk could have taken, and who was in the way, reckoned slowly: ns by ns and round by round, straight from what the words mean.
Only for captures of some hundred ns."""
from __future__ import annotations

from slots_model import Capture, Request


class SlowFlights:
    """Who holds a slot of a device, and until when: `until` is by the place in `own`, after the flights from before the capture."""

    def __init__(self, capture: Capture, name: str) -> None:
        before = [Request(name, "", 0, None, begin, put_back=end) for device, begin, end in capture.before if device == name]
        started = [request for request in capture.requests if request.device == name and request.start is not None]
        self.own = before + sorted(started, key=lambda request: request.number)
        self.done = [at for at, request in enumerate(self.own) if request.completion is not None]
        self.until, self.is_missing, self.is_guess = [], [], []
        for request in self.own:
            self.is_missing.append(self.has_lost_its_end(request))
            self.is_guess.append(request.completion is None and request.put_back is None)
            known = [time for time in (request.completion, request.put_back) if time is not None]
            guess = request.start + self.mean()
            self.until.append(known[0] if known else guess if self.is_missing[-1] else max(guess, capture.last))
        self.times = range(min([request.start for request in self.own], default=0), max(self.until, default=0))
        known = [[at for at in self.at(time) if not self.is_guess[at]] for time in self.times]
        self.slots = capture.depths.get(name, max([1, *map(len, known)]))
        self.uncut = list(self.until)
        self.cut()
        most = max([0, *(len(self.at(time)) for time in self.times)])
        self.ns = [sum(len(self.at(time)) == number for time in self.times) for number in range(1, most + 1)]

    def at(self, time: int) -> list[int]:
        return [at for at, request in enumerate(self.own) if request.start <= time < self.until[at]]

    def has_lost_its_end(self, request: Request) -> bool:
        """Whether it has no end though one that took as long as any would have ended before the last one that did."""
        if request.completion is not None or request.put_back is not None:
            return False
        others = [self.own[at] for at in self.done]
        return bool(others) and all(request.start + it.completion - it.start < max(it.completion for it in others) for it in others)

    def mean(self) -> int:
        """Of the services, rounded up."""
        total = sum(self.own[at].completion - self.own[at].start for at in self.done)
        while total % max(1, len(self.done)):
            total += 1
        return total // max(1, len(self.done))

    def cut(self) -> None:
        """Plays ns by ns what starts then, and ends what has no slot any more."""
        for time in self.times:
            there = [at for at, request in enumerate(self.own) if request.start < time < self.until[at]]
            for new in [at for at, request in enumerate(self.own) if request.start == time < self.until[at]]:
                if len(there) == self.slots:
                    going = [at for at in there if self.is_guess[at]] or [new][:self.is_guess[new]] or there
                    if going is there and all(self.own[at].start == time for at in there):
                        going = [*there, new]
                    going = [at for at in going if self.until[at] == max(self.until[it] for it in going)]
                    self.until[max(going)] = time
                    there = [at for at in there if self.until[at] > time]
                there += [new][:self.until[new] > time]

    def services(self) -> list[int]:
        return [self.until[at] - self.own[at].start for at in self.done]


class SlowDevice:
    """The slots of a device, its service time, and its spare starts by their times, of each level. None if slots can't be seen."""

    def __init__(self, capture: Capture, name: str) -> None:
        self.flights = SlowFlights(capture, name)
        self.slots, started = self.flights.slots, [request for request in capture.requests if request.device == name and request.start is not None]
        self.can_be_seen = any(self.flights.services())
        if not self.can_be_seen:
            return
        self.counts = {time: len(self.flights.at(time)) for time in self.flights.times}
        self.most = max(self.counts.values())
        self.service = self.time_of_service()
        waits = [(r.arrival, r.start) for r in started if r.arrival is not None and capture.begin <= r.arrival < capture.end]
        times = range(min([arrival for arrival, _ in waits], default=0), max(request.start for request in started) + 2)
        self.spare = [time for level in range(1, self.slots + 1) for time in self.spare_at(level, waits, times)]

    def flying(self, time: int) -> int:
        return self.counts.get(time, 0)

    def time_of_service(self) -> int:
        times = self.flights.services()
        last = [took for at, took in zip(self.flights.done, times) if took and self.flying(self.flights.own[at].start) == self.most]
        last = times if len(last) < 16 else last
        return next(time for time in range(1, 10**6) if time * len(last) >= sum(last))

    def spare_at(self, level: int, waits: list[tuple[int, int]], times: range) -> list[int]:
        found, begun = [], None
        for time in times:
            is_open = self.flying(time) < level and any(arrival <= time < start for arrival, start in waits)
            if is_open and begun is None:
                begun = time
            if not is_open and begun is not None:
                # It fits if it would be over by the end of the span.
                found += [at for at in range(begun, time) if (at - begun) % self.service == 0 and at + self.service <= time]
                begun = None
        return found


def slow_caps(capture: Capture, span: int, name: str, device: SlowDevice) -> list[int]:
    """The caps of a device, round by round."""
    taken = [r for r in capture.requests if r.arrival is not None and r.start is not None and capture.begin <= r.arrival < capture.end]
    begin = min(request.arrival for request in taken)
    rounds = []
    while not rounds or rounds[-1][1] <= max(request.start for request in taken):
        rounds.append((begin + len(rounds) * span, begin + (len(rounds) + 1) * span))
    own = [request for request in taken if request.device == name]
    sent = [sum(first <= request.start < end for request in own) for first, end in rounds]
    waits = [any(request.arrival < end <= request.start for request in own) for _, end in rounds]
    if name in capture.rated:
        return [max(number, capture.rated[name]) for number in sent]
    pressed = sorted(number for number, is_waiting in zip(sent, waits) if is_waiting)
    usual = max(1, pressed[(len(pressed) - 1) // 2]) if pressed else 1
    caps = []
    for (first, end), number, is_waiting in zip(rounds, sent, waits):
        spare = sum(first <= time < end for time in device.spare) if device.can_be_seen else 0
        caps.append(number + spare if is_waiting else max(usual, number + spare))
    return caps


class SlowRecording:
    """What the rows of a recording say, asked again each time."""

    def __init__(self, text: str) -> None:
        rows = [line.split(",") for line in text.splitlines()]
        self.version = rows[0][0]
        self.rows = {word: [row[1:] for row in rows[1:] if row[0] == word] for word in ("rounds", "link", "sim", "dev", "cap", "weight", "request")}
        self.last = int(self.rows["rounds"][0][0])
        self.requests = self.rows["request"]

    def weight(self, request: list[str]) -> int:
        return next(int(weight) for last, weight, *_ in self.rows["weight"] if int(request[2]) <= int(last))

    def resources(self, device: int) -> list[tuple[str, int]]:
        adapter = int(self.rows["dev"][device][0])
        link = self.rows["sim"][adapter][1]
        return [("dev", device), ("sim", adapter)] + ([("link", int(link))] if link else [])

    def cap(self, kind: str, number: int, round: int) -> int:
        for what, which, first, last, most, *_ in self.rows["cap"]:
            if (what, int(which)) == (kind, number) and int(first) <= round <= int(last):
                return int(most)
        return int(self.rows[kind][number][3 if kind == "dev" else 0])

    def on(self, resource: tuple[str, int]) -> list[int]:
        return [at for at, request in enumerate(self.requests) if resource in self.resources(int(request[1]))]

    def sent(self, resource: tuple[str, int], round: int) -> list[int]:
        return [at for at in self.on(resource) if int(self.requests[at][5]) == round]

    def in_service(self, resource: tuple[str, int], round: int) -> list[int]:
        found = []
        for at in self.on(resource):
            last, sent, done = self.requests[at][4:7]
            through = int(done) if done else int(last) if last else self.last
            if int(sent) < round <= through:
                found.append(at)
        return found

    def cause(self, device: int, round: int) -> tuple[str, tuple[str, int] | None]:
        for resource in self.resources(device):
            if self.cap(*resource, round) == 0:
                return "stopped", resource
        for resource in self.resources(device):
            if self.cap(*resource, round) == len(self.sent(resource, round)):
                return "full", resource
        return "not asked", None

    def waits(self) -> list[tuple[int, int]]:
        """The requests and the rounds that they wait."""
        return [(at, round) for at, request in enumerate(self.requests) for round in range(int(request[3]), int(request[5]))]

    def pace_cap(self, device: int, round: int) -> int:
        waits = any(int(request[1]) == device and int(request[3]) <= round < int(request[5]) for request in self.requests)
        if waits and self.cause(device, round)[0] == "not asked":
            return len(self.sent(("dev", device), round))
        return self.cap("dev", device, round)

    def blamed(self, device: int, round: int) -> int | None:
        """The request that is in the way of those that wait at a device in a round."""
        why, resource = self.cause(device, round)
        others = []
        if why == "full":
            others = self.sent(resource, round)
        elif why == "stopped" and self.version == "camrecord2":
            others = self.in_service(resource, round)
        if not others:
            return None
        others = [at for at in others if self.weight(self.requests[at]) == min(self.weight(self.requests[it]) for it in others)]
        others = [at for at in others if int(self.requests[at][3]) == max(int(self.requests[it][3]) for it in others)]
        return max(others)

    def blame(self) -> dict[tuple[int, int | None], int]:
        """The cost of waiting by the driver that waited and the one in the way."""
        table: dict[tuple[int, int | None], int] = {}
        for at, round in self.waits():
            other = self.blamed(int(self.requests[at][1]), round)
            pair = int(self.requests[at][0]), None if other is None else int(self.requests[other][0])
            table[pair] = table.get(pair, 0) + self.weight(self.requests[at])
        return table
