"""What traces and recordings say, read from their texts alone: the model of them by which tests reckon anew what the program
prints."""
import csv
import io

GOOD, STATUS_BITS = 0x01, 0x3F
# Flags by which a send freezes its device, and by which an error doesn't.
FREEZING, UNFROZEN = ("qfreeze", "both"), ("qfrzdis", "both")
STANDARD = [(255, 16), (511, 8), (767, 4), (1023, 2), (1279, 1)]
NANOSECONDS = {"ns": 1, "us": 10**3, "ms": 10**6, "s": 10**9}


def rows_of(text):
    """The records of a text, quoted or plain. Blank lines aren't records."""
    return [row for row in csv.reader(io.StringIO(text, newline="")) if row]


class Input:
    """A trace or a recording, row by row: what there is, and the stays in the order in which they began."""

    def __init__(self, text):
        self.links, self.adapters, self.devices, self.lanes = [], [], [], []
        # The rows of a table of weights; in version 1 there are none.
        self.weights = []
        # How many nanoseconds a round has, and the fields that say so.
        self.unit, self.unit_fields = None, []
        self.names, self.round = {}, 1
        self.commands, self.stays = [], []
        self.header, *rows = rows_of(text)
        for word, *fields in rows:
            getattr(self, "on_" + word)(*fields)
            self.note(word)

    def note(self, word):
        """What a test notes after a row of this word."""

    def on_weight(self, last, weight, *_):
        self.weights.append((int(last), int(weight)))

    def on_link(self, openings, *_):
        self.links.append(int(openings))

    def on_sim(self, openings, link, *_):
        self.adapters.append((int(openings), int(link) if link else None))

    def on_dev(self, bus, target, lun, openings, *_):
        path = f"{bus}:{target}:{lun}"
        self.devices.append({"adapter": int(bus), "path": path, "configured": int(openings), "openings": int(openings), "next": int(openings)})

    def on_lane(self, adapter, *_):
        self.lanes.append(int(adapter))

    def command(self, driver, device, priority, flags="none"):
        level = int(priority) // 256
        weight = next((weight for last, weight in self.weights if int(priority) <= last), 16 >> level)
        return {"driver": int(driver), "device": int(device), "priority": int(priority), "level": level, "weight": weight,
                "adapter": self.devices[int(device)]["adapter"], "flags": flags}

    def openings(self, kind, number):
        """The openings of a device, an adapter or a link by the configuration."""
        if kind == "dev":
            return self.devices[number]["configured"]
        return self.adapters[number][0] if kind == "sim" else self.links[number]

    def parts(self, stay):
        """The device, the adapter and the link, if there is one, that a stay is sent by."""
        link = self.adapters[stay["adapter"]][1]
        return [("dev", stay["device"]), ("sim", stay["adapter"]), *([("link", link)] if link is not None else [])]


class Trace(Input):
    """A transport's counts, event by event."""

    def __init__(self, text):
        # What holds now: freezes by callers and of adapters, and CCBs that failed and aren't decided yet.
        self.callers, self.frozen_adapters, self.recovering = {}, {}, set()
        # From which rounds on a device has how many openings, and what was frozen at some place of a round.
        self.changes, self.frozen_in = {}, set()
        # How many were sent by a device, an adapter or a link in each round.
        self.sent = {}
        super().__init__(text)

    def note(self, _):
        frozen = self.frozen()
        self.frozen_in |= {("dev", device, self.round) for device in frozen["errors"] | frozen["callers"]}
        self.frozen_in |= {("sim", adapter, self.round) for adapter in frozen["adapters"]}

    def latest(self, ccb):
        return next(stay for stay in reversed(self.stays) if stay["ccb"] == int(ccb))

    def begin(self, ccb, arrival):
        attempt = sum(stay["ccb"] == ccb for stay in self.stays)
        self.stays.append({"ccb": ccb, "try": attempt, "arrival": arrival, "last": None, "live": None, **self.commands[ccb]})

    def on_submit(self, driver, device, priority, _, flags, *__):
        self.commands.append(self.command(driver, device, priority, flags))
        self.begin(len(self.commands) - 1, self.round)

    def on_send(self, _, ccb, *__):
        stay = self.latest(ccb)
        stay["live"] = self.round
        for part in self.parts(stay):
            self.sent[*part, self.round] = self.sent.get((*part, self.round), 0) + 1
        if stay["flags"] in FREEZING:
            self.on_freeze(stay["device"], 1)

    def on_done(self, ccb, status, *_):
        if int(status, 16) & STATUS_BITS != GOOD:
            self.recovering.add(int(ccb))

    def on_requeue(self, ccb, *_):
        self.recovering.remove(int(ccb))
        self.latest(ccb)["last"] = self.round
        self.begin(int(ccb), self.round + 1)

    def on_finish(self, ccb, *_):
        self.recovering.remove(int(ccb))

    def on_freeze(self, device, count, *_):
        self.callers[int(device)] = self.callers.get(int(device), 0) + int(count)

    def on_release(self, device, count, *_):
        self.callers[int(device)] -= int(count)

    def on_sfreeze(self, adapter, count, *_):
        self.frozen_adapters[int(adapter)] = self.frozen_adapters.get(int(adapter), 0) + int(count)

    def on_srelease(self, adapter, *_):
        self.frozen_adapters[int(adapter)] -= 1

    def on_adjust(self, device, openings, *_):
        self.devices[int(device)]["next"] = int(openings)
        self.changes.setdefault(int(device), {})[self.round + 1] = int(openings)

    def on_tick(self, *_):
        for device in self.devices:
            device["openings"] = device["next"]
        self.round += 1

    def frozen(self):
        """What is frozen here: devices by errors and by callers, and adapters."""
        errors = {self.commands[ccb]["device"] for ccb in self.recovering if self.commands[ccb]["flags"] not in UNFROZEN}
        return {"errors": errors, "callers": {device for device, count in self.callers.items() if count > 0},
                "adapters": {adapter for adapter, count in self.frozen_adapters.items() if count > 0}}

    def openings_in(self, kind, number, round):
        """How many openings a device, an adapter or a link has in the round."""
        if kind != "dev":
            return self.openings(kind, number)
        changed = [first for first in self.changes.get(number, {}) if first <= round]
        return self.changes[number][max(changed)] if changed else self.openings(kind, number)

    def cap(self, kind, number, round):
        """How many it takes in the round: as many as it has openings, or as many as it sent if it was frozen at some place of it."""
        part = kind, number, round
        return self.sent.get(part, 0) if part in self.frozen_in else self.openings_in(*part)


class Recording(Input):
    """The requests of a recording, and how many each device, adapter and link takes in each round."""

    def __init__(self, text):
        self.caps = {}
        super().__init__(text)
        self.commands, self.version = self.stays, int(self.header[0].removeprefix("camrecord"))

    def on_unit(self, count, unit, *_):
        self.unit, self.unit_fields = int(count) * NANOSECONDS[unit], [count, unit]

    def on_name(self, kind, number, name, *_):
        self.names[kind, int(number)] = name

    def on_rounds(self, rounds, *_):
        self.round = int(rounds)

    def on_cap(self, kind, number, first, last, most, *_):
        for round in range(int(first), int(last) + 1):
            self.caps[kind, int(number), round] = int(most)

    def on_request(self, driver, device, priority, arrival, last, sent, done="", *_):
        self.stays.append({"ccb": len(self.stays), "try": 0, **self.command(driver, device, priority), "arrival": int(arrival),
                           "last": int(last) if last else None, "live": int(sent), "done": int(done) if done else None})

    def cap(self, kind, number, round):
        return self.caps.get((kind, number, round), self.openings(kind, number))


def read(text, trace=Trace, recording=Recording):
    """The model of a text, behind its comments."""
    text = without_comments(text)
    return (recording if text.startswith("camrecord") else trace)(text)


def without_comments(text):
    """A text without the lines before it that say how it was made."""
    while text.startswith("#"):
        text = text.partition("\n")[2]
    return text
