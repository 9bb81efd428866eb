"""The net of a trace or a recording: its stays with their windows and weights, and what each device, adapter and link takes in each
round; what schedules of it cost, and what prices prove of them. All by the definitions in docs/definitions.md."""
import csv
import io
import itertools

import model

MAX_CAP = 65535
# What a check says of a stay whose device, adapter or link has more stays in a round than it takes.
FULL = {"dev": "device full", "sim": "adapter full", "link": "link full"}


class NotSent(Exception):
    """A trace in which a command still waits has no net."""


class Net:
    """A net. `stays` are in creation order, each with its `number`, `ccb`, `try`, `driver`, `device`, `priority`, `weight`, `arrival`,
    `last` and `live`: the first and the last round of its window, and the round in which it was sent. Resources are named as ("dev",
    0), ("sim", 0) and ("link", 0); `parts` are those of each device, itself first. `caps` has of each resource what it takes in each
    round, from place 1 on, and `openings` what it has by the configuration."""

    def __init__(self, replay, kind):
        self.kind, self.rounds, self.unit, self.names = kind, replay.round, replay.unit_fields, replay.names
        self.commands, self.weights = len(replay.commands), replay.weights
        self.links, self.adapters, self.devices = replay.links, replay.adapters, replay.devices
        self.parts = [replay.parts({"device": number, "adapter": device["adapter"]}) for number, device in enumerate(self.devices)]
        self.resources = [(kind, number) for kind, all_of_kind in (("dev", self.devices), ("sim", self.adapters), ("link", self.links))
                          for number in range(len(all_of_kind))]
        self.openings = {part: replay.openings(*part) for part in self.resources}
        self.caps = {part: [0] + [replay.cap(*part, round) for round in range(1, self.rounds + 1)] for part in self.resources}
        self.stays = [{**stay, "number": number, "last": stay["last"] or self.rounds} for number, stay in enumerate(replay.stays)]
        if any(stay["live"] is None for stay in self.stays):
            raise NotSent("a stay was never sent")

    def of_stay(self, stay):
        """The resources that a stay uses: its device, its adapter, and the adapter's link if it is on one."""
        return self.parts[stay["device"]]

    def users(self, part):
        """The stays that use a resource."""
        return [stay for stay in self.stays if part in self.of_stay(stay)]

    def live(self):
        """The rounds of the recorded schedule."""
        return [stay["live"] for stay in self.stays]

    def with_caps(self, caps):
        """The net with these caps in place of its own."""
        other = object.__new__(Net)
        other.__dict__.update(self.__dict__, caps=caps)
        return other


def read(text):
    """The net of the trace or recording that this text is."""
    return Net(model.read(text), "recording" if model.without_comments(text).startswith("camrecord") else "trace")


def cost(net, rounds):
    """What the waiting costs if each stay is sent in its one of these rounds."""
    return sum(stay["weight"] * (round - stay["arrival"]) for stay, round in zip(net.stays, rounds, strict=True))


def sends(net, rounds):
    """How many stays each resource sends in each round, from place 1 on. A stay that isn't sent has None for its round."""
    counts = {part: [0] * (net.rounds + 1) for part in net.resources}
    for stay, round in zip(net.stays, rounds, strict=True):
        if round is not None:
            for part in net.of_stay(stay):
                counts[part][round] += 1
    return counts


def fault(net, rounds):
    """The number of the first stay, in creation order, that is outside its window or with which a resource has more stays in its round
    than it takes, and the words for it; None of an admissible schedule."""
    counts = {part: [0] * (net.rounds + 1) for part in net.resources}
    for stay, round in zip(net.stays, rounds, strict=True):
        if round < stay["arrival"]:
            return stay["number"], "early"
        if round > stay["last"]:
            return stay["number"], "late"
        for part in net.of_stay(stay):
            if counts[part][round] == net.caps[part][round]:
                return stay["number"], FULL[part[0]]
            counts[part][round] += 1
    return None


def no_prices(net):
    """Prices of 0 for each opening of each resource in each round, from place 1 on."""
    return {part: [0] * (net.rounds + 1) for part in net.resources}


def paid(net, prices):
    """The sum over all stays of the least that waiting and openings cost together, over the rounds of the window in which the device,
    the adapter and the adapter's link take something."""
    total = 0
    groups = {}
    for stay in net.stays:
        groups.setdefault((stay["device"], stay["weight"]), []).append(stay)
    for (device, weight), stays in groups.items():
        parts = net.parts[device]
        # By round, what it costs to be sent in it: the waiting since round 0, and the openings.
        costs = [weight * round + sum(prices[part][round] for part in parts) if all(net.caps[part][round] for part in parts) else None
                 for round in range(net.rounds + 1)]
        # The least of these from each round to the last of all.
        least, later = [], None
        for there in reversed(costs):
            later = later if there is None else there if later is None else min(there, later)
            least.append(later)
        least.reverse()
        for stay in stays:
            window = range(stay["arrival"], stay["last"] + 1)
            best = least[stay["arrival"]] if stay["last"] == net.rounds else min(costs[r] for r in window if costs[r] is not None)
            total += best - weight * stay["arrival"]
    return total


def offered(net, prices):
    """The prices of all openings together."""
    return sum(price * most for part in net.resources for price, most in zip(prices[part], net.caps[part], strict=True))


def gap(net, rounds, prices):
    """How much more the schedule costs than the prices prove that any must: 0 if they prove it best. The schedule is admissible."""
    return cost(net, rounds) - (paid(net, prices) - offered(net, prices))


def verdict(net, rounds, prices):
    """The line that a check prints of an admissible or inadmissible schedule with these prices."""
    found = fault(net, rounds)
    if found:
        stay = net.stays[found[0]]
        return f"not proved: stay {stay['ccb']} {stay['try']} {found[1]}"
    left = gap(net, rounds, prices)
    return f"not proved: gap {left}" if left else "proved"


def report(net, rounds, prices):
    """The report of a claim that this schedule is best by these prices. Openings that there aren't have no price in it."""
    live, best = cost(net, net.live()), cost(net, rounds)
    lines = ["camaudit 1", f"commands {net.commands}", f"stays {len(net.stays)}", f"rounds {net.rounds}", f"live {live}", f"best {best}",
             f"excess {live - best}"]
    lines += [f"stay {stay['ccb']} {stay['try']} {stay['arrival']} {stay['live']} {round} {stay['weight']}"
              for stay, round in zip(net.stays, rounds, strict=True)]
    for kind, number in net.resources:
        name = net.devices[number]["path"] if kind == "dev" else number
        lines += [f"price {kind} {name} {round} {price}" for round, price in enumerate(prices[kind, number])
                  if price and net.caps[kind, number][round]]
    return "\n".join([*lines, "end"]) + "\n"


def recording(net, rounds=None):
    """The recording of the net, with its stays sent in these rounds, or as they were."""
    rows = [["camrecord1", *"abcdefg"]]
    rows += [["unit", *net.unit]] if net.unit else []
    rows.append(["rounds", net.rounds])
    rows += [["weight", *row] for row in net.weights]
    rows += [["link", openings] for openings in net.links]
    rows += [["sim", openings, "" if link is None else link] for openings, link in net.adapters]
    rows += [["dev", *device["path"].split(":"), device["configured"]] for device in net.devices]
    rows += [["name", *part, name] for part, name in net.names.items()]
    for part in net.resources:
        for most, places in itertools.groupby(range(1, net.rounds + 1), key=net.caps[part].__getitem__):
            first, *others = places
            if most != net.openings[part]:
                rows.append(["cap", *part, first, (others or [first])[-1], most])
    for stay, round in zip(net.stays, net.live() if rounds is None else rounds, strict=True):
        last = "" if stay["last"] == net.rounds else stay["last"]
        rows.append(["request", stay["driver"], stay["device"], stay["priority"], stay["arrival"], last, round])
    text = io.StringIO()
    csv.writer(text, lineterminator="\n").writerows([*row, *[""] * (8 - len(row))] for row in rows)
    return text.getvalue()
