#!/usr/bin/env python3
"""Orders as they come and changes of a net, reckoned from their definitions (`nets.py` has what a net is).

An order as it comes knows nothing of the future. In each round, from the first on, the stays that have arrived and wait are gone
through by the order's key, and each is sent if its device, its adapter and the adapter's link have an opening left in the round.
A stay that passes the last round of its window goes on waiting.

With names of traces or recordings, as a script, it prints for each what was recorded, what both orders cost, what the best one costs,
and what the prices of the order by weight prove. Without any it tries 1,000 made nets (`made_nets.py`) and 100 traces: both orders
against a slower reckoning (`slow_orders.py`), costs and prices against `camxpt audit` and `camxpt prove`, and changes of openings.
One line a part; the status is 1 at the first that differs."""
import heapq
import sys
from typing import NamedTuple

import explanations
import nets

# The keys of the orders: who has the least goes first.
ORDERS = {
    "first-come": lambda stay: (stay["arrival"], stay["number"]),
    "by-weight": lambda stay: (-stay["weight"], stay["arrival"], stay["number"]),
}
NEVER_STOPPED = "never stopped"


class Outcome(NamedTuple):
    """What an order makes of a net: the round of each stay, or None if it isn't sent within the rounds; how many these are; how many
    are sent after the last round of their window; and what the waiting costs, None unless all are sent in time."""
    rounds: list
    unsent: int
    late: int
    cost: int | None


def outcome(net, rounds):
    """The outcome of these rounds."""
    late = sum(round is not None and round > stay["last"] for stay, round in zip(net.stays, rounds, strict=True))
    unsent = rounds.count(None)
    return Outcome(rounds, unsent, late, None if unsent or late else nets.cost(net, rounds))


def not_in_time(given):
    """The words for an order by which not all are sent in time."""
    return f"{given.unsent} not sent within the rounds, {given.late} after their last one"


def ordered(net, order):
    """The outcome of an order. Who waits at a device waits for what the first of the device waits for, so a device that can't send
    its first one sends nobody more in the round."""
    key = ORDERS[order]
    arriving = {}
    for stay in net.stays:
        arriving.setdefault(stay["arrival"], []).append(stay)
    waiting = [[] for _ in net.devices]
    rounds = [None] * len(net.stays)
    for round in range(1, net.rounds + 1):
        for stay in arriving.get(round, ()):
            heapq.heappush(waiting[stay["device"]], (key(stay), stay["number"]))
        left = {}
        firsts = [(stays[0], device) for device, stays in enumerate(waiting) if stays]
        heapq.heapify(firsts)
        while firsts:
            (_, number), device = heapq.heappop(firsts)
            parts = net.parts[device]
            if not all(left.setdefault(part, net.caps[part][round]) for part in parts):
                continue
            for part in parts:
                left[part] -= 1
            rounds[number] = round
            heapq.heappop(waiting[device])
            if waiting[device]:
                heapq.heappush(firsts, (waiting[device][0], device))
    return outcome(net, rounds)


def first_waiting(net, rounds, part):
    """By round, from place 1 on, the first by weight of the stays of this resource that wait after the round; None if nobody does."""
    key = ORDERS["by-weight"]
    arriving = {}
    for stay in net.users(part):
        arriving.setdefault(stay["arrival"], []).append(stay)
    waiting, firsts = [], [None]
    for round in range(1, net.rounds + 1):
        for stay in arriving.get(round, ()):
            heapq.heappush(waiting, (key(stay), stay["number"]))
        while waiting and rounds[waiting[0][1]] is not None and rounds[waiting[0][1]] <= round:
            heapq.heappop(waiting)
        firsts.append(net.stays[waiting[0][1]] if waiting else None)
    return firsts


def binds_alone(net, rounds, part, firsts):
    """Whether each stay of the resource that waits in a round, in this order by weight, finds the resource full there, and of stays
    that go before it. Of a device the latter follows."""
    key = ORDERS["by-weight"]
    sent, last = [0] * (net.rounds + 1), [None] * (net.rounds + 1)
    for stay in net.users(part):
        round = rounds[stay["number"]]
        if round is not None:
            sent[round] += 1
            last[round] = max(key(stay), last[round] or key(stay))
    return all(first is None or sent[round] == net.caps[part][round] and (last[round] is None or last[round] < key(first))
               for round, first in enumerate(firsts))


def closed_prices(net, rounds, firsts):
    """The prices of a resource's openings: 0 in a round after which nobody waits, and else what the first who waits costs until it
    goes, and the price of the round in which it does."""
    prices = [0] * (net.rounds + 1)
    for round in range(net.rounds, 0, -1):
        first = firsts[round]
        if first:
            goes = rounds[first["number"]]
            prices[round] = first["weight"] * (goes - round) + prices[goes]
    return prices


def device_prices(net, outcome):
    """The prices of devices that go with an order by weight that sends all within the rounds."""
    prices = nets.no_prices(net)
    for device in range(len(net.devices)):
        part = "dev", device
        prices[part] = closed_prices(net, outcome.rounds, first_waiting(net, outcome.rounds, part))
    return prices


def devices_bind(net, outcome):
    """The law's condition: in the order by weight each one that waits finds its device full."""
    return all(binds_alone(net, outcome.rounds, ("dev", device), first_waiting(net, outcome.rounds, ("dev", device)))
               for device in range(len(net.devices)))


def binding(net, outcome):
    """Resources that bind alone: of each link that its adapters are on, and of each adapter that is on none, those of one kind on
    which all that waits there waits; devices before adapters before the link. None if one has no such kind."""
    roots = {parts[-1] for parts in net.parts}
    found = []
    for root in sorted(roots):
        below = [parts for parts in net.parts if parts[-1] == root]
        levels = [sorted({parts[place] for parts in below}) for place in range(len(below[0]))]
        kind = next((parts for parts in levels
                     if all(binds_alone(net, outcome.rounds, part, first_waiting(net, outcome.rounds, part)) for part in parts)), None)
        if kind is None:
            return None
        found += kind
    return found


def binding_prices(net, outcome, resources):
    """The prices of resources that bind alone; all others have none."""
    prices = nets.no_prices(net)
    for part in resources:
        prices[part] = closed_prices(net, outcome.rounds, first_waiting(net, outcome.rounds, part))
    return prices


def least_prices(net, outcome):
    """Prices of all resources by one pass backwards over the rounds, each the least that holds back who waits. A potential is what an
    opening costs together with those above it. Who waits asks for its weight and what the next round costs it; that is asked of the
    first of its resources that is full, the device before the adapter before the link."""
    prices, sent = nets.no_prices(net), nets.sends(net, outcome.rounds)
    depths = {part: len(parts) - place for parts in net.parts for place, part in enumerate(parts)}
    above = {part: over for parts in net.parts for part, over in zip(parts, parts[1:])}
    # By device and weight, how many wait in each round; and what it costs from the next round on.
    waits, later = {}, {}
    for stay, round in zip(net.stays, outcome.rounds, strict=True):
        counts = waits.setdefault((stay["device"], stay["weight"]), [0] * (net.rounds + 2))
        counts[stay["arrival"]] += 1
        counts[round] -= 1
    for counts in waits.values():
        for round in range(1, net.rounds + 1):
            counts[round] += counts[round - 1]
    for round in range(net.rounds, 0, -1):
        needs = {}
        for (device, weight), counts in waits.items():
            if counts[round]:
                for part in net.parts[device]:
                    if net.caps[part][round] == 0:
                        break
                    needs[part] = max(needs.get(part, 0), weight + later[device, weight])
                    if sent[part][round] == net.caps[part][round]:
                        break
        potentials = {}
        for part in sorted(depths, key=depths.get):
            over = potentials[above[part]] if part in above else 0
            full = sent[part][round] == net.caps[part][round] > 0
            potentials[part] = max(over, needs.get(part, 0)) if full else over
            prices[part][round] = potentials[part] - over
        for device, weight in waits:
            is_open = all(net.caps[part][round] for part in net.parts[device])
            costs = [potentials["dev", device]] if is_open else []
            if (device, weight) in later:
                costs.append(weight + later[device, weight])
            if costs:
                later[device, weight] = min(costs)
    return prices


class Change(NamedTuple):
    """A change of a resource: ("dev", 0), ("sim", 0) or ("link", 0), and `+N`, `xN`, `=N` or `never stopped`."""
    part: tuple
    word: str


def widened(most, openings, word):
    """What a resource takes in a round by a change, where it took `most` and has these openings by the configuration."""
    if word == NEVER_STOPPED:
        return most or openings
    number = int(word[1:])
    if not 1 <= number <= nets.MAX_CAP:
        raise ValueError(f"no change: {word}")
    return most and min(nets.MAX_CAP, {"+": most + number, "x": most * number, "=": max(most, number)}[word[0]])


def changed(net, changes):
    """The net with these changes. Each is made to the recorded caps, and of several of one resource the greatest counts."""
    caps = dict(net.caps)
    for part in {change.part for change in changes}:
        words = [change.word for change in changes if change.part == part]
        caps[part] = [0] + [max(widened(most, net.openings[part], word) for word in words) for most in net.caps[part][1:]]
    return net.with_caps(caps)


def together_below(caps, parts):
    """What these resources take together in each round, from place 1 on; no cap is above the largest."""
    return [min(nets.MAX_CAP, sum(most)) for most in zip(*(caps[part] for part in parts), strict=True)]


def never_limit(net):
    """The adapters and links that never limit: in each round they take at least what the devices of the adapter, or the adapters on the
    link, take together. Each with what it stands above."""
    above = {}
    for parts in net.parts:
        for part, over in zip(parts, parts[1:]):
            above.setdefault(over, set()).add(part)
    for number, (_, link) in enumerate(net.adapters):
        if link is not None:
            above.setdefault(("link", link), set()).add(("sim", number))
    return {over: parts for over, parts in sorted(above.items(), key=lambda row: net.resources.index(row[0]))
            if all(most >= together for most, together in zip(net.caps[over], together_below(net.caps, parts), strict=True))}


def carried(net, wide):
    """A changed net, in which what never limited doesn't limit either: it takes at least what is below it takes together."""
    caps = dict(wide.caps)
    for over, parts in never_limit(net).items():
        caps[over] = [max(most, together) for most, together in zip(caps[over], together_below(caps, parts), strict=True)]
    return wide.with_caps(caps)


def at_pace(net):
    """The net of the recorded pace: where a stay waits in a round in which none of its resources is full, its device takes what it
    sent there."""
    caps, sent = dict(net.caps), nets.sends(net, net.live())
    for device, parts in enumerate(net.parts):
        part = "dev", device
        idle = {round for stay in net.stays if stay["device"] == device for round in range(stay["arrival"], stay["live"])
                if all(sent[it][round] < net.caps[it][round] for it in parts)}
        caps[part] = [sent[part][round] if round in idle else most for round, most in enumerate(net.caps[part])]
    return net.with_caps(caps)


def tried(net):
    """The changes that are tried unless others are asked for: of each resource that is full or stopped in a round in which one of its
    stays waited, one more and twice as many; and never stopped, if it is stopped in such a round."""
    sent, found = nets.sends(net, net.live()), []
    for part in net.resources:
        full = {net.caps[part][round] for stay in net.users(part) for round in range(stay["arrival"], stay["live"])
                if sent[part][round] == net.caps[part][round]}
        found += [Change(part, word) for word in ["+1", "x2"] * bool(full) + [NEVER_STOPPED] * (0 in full)]
    return found


class Row(NamedTuple):
    """A row of a table: the changes, and what both orders and the best one cost then; None of an order that doesn't send all in time."""
    changes: tuple
    first_come: int | None
    by_weight: int | None
    best: int


def row(net, changes, best_of):
    """The row of these changes, with what never limited carried along. `best_of` answers the best cost of a net."""
    wide = carried(net, changed(net, changes))
    return Row(tuple(changes), *(ordered(wide, order).cost for order in ORDERS), best_of(wide))


def unchanged(net, best_of):
    """The rows without a change: of the net as it was, at the recorded pace, and of the net itself if that is another one. A trace
    has no pace of its own."""
    pace = at_pace(net) if net.kind == "recording" else net
    return [row(it, (), best_of) for it in ([net] if pace.caps == net.caps else [pace, net])]


def saving(net, best_of, top=10):
    """The rows of the changes that are tried, each alone, which make one of the three costs another one: those first that save most by
    the best cost, then by weight, then in order of trying; at most so many."""
    own = row(net, (), best_of)
    rows = [row(net, [change], best_of) for change in tried(net)]
    rows = [it for it in rows if it[1:] != own[1:]]
    return sorted(rows, key=lambda it: (it.best, it.by_weight is None, it.by_weight or 0))[:top]


def classes(net, schedules):
    """By run level, the p50, p99 and p99.9 of its stays' waits in each of these schedules."""
    levels = sorted({stay["level"] for stay in net.stays})
    found = {}
    for level in levels:
        stays = [stay for stay in net.stays if stay["level"] == level]
        waits = [[rounds[stay["number"]] - stay["arrival"] for stay in stays] for rounds in schedules]
        found[level] = [tuple(explanations.rank(some, thousandths) for thousandths in (500, 990, 999)) for some in waits]
    return found


if __name__ == "__main__":
    import orders_tried
    sys.exit(orders_tried.main(sys.argv[1:]))
