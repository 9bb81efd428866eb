"""Orders as they come, reckoned slowly: stay by stay and round by round, straight from what the words mean. Only for small nets."""
import functools
import itertools

import explanations
import nets

# Of how many that wait each set is tried.
MAX_TRIED = 8


def comes_before(order, stay, other):
    """Whether a stay goes before another one by the order."""
    if order == "by-weight" and stay["weight"] != other["weight"]:
        return stay["weight"] > other["weight"]
    return stay["arrival"] < other["arrival"] or stay["arrival"] == other["arrival"] and stay["number"] < other["number"]


def rounds(net, order):
    """The round in which each stay goes, or None. A stay goes in a round if it waits there and each of its resources takes more than
    go there of those before it."""
    @functools.cache
    def goes(number, round):
        stay = net.stays[number]
        return round >= stay["arrival"] and not any(goes(number, earlier) for earlier in range(stay["arrival"], round)) and all(
            sum(goes(other["number"], round) for other in before[number] if part in net.of_stay(other)) < net.caps[part][round]
            for part in net.of_stay(stay))
    before = [[other for other in net.stays if comes_before(order, other, stay)] for stay in net.stays]
    return [next((round for round in range(1, net.rounds + 1) if goes(stay["number"], round)), None) for stay in net.stays]


def waiting(net, sent, round):
    """Who has arrived and wasn't sent before the round."""
    return [stay for stay in net.stays if stay["arrival"] <= round and (sent[stay["number"]] is None or sent[stay["number"]] >= round)]


def is_within(net, going, round):
    """Whether no resource takes more of these stays in the round than it can."""
    return all(sum(part in net.of_stay(stay) for stay in going) <= net.caps[part][round] for part in net.resources)


def has_full(net, going, stay, round):
    """Whether one of the stay's resources is full of these in the round."""
    return any(sum(part in net.of_stay(other) for other in going) == net.caps[part][round] for part in net.of_stay(stay))


def is_in_order(net, order, going, there, round):
    """Whether each one there that doesn't go in the round has a resource that is full of those that go and come before it."""
    return all(stay in going or has_full(net, [other for other in going if comes_before(order, other, stay)], stay, round)
               for stay in there)


def broken(net, order, sent):
    """Which promise of the order these rounds break, or None; and in how many rounds each set of those that wait was tried."""
    tried = 0
    if any(round is not None and round < stay["arrival"] for stay, round in zip(net.stays, sent, strict=True)):
        return "a stay goes before it arrived", tried
    for round in range(1, net.rounds + 1):
        there = waiting(net, sent, round)
        going = [stay for stay in there if sent[stay["number"]] == round]
        if not is_within(net, going, round):
            return f"more go in round {round} than a resource takes", tried
        if not all(stay in going or has_full(net, going, stay, round) for stay in there):
            return f"a stay is held back in round {round}", tried
        if not is_in_order(net, order, going, there, round):
            return f"a stay waits in round {round} behind one that comes after it", tried
        if len(there) <= MAX_TRIED:
            sets = itertools.chain.from_iterable(itertools.combinations(there, count) for count in range(len(there) + 1))
            if sum(is_within(net, some, round) and is_in_order(net, order, some, there, round) for some in sets) != 1:
                return f"not one set alone may go in round {round}", tried
            tried += 1
    return None, tried


def breaks_law(net, sent):
    """Whether a stay waits in a round in which its device isn't full."""
    return any(sum(sent[other["number"]] == round and other["device"] == stay["device"] for other in net.stays)
               < net.caps["dev", stay["device"]][round]
               for stay in net.stays for round in range(stay["arrival"], sent[stay["number"]] or net.rounds + 1))


def paid(net, prices):
    """What all stays pay, each in the cheapest round of its window in which its resources take something."""
    return sum(min(stay["weight"] * (round - stay["arrival"]) + sum(prices[part][round] for part in net.of_stay(stay))
                   for round in range(stay["arrival"], stay["last"] + 1) if all(net.caps[part][round] for part in net.of_stay(stay)))
               for stay in net.stays)


def waits_at(net, part, round):
    """Whether a stay of this resource waits in the round as it was recorded."""
    return any(part in net.of_stay(stay) and stay["arrival"] <= round < stay["live"] for stay in net.stays)


def sent_at(net, part, round):
    """How many stays this resource sent in the round as it was recorded."""
    return sum(part in net.of_stay(stay) and stay["live"] == round for stay in net.stays)


def pace(net, replay):
    """The caps of the recorded pace: where a stay of a device waits in a round in which nobody asked, what was sent there."""
    def cap(part, round):
        kind, number = part
        if kind == "dev" and round and waits_at(net, part, round):
            stay = {"device": number, "adapter": net.devices[number]["adapter"]}
            if replay.cause_in(stay, round) == explanations.NOT_ASKED:
                return sent_at(net, part, round)
        return net.caps[part][round]
    return {part: [cap(part, round) for round in range(net.rounds + 1)] for part in net.resources}


def tried(net):
    """The changes that are tried unless others are asked for, each a resource and a word."""
    found = []
    for part in net.resources:
        full = [round for round in range(1, net.rounds + 1)
                if waits_at(net, part, round) and sent_at(net, part, round) == net.caps[part][round]]
        if full:
            found += [(part, "+1"), (part, "x2")]
        if any(net.caps[part][round] == 0 for round in full):
            found.append((part, "never stopped"))
    return found


def below(net, part):
    """The devices of an adapter; of a link the adapters on it, also those without devices."""
    if part[0] == "sim":
        return [("dev", number) for number, device in enumerate(net.devices) if device["adapter"] == part[1]]
    return [("sim", number) for number, (_, link) in enumerate(net.adapters) if link == part[1]]


def never_limit(net):
    """The adapters and links that take in each round at least what is below them takes together, up to the largest cap."""
    return [part for part in net.resources if part[0] != "dev" and below(net, part)
            and not any(net.caps[part][round] < min(nets.MAX_CAP, sum(net.caps[it][round] for it in below(net, part)))
                        for round in range(1, net.rounds + 1))]
