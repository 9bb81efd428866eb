"""Random recordings for tests: a small scheduler that chooses by chance, under caps that come and go. The same number always
gives the same recording."""
import random

from random_traces import record, weights


def caps(rng, kind, openings, rounds):
    """Rows of caps of a part: runs of rounds, some of them with 0; and how many it takes in each round, from round 1."""
    rows, most, first = [], [None] + [openings] * rounds, 1
    while first <= rounds:
        last = min(rounds, first + rng.randint(0, 3))
        if rng.random() < 0.3:
            n = rng.choice([0, 0, 1, 2])
            rows.append((first, last, n))
            most[first:last + 1] = [n] * (last + 1 - first)
        first = last + rng.randint(1, 5)
    return rows, most


def names(rng, kind, count):
    """Rows of names for some of these, of any letters but those that the text keeps for itself."""
    return [record("name", kind, number, "".join(rng.choices("abz019 -/<>&é語", k=rng.randint(1, 16))))
            for number in range(count) if rng.random() < 0.3]


def recording(number):
    """The recording of this number."""
    rng = random.Random(f"recording {number}")
    rounds = rng.randint(1, 24)
    links = [rng.randint(1, 3) for _ in range(rng.choice([0, 0, 1, 2]))]
    adapters = [(rng.randint(1, 3), rng.choice([None, *range(len(links))])) for _ in range(rng.randint(1, 3))]
    devices = [(rng.randrange(len(adapters)), target, rng.randint(1, 2)) for target in range(rng.randint(1, 5))]
    version = rng.choice([1, 2])
    rows = [record(f"camrecord{version}", *"abcdefg")]
    rows += [record("unit", rng.randint(1, 10**6), rng.choice(["ns", "us", "ms", "s"]))] if rng.random() < 0.5 else []
    rows += [record("rounds", rounds)]
    rows += weights(rng) if rng.random() < 0.5 else []
    rows += [record("link", openings) for openings in links]
    rows += [record("sim", openings, "" if link is None else link) for openings, link in adapters]
    rows += [record("dev", adapter, target, 0, openings) for adapter, target, openings in devices]
    rows += names(rng, "driver", 4) + names(rng, "dev", len(devices)) + names(rng, "sim", len(adapters)) + names(rng, "link", len(links))
    room = {}
    for kind, all_openings in (("dev", [device[2] for device in devices]), ("sim", [openings for openings, _ in adapters]),
                               ("link", links)):
        for part, openings in enumerate(all_openings):
            given, room[kind, part] = caps(rng, kind, openings, rounds)
            rows += [record("cap", kind, part, *row) for row in given]
    return "".join(rows) + "".join(requests(rng, rounds, adapters, devices, room, version))


def requests(rng, rounds, adapters, devices, room, version):
    """Rows of requests, each started in some round that has room for it; in version 2 most have a completion."""
    for _ in range(rng.randint(0, 40)):
        device = rng.randrange(len(devices))
        adapter = devices[device][0]
        parts = [("dev", device), ("sim", adapter)]
        parts += [("link", adapters[adapter][1])] if adapters[adapter][1] is not None else []
        open_rounds = [round for round in range(1, rounds + 1) if all(room[part][round] > 0 for part in parts)]
        if not open_rounds:
            continue
        sent = rng.choice(open_rounds[:rng.randint(1, len(open_rounds))])
        for part in parts:
            room[part][sent] -= 1
        arrival = rng.choice([1, sent, rng.randint(1, sent)])
        last = rng.choice(["", rounds, rng.randint(sent, rounds)])
        priority = rng.choice([rng.randrange(1280), 896, 1152])
        done = [rng.choice(["", sent, sent + rng.randint(0, 9), sent + rng.randint(0, 60)])] if version == 2 else []
        yield record("request", rng.randrange(4), device, priority, arrival, last, sent, *done)
