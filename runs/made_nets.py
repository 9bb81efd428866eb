"""Made recordings for tests of orders and changes. `random_recordings.py` makes all kinds; here one says which. The same number always
gives the same recording."""
import random

import random_recordings
from random_traces import record, weights

# Openings and caps that never bind.
WIDE = 255
# The kinds, by what binds there.
KINDS = {
    # As random recordings are.
    "any": None,
    # Devices alone, and windows up to the last round.
    "devices": {"sim": False, "link": False, "windows": 0},
    # Devices alone, and many windows that end early.
    "devices with windows": {"sim": False, "link": False, "windows": 0.7},
    # Adapters alone, or links alone.
    "adapters": {"dev": False, "link": False, "windows": 0.2},
    "links": {"dev": False, "sim": False, "windows": 0.2},
    # All three, with more to send, and less of it ended.
    "all": {"windows": 0.1, "load": 80},
}


def caps(rng, openings, rounds, closed):
    """What a resource takes in each round, from place 1 on: its openings, but in some runs of rounds something else, or nothing."""
    most = [0] + [openings] * rounds
    first = 1
    while first <= rounds:
        count = rng.choice([1, 1, 2, 5])
        if rng.random() < 0.3:
            most[first:first + count] = [0 if rng.random() < closed else rng.randint(1, 4)] * len(most[first:first + count])
        first += count
    return most


def cap_rows(kind, number, openings, most):
    """The rows of these caps, a row for each round that has others than its openings."""
    return [record("cap", kind, number, round, round, cap) for round, cap in enumerate(most) if round and cap != openings]


def recording(number, windows=0.3, load=50, closed=0.5, **binds):
    """A recording of this number: so great a part of windows ends early, there are at most so many requests, and so great a part of
    the changed caps is 0. Devices, adapters and links bind but where `dev`, `sim` or `link` is False."""
    rng = random.Random(f"net {number}")
    rounds = rng.randint(2, 40)
    links = [rng.randint(1, 4) for _ in range(rng.choice([0, 1, 1, 2]) if binds.get("link", True) else 0)]
    if not binds.get("sim", True) and not binds.get("dev", True):
        links = links or [rng.randint(1, 4)]
    adapters = []
    for _ in range(rng.randint(1, 3)):
        link = rng.randrange(len(links)) if links and (rng.random() < 0.8 or not binds.get("sim", True)) else None
        adapters.append((rng.randint(1, 4) if binds.get("sim", True) else WIDE, link))
    devices = [(rng.randrange(len(adapters)), rng.randint(1, 3) if binds.get("dev", True) else WIDE) for _ in range(rng.randint(1, 6))]
    rows = [record("camrecord1", *"abcdefg"), record("rounds", rounds)]
    rows += weights(rng) if rng.random() < 0.5 else []
    rows += [record("link", openings) for openings in links]
    rows += [record("sim", openings, "" if link is None else link) for openings, link in adapters]
    rows += [record("dev", adapter, target, 0, openings) for target, (adapter, openings) in enumerate(devices)]
    room = {}
    for kind, all_openings in (("dev", [openings for _, openings in devices]), ("sim", [openings for openings, _ in adapters]),
                               ("link", links)):
        for part, openings in enumerate(all_openings):
            room[kind, part] = caps(rng, openings, rounds, closed) if binds.get(kind, True) else [0] + [openings] * rounds
            rows += cap_rows(kind, part, openings, room[kind, part])
    return "".join(rows + requests(rng, rounds, adapters, devices, room, windows, rng.randint(0, load)))


def requests(rng, rounds, adapters, devices, room, windows, count):
    """Rows of requests. Each was sent in some round that had room; many arrived together, and many were sent late."""
    rows, busy = [], sorted(rng.choices(range(1, rounds + 1), k=3))
    for _ in range(count):
        device = rng.randrange(len(devices))
        adapter = devices[device][0]
        parts = [("dev", device), ("sim", adapter)]
        parts += [("link", adapters[adapter][1])] if adapters[adapter][1] is not None else []
        arrival = rng.choice([*busy, rng.randint(1, rounds)])
        choice = [round for round in range(arrival, rounds + 1) if all(room[part][round] > 0 for part in parts)]
        if not choice:
            continue
        sent = rng.choice([choice[0], choice[-1], rng.choice(choice)])
        for part in parts:
            room[part][sent] -= 1
        last = rng.randint(sent, rounds) if rng.random() < windows else ""
        rows.append(record("request", rng.randrange(4), device, rng.choice([rng.randrange(1280), 100, 1152]), arrival, last, sent))
    return rows


def made(number):
    """The recording of this number, of each kind in turn, and the kind."""
    kinds = list(KINDS)
    kind = kinds[number % len(kinds)]
    if KINDS[kind] is None:
        return kind, random_recordings.recording(number)
    return kind, recording(number, **KINDS[kind])
