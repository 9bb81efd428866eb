#!/usr/bin/env python3
"""What `import` says of a capture, reckoned anew and plainly: how long a round is, runs of caps, times in words, and what to beware
of. `slots_model.py` has the caps."""
import csv
import io

from imported_model import MAX_TIMES

WEIGHTS = (255, 16), (511, 8), (767, 4), (1023, 2), (1279, 1)
UNITS = {"ns": 1, "us": 1_000, "ms": 1_000_000, "s": 1_000_000_000}
SHORT = "camxpt: warning: a round is longer than half of the mean wait, {} ns: shorter waits than a round are not seen"
ONE_WEIGHT = "camxpt: warning: all requests of {} weigh the same: little can be avoided there"
UNEVEN = "camxpt: warning: the largest request of {} has more than 16 times the median size, and each counts as one"
MAX_ROUNDS, MAX_COUNT, MAX_CAP, MAX_OPENINGS = 65535, 2**32 - 1, 65535, 255


def lower_median(numbers):
    ordered = sorted(numbers)
    return ordered[(len(ordered) - 1) // 2] if ordered else 0


def is_name(text):
    return 0 < len(text.encode()) <= 64 and not any(ord(c) < 32 or 127 <= ord(c) < 160 for c in text)


def caps(numbers, usual):
    """The longest runs of one number that isn't the usual one, as first and last round and number. Rounds are from 1 on."""
    runs = []
    for round, number in enumerate(numbers, 1):
        if number != usual and runs and runs[-1][1] == round - 1 and runs[-1][2] == number:
            runs[-1][1] = round
        elif number != usual:
            runs.append([round, round, number])
    return runs


def spelled(rows):
    """The text of these rows."""
    text = io.StringIO()
    csv.writer(text, lineterminator="\n").writerows([*row, *[""] * (8 - len(row))] for row in rows)
    return text.getvalue()


def exact(time):
    """That many nanoseconds as a number and its unit, the coarsest in which it is whole."""
    return next((time // size, unit) for unit, size in reversed(UNITS.items()) if time % size == 0 and time // size <= MAX_COUNT)


def short(time):
    """At most that many nanoseconds, as a hundred or more of the coarsest unit of which there are so many."""
    size = next((size for size in reversed(UNITS.values()) if time // size >= 100), 1)
    return exact(time // size * size)


def usual_round(reader, taken):
    """The round where none is given: the mean time between starts of the busiest device, within 65,535 rounds and half of the mean
    wait. None if no round is both."""
    whole = max(request.started for request in taken) - taken[0].arrival
    busiest = max(sum(request.device == device for request in taken) for device in reader.devices)
    half = sum(request.started - request.arrival for request in taken) // (2 * len(taken))
    shortest = whole // MAX_ROUNDS + 1
    usual = max(whole // busiest, shortest)
    size = next(size for size in UNITS.values() if -(-usual // size) <= MAX_COUNT)
    usual = -(-usual // size) * size
    if half and usual > half:
        usual = max(min(half // size, MAX_COUNT) * size for size in UNITS.values())
    return exact(usual) if usual >= shortest else None


def in_digits(time):
    """That many nanoseconds in three digits that count, in the largest unit of which there is one."""
    step = 10 ** max(0, len(str(time)) - 3)
    rounded = (time + step // 2) // step * step
    unit, size = next((it for it in reversed(UNITS.items()) if rounded >= it[1]), ("ns", 1))
    rest = str(rounded % size).zfill(len(str(size)) - 1).rstrip("0") if size > 1 else ""
    return f"{rounded // size:,}{'.' * bool(rest)}{rest} {unit}"


def warnings(reader, taken, half, span):
    """What an engineer has to beware of."""
    lines = [SHORT.format(half)] if span > half else []
    for device in reader.devices:
        own = [request for request in taken if request.device == device]
        weights = {next(weight for last, weight in WEIGHTS if request.priority <= last) for request in own}
        sizes = [request.size for request in own if request.size]
        lines += [ONE_WEIGHT.format(device)] * (len(weights) == 1)
        lines += [UNEVEN.format(device)] * (max(sizes, default=0) > MAX_TIMES * lower_median(sizes))
    return lines
