"""Random traces for tests: small random scripts, run by `camxpt sim`, and rounds put in between. The same number always
gives the same trace.

In a run of a script each lane sends what it can, and each failed command is decided on, before a round ends. So that some
rounds end otherwise, ticks are put in, and decisions are put off. Some of this makes the trace illegal; `camxpt check` tells,
and then the trace is that of the run as it is.
"""
import random
import subprocess

from program import build, program, top  # noqa: F401 (others take them from here)

MAX_ROUNDS = 512
EVENTS = "submit", "done", "requeue", "finish", "freeze", "release", "sfreeze", "srelease", "adjust", "tick"
FLAGS = "none", "none", "none", "none", "qfreeze", "qfrzdis", "both"
# What lanes answer: a good command, a timeout, a busy device, a requeue, an error that isn't tried again, and check
# conditions: unit attention, and an illegal request.
ANSWERS = ["01,00,"] * 3 + ["0b,00,", "05,00,", "1b,00,", "04,00,", "0c,02,70000600000000", "0c,02,70000500000000"]


def record(*fields):
    """A record of eight fields."""
    return ",".join([str(field) for field in fields] + [""] * (8 - len(fields))) + "\n"


def driver_rows(rng, driver, paths, adapters):
    """A driver's calls; it takes back each freeze that it makes, and one for each command that freezes its device."""
    rows = []
    owed = []
    now = 1
    for _ in range(rng.randint(2, 12)):
        path = rng.choice(paths)
        kind = rng.random()
        if kind < 0.7:
            flags = rng.choice(FLAGS)
            rows.append(record("submit", driver, path, rng.randrange(1280), rng.randrange(5), flags))
            if flags in ("qfreeze", "both"):
                rows.append(record("release", driver, path, 1))
        elif kind < 0.8:
            count = rng.randint(1, 2)
            rows.append(record("freeze", driver, path, count))
            owed.append(record("release", driver, path, count))
        elif kind < 0.87:
            adapter = rng.randrange(adapters)
            rows.append(record("sfreeze", driver, adapter, 1))
            owed.append(record("srelease", driver, adapter))
        elif kind < 0.93:
            rows.append(record("adjust", driver, path, rng.randint(1, 3)))
        if rng.random() < 0.4:
            now += rng.randint(1, 3)
            rows.append(record("pause", driver, now))
        if owed and rng.random() < 0.5:
            rows.append(owed.pop())
    return rows + owed


def script(rng):
    """A small script."""
    adapters = rng.randint(1, 3)
    rows = [record("camscript1", *"abcdefg")]
    rows += [record("sim", rng.randint(1, 3)) for _ in range(adapters)]
    paths = []
    for target in range(rng.randint(adapters, adapters + 2)):
        bus = target if target < adapters else rng.randrange(adapters)
        rows.append(record("dev", bus, target, rng.randrange(3), rng.randint(1, 2)))
        paths.append(":".join(rows[-1].split(",")[1:4]))
    lanes = [adapter for adapter in range(adapters) for _ in range(rng.randint(1, 2))]
    rows += [record("lane", adapter) for adapter in lanes]
    for driver in rng.sample(range(8), rng.randint(1, 3)):
        rows += driver_rows(rng, driver, paths, adapters)
    for lane in range(len(lanes)):
        rows += [record("answer", lane, *rng.choice(ANSWERS).split(",")) for _ in range(rng.randint(0, 6))]
    return "".join(rows)


def slowed(rng, text):
    """The trace with ticks put in where no command is in flight, and some decisions put off to a round of their own."""
    rate, lateness = rng.choice([0, 0.05, 0.15]), rng.choice([0, 0.3, 0.8])
    given = []
    late = []
    rounds = 1 + sum(line.startswith("tick,") for line in text.splitlines())
    flying = 0
    for line in text.splitlines(keepends=True):
        word = line.split(",")[0]
        flying += {"send": 1, "done": -1}.get(word, 0)
        if word in ("requeue", "finish") and rng.random() < lateness:
            late.append(line)
            continue
        given.append(line)
        if rounds == MAX_ROUNDS:
            continue
        if word == "tick" and late:
            given += late
            late = []
        elif word not in EVENTS or flying or rng.random() >= rate:
            continue
        given.append(record("tick"))
        rounds += 1
    return "".join(given + late)


def weights(rng):
    """A random table of weights."""
    lasts = sorted(rng.sample(range(1279), rng.randint(0, 15))) + [1279]
    return [record("weight", last, rng.choice([1, 2, 7, rng.randint(1, 1000), 1000])) for last in lasts]


def weighed(rng, text):
    """The same history in version 2, with a random table of weights."""
    return record("camtrace2", *"abcdefg") + "".join(weights(rng)) + text.split("\n", 1)[1]


def linked(rng, text):
    """The same events in version 3, with a random table of weights, and adapters on links that are just wide enough."""
    rows = [line.split(",") for line in text.splitlines()[1:]]
    adapters = [row for row in rows if row[0] == "sim"]
    of_lane = [int(row[1]) for row in rows if row[0] == "lane"]
    links = rng.randint(1, 4)
    link_of = [rng.choice([None, *range(links)]) for _ in adapters]
    sent, most = [0] * links, [1] * links
    for row in rows:
        if row[0] == "tick":
            sent = [0] * links
        elif row[0] == "send" and link_of[of_lane[int(row[1])]] is not None:
            link = link_of[of_lane[int(row[1])]]
            sent[link] += 1
            most[link] = max(most[link], sent[link])
    head = [record("camtrace3", *"abcdefg"), *weights(rng), *(record("link", openings) for openings in most)]
    head += [record("sim", row[1], "" if link is None else link) for row, link in zip(adapters, link_of, strict=True)]
    return "".join(head) + "".join(line for line in text.splitlines(keepends=True)[1:] if not line.startswith("sim,"))


def run(words, text):
    """What the program prints for these words and this input, or None if it refuses them."""
    done = subprocess.run([program, *words], input=text, stdout=subprocess.PIPE, stderr=subprocess.PIPE, text=True)
    return done.stdout if done.returncode == 0 else None


def trace(number):
    """The trace of this number, or None if its script was refused or its history isn't complete. Of four one has weights of its
    own, and two have links too."""
    rng = random.Random(number)
    given = run(["sim", "-", str(rng.getrandbits(64))], script(rng))
    if given is None:
        return None
    text = next((text for text in (slowed(rng, given), given) if run(["check"], text) is not None), None)
    return text and (lambda rng, text: text, weighed, linked, linked)[number % 4](rng, text)
