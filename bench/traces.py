"""Traces for the benches: a transport of eight adapters, most of them with 32 devices and some openings unused; where there are
links, the adapters are on them in turn."""
import random
import typing

ADAPTERS, DEVICES = 8, 32
# Sense data of a unit attention: the device was reset.
ATTENTION = "700006000000000a000000002900"


def fill(rows, count, choose, stopped, coming, shape):
    """So many records more: freezes of the stopped devices with their releases behind them, and adjusts to the openings or one
    more, which hold from the next round on."""
    while count:
        if count >= 2 * len(stopped) + 2:
            rows += [f"{word},{d},2,,,,," for word in ("freeze", "release") for d in stopped]
            count -= 2 * len(stopped)
        d = choose.randrange(shape.devices)
        coming[d] = shape.device_openings + choose.randrange(2)
        rows.append(f"adjust,{d},{coming[d]},,,,,")
        count -= 1


class Shape(typing.NamedTuple):
    """What a trace is like: its devices and their openings, the openings of each adapter, the part of its rounds in which
    commands come, how many of its stays begin with a requeue, how often an adapter idles and a device is frozen, and its links
    and the openings of each."""
    devices: int = DEVICES
    device_openings: int = 1
    adapter_openings: int = 2
    within: float = 1 / 2
    requeued: float = 0
    idle: float = 0.1
    frozen: float = 0
    links: int = 0
    link_openings: int = 0


STANDARD_WEIGHTS = [f"weight,{last},{weight},,,,," for last, weight in ((255, 16), (511, 8), (767, 4), (1023, 2), (1279, 1))]
SHAPES = {
    "loose": Shape(device_openings=4, adapter_openings=16, idle=0.3),
    "tight": Shape(),
    "frozen": Shape(frozen=0.1),
    "a quarter requeued": Shape(requeued=1 / 4),
    "at once on one device": Shape(devices=1, device_openings=9, adapter_openings=16, within=0, idle=0.01),
    "at once on 32 devices": Shape(adapter_openings=16, within=0),
    "overloaded": Shape(within=1 / 4, idle=0),
}
# Three of these with the adapters on two links. Of the last two the openings that all adapters had together are those of the
# links, and each adapter has twice as many.
LINKED = {"loose": (16, 16), "tight": (4, 8), "frozen": (4, 8)}
SHAPES |= {f"{kind}, linked": SHAPES[kind]._replace(adapter_openings=of_adapter, links=2, link_openings=of_link)
           for kind, (of_adapter, of_link) in LINKED.items()}
# Links that take three commands for four that come.
SHAPES["narrow links"] = SHAPES["tight"]._replace(links=2, link_openings=6)


def trace(kind, stays, rounds, seed=1, events=0):
    """A legal trace of a kind or a shape in which each command is sent, filled up to so many events, and how many it has. Where
    it is filled up, a device may have one opening more, and two are frozen and released at times in each round."""
    choose, choose_more = random.Random(seed), random.Random(seed)
    shape = SHAPES.get(kind, kind)
    coming = [shape.device_openings] * shape.devices
    rows = ["camtrace3,a,b,c,d,e,f,g", *STANDARD_WEIGHTS] if shape.links else ["camtrace1,a,b,c,d,e,f,g"]
    rows += [f"link,{shape.link_openings},,,,,,"] * shape.links
    rows += [f"sim,{shape.adapter_openings},{a % shape.links if shape.links else ''},,,,," for a in range(ADAPTERS)]
    rows += [f"dev,{d % ADAPTERS},{d},0,{shape.device_openings},,," for d in range(shape.devices)]
    rows += [f"lane,{a},,,,,," for a in range(ADAPTERS)]
    head = len(rows)
    failures = round(stays * shape.requeued)
    commands = stays - failures
    arrivals = sorted(choose.randint(1, max(1, int(rounds * shape.within))) for _ in range(commands))
    queues, requeued = [[] for _ in range(shape.devices)], []
    last = [-1] * shape.devices
    submitted = 0
    for r in range(1, rounds + 1):
        openings, stopped = coming[:], choose_more.sample(range(shape.devices), min(2, shape.devices))
        frozen = [d for d in range(shape.devices) if shape.frozen and choose.random() < shape.frozen]
        for d in frozen:
            rows.append(f"freeze,{d},1,,,,,")
        for d, stay in requeued:
            queues[d].append(stay)
        requeued = []
        while submitted < commands and arrivals[submitted] == r:
            d, priority = choose.randrange(shape.devices), choose.randrange(1280)
            rows.append(f"submit,0,{d},{priority},4,none,,")
            queues[d].append((priority, len(rows), submitted, 0))
            submitted += 1
        left = [shape.link_openings] * shape.links
        for a in range(ADAPTERS):
            fill(rows, events // rounds // (2 * ADAPTERS), choose_more, stopped, coming, shape)
            used = [0] * shape.devices
            for _ in range(shape.adapter_openings):
                ready = [d for d in range(a, shape.devices, ADAPTERS) if queues[d] and d not in frozen and used[d] < openings[d]]
                if shape.links and not left[a % shape.links]:
                    break
                if not ready or (r < rounds * 3 // 4 and choose.random() < shape.idle):
                    break
                d = min(ready, key=lambda d: (min(queues[d])[0], last[d], d))
                first = min(queues[d])
                queues[d].remove(first)
                used[d] += 1
                if shape.links:
                    left[a % shape.links] -= 1
                priority, _, ccb, attempt = first
                rows.append(f"send,{a},{ccb},,,,,")
                last[d] = len(rows)
                if failures and not attempt and r < rounds * 3 // 4 and choose.random() < 1 / 2:
                    failures -= 1
                    rows += [f"done,{ccb},0c,02,{ATTENTION},,,", f"requeue,{ccb},,,,,,"]
                    requeued.append((d, (priority, len(rows), ccb, 1)))
                else:
                    rows.append(f"done,{ccb},01,00,,,,")
        for d in frozen:
            rows.append(f"release,{d},1,,,,,")
        fill(rows, max(0, events * r // rounds - (len(rows) - head) - (r < rounds)), choose_more, stopped, coming, shape)
        if r < rounds:
            rows.append("tick,,,,,,,")
    if any(queues) or requeued or failures:
        raise ValueError(f"{sum(map(len, queues))} commands weren't sent, {failures} didn't fail")
    return len(rows) - head, "\n".join(rows) + "\n"
