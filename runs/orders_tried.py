"""Tries the model of orders and changes (`order_model.py`): on made nets and traces against a slower reckoning and against the
program, or on named inputs, of which it prints what comes out."""
import os
import random
import subprocess
import sys
import tempfile
import time

import explanations
import made_nets
import nets
import order_model
import random_traces
import slow_orders
from order_model import Change

NETS, TRACES = 1000, 100
# What a resource takes by a change, by hand: what it took, its openings, the change, what it takes.
WIDENED = [
    (2, 4, "+1", 3), (0, 4, "+1", 0), (6, 4, "+3", 9), (65535, 4, "+1", 65535), (1, 1, "+65535", 65535),
    (2, 4, "x2", 4), (0, 4, "x2", 0), (3, 4, "x1", 3), (40000, 4, "x2", 65535), (1, 1, "x65535", 65535),
    (2, 4, "=3", 3), (0, 4, "=3", 0), (6, 4, "=3", 6), (1, 1, "=65535", 65535),
    (0, 4, order_model.NEVER_STOPPED, 4), (1, 4, order_model.NEVER_STOPPED, 1), (6, 4, order_model.NEVER_STOPPED, 6),
]


class Differs(Exception):
    """What differs."""


def holds(condition, what):
    if not condition:
        raise Differs(what)


class Program:
    """The program, with a folder for its inputs."""

    def __init__(self, folder):
        self.folder = folder

    def file(self, name, text):
        path = os.path.join(self.folder, name)
        with open(path, "w") as file:
            file.write(text)
        return path

    def audit(self, text, *words):
        """The report on a trace or recording."""
        given = random_traces.run(["audit", *words, self.file("input.csv", text)], "")
        holds(given is not None, "its audit failed")
        return given

    def best(self, text):
        """What an audit says of a trace or recording: the recorded cost and the best one."""
        counts = dict(line.split() for line in self.audit(text, "--summary").splitlines()[1:])
        return int(counts["live"]), int(counts["best"])

    def prove(self, text, report):
        """The line of `prove` on this report."""
        done = subprocess.run([random_traces.program, "prove", self.file("input.csv", text), self.file("report", report)],
                              capture_output=True, text=True)
        return (done.stdout or done.stderr).rstrip("\n")


def counted(counts, name, number=1):
    counts[name] = counts.get(name, 0) + number


def try_orders(net, counts):
    """Both orders against the slower reckoning and against their promises."""
    found = {}
    for order in order_model.ORDERS:
        found[order] = result = order_model.ordered(net, order)
        due = slow_orders.rounds(net, order)
        holds(result.rounds == due, f"{order} is {result.rounds}, not {due}")
        why, tried = slow_orders.broken(net, order, result.rounds)
        holds(why is None, f"{order}: {why}")
        late = sum(round is not None and round > stay["last"] for round, stay in zip(due, net.stays))
        waited = [(round - stay["arrival"]) * stay["weight"] for round, stay in zip(due, net.stays) if round is not None]
        holds((result.unsent, result.late) == (due.count(None), late), f"{order} leaves {result.unsent} and {result.late}")
        holds(result.cost == (sum(waited) if not late and None not in due else None), f"{order} costs {result.cost}")
        counted(counts, "orders")
        counted(counts, "rounds of which each set was tried", tried)
        counted(counts, f"{order} in time", result.cost is not None)
    return found


def try_prices(net, text, found, counts, program):
    """What the orders cost against the best cost, the law, and the prices against `camxpt prove`."""
    live, best = program.best(text)
    holds(live == nets.cost(net, net.live()), f"the recorded schedule costs {nets.cost(net, net.live())}, and by the audit {live}")
    for order, result in found.items():
        counted(counts, f"{order} is best", result.cost == best)
        if result.cost is None:
            continue
        holds(result.cost >= best, f"{order} costs {result.cost}, and the best {best}")
        given = program.best(nets.recording(net, result.rounds))
        holds(given == (result.cost, best), f"an audit of {order} says {given}, not {result.cost} and {best}")
    result = found["by-weight"]
    law = order_model.devices_bind(net, result)
    holds(law != slow_orders.breaks_law(net, result.rounds), f"the law's condition is {law}")
    if result.unsent:
        return best
    binding = order_model.binding(net, result)
    holds(not law or binding is not None, "devices bind, but no kind of resource does")
    counted(counts, "where the law holds, in time", law and not result.late)
    counted(counts, "where one kind binds, in time", binding is not None and not result.late)
    prices = [("the prices of devices", order_model.device_prices(net, result), law)]
    if binding is not None:
        prices.append(("the prices of what binds", order_model.binding_prices(net, result, binding), True))
    prices.append(("the least prices", order_model.least_prices(net, result), law))
    for name, some, proves in prices:
        due = nets.verdict(net, result.rounds, some)
        holds(nets.paid(net, some) == slow_orders.paid(net, some), f"{name}: paid is {nets.paid(net, some)}")
        given = program.prove(text, nets.report(net, result.rounds, some))
        holds(given == due, f"{name}: prove says {given!r}, not {due!r}")
        holds(due != "proved" or result.cost == best, f"{name} prove {result.cost}, and the best is {best}")
        holds(result.late or not proves or due == "proved", f"{name}: {due}")
        counted(counts, f"proved by {name}", due == "proved")
    return best


def some_changes(rng, net):
    """A few changes by chance, of one resource or of several, some with more than one."""
    words = ["+1", "x2", order_model.NEVER_STOPPED, f"+{rng.randint(1, 5)}", f"x{rng.randint(1, 4)}", f"={rng.randint(1, 6)}", "=65535"]
    kinds = [[part for part in net.resources if part[0] == kind] for kind in ("dev", "sim", "link")]
    parts = [rng.choice(rng.choice([kind for kind in kinds if kind])) for _ in range(3)]
    return [Change(rng.choice(parts), rng.choice(words)) for _ in range(rng.choice([1, 1, 2, 3, 6]))]


def try_caps(net, changes, wide):
    """The caps of a changed net: none is less than before, nor else than the changes say."""
    for part in net.resources:
        words = [change.word for change in changes if change.part == part]
        for round in range(1, net.rounds + 1):
            most, now = net.caps[part][round], wide.caps[part][round]
            due = max([most, *(order_model.widened(most, net.openings[part], word) for word in words)])
            holds(most <= now == due <= nets.MAX_CAP, f"{part} takes {now} in round {round} after {changes}, and took {most}")
            holds(now == most or most > 0 or order_model.NEVER_STOPPED in words, f"{part} is opened in round {round} by {changes}")
    holds(nets.fault(wide, net.live()) is None, f"the recorded schedule isn't one of the net after {changes}")
    along, never = order_model.carried(net, wide), slow_orders.never_limit(net)
    holds(list(order_model.never_limit(net)) == never, f"{list(order_model.never_limit(net))} never limit, and not {never}")
    for part in net.resources:
        for round in range(1, net.rounds + 1):
            together = sum(along.caps[it][round] for it in slow_orders.below(net, part)) if part in never else 0
            due = max(wide.caps[part][round], min(nets.MAX_CAP, together))
            holds(along.caps[part][round] == due, f"{part} takes {along.caps[part][round]} along in round {round}, not {due}")


def try_change(net, changes, best, counts, program):
    """A net with these changes: its caps, its orders, and that its best cost isn't above the one before, nor above that of a net with
    one of the changes alone."""
    wide = order_model.changed(net, changes)
    try_caps(net, changes, wide)
    less = program.best(nets.recording(wide))[1]
    holds(less <= best, f"the best cost rises from {best} to {less} by {changes}")
    for change in changes[:3] if len(changes) > 1 else []:
        alone = program.best(nets.recording(order_model.changed(net, [change])))[1]
        holds(less <= alone <= best, f"the best cost is {best}, after {change} {alone}, and after {changes} {less}")
        counted(counts, "changed nets")
    for order in order_model.ORDERS:
        result = order_model.ordered(wide, order)
        holds(result.rounds == slow_orders.rounds(wide, order), f"{order} differs after {changes}")
        holds(result.cost is None or result.cost >= less, f"{order} costs {result.cost} after {changes}, and the best {less}")
        before = order_model.ordered(net, order).cost
        counted(counts, f"where {order} costs more or isn't in time any more",
                before is not None and (result.cost is None or result.cost > before))
    counted(counts, "changed nets")
    counted(counts, "changed nets whose best fell", less < best)


def try_pace(net, text, best, counts, program):
    """The net of the recorded pace, whose best lies between that of the net and what was recorded."""
    pace = order_model.at_pace(net)
    due = slow_orders.pace(net, explanations.Recording(text))
    holds(pace.caps == due, f"the caps of the pace are {pace.caps}, not {due}")
    slower = program.best(nets.recording(pace))[1]
    holds(best <= slower <= nets.cost(net, net.live()), f"the pace's best is {slower}, and the net's {best}")
    counted(counts, "nets of the pace")
    counted(counts, "of these with another best", slower > best)


def try_changes(net, text, best, number, counts, program):
    """The net written anew, the net of the recorded pace, and changed nets: by a few changes, and by all that are tried."""
    rng = random.Random(f"changes {number}")
    given, due = program.best(nets.recording(net)), (nets.cost(net, net.live()), best)
    holds(given == due, f"an audit of the net's recording says {given}, not {due}")
    if net.kind == "recording":
        try_pace(net, text, best, counts, program)
    tried = order_model.tried(net)
    holds([(change.part, change.word) for change in tried] == slow_orders.tried(net), f"the changes that are tried are {tried}")
    for changes in some_changes(rng, net), tried:
        try_change(net, changes, best, counts, program)


def each_input():
    """The texts that are tried, each with a name."""
    for number in range(NETS):
        kind, text = made_nets.made(number)
        yield f"net {number} ({kind})", number, text
    found = number = 0
    while found < TRACES:
        text = random_traces.trace(number)
        if text is not None:
            yield f"trace {number}", number, text
            found += 1
        number += 1


def try_all():
    for most, openings, word, due in WIDENED:
        given = order_model.widened(most, openings, word)
        holds(given == due, f"{word} of {most} is {given}, not {due}")
    parts = {"orders": {}, "prices": {}, "changes": {}}
    with tempfile.TemporaryDirectory() as folder:
        program = Program(folder)
        for name, number, text in each_input():
            try:
                net = nets.read(text)
                found = try_orders(net, parts["orders"])
                best = try_prices(net, text, found, parts["prices"], program)
                try_changes(net, text, best, number, parts["changes"], program)
            except Differs as why:
                raise Differs(f"{name}: {why}") from None
    for part, counts in parts.items():
        print(f"{part} of {NETS} nets and {TRACES} traces alike: " + ", ".join(f"{int(count)} {what}" for what, count in counts.items()))


def in_words(net, row, words=""):
    """A row of the table, in these words if there is no change."""
    changes = ", ".join(f"{net.names.get(change.part, ' '.join(map(str, change.part)))}: {change.word}" for change in row.changes)
    costs = "".join(f"{'-' if cost is None else format(cost, ','):>16}" for cost in row[1:])
    return f"  {changes or words:<34}{costs}"


def print_orders(net, text, program):
    """Both orders, and what the prices prove of the one by weight."""
    for order in order_model.ORDERS:
        result = order_model.ordered(net, order)
        print(f"  {order}: {order_model.not_in_time(result) if result.cost is None else format(result.cost, ',')}")
    print(f"  each one that waits in the order by weight finds its device full: {order_model.devices_bind(net, result)}")
    if result.unsent:
        return
    for which, prices in (("of devices", order_model.device_prices), ("of least potentials", order_model.least_prices)):
        some = prices(net, result)
        line, due = program.prove(text, nets.report(net, result.rounds, some)), nets.verdict(net, result.rounds, some)
        holds(line == due, f"prove says {line!r}, not {due!r}")
        print(f"  prices {which}: {line}")
    best = [stay["best"] for stay in explanations.planned(text, program.audit(text)).stays]
    for level, waits in order_model.classes(net, [net.live(), result.rounds, best]).items():
        print(f"  level {level}: p50, p99, p99.9 recorded {waits[0]}, by weight {waits[1]}, best {waits[2]}")


def figures(name, program):
    """Prints what comes out of a named input."""
    start = time.monotonic()
    with open(name) as file:
        text = file.read()
    net = nets.read(text)

    def best_of(wide):
        return program.best(nets.recording(wide))[1]
    live, best = program.best(text)
    pace = f", best at the recorded pace {best_of(order_model.at_pace(net)):,}" if net.kind == "recording" else ""
    print(f"{name}: {len(net.stays)} stays in {net.rounds} rounds; recorded {live:,}, best {best:,}{pace}")
    print_orders(net, text, program)
    print(f"  {'':<34}{'first come':>16}{'by weight':>16}{'best':>16}")
    for words, row in zip(("as it was", "no idle slots"), order_model.unchanged(net, best_of)):
        print(in_words(net, row, words))
    rows = order_model.saving(net, best_of)
    for row in rows:
        print(in_words(net, row))
    if len(rows) > 1:
        all_of_these = order_model.row(net, [change for row in rows for change in row.changes], best_of)
        print(in_words(net, all_of_these._replace(changes=()), "all of these"))
    never = ", ".join(f"{kind} {number}" for kind, number in order_model.never_limit(net))
    if never:
        print(f"  these never limit, and are widened along: {never}")
    print(f"  {time.monotonic() - start:.1f} s")


def main(names):
    random_traces.build()
    for name in names:
        try:
            with tempfile.TemporaryDirectory() as folder:
                figures(name, Program(folder))
        except (Differs, nets.NotSent) as why:
            print(f"{name}: {why}")
            return 1
    try:
        if not names:
            try_all()
    except Differs as why:
        print(why)
        return 1
    return 0
