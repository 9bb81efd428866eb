"""What `camxpt explain --json` and `camxpt compare --json` say of a trace or recording, reckoned anew from its text and from the
report of `camxpt audit`."""
import model
import pace_model

# How many waits of a stay are listed unless all are asked for.
MAX_WAITS = 64
ERROR, CALLER, ADAPTER_FROZEN = "error", "caller", "adapter_frozen"
DEVICE_STOPPED, ADAPTER_STOPPED, LINK_STOPPED = "device_stopped", "adapter_stopped", "link_stopped"
DEVICE_FULL, ADAPTER_FULL, LINK_FULL, NOT_ASKED = ENDS = "device_full", "adapter_full", "link_full", "not_asked"
# The kind of the names of each table's rows; run levels have none.
NAMED = {"adapter": "sim", "device": "dev", "driver": "driver"}


class Trace(model.Trace):
    """A trace with the causes of devices in each round that ended."""

    CAUSES = ERROR, CALLER, ADAPTER_FROZEN, *ENDS

    def __init__(self, text):
        self.ends = []
        super().__init__(text)

    def on_tick(self, *fields):
        end = self.frozen()
        end["causes"] = [self.cause(end, number) for number in range(len(self.devices))]
        self.ends.append(end)
        super().on_tick(*fields)

    def cause(self, end, number):
        """Why stays of the device waited in the round that ends now."""
        device = self.devices[number]
        adapter = device["adapter"]
        if number in end["errors"]:
            return ERROR
        if number in end["callers"]:
            return CALLER
        if adapter in end["adapters"]:
            return ADAPTER_FROZEN
        most = {"dev": device["openings"], "sim": self.adapters[adapter][0]}
        for (kind, part), full in zip(self.parts({"device": number, "adapter": adapter}), ENDS):
            if self.sent.get((kind, part, self.round), 0) >= (most[kind] if kind in most else self.links[part]):
                return full
        return NOT_ASKED

    def cause_in(self, stay, round):
        return self.ends[round - 1]["causes"][stay["device"]]


class Recording(model.Recording):
    """A recording with the causes of each round. A stay has the round `pace` of the best schedule at the recorded pace."""

    CAUSES = DEVICE_STOPPED, ADAPTER_STOPPED, LINK_STOPPED, *ENDS
    ends = ()

    def cause_in(self, stay, round):
        """Why stays of the device waited in the round."""
        parts = self.parts(stay)
        taken = [self.cap(kind, number, round) for kind, number in parts]
        for most, stopped in zip(taken, (DEVICE_STOPPED, ADAPTER_STOPPED, LINK_STOPPED)):
            if most == 0:
                return stopped
        for (_, number), most, full in zip(parts, taken, ENDS):
            if len(sent_by(self, full, number, round)) == most:
                return full
        return NOT_ASKED


def sent_by(replay, full, number, round):
    """The stays that this device, adapter or link sent in the round."""
    def on(stay):
        return {DEVICE_FULL: stay["device"], ADAPTER_FULL: stay["adapter"], LINK_FULL: replay.adapters[stay["adapter"]][1]}[full]
    return [stay for stay in replay.stays if stay["live"] == round and on(stay) == number]


def behind(replay, stay, round):
    """What the stay waited behind in a round in which a row was full, or None."""
    cause = replay.cause_in(stay, round)
    if cause not in (DEVICE_FULL, ADAPTER_FULL, LINK_FULL):
        return None
    number = {DEVICE_FULL: stay["device"], ADAPTER_FULL: stay["adapter"], LINK_FULL: replay.adapters[stay["adapter"]][1]}[cause]
    weights = {other["weight"] for other in sent_by(replay, cause, number, round)}
    if any(weight < stay["weight"] for weight in weights):
        return "less_urgent"
    return "equal" if stay["weight"] in weights else "more_urgent"


def runs(rounds):
    """The first and the last of each run of rounds."""
    firsts = [round for round in rounds if round - 1 not in rounds]
    lasts = [round for round in rounds if round + 1 not in rounds]
    return list(zip(firsts, lasts, strict=True))


def waited(stay):
    return range(stay["arrival"], stay["live"])


def rank(waits, thousandths):
    """The least number of rounds that so many in a thousand of these didn't pass."""
    return sorted(waits)[-(-thousandths * len(waits) // 1000) - 1] if waits else 0


def costs(replay, stays):
    """The weighted rounds that these stays waited, by cause, of links only where there are some; and by what they waited
    behind."""
    given = {cause: 0 for cause in replay.CAUSES if cause not in (LINK_STOPPED, LINK_FULL) or replay.links}
    full = {"less_urgent": 0, "equal": 0, "more_urgent": 0}
    for stay in stays:
        for round in waited(stay):
            given[replay.cause_in(stay, round)] += stay["weight"]
            what = behind(replay, stay, round)
            if what:
                full[what] += stay["weight"]
    return {"causes": given, "full_behind": full, **latency(replay, stays)}


def ranks(numbers):
    return {"p50": rank(numbers, 500), "p90": rank(numbers, 900), "p99": rank(numbers, 990), "p999": rank(numbers, 999),
            "max": max(numbers, default=0)}


def latency(replay, stays):
    """The rounds from the arrivals of stays to their completions, if the recording says these."""
    if getattr(replay, "version", 1) == 1:
        return {}
    done = [stay["done"] - stay["arrival"] for stay in stays if stay["done"] is not None]
    return {"latency": {"stays": len(done), **ranks(done)}}


def totals(replay, stays):
    """What these stays cost in each schedule; a trace has none at the recorded pace."""
    keys = ("live", "pace", "best") if hasattr(replay, "version") else ("live", "best")
    costs = {key: sum(stay["weight"] * (stay[key] - stay["arrival"]) for stay in stays) for key in keys}
    return {**costs, "excess": costs["live"] - costs["best"]}


def part(replay, stays):
    waits = [len(waited(stay)) for stay in stays]
    return {"stays": len(stays), "waited": sum(waits), **ranks(waits), **totals(replay, stays), **costs(replay, stays)}


def table(replay, key):
    rows = []
    for number in sorted({stay[key] for stay in replay.stays}):
        path = {"path": replay.devices[number]["path"]} if key == "device" else {}
        name = replay.names.get((NAMED.get(key), number))
        named = {"name": name} if name else {}
        rows.append({"number": number, **path, **named, **part(replay, [stay for stay in replay.stays if stay[key] == number])})
    return rows


def freezes(replay):
    """The freezes of devices by errors, then by callers, then those of adapters, each with what it cost."""
    rows = []
    for ended, key, kind, cause in (("errors", "device", "error", ERROR), ("callers", "device", "caller", CALLER),
                                    ("adapters", "adapter", "caller", ADAPTER_FROZEN)):
        for number in range(len(replay.devices if key == "device" else replay.adapters)):
            frozen = [round for round, end in enumerate(replay.ends, 1) if number in end[ended]]
            for first, last in runs(frozen):
                cost = sum(stay["weight"] for stay in replay.stays if stay[key] == number for round in waited(stay)
                           if first <= round <= last and replay.cause_in(stay, round) == cause)
                rows.append({key: number, "kind": kind, "first": first, "last": last, "cost": cost})
    return rows


def waits(replay, stay):
    rows = []
    for round in waited(stay):
        cause = replay.cause_in(stay, round)
        if rows and rows[-1]["cause"] == cause:
            rows[-1]["last"] = round
        else:
            rows.append({"cause": cause, "first": round, "last": round})
    return rows


def listed(replay, stay, most):
    """The first waits of a stay, and what it waited after them."""
    rows = waits(replay, stay)
    if len(rows) <= most:
        return {"waits": rows}
    first = rows[most]["first"]
    rest = range(first, stay["live"])
    causes = {cause: sum(stay["weight"] for round in rest if replay.cause_in(stay, round) == cause)
              for cause in costs(replay, [])["causes"]}
    more = {"waits": len(rows) - most, "first": first, "last": stay["live"] - 1, "cost": stay["weight"] * len(rest), "causes": causes}
    return {"waits": rows[:most], "more": more}


def planned(text, report, trace=Trace, recording=Recording):
    """The model of a text, of one of these kinds, each stay with the round that is best for it by the report."""
    replay = model.read(text, trace, recording)
    best = [[int(number) for number in line.split()[1:]] for line in report.splitlines() if line.startswith("stay ")]
    for stay, (ccb, attempt, arrival, live, round, weight) in zip(replay.stays, best, strict=True):
        if (stay["ccb"], stay["try"], stay["arrival"], stay["live"], stay["weight"]) != (ccb, attempt, arrival, live, weight):
            raise ValueError(f"the report has another stay {ccb} {attempt}")
        stay["best"] = round
    if hasattr(replay, "version"):
        for stay, round in zip(replay.stays, pace_model.paced_rounds(text, replay), strict=True):
            stay["pace"] = round
    return replay


def explained(name, text, report, most=MAX_WAITS):
    """The object, from the texts of the trace or recording and of the report."""
    replay = planned(text, report)
    counts = {word: int(number) for word, number in (line.split() for line in report.splitlines()[1:7])}
    keys = ["ccb", "try", "driver", "device", "priority", "weight", "arrival", "live", *["pace"] * hasattr(replay, "version"), "best"]
    own = {"commands": len(replay.commands), "stays": len(replay.stays), "rounds": replay.round, **totals(replay, replay.stays)}
    if {key: own[key] for key in counts} != counts:
        raise ValueError(f"the report has other counts: {counts}, not {own}")
    rows = replay.weights or model.STANDARD
    weights = {"weights": [{"last": last, "weight": weight} for last, weight in rows]} if rows != model.STANDARD else {}
    counted = {key: own.pop(key) for key in ("commands", "stays", "rounds")}
    unit = {"round_ns": replay.unit} if replay.unit else {}
    return {"trace": name, **counted, **weights, **unit, **own, **costs(replay, replay.stays),
            **{name: table(replay, key) for name, key in (("adapters", "adapter"), ("devices", "device"), ("drivers", "driver"),
                                                          ("levels", "level"))},
            "freezes": freezes(replay),
            "list": [{**{key: stay[key] for key in keys}, **listed(replay, stay, most)} for stay in replay.stays]}


def difference(due, given, where="the object"):
    """Where the two first differ, and how."""
    if isinstance(due, dict) and isinstance(given, dict):
        if list(due) != list(given):
            return f"{where} has the keys {list(given)}, not {list(due)}"
        pairs = [(f"{where}, {key}", due[key], given[key]) for key in due]
    elif isinstance(due, list) and isinstance(given, list):
        if len(due) != len(given):
            return f"{where} has {len(given)} rows, not {len(due)}"
        pairs = [(f"{where} {place}", *both) for place, both in enumerate(zip(due, given))]
    else:
        return f"{where} is {given!r}, not {due!r}"
    return next(difference(due, given, where) for where, due, given in pairs if due != given)
