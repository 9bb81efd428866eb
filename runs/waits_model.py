"""Reckons from the text of a recording, of either version, who was in the way and how long it was: the recording at the recorded pace,
the three parts of the waiting, blame (of a trace too), latency and limits of latency. Costs are in weighted rounds, all numbers exact
integers. Best costs are the program's (`program.py` says which one)."""
from __future__ import annotations

import csv
import io

import explanations
import imported_recording
import pace_model
from pace_model import best_rounds, pace_text

# Above the number of every driver.
NOBODY = 256


class Recording(pace_model.Recording):
    """A recording of either version. A stay has `pace` and `best`, once it is planned."""

    def __init__(self, text: str) -> None:
        # The stays that a device, an adapter or a link had in service.
        self.in_service: dict[tuple[str, int, int], list[dict]] | None = None
        super().__init__(text)

    def serves(self, kind: str, number: int, round: int) -> list[dict]:
        """The stays that this device, adapter or link has in service in a round: sent before, and completed in it or later. Without a
        completion one is in service through its last round."""
        if self.in_service is None:
            self.in_service = {}
            for stay in self.stays:
                through = stay["done"] if stay["done"] is not None else stay["last"] if stay["last"] is not None else self.round
                for at in range(stay["live"] + 1, min(through, self.round) + 1):
                    for part in self.parts(stay):
                        if self.cap(*part, at) == 0:
                            self.in_service.setdefault((*part, at), []).append(stay)
        return self.in_service.get((kind, number, round), [])

    def others(self, stay: dict, round: int) -> list[dict]:
        """Those of which one was in the way of a stay that waits in a round: what the resource that is the cause sent, or else what it
        had in service. Version 1 doesn't say that."""
        resource = self.full_at(stay, round)
        if resource is None:
            return []
        if self.cap(*resource, round) > 0:
            return self.sent[*resource, round]
        return self.serves(*resource, round) if self.version > 1 else []


class Trace(explanations.Trace):
    """A trace. Only a full device, adapter or link is anybody's doing."""

    def others(self, stay: dict, round: int) -> list[dict]:
        cause = self.cause_in(stay, round)
        numbers = {explanations.DEVICE_FULL: stay["device"], explanations.ADAPTER_FULL: stay["adapter"],
                   explanations.LINK_FULL: self.adapters[stay["adapter"]][1]}
        return explanations.sent_by(self, cause, numbers[cause], round) if cause in numbers else []


def version_1(text: str) -> str:
    """The recording without completions."""
    rows = list(csv.reader(io.StringIO(text)))
    return imported_recording.spelled([["camrecord1", *"abcdefg"]] + [row[:7] if row[0] == "request" else row for row in rows[1:]])


def planned(text: str) -> Recording:
    """The recording with the round of each stay in the best schedule at the recorded pace and in the best schedule."""
    recording = Recording(text)
    for key, of in ("pace", pace_text(text)), ("best", text):
        for stay, round in zip(recording.stays, best_rounds(of, recording), strict=True):
            stay[key] = round
    return recording


def costs(stays: list[dict]) -> dict[str, int]:
    """The three costs, in weighted rounds, and the three parts of the recorded one."""
    live, pace, best = (sum(stay["weight"] * (stay[key] - stay["arrival"]) for stay in stays) for key in ("live", "pace", "best"))
    return {"live": live, "pace": pace, "best": best, "by_order": live - pace, "by_slots": pace - best, "needed": best}


def parts(recording: Recording, key: str) -> dict[int, list[dict]]:
    """The stays by driver, level, adapter or device, by number."""
    return {number: [stay for stay in recording.stays if stay[key] == number] for number in sorted({stay[key] for stay in recording.stays})}


def blame(recording: Recording | Trace, key: str = "driver") -> list[dict]:
    """How long who waited for whom, by driver or level, the greatest cost first; `by` is None where nobody was in the way. Avoidable are
    the rounds in which the best schedule at the recorded pace, or of a trace the best one, had sent the stay."""
    places = {id(stay): at for at, stay in enumerate(recording.stays)}
    blamed: dict[tuple[int, int], dict | None] = {}
    table: dict[tuple[int, int | None], dict[str, int]] = {}
    for stay in recording.stays:
        for round in range(stay["arrival"], stay["live"]):
            # All that wait at a device in a round name the same one: of the smallest weight the one that arrived last, then the last.
            if (stay["device"], round) not in blamed:
                blamed[stay["device"], round] = min(recording.others(stay, round), default=None, key=lambda other: (
                    other["weight"], -other["arrival"], -places[id(other)]))
            other = blamed[stay["device"], round]
            amounts = table.setdefault((stay[key], None if other is None else other[key]), {"waited": 0, "avoidable": 0, "cost": 0})
            amounts["waited"] += 1
            amounts["avoidable"] += round >= stay.get("pace", stay.get("best", stay["live"]))
            amounts["cost"] += stay["weight"]
    rows = [{"waiting": waiting, "by": by, **amounts} for (waiting, by), amounts in table.items()]
    return sorted(rows, key=lambda row: (-row["cost"], row["waiting"], NOBODY if row["by"] is None else row["by"]))


def rank(numbers: list[int], thousandths: int) -> int:
    """The least number that so many in a thousand didn't pass, by nearest rank; 0 of none."""
    return sorted(numbers)[-(-thousandths * len(numbers) // 1000) - 1] if numbers else 0


def percentiles(numbers: list[int]) -> dict[str, int]:
    ranks = (("p50", 500), ("p90", 900), ("p99", 990), ("p999", 999), ("max", 1000))
    return {name: rank(numbers, thousandths) for name, thousandths in ranks}


def waits(stays: list[dict]) -> dict[str, int]:
    """Of the waits, in rounds."""
    return {"stays": len(stays), **percentiles([stay["live"] - stay["arrival"] for stay in stays])}


def latency(stays: list[dict]) -> dict[str, int]:
    """Of those with a completion: rounds from the one of the arrival to the one of the completion."""
    done = [stay["done"] - stay["arrival"] for stay in stays if stay["done"] is not None]
    return {"stays": len(done), **percentiles(done)}


def slo(recording: Recording, stays: list[dict], thousandths: int, limit: int) -> dict[str, int | bool]:
    """How many of the stays with a completion took longer than the limit in ns; of these how many wouldn't have by order alone, how many
    of the others wouldn't have with idle slots used too, and how many would have still. `met`: the percentile is within the limit."""
    numbers = {"requests": 0, "over": 0, "by_order": 0, "by_slots": 0, "device": 0}
    latencies = []
    for stay in stays:
        if stay["done"] is None:
            continue
        numbers["requests"] += 1
        in_time = {}
        for key in "live", "pace", "best":
            in_time[key] = (stay["done"] - stay["live"] + stay[key] - stay["arrival"]) * recording.unit <= limit
        latencies.append(stay["done"] - stay["arrival"])
        if not in_time["live"]:
            numbers["over"] += 1
            numbers["by_order" if in_time["pace"] else "by_slots" if in_time["best"] else "device"] += 1
    return {**numbers, "met": rank(latencies, thousandths) * recording.unit <= limit}


def named(recording: Recording, name: str) -> list[dict]:
    """The stays of `driver:NAME`, `level:N` or `all`."""
    kind, _, of = name.partition(":")
    if kind == "driver":
        number = next(number for (what, number), text in recording.names.items() if (what, text) == ("driver", of))
        return [stay for stay in recording.stays if stay["driver"] == number]
    return [stay for stay in recording.stays if kind == "all" or stay["level"] == int(of)]
