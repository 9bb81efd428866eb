"""Reckons from the text of a recording the recording at the recorded pace: where a request of a device waits in a round in which no
device, adapter or link in its way is full, the device takes what was sent. Best schedules are the program's (`program.py` says which
one)."""
from __future__ import annotations

import csv
import io
import subprocess
import tempfile

import imported_recording
import model
from program import program


class Recording(model.Recording):
    """A recording of either version, with what its devices, adapters and links sent."""

    def note(self, word: str) -> None:
        if word == "request":
            stay = self.stays[-1]
            for part in self.parts(stay):
                self.sent.setdefault((*part, stay["live"]), []).append(stay)

    def __init__(self, text: str) -> None:
        # The stays that a device, an adapter or a link sent in a round.
        self.sent: dict[tuple[str, int, int], list[dict]] = {}
        super().__init__(text)

    def load(self, kind: str, number: int, round: int) -> int:
        return len(self.sent.get((kind, number, round), []))

    def full_at(self, stay: dict, round: int) -> tuple[str, int] | None:
        """The resource that is the cause of a round that a stay waits, if one is: the first that takes nothing, or else the first that
        is full."""
        parts = self.parts(stay)
        stopped = [part for part in parts if self.cap(*part, round) == 0]
        full = [part for part in parts if self.load(*part, round) == self.cap(*part, round)]
        return next(iter(stopped + full), None)


def with_caps(text: str, caps: dict[tuple[str, int], list[int]], recording: Recording) -> str:
    """The text with other caps of these resources, round by round from round 1 on."""
    rows = list(csv.reader(io.StringIO(text)))
    kept = [row for row in rows if row[0] == "cap" and (row[1], int(row[2])) not in caps]
    for (kind, number), own in caps.items():
        kept += [["cap", kind, number, *run] for run in imported_recording.caps(own, recording.openings(kind, number))]
    kept.sort(key=lambda row: (("dev", "sim", "link").index(row[1]), int(row[2]), int(row[3])))
    requests = [row for row in rows if row[0] == "request"]
    return imported_recording.spelled([row for row in rows if row[0] not in ("cap", "request")] + kept + requests)


def waiting_rounds(recording: Recording) -> set[tuple[int, int]]:
    """The devices and rounds at which a request waits."""
    return {(stay["device"], round) for stay in recording.stays for round in range(stay["arrival"], stay["live"])}


def pace_caps(recording: Recording) -> dict[tuple[str, int], list[int]]:
    """The caps of the devices at the recorded pace: where a request waits and no resource is full, what was sent there."""
    caps = {("dev", device): [recording.cap("dev", device, round) for round in range(1, recording.round + 1)]
            for device in range(len(recording.devices))}
    for device, round in waiting_rounds(recording):
        stay = {"device": device, "adapter": recording.devices[device]["adapter"]}
        if recording.full_at(stay, round) is None:
            caps["dev", device][round - 1] = recording.load("dev", device, round)
    return caps


def pace_text(text: str) -> str:
    """The recording at the recorded pace."""
    recording = Recording(text)
    return with_caps(text, pace_caps(recording), recording)


def best_rounds(text: str, recording: model.Recording) -> list[int]:
    """The round of each stay in the best schedule that the program prints. It has to see the same stays."""
    with tempfile.NamedTemporaryFile("w", suffix=".csv") as file:
        file.write(text)
        file.flush()
        done = subprocess.run([program, "audit", file.name], capture_output=True, text=True)
    if done.returncode:
        raise ValueError(f"audit ended with status {done.returncode}: {done.stderr}")
    lines = [[int(number) for number in line.split()[1:]] for line in done.stdout.splitlines() if line.startswith("stay ")]
    for stay, (number, _, arrival, live, _, weight) in zip(recording.stays, lines, strict=True):
        if (stay["ccb"], stay["arrival"], stay["live"], stay["weight"]) != (number, arrival, live, weight):
            raise ValueError(f"the report has another stay {number}")
    return [best for *_, best, _ in lines]


def paced_rounds(text: str, recording: model.Recording) -> list[int]:
    """The round of each stay in the best schedule at the recorded pace."""
    return best_rounds(pace_text(text), recording)
