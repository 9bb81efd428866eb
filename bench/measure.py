"""Builds and measures the programs of the benches."""
import os
import re
import subprocess
import sys

top = os.path.dirname(os.path.dirname(os.path.abspath(__file__)))
crates = os.path.join(top, "crates")


def camxpt():
    """The program `camxpt`."""
    return built("camxpt")


def built(crate):
    """The program of a crate, which is proved and built first if that is due."""
    subprocess.run([os.path.join(top, "runs", "build"), crate], check=True)
    return os.path.join(crates, crate, "out", crate)


def measured(*words, source=os.devnull, runs=5, errors=None):
    """The least processor time of the runs in seconds, and what the last wrote. Standard error goes to `errors`."""
    least = float("inf")
    for _ in range(runs):
        with open(source) as text, subprocess.Popen(words, stdin=text, stdout=subprocess.PIPE, stderr=errors, text=True) as child:
            written = child.stdout.read()
            _, status, used = os.wait4(child.pid, 0)
            child.returncode = os.waitstatus_to_exitcode(status)
        if status:
            sys.exit(f"{words} ended with status {child.returncode}")
        least = min(least, used.ru_utime + used.ru_stime)
    return least, written


def peak(*words, source=os.devnull):
    """The peak memory of a run in MB. GNU time prints it, since what Python gets for a child is at least its own memory."""
    with open(source) as text:
        output = subprocess.run(["/usr/bin/time", "-f", "%M", *words], stdin=text, capture_output=True, text=True, check=True)
    return int(output.stderr.split()[-1]) / 1024


def milliseconds(name, text):
    """How many milliseconds stand behind a name in a text, as a program prints a duration."""
    number, unit = re.search(rf"\b{name} ([\d.]+)(ns|µs|ms|s)\b", text).groups()
    return float(number) * {"ns": 1e-6, "µs": 1e-3, "ms": 1, "s": 1e3}[unit]
