#!/usr/bin/env python3
"""Records what a scheduler did by libcamxpt.so.1, and has `camxpt` say how much of the waiting was avoidable.

  record.py RECORDING

A disk starts two requests in a round, the first that came first, whatever their priorities. Each step of the loop is a round. The
library is found as any shared library is (LD_LIBRARY_PATH), and the program on the path."""
import ctypes
import subprocess
import sys
from ctypes import POINTER, c_char_p, c_int32, c_size_t, c_uint8, c_uint16, c_uint32, c_void_p, byref


class Span(ctypes.Structure):
    _fields_ = [("count", c_uint32), ("unit", c_uint32)]


class Device(ctypes.Structure):
    _fields_ = [("bus", c_uint8), ("target", c_uint16), ("lun", c_uint16), ("openings", c_uint32)]


class Adapter(ctypes.Structure):
    _fields_ = [("openings", c_uint32), ("link", c_uint32)]


class Weight(ctypes.Structure):
    _fields_ = [("last", c_uint32), ("weight", c_uint32)]


class Config(ctypes.Structure):
    _fields_ = [("weights", POINTER(Weight)), ("weight_count", c_size_t), ("links", POINTER(c_uint32)), ("link_count", c_size_t),
                ("adapters", POINTER(Adapter)), ("adapter_count", c_size_t), ("devices", POINTER(Device)), ("device_count", c_size_t),
                ("lanes", POINTER(c_uint32)), ("lane_count", c_size_t)]


class Request(ctypes.Structure):
    _fields_ = [("device", c_uint32), ("priority", c_uint32), ("arrival", c_uint32), ("last", c_uint32), ("start", c_uint32),
                ("driver", c_uint8), ("done", c_uint32)]


E_SPACE, NO_LINK, NO_LAST, NO_DONE, MILLISECONDS = -5, 2**32 - 1, 0, 0, 2
camxpt = ctypes.CDLL("libcamxpt.so.1")
camxpt.camxpt_code_name.restype = c_char_p
camxpt.camxpt_code_name.argtypes = [c_int32]
camxpt.camxpt_recording.restype = c_int32
camxpt.camxpt_recording.argtypes = [POINTER(Config), POINTER(Span), c_uint32, c_void_p, c_size_t, POINTER(Request), c_size_t,
                                    c_void_p, c_size_t, POINTER(c_size_t), POINTER(c_size_t)]


def scheduled():
    """Twelve requests, of which each fourth is urgent, and the number of rounds that they took."""
    arrivals = [(1 + number // 4, 128 if number % 4 == 3 else 1152) for number in range(12)]
    waiting, requests, now = [], [], 0
    while len(requests) < len(arrivals):
        now += 1
        waiting += [one for one in arrivals if one[0] == now]
        for arrival, priority in waiting[:2]:
            requests.append(Request(0, priority, arrival, NO_LAST, now, 0 if priority == 128 else 1, NO_DONE))
        del waiting[:2]
    return (Request * len(requests))(*requests), now


def recording(requests, rounds):
    """The text of the recording. The first call asks how long it is."""
    weights = (Weight * 5)((255, 16), (511, 8), (767, 4), (1023, 2), (1279, 1))
    adapters, devices = (Adapter * 1)((2, NO_LINK)), (Device * 1)((0, 0, 0, 2))
    config = Config(weights, 5, None, 0, adapters, 1, devices, 1, None, 0)
    needed, wrong = c_size_t(), c_size_t()
    words = byref(config), byref(Span(1, MILLISECONDS)), rounds, None, 0, requests, len(requests)
    code = camxpt.camxpt_recording(*words, None, 0, byref(needed), byref(wrong))
    if code == E_SPACE:
        text = ctypes.create_string_buffer(needed.value)
        code = camxpt.camxpt_recording(*words, text, needed.value, byref(needed), byref(wrong))
    if code:
        sys.exit(f"record.py: {camxpt.camxpt_code_name(code).decode()}")
    return text.raw


def main():
    if len(sys.argv) != 2:
        sys.exit(__doc__)
    requests, rounds = scheduled()
    with open(sys.argv[1], "wb") as file:
        file.write(recording(requests, rounds))
    print(f"{len(requests)} requests in {rounds} rounds", flush=True)
    summary = subprocess.run(["camxpt", "audit", "--summary", sys.argv[1]], check=True, capture_output=True, text=True).stdout
    print(summary[summary.index("live"):], end="")


main()
