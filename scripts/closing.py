#!/usr/bin/env python3
"""A shop of two tills with the messages of docs/RULES.md: it is run, till 0 is closed, and what is left is run again.

usage: closing.py LIBRARY

LIBRARY is a shared library made of the archive of the proved calls:

    (cd crates/exports && rt lib)
    cc -shared -o libmirvuttu.so -Wl,--whole-archive crates/exports/out/libexports.a -Wl,--no-whole-archive
"""
import ctypes
import struct
import sys
from ctypes import POINTER, Structure, c_bool, c_size_t, c_uint8, c_uint32

BUDGET = 32
NO_MESSAGE = 65535


class Tree(Structure):
    _fields_ = [("branches", c_uint32), ("leaves", c_uint32)]


class Shop(Structure):
    _fields_ = [(name, c_uint32) for name in ("stations", "width", "offset", "compression")]
    _fields_ += [("time", Tree), ("index", Tree)]


class Message(Structure):
    _fields_ = [(name, c_uint32) for name in ("station", "arrival", "relative", "length", "sent")]


class RunNumbers(Structure):
    _fields_ = [("refusal", c_uint32), ("done", c_bool)]
    _fields_ += [(name, c_uint32) for name in ("events", "slot", "sent", "late")]


class WithdrawalNumbers(Structure):
    _fields_ = [(name, c_uint32) for name in ("refusal", "kept", "withdrawn")]


def load(path):
    """The library with the types of the two calls that are made here (include/mirvuttu.h has them all)."""
    library = ctypes.CDLL(path)
    library.mirvuttu_run.restype = RunNumbers
    library.mirvuttu_run.argtypes = [Shop, POINTER(c_uint32), c_size_t, POINTER(Message), c_size_t,
                                     POINTER(c_uint8), c_size_t, c_uint32]
    library.mirvuttu_withdraw.restype = WithdrawalNumbers
    library.mirvuttu_withdraw.argtypes = [POINTER(Message), c_size_t, c_uint32]
    return library


def rows(log, events):
    """The rows of a log, one line each, as the program ddcr prints them."""
    for event in range(events):
        slot, phase, state, first, width, message, used, _ = struct.unpack_from("<IBBHHHHH", log, 16 * event)
        number = "-" if message == NO_MESSAGE else message
        yield f"{slot} {'fts'[phase]} {first} {width} {'-BX'[state]} {number} {used}"


def run(library, messages, count):
    shop = Shop(stations=2, width=10, offset=0, compression=1, time=Tree(2, 4), index=Tree(2, 2))
    owners = (c_uint32 * 2)(0, 1)
    log = (c_uint8 * (16 * BUDGET))()
    end = library.mirvuttu_run(shop, owners, len(owners), messages, count, log, len(log), BUDGET)
    if end.refusal:
        sys.exit(f"refused {end.refusal}")
    for row in rows(bytes(log), end.events):
        print(row)
    print("done" if end.done else "budget", end.events, end.slot, end.sent, end.late)


def main():
    if len(sys.argv) != 2:
        sys.exit(__doc__)
    library = load(sys.argv[1])
    messages = (Message * 3)(
        Message(station=0, relative=25, length=3),
        Message(station=1, relative=28, length=2),
        Message(station=0, relative=100, length=1),
    )
    run(library, messages, len(messages))
    closed = library.mirvuttu_withdraw(messages, len(messages), 0)
    if closed.refusal:
        sys.exit(f"refused {closed.refusal}")
    print(f"till 0 closed: kept {closed.kept}, withdrawn {closed.withdrawn}")
    run(library, messages, closed.kept)


main()
