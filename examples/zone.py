#!/usr/bin/env python3
"""A zone from Python, through the shared object: zone.py LIBCRZ.SO"""
import ctypes
import struct
import sys

IMAGE, CALL, ANSWER, ACCOUNTS = 6208, 24, 1040, 96
library = ctypes.CDLL(sys.argv[1])
library.crz_fresh.argtypes = [ctypes.c_char_p, ctypes.c_size_t]
for entry in (library.crz_call, library.crz_table):
    entry.argtypes = [ctypes.c_char_p, ctypes.c_size_t] * 3
library.crz_shortfalls.argtypes = [ctypes.c_char_p, ctypes.c_size_t] * 2
for entry in (library.crz_fresh, library.crz_call, library.crz_table, library.crz_shortfalls):
    entry.restype = ctypes.c_uint32


def record(kind, account=0, receipt=0, contract=0, days=0, amount=0, basis=0, weight=0):
    """The 24 bytes of a call."""
    return struct.pack("<5B3xQiI", kind, account, receipt, contract, days, amount, basis, weight)


def fields(answer):
    """Number, total in fen, and (lot, outcome, from, to, number) of each entry."""
    number, _, count, offset, total = struct.unpack_from("<BBHIQ", answer)
    return number, total, [struct.unpack_from("<4BI", answer, offset + 8 * i) for i in range(count)]


def call(image, *args, **kwargs):
    """Makes a call; returns the fields of its answer."""
    answer = ctypes.create_string_buffer(ANSWER)
    library.crz_call(image, IMAGE, record(*args, **kwargs), CALL, answer, ANSWER)
    return fields(answer.raw)


def table(image, *records):
    """Makes up to 32 calls together; returns the fields of each answer."""
    answers = ctypes.create_string_buffer(ANSWER * len(records))
    number = library.crz_table(image, IMAGE, b"".join(records), CALL * len(records), answers, len(answers))
    if number != 0:
        raise ValueError("crz_table returned %d" % number)
    return [fields(answers.raw[ANSWER * i:ANSWER * (i + 1)]) for i in range(len(records))]


def shortfalls(image):
    """Fen to pay in before the morning close, for each account that has to."""
    figures = ctypes.create_string_buffer(8 * ACCOUNTS)
    number = library.crz_shortfalls(image, IMAGE, figures, len(figures))
    if number != 0:
        raise ValueError("crz_shortfalls returned %d" % number)
    return {i + 1: fen for i, fen in enumerate(struct.unpack("<%dQ" % ACCOUNTS, figures.raw)) if fen != 0}


zone = ctypes.create_string_buffer(IMAGE)
library.crz_fresh(zone, IMAGE)
print(call(zone, 1, account=11, amount=100_000_000))                  # pay-in
print(call(zone, 3, account=1, receipt=1, weight=41_237, basis=100))  # register: the premium stands as basis
print(call(zone, 4, account=1, receipt=1, contract=1, basis=200))     # list
print(call(zone, 6, account=11, receipt=1, amount=15_003))            # limit-bid: no multiple of 5
print(call(zone, 6, account=11, receipt=1, amount=15_000))            # limit-bid
print(table(zone,
            record(9, contract=1, amount=14_995),                     # quote: strikes lot 1 at 15,000
            record(8, account=11, receipt=1)))                        # withdraw-bid: too late
print(call(zone, 2, account=11, amount=50_000_000))                   # take-out: 45,000,000 fen are left
print(shortfalls(zone))                                               # lot 1 is due today and costs 63,092,610
