#!/usr/bin/env python3
"""Makes a pod with a given number of units: a meta file and one counter file.

usage: make_pod.py DIR UNITS [FIRST]

Each function has four units, each package up to 1,000 functions in ten files. FIRST is a number that goes into the names of
packages, so that two pods may have different units. Every third function never ran.
"""
import hashlib
import os
import struct
import sys

UNITS_OF_A_FUNCTION = 4
FUNCTIONS_OF_A_PACKAGE = 1000


def uleb(number):
    groups = bytearray()
    while True:
        group = number & 127
        number >>= 7
        if number:
            groups.append(group | 128)
        else:
            groups.append(group)
            return bytes(groups)


def blob(index, functions):
    path = "example.com/big/p%d" % index
    strings = []
    numbers = {}

    def number(text):
        if text not in numbers:
            numbers[text] = len(strings)
            strings.append(text)
        return numbers[text]

    names = struct.pack("<III", number("p%d" % index), number(path), number("example.com/big"))
    records = []
    for f in range(functions):
        record = bytearray(uleb(UNITS_OF_A_FUNCTION))
        record += uleb(number("Function%d" % f)) + uleb(number("%s/file%d.go" % (path, f % 10)))
        line = 10 * (f // 10) + 1
        for u in range(UNITS_OF_A_FUNCTION):
            for n in (line + 2 * u, 2 + u, line + 2 * u + 1, 10 + u, 1 + u):
                record += uleb(n)
        record += uleb(0)
        records.append(bytes(record))
    table = uleb(len(strings)) + b"".join(uleb(len(s)) + s.encode() for s in strings)
    at = 44 + 4 * functions + len(table)
    offsets = bytearray()
    for record in records:
        offsets += struct.pack("<I", at)
        at += len(record)
    head = struct.pack("<I", at) + names + bytes(16) + bytes(4) + struct.pack("<II", len(strings), functions)
    return head + bytes(offsets) + table + b"".join(records)


def main():
    folder, units = sys.argv[1], int(sys.argv[2])
    first = int(sys.argv[3]) if len(sys.argv) > 3 else 0
    functions = units // UNITS_OF_A_FUNCTION
    sizes = [min(FUNCTIONS_OF_A_PACKAGE, functions - f) for f in range(0, functions, FUNCTIONS_OF_A_PACKAGE)]
    blobs = [blob(first + i, n) for i, n in enumerate(sizes)]
    start = 56 + 16 * len(blobs) + 2
    offsets, at = [], start
    for b in blobs:
        offsets.append(at)
        at += len(b)
    digest = hashlib.md5(b"".join(blobs)).digest()
    head = b"\0cvm" + struct.pack("<IQQ", 1, at, len(blobs)) + digest
    head += struct.pack("<II", start - 2, 2) + bytes([3, 1]) + bytes(6)
    head += b"".join(struct.pack("<Q", o) for o in offsets) + b"".join(struct.pack("<Q", len(b)) for b in blobs)
    os.makedirs(folder, exist_ok=True)
    with open(os.path.join(folder, "covmeta." + digest.hex()), "wb") as meta:
        meta.write(head + b"\x01\x00" + b"".join(blobs))
    entries = bytearray()
    count = 0
    for p, n in enumerate(sizes):
        for f in range(n):
            if f % 3 != 2:
                entries += uleb(UNITS_OF_A_FUNCTION) + uleb(p) + uleb(f)
                for u in range(UNITS_OF_A_FUNCTION):
                    entries += uleb((f * 7 + u) % 300)
                count += 1
    with open(os.path.join(folder, "covcounters." + digest.hex() + ".1.1"), "wb") as counters:
        counters.write(b"\0cwm" + struct.pack("<I", 1) + digest + bytes([2, 0]) + bytes(6))
        counters.write(struct.pack("<QII", count, 1, 3) + b"\0" + bytes(3) + bytes(entries))
        counters.write(b"\0cwm" + bytes(4) + struct.pack("<I", 1) + bytes(4))


main()
