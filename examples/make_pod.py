#!/usr/bin/env python3
"""Makes the pod in examples/pod from its fields: the meta file of one function, and one counter file.

Use: examples/make_pod.py [FOLDER]   (default: pod, beside this file)
The program is `main` of module example.com/m: an if with one branch taken.
"""
import os
import struct
import sys

HASH = b"\x11" * 16
TEXTS = [b"main", b"example.com/m", b"example.com/m/main.go"]
# start line, start column, end line, end column, statements
UNITS = [(5, 13, 7, 11, 2), (7, 11, 9, 3, 1), (9, 8, 11, 3, 1)]
COUNTS = [1, 1, 0]


def u32(n):
    return struct.pack("<I", n)


def u64(n):
    return struct.pack("<Q", n)


def uleb(n):
    out = b""
    while n >= 128:
        out += bytes([n % 128 + 128])
        n //= 128
    return out + bytes([n])


def strings(texts):
    return uleb(len(texts)) + b"".join(uleb(len(t)) + t for t in texts)


def blob():
    record = uleb(len(UNITS)) + uleb(0) + uleb(2) + b"".join(uleb(n) for unit in UNITS for n in unit) + uleb(0)
    table = strings(TEXTS)
    header = 44
    record_at = header + 4 + len(table)
    rest = u32(0) + u32(1) + u32(1) + b"\x22" * 16 + u32(0) + u32(len(TEXTS)) + u32(1) + u32(record_at) + table + record
    return u32(4 + len(rest)) + rest


def meta():
    body = blob()
    file_table = strings([b""])
    blob_at = 72 + len(file_table)
    total = blob_at + len(body)
    head = b"\x00cvm" + u32(1) + u64(total) + u64(1) + HASH + u32(72) + u32(len(file_table)) + bytes([1, 1]) + b"\x00" * 6
    return head + u64(blob_at) + u64(len(body)) + file_table + body


def counters():
    head = b"\x00cwm" + u32(1) + HASH + bytes([2, 0]) + b"\x00" * 6 + u64(1) + u32(1) + u32(3)
    parts = b"\x00" + b"\x00\x00\x00"
    entry = uleb(len(COUNTS)) + uleb(0) + uleb(0) + b"".join(uleb(n) for n in COUNTS)
    footer = b"\x00cwm" + u32(0) + u32(1) + u32(0)
    return head + parts + entry + footer


folder = sys.argv[1] if len(sys.argv) > 1 else os.path.join(os.path.dirname(os.path.abspath(__file__)), "pod")
os.makedirs(folder, exist_ok=True)
digits = HASH.hex()
with open(os.path.join(folder, "covmeta." + digits), "wb") as file:
    file.write(meta())
with open(os.path.join(folder, "covcounters." + digits + ".1.1"), "wb") as file:
    file.write(counters())
