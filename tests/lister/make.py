#!/usr/bin/env python3
# Makes the lister's stored inputs and the texts they must give, from document 01's format alone.
# Usage: tests/lister/make.py, at the root of the repository.
import gzip
import struct

COUNT = 1029


def records(contents):
    return [[k, b"\0" * 6, contents.get(k, 0)] for k in range(COUNT)]


def packed(rows):
    return b"".join(struct.pack("<H", k) + filler + struct.pack("<Q", v) for k, filler, v in rows)


def listing(contents):
    lines = []
    for k in range(1024):
        if contents.get(k, 0):
            lines.append("V%02d[%02d] %016X" % (k // 64, k % 64, contents[k]))
    lines.append("VLR %d" % contents.get(1024, 0))
    lines.append("VMR %016X" % contents.get(1025, 0))
    lines.append("VCR %d" % contents.get(1026, 0))
    lines.append("VAER %08X" % contents.get(1027, 0))
    lines.append("VPSR %08X" % contents.get(1028, 0))
    return "".join(line + "\n" for line in lines)


def store(name, data, text):
    with open("tests/lister/%s.in.gz" % name, "wb") as f:
        with gzip.GzipFile(filename="", mode="wb", compresslevel=9, fileobj=f, mtime=0) as z:
            z.write(data)
    with open("tests/lister/%s.out" % name, "w") as f:
        f.write(text)


def good(name, contents):
    store(name, packed(records(contents)), listing(contents))


def bad(name, data, record):
    store(name, data, "bad record %d\n" % record)


def changed(k, field, value, contents={}):
    rows = records(contents)
    rows[k][field] = value
    return packed(rows)


example = {5 * 64 + 3: 7, 1024: 4, 1028: 1}
with open("crates/lister/stdin", "wb") as f:
    f.write(packed(records(example)))
with open("crates/lister/stdout", "w") as f:
    f.write(listing(example))

mixed = {0: 1, 1: 0xFEDCBA9876543210, 63: 2**63, 64: 0xA, 640: 10**18, 1023: 2**64 - 1,
         1024: 10, 1025: 0x00000000DEADBEEF, 1026: 9, 1027: 0xFFFF002F, 1028: 0x81}
full = {k: (k * 0x9E3779B97F4A7C15 + 1) % 2**64 for k in range(1024)}
full.update({1024: 64, 1025: 2**64 - 1, 1026: 64, 1027: 0x80000001, 1028: 0x80})
good("zero", {})
good("mixed", mixed)
good("full", full)

whole = packed(records(mixed))
bad("empty", b"", 0)
bad("cut-first", whole[:15], 0)
bad("cut-700", whole[:700 * 16 + 5], 700)
bad("missing-last", whole[:1028 * 16], 1028)
bad("misnumbered-0", changed(0, 0, 1), 0)
bad("misnumbered-77", changed(77, 0, 78), 77)
bad("misnumbered-high", changed(258, 0, 2), 258)
for i in range(6):
    bad("filler-%d" % i, changed(1000 + i, 1, b"\0" * i + b"\1" + b"\0" * (5 - i)), 1000 + i)
bad("vlr-65", changed(1024, 2, 65), 1024)
bad("vlr-high", changed(1024, 2, 2**63), 1024)
bad("vcr-65", changed(1026, 2, 65), 1026)
bad("vaer-bit-4", changed(1027, 2, 16), 1027)
bad("vaer-bit-32", changed(1027, 2, 2**32), 1027)
bad("vpsr-bit-1", changed(1028, 2, 2), 1028)
bad("vpsr-bit-8", changed(1028, 2, 256), 1028)
bad("over-1", whole + b"\0", 1029)
bad("over-16", whole + b"\0" * 16, 1029)
bad("over-much", whole + b"\0" * 100000, 1029)
bad("bad-5-over", changed(5, 0, 6) + b"\0" * 40, 5)
