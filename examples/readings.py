# One heat step, over the installed library, from Python. readings.c, readings.cc and readings.rs do the same.
#   python3 readings.py SAVED
# The library is found as any shared library is, or by its path in KUJAWIAN_LIBRARY.
import os
import struct
import sys
from ctypes import CDLL, byref, c_size_t, c_uint8, c_uint16, c_uint32, c_uint64

kujawian = CDLL(os.environ.get("KUJAWIAN_LIBRARY", "libkujawian.so"))
elements, control = (c_uint64 * 1024)(), (c_uint64 * 5)()  # the control record goes as an array of five
marks = (c_uint64 * 16)()  # zeros: new marks
beside, kind_read, bits = c_uint64(), c_uint64(), c_uint64()


def call(name, *arguments):
    function = getattr(kujawian, name)
    function.restype = c_uint32
    number = function(*arguments, byref(beside))
    if number != 0:
        print("refused:", number, beside.value)
        sys.exit(1)


def part(kind, *values):  # a slice: an array and its length
    return (kind * len(values))(*values), c_size_t(len(values))


try:
    with open(sys.argv[1], "rb") as file:
        saved = file.read()
except (OSError, IndexError) as why:
    print("readings:", why, file=sys.stderr)
    sys.exit(2)
call("kuj_load", elements, control, marks, *part(c_uint8, *saved))
call("kuj_clear_marks", marks)  # loading marks everything; from here, what the queue writes

# V2 = V1 - V0, V2 = 0.125 * V2, V0 = V0 + V2
call("kuj_run", elements, control, marks,
     *part(c_uint8, 0x8C, 0xA5, 0x84), *part(c_uint16, 0x2102, 0x2022, 0x2020), *part(c_uint64, 0, 0x3F00, 0))
for zone in range(64):
    if not marks[0] >> zone & 1:  # V0's element was not written
        continue
    call("kuj_reading", elements, control, c_uint32(0), c_uint32(zone), c_uint32(0), byref(kind_read), byref(bits))
    if kind_read.value == 0:
        print(zone, "%.6f" % struct.unpack("<d", struct.pack("<Q", bits.value)))
    else:
        print(zone, "reserved operand")
