"""Opens the shared library that the first argument names; the second names a file with the AND of two inputs, the third one with
that table masked at order 1. Prints the version."""
import ctypes
import sys
from ctypes import POINTER, Structure, c_size_t, c_uint8, c_uint32


class Answer(Structure):
    _fields_ = [("number", c_uint8), ("place", c_uint32), ("value", c_uint32)]


class Sizes(Structure):
    _fields_ = [("number", c_uint8), ("place", c_uint32), ("shares", c_uint32), ("wires", c_uint32), ("tape", c_uint32),
                ("bytes", c_uint32)]


class Marks(Structure):
    _fields_ = [("number", c_uint8), ("place", c_uint32), ("first", c_uint8), ("second", c_uint8)]


def declare(call, result, *parameters):
    call.restype, call.argtypes = result, parameters
    return call


def values(answer):
    return [getattr(answer, name) for name, _ in answer._fields_]


def expect(seen, wanted):
    if seen != wanted:
        sys.exit(f"{seen} is not {wanted}")


library = ctypes.CDLL(sys.argv[1])
slice_of = [POINTER(c_uint8), c_size_t]
version = declare(library.masks_version, c_uint32)
check = declare(library.masks_check, Answer, *slice_of)
forecast = declare(library.masks_forecast, Sizes, *slice_of, c_uint8)
mask = declare(library.masks_mask, Answer, *slice_of, c_uint8, *slice_of)
marks = declare(library.masks_marks_of, Marks, *slice_of, c_uint8, c_uint32)

with open(sys.argv[2], "rb") as file:
    table = file.read()
with open(sys.argv[3], "rb") as file:
    wanted = file.read()


def lend(content):
    return (c_uint8 * len(content))(*content), len(content)


expect(values(check(*lend(table))), [0, 0, 3])
expect(values(check(*lend(table[:5]))), [1, 0, 0])
sizes = forecast(*lend(table), 1)
expect(values(sizes), [0, 0, 3, 30, 7, 132])
# ctypes cuts an order above 255 as C does
expect(values(forecast(*lend(table), 257)), values(sizes))
expect(values(forecast(*lend(table), 16)), [6, 0, 0, 0, 0, 0])
out = (c_uint8 * sizes.bytes)()
expect(values(mask(*lend(table), 1, out, sizes.bytes - 1)), [9, 0, 0])
expect(bytes(out), bytes(sizes.bytes))
expect(values(mask(*lend(table), 1, out, sizes.bytes)), [0, 0, 132])
expect(bytes(out), wanted)
# the operand of the second NOT is no earlier wire: a refusal with a place
expect(values(check(*lend([1, 0, 2, 0, 1, 0, 0, 0, 0, 0, 0, 0, 9, 0, 0, 0, 1, 0]))), [4, 1, 0])
expect(values(marks(*lend(table), 1, 30)), [13, 0, 0, 0])
print(version())
