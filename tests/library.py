"""The shared library's calls, for the vectors and the tables of the manual. Every call that reads an expression or a file takes a dialect;
without one it is the old edition, as with the command."""
import ctypes
import os

ROOT = os.path.dirname(os.path.dirname(os.path.abspath(__file__)))
LIB = ctypes.CDLL(os.path.join(ROOT, "target", "libkorzhinay.so"))
LIB.korzhinay_table.restype = ctypes.c_uint8
LIB.korzhinay_lookup.restype = ctypes.c_uint8
LIB.korzhinay_evaluate.restype = ctypes.c_uint8
LIB.korzhinay_field.restype = ctypes.c_uint8
LIB.korzhinay_select.restype = ctypes.c_uint8
SIZE = ctypes.c_size_t
BYTE = ctypes.c_uint8

# The editions, as dialects.
NEW, OLD = 0, 1

# What is in a lent array before a call: entries that a call must not write have to keep it.
CODE, START, LENGTH, VALUE = 0xA5, 0xA5A5, 0x5A5A, 0xA5A5A5A5A5A5A5A5
# How many numbers after a lent array of numbers are looked at as well.
GUARDS = 2


def numbers(count):
    """An array of this many numbers to lend, and guards after it."""
    return (ctypes.c_uint64 * (count + GUARDS))(*[VALUE] * (count + GUARDS))


def taken_back(out):
    """The numbers of an array that was lent; its guards must stay."""
    if tuple(out[-GUARDS:]) != (VALUE,) * GUARDS:
        raise AssertionError("more than %d numbers were written" % (len(out) - GUARDS))
    return tuple(out[:-GUARDS])


def table(data):
    return LIB.korzhinay_table(data, SIZE(len(data)))


def lookup(data, name):
    """The refusal number (0: none) and the three numbers of the answer, as they were before on a refusal."""
    out = numbers(3)
    refusal = LIB.korzhinay_lookup(data, SIZE(len(data)), name, SIZE(len(name)), out)
    return refusal, taken_back(out)


def tokens(expression, dialect=OLD):
    """The refusal's number (0: none) and offset, and the tokens that were read, each (code, start, length, value)."""
    out = numbers(3)
    codes = (ctypes.c_uint8 * 200)(*[CODE] * 200)
    starts = (ctypes.c_uint16 * 200)(*[START] * 200)
    lens = (ctypes.c_uint16 * 200)(*[LENGTH] * 200)
    values = (ctypes.c_uint64 * 200)(*[VALUE] * 200)
    LIB.korzhinay_tokens(expression, SIZE(len(expression)), BYTE(dialect), out, codes, starts, lens, values)
    number, count, offset = taken_back(out)
    for i in range(count, 200):
        if (codes[i], starts[i], lens[i], values[i]) != (CODE, START, LENGTH, VALUE):
            raise AssertionError("entry %d was written, of %d" % (i, count))
    return number, offset, [(codes[i], starts[i], lens[i], values[i]) for i in range(count)]


def evaluate(expression, table, dialect=OLD):
    """The refusal's number (0: none) and offset, and the six numbers of the answer."""
    out = numbers(7)
    refusal = LIB.korzhinay_evaluate(expression, SIZE(len(expression)), table, SIZE(len(table)), BYTE(dialect), out)
    *answer, offset = taken_back(out)
    return refusal, offset, tuple(answer)


def untouched(length):
    """What is in a field's buffer before the call: no byte is that of its neighbours, or zero."""
    return bytes(1 + 7 * i % 251 for i in range(length))


def field(expression, table, datum, room, dialect=OLD):
    """The refusal's number (0: none) and offset, the length of the field and every byte of the buffer; those after it must stay."""
    before = untouched(room + 16)
    buffer = (ctypes.c_uint8 * (room + 16))(*before)
    out = numbers(2)
    refusal = LIB.korzhinay_field(
        buffer, SIZE(room), expression, SIZE(len(expression)), table, SIZE(len(table)), BYTE(datum), BYTE(dialect), out
    )
    after = bytes(buffer)
    if after[room:] != before[room:]:
        raise AssertionError("bytes past the buffer were written")
    length, offset = taken_back(out)
    return refusal, offset, length, after[:room]


def unmarked(length):
    """What is in the marks before the call: no byte is a mark, or that of its neighbours."""
    return bytes(7 + 7 * i % 241 for i in range(length))


def select(file, table, room, dialect=OLD):
    """The refusal's number (0: none), line and offset, how many lines and operators there are, and every byte of the marks; those after it
    must stay."""
    before = unmarked(room + 16)
    marks = (ctypes.c_uint8 * (room + 16)).from_buffer_copy(before)
    out = numbers(4)
    refusal = LIB.korzhinay_select(marks, SIZE(room), file, SIZE(len(file)), table, SIZE(len(table)), BYTE(dialect), out)
    after = bytes(marks)
    if after[room:] != before[room:]:
        raise AssertionError("bytes past the marks were written")
    line, lines, count, offset = taken_back(out)
    return refusal, line, offset, lines, count, after[:room]
