"""Lookups at every position of small tables and of the largest ones, and beside every name (document 02, order 4).

The names of a table end in the odd numbers 1, 3, 5 and so on, so the even numbers beside them are not in it, and each record has a value
of its own."""
from tables import MISSING, NUMBER, record

# Beginnings of names: short, longer than two words of eight bytes, and one that makes names of 64 bytes.
SHORT, SHARED, LONGEST = b"N", b"SHARED_BEGINNING_", b"X" * 60

SIZES = {SHORT: (0, 1, 2, 3, 511, 512), SHARED: (3, 512), LONGEST: (3, 512)}


def name(beginning, number):
    return beginning + b"%04d" % number


def value(number):
    return 2**63 + 3 * number


def table(beginning, size):
    return b"".join(record(name(beginning, number), NUMBER, value(number)) for number in range(1, 2 * size, 2))


def lookups(beginning, size):
    made = table(beginning, size)
    # the least name and the greatest, less and greater than every other
    yield made, b"", (MISSING, 0, 0)
    yield made, b"\xff" * 64, (MISSING, 0, 0)
    for number in range(2 * size + 1):
        found = (NUMBER, value(number), 0) if number % 2 else (MISSING, 0, 0)
        yield made, name(beginning, number), found
        if number % 2:
            # the next greater bytes, and the next lesser ones that are a beginning of the name
            yield made, name(beginning, number) + b"\0", (MISSING, 0, 0)
            yield made, name(beginning, number)[:-1], (MISSING, 0, 0)


LOOKUPS = [each for beginning, sizes in SIZES.items() for size in sizes for each in lookups(beginning, size)]
