"""The table of data fields: code and type name one field, which takes what the row says, in this many bytes."""
import library
from manual import codes, matched, number, rows
from product import ask

ROOM = 16
TEXT = b"SPAR"
# The expression of a string, and its bytes in the field.
STRINGS = {
    ("a string", "its bytes and a zero"): ('"SPAR"', TEXT + b"\0"),
    ("a wide string", "for each byte that byte and a zero, then two zeros"): ('L"SPAR"', b"".join(bytes([c, 0]) for c in TEXT) + b"\0\0"),
}
TOPS = {"0 or 1": 1, "any number": 2**64 - 1}


def field(code, name, expression):
    """A field by the type's name, from the command, and by its code, from the library: its bytes, or a refusal."""
    printed = ask("field", "--datum", name, expression)
    refusal, _, length, buffer = library.field(expression.encode(), b"", code, ROOM)
    return bytes.fromhex(printed.decode()) if isinstance(printed, bytes) else printed, refusal or buffer[:length]


def top(takes):
    """The largest number that a type takes."""
    return TOPS[takes] if takes in TOPS else number(*matched(r"0 to ([\d,]+)", takes))


def numbers(largest, size):
    """Numbers with the bytes that a cell tells: the smallest and the largest one, and one that shows the order of its bytes."""
    one, several = matched(r"(1)|([248]), the lowest first", size)
    for value in 0, largest, 0x0102030405060708 & largest:
        # A largest number of more bytes is a fault of the cell; its bytes are then too many, and not those of the product.
        yield value, value.to_bytes(8, "little").rstrip(b"\0").ljust(int(one or several), b"\0")


def checks():
    found = rows("Data fields", "code", "type", "takes", "bytes")
    yield "codes of data fields", [int(row[0]) for row in found], [0, *range(6)]
    for code, (name,), takes, size in [(int(code), codes(name), takes, size) for code, name, takes, size in found]:
        what = "%s, %s: " % (name, takes)
        if (takes, size) in STRINGS:
            expression, wanted = STRINGS[takes, size]
            yield what + "a string", field(code, name, expression), (wanted, wanted)
            yield what + "a number is refused", field(code, name, "0"), (24, 24)
            continue
        for value, wanted in numbers(top(takes), size):
            yield what + str(value), field(code, name, str(value)), (wanted, wanted)
        if takes != "any number":
            yield what + "one more", field(code, name, str(top(takes) + 1)), (25, 25)
        for expression in '"1"', 'L"1"':
            yield what + expression, field(code, name, expression), (24, 24)
