"""Records of tables, as the tests of this folder need them."""
RECORD = 128


def record(name, kind, content):
    return name.ljust(64, b"\0") + bytes([kind, len(content)]) + bytes(6) + content.ljust(56, b"\0")


NUMBERS = [record(b"A", 0, bytes(8)), record(b"B", 0, b"\xff" * 8)]
STRINGS = [
    record(b"C" + bytes([ord("A") + place]), 1 + place % 2, content)
    for place, content in enumerate(
        [b"", b"", b"it's", b"it's", b'"', b'"', b"a # b", b" = ", b"\t", b"\xe9\x00\x01", b"x" * 56, b"y" * 56, b"TRUE", b"1"])
]
PCD = [record(b"a.B", 1, b"z")]
# What no settings file can hold.
OTHERS = [record(b"D", 1, b"\r"), record(b"E", 2, b"\n"), record(b"F", 1, b"\"'"), record(b"G", 2, b"'\"")]
