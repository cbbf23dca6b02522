"""The table of DEFINE lines: a line that is kept sets its macro, is plain, or is refused, as its row says; a dropped one is always plain."""
from manual import codes, matched, rows
from product import marks

# The lines below a DEFINE of A: their marks tell whether it is set.
BELOW = "\n!ifdef A\n!endif"


def checks():
    for cell, told in rows("DEFINE lines", "line", "where it is kept"):
        mark, refusal = matched(r"(?:sets A|plain), mark (\d)(?::.*)?|refused \((\d+)\): .*", told)
        for line in codes(cell):
            wanted = int(refusal) if refusal else mark + ("45" if told.startswith("sets A") else "35")
            yield "%s, kept" % line, marks(line + BELOW), wanted
            yield "%s, dropped" % line, marks("!if 0\n%s\n!endif" % line), "305"
