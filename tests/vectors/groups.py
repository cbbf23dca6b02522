"""Selection, line after line: groups, which branch is taken, which directives are read, and 19 to 21. Worked out by hand from
document 01 (Lines and directives) and the decisions in docs/DECISIONS.md.

A vector is a file, with `|` for the LF between its lines, and its answer: the marks as digits and the count of operators, or the refusal's
number, line and offset; the offset is left out where the refusal has no place. No name is set in the table unless a vector says so.
"""
from settings import numbers

WHOLE = b"!if $(FOO) == 2|A|!elseif 1 / 0|B|!else|C|!endif|D"
WATCHDOG = b"a|!if $(WEEK) GE 48 AND $(WEEK) LE 5|watchdog|!endif|b"
MENDED = b"a|!if $(WEEK) GE 48 OR $(WEEK) LE 5|watchdog|!endif|b"

# With a table.
WITH_TABLE = [
    # document 01's whole case
    (WHOLE, numbers(FOO=2), ("41203051", 1)),
    (WHOLE, numbers(FOO=3), (12, 3, 10)),
    (WHOLE, b"", (12, 3, 10)),
    (WHOLE.replace(b"1 / 0", b"0"), numbers(FOO=3), ("30304151", 1)),
    (WHOLE.replace(b"1 / 0", b"2 / 2"), numbers(FOO=3), ("30413051", 2)),
    # document 00's window over the new year, never true, and the one that was meant
    (WATCHDOG, numbers(WEEK=50), ("13051", 3)),
    (WATCHDOG, numbers(WEEK=48), ("13051", 3)),
    (WATCHDOG, numbers(WEEK=5), ("13051", 2)),
    (WATCHDOG, numbers(WEEK=20), ("13051", 2)),
    (WATCHDOG, b"", ("13051", 2)),
    (MENDED, numbers(WEEK=50), ("14151", 2)),
    (MENDED, numbers(WEEK=48), ("14151", 2)),
    (MENDED, numbers(WEEK=47), ("13051", 3)),
    (MENDED, numbers(WEEK=6), ("13051", 3)),
    (MENDED, numbers(WEEK=5), ("14151", 3)),
    (MENDED, b"", ("14151", 3)),
    # one table for the whole file
    (b"!if $(A) == 1|a|!endif|!if $(B) == 2|b|!endif", numbers(A=1, B=2), ("415415", 2)),
    (b"!if $(A) == 1|a|!endif|!if $(B) == 2|b|!endif", numbers(A=1, B=1), ("415305", 2)),
    (b"!if $(A)|!if $(B)|!if $(C)|x|!endif|!endif|!endif", numbers(A=1, B=1, C=1), ("4441555", 0)),
    (b"!if $(A)|!if $(B)|!if $(C)|x|!endif|!endif|!endif", numbers(A=1, B=0, C=1), ("4320255", 0)),
    (b"!if $(A)|!if $(B)|!if $(C)|x|!endif|!endif|!endif", numbers(A=0, B=9, C=9), ("3220225", 0)),
    # plain lines are not read, except DEFINE lines, which are in define_lines.py: what looks like a definition sets nothing
    (b"A = 1|!if $(A)|x|!endif", b"", ("1305", 0)),
    (b"EDK_GLOBAL A = 1|!ifdef A|x|!endif", b"", ("1305", 0)),
]

TAKEN = [
    # one group
    (b"!if 1|a|!endif", ("415", 0)),
    (b"!if 0|a|!endif", ("305", 0)),
    (b"!if 1|!endif", ("45", 0)),
    (b"!if 0|!endif|a", ("351", 0)),
    (b"!if 1|!else|!endif", ("435", 0)),  # R21
    (b"!if 0|!else|!endif", ("345", 0)),
    (b"!if 1|a|!else|b|!endif|c", ("413051", 0)),
    (b"!if 0|a|!else|b|!endif|c", ("304151", 0)),
    (b"!if 0|a|!elseif 1|b|!else|c|!endif", ("3041305", 0)),
    (b"!if 0|a|!elseif 0|b|!else|c|!endif", ("3030415", 0)),
    (b"!if 0|a|!elseif 0|b|!endif|c", ("303051", 0)),
    (b"!if 1|a|!elseif 1|b|!else|c|!endif", ("4120305", 0)),
    (b"!if 1|a|!elseif 0|b|!endif|c", ("412051", 0)),
    (b"!if 0|a|!elif 1|b|!elif 1|c|!elif 0|d|!else|e|!endif|f", ("304120203051", 0)),
    (b"!if 0|!elif 0|!elseif 0|!elif 1|!elseif 1|!else|!endif", ("3334235", 0)),  # R31
    (b"!if 0|!elseif 0|!elif 0|!else|a|!endif", ("333415", 0)),
    (b"!ifdef A|a|!else|b|!endif", ("30415", 0)),
    (b"!ifndef A|a|!else|b|!endif", ("41305", 0)),
    (b"!ifdef A|a|!elseif 1|b|!endif", ("30415", 0)),
    (b"!ifndef A|a|!elif @|b|!endif", ("41205", 0)),
    # one group after another
    (b"!if 1|a|!endif|!if 0|b|!endif|!if 1|c|!endif|d", ("4153054151", 0)),
    (b"!if 0|a|!endif|b|!if 1|c|!else|d|!endif|e", ("3051413051", 0)),
    (b"!if 1|a|!endif|b|!if 0|c|!else|d|!endif|e", ("4151304151", 0)),
    (b"!if 1|!endif|!if 0|!elif 1|!endif|!ifdef A|!else|!endif", ("45345345", 0)),
    # a group in a taken branch is read
    (b"!if 1|!if 1|a|!endif|b|!endif", ("441515", 0)),
    (b"!if 1|!if 0|a|!else|b|!endif|c|!endif|d", ("430415151", 0)),
    (b"!if 0|a|!else|!if 1|b|!else|c|!endif|d|!endif", ("3044130515", 0)),
    (b"!if 0|!elif 1|!if 0|a|!elif 1|b|!endif|!else|!if 1|c|!endif|!endif", ("343041532025", 0)),
    (b"!if 1|!ifdef A|!ifndef A|a|!endif|b|!else|!ifndef A|c|!endif|!endif|!endif", ("432020441555", 0)),
    # a group in a dropped branch is not, whatever its words are; but its `!endif` closes it and no other
    (b"!if 0|!if 1|a|!endif|b|!endif|c", ("3202051", 0)),
    (b"!if 0|!ifdef A|a|!endif|b|!endif|c", ("3202051", 0)),
    (b"!if 0|!ifndef A|a|!endif|b|!endif|c", ("3202051", 0)),
    (b"!if 0|!if 1|!else|a|!endif|!else|b|!endif", ("32202415", 0)),
    (b"!if 0|!ifdef A|!else|a|!endif|!else|b|!endif", ("32202415", 0)),
    (b"!if 0|!ifndef A|!else|a|!endif|!else|b|!endif", ("32202415", 0)),
    (b"!if 0|!if 0|!elseif 1|a|!elif 1|b|!else|c|!endif|d|!else|e|!endif", ("3220202020415", 0)),
    (b"!if 1|a|!else|!if 1|b|!else|c|!endif|d|!endif|e", ("41320202051", 0)),
    (b"!if 1|a|!elseif 1|!ifndef A|b|!elif 1|c|!endif|d|!else|!ifdef A|!endif|!endif|e", ("41220202032251", 0)),
    (b"!if 0|!ifdef A|!ifndef B|!if 1|a|!endif|b|!endif|c|!endif|d|!else|e|!endif|f", ("322202020204151", 0)),
    (b"!if 0|!if 1|!endif|!if 1|!endif|!ifdef A|!endif|a|!endif|b", ("3222222051", 0)),
    # the group around goes on as it was
    (b"!if 1|!if 0|!if 1|!endif|!endif|a|!endif", ("4322515", 0)),
    (b"!if 0|!if 1|!endif|!elseif 1|a|!endif", ("322415", 0)),
    (b"!if 1|!if 1|!endif|!elseif 1 / 0|a|!endif", ("445205", 0)),
    (b"!if 1|!if 0|!else|!endif|!else|a|!endif", ("4345305", 0)),
    (b"!if 0|!if 1|!endif|!else|!if 0|!else|a|!endif|b|!endif", ("3224341515", 0)),
]

# What is not read is not looked at, whatever it is.
UNREAD = [
    # `!elseif` after a taken branch
    (b"!if 1|!elseif 1 / 0|!endif", ("425", 0)),  # R33
    (b"!if 1|!elseif|!endif", ("425", 0)),
    (b"!if 1|!elseif@|!endif", ("425", 0)),
    (b"!if 1|!elseif(1)|!endif", ("425", 0)),
    (b"!if 1|!elif '|!endif", ("425", 0)),
    (b"!if 1|!elif 2|!endif", ("425", 0)),
    (b"!if 1|!elif 'a'|!endif", ("425", 0)),
    (b"!if 1|!elif g.None|!endif", ("425", 0)),
    (b"!if 1|!elif 1 + 1 == 2|!endif", ("425", 0)),
    (b"!if 1|!elif " + b"(" * 300 + b"|!endif", ("425", 0)),
    (b"!if 1|!elif " + b"-" * 201 + b"|!endif", ("425", 0)),
    (b"!if 1|!elif 18446744073709551616|!endif", ("425", 0)),
    (b"!if 1|!elif 1 \xff\0\r x|!endif", ("425", 0)),
    (b"!if 0|!elseif 1|!elseif @|!elif\"|!endif", ("34225", 0)),
    (b"!ifndef A|!elseif @|!elif|!else|!endif", ("42235", 0)),
    # but `!else` and `!endif` are read there
    (b"!if 1|!elif @|!else x|!endif", (22, 3)),
    (b"!if 1|!elif @|!endif x", (22, 3)),
    # every word in a dropped branch
    (b"!if 0|!if|!endif|!endif", ("3225", 0)),
    (b"!if 0|!if@|!endif|!endif", ("3225", 0)),
    (b"!if 0|!if @|!endif|!endif", ("3225", 0)),
    (b"!if 0|!if 1 / 0|!endif|!endif", ("3225", 0)),
    (b"!if 0|!if 2|!endif|!endif", ("3225", 0)),
    (b"!if 0|!if 'a|!endif|!endif", ("3225", 0)),
    (b"!if 0|!if g.None|!endif|!endif", ("3225", 0)),
    (b"!if 0|!if " + b"(" * 1000 + b"|!endif|!endif", ("3225", 0)),
    (b"!if 0|!ifdef|!endif|!endif", ("3225", 0)),
    (b"!if 0|!ifdef$(A|!endif|!endif", ("3225", 0)),
    (b"!if 0|!ifdef a b|!endif|!endif", ("3225", 0)),
    (b"!if 0|!ifndef|!endif|!endif", ("3225", 0)),
    (b"!if 0|!ifndef ?|!endif|!endif", ("3225", 0)),
    (b"!if 0|!ifndef(|!endif|!endif", ("3225", 0)),
    (b"!if 0|!if 1|!elseif|!endif|!endif", ("32225", 0)),
    (b"!if 0|!if 0|!elseif 1 / 0|!elif@|!endif|!endif", ("322225", 0)),
    (b"!if 0|!if 0|!else x|!endif|!endif", ("32225", 0)),
    (b"!if 0|!if 0|!else'\"$(|!endif|!endif", ("32225", 0)),
    (b"!if 0|!if 0|!endif x|!endif", ("3225", 0)),
    (b"!if 0|!if 0|!endif\0\xff|!endif", ("3225", 0)),
    (b"!if 1|!else|!if|!elif|!else @|!endif @|!endif", ("4322225", 0)),
    (b"!if 1|!elif|!ifdef|!elif|!else @|!endif @|!endif", ("4222225", 0)),
    # a group inside of an unread `!elseif`'s branch
    (b"!if 1|!elseif 1|!if 1|a|!endif|b|!endif|c", ("42202051", 0)),
    # the count is of what is read
    (b"!if 1|!elif 1 + 1 == 2|!endif|!if 0|!if 1 + 1|!endif|!endif", ("4253225", 0)),
    (b"!if 0|a|!if !1|!elif !0|!else|!endif|!endif", ("3022225", 0)),
]

# The count is summed over the conditions that are read.
COUNTS = [
    (b"!if 1 + 1 == 2|!endif", ("45", 2)),
    (b"!if !0|!endif|!if !1|!endif|!if !!0|!endif", ("453535", 4)),
    (b"!if 1 - 1|!elif 2 - 1 - 1|!elif !0|!elif 1 + 1|!endif", ("33425", 4)),
    (b"!if 3 < 2|!elseif 3 < 3|!elseif 3 < 4|!elseif 3 < 5|!else|!endif", ("334235", 3)),
    (b"!if 1 == 1|!if 2 == 2 AND 1|!if 0 AND 1 / 0|!endif|!endif|!endif", ("443555", 4)),
    (b"!ifdef A|!endif|!ifndef A|!endif", ("3545", 0)),
    (b"!ifdef A|!elif !0|!endif|!ifndef A|!elif !0|!endif", ("345425", 1)),
    (b"!if (0)|!endif|!if ((((1))))|!endif", ("3545", 0)),
    (b"!if 1 ? 0 : 1 / 0|!endif|!if 1 OR 1 / 0|!endif", ("3545", 2)),
    (b"!if " + b"!" * 199 + b"0|!endif|!if " + b"!" * 198 + b"0|!endif", ("4535", 397)),
    (b"|".join([b"!if " + b"!" * 199 + b"0|!endif"] * 30), ("45" * 30, 30 * 199)),
    (b"|".join([b"!if 1 + 1 - 1 == 1|!endif"] * 2000), ("45" * 2000, 6000)),
]

# 19: a directive without its group, or too late in it, in a dropped branch too.
OUT_OF_PLACE = [
    (b"!endif", (19, 1)),
    (b"!else", (19, 1)),
    (b"!elseif 1", (19, 1)),
    (b"!elif 1", (19, 1)),
    (b"a|b|!endif", (19, 3)),
    (b"a|!else|!endif", (19, 2)),
    (b"|\t!elif 0", (19, 2)),
    (b"!if 1|!endif|!endif", (19, 3)),
    (b"!if 1|!endif|!else", (19, 3)),
    (b"!if 0|!endif|!elif 1", (19, 3)),
    (b"!if 0|!endif|!elseif 1", (19, 3)),
    (b"!ifdef A|!endif|!endif", (19, 3)),
    (b"!if 1|!if 1|!endif|!endif|!endif", (19, 5)),
    (b"!if 0|!ifdef A|!endif|!endif|!endif", (19, 5)),
    (b"!if 0|!ifndef A|!endif|!endif|!else", (19, 5)),
    (b"!if 1|!else|!else|!endif", (19, 3)),
    (b"!if 0|!else|!else|!endif", (19, 3)),
    (b"!if 1|!else|!elseif 1|!endif", (19, 3)),
    (b"!if 1|!else|!elif 1|!endif", (19, 3)),
    (b"!if 0|!else|!elseif 1|!endif", (19, 3)),
    (b"!if 0|!elif 1|!else|!elif 0|!endif", (19, 4)),
    (b"!ifdef A|!else|a|!else|!endif", (19, 4)),
    (b"!if 1|!else|!if 1|!endif|!else|!endif", (19, 5)),
    (b"!if 0|!if 1|!else|!elif @|", (19, 4)),  # R27
    (b"!if 0|!if 1|!else|!elseif @|", (19, 4)),
    (b"!if 0|!if 1|!else|!else|!endif|!endif", (19, 4)),  # R27
    (b"!if 0|!ifdef A|!else x|!else x|!endif|!endif", (19, 4)),
    (b"!if 0|!ifndef A|!else|!elif|!endif|!endif", (19, 4)),
    (b"!if 1|!else|!if 1|!else|!elseif|!endif|!endif", (19, 5)),
    (b"!if 1|!elif 0|!if 0|!else|!else|!endif|!endif", (19, 5)),
    (b"!if 0|!if 0|!if 0|!else|!endif|!else|!elif|!endif|!endif", (19, 7)),
    # an inner group's `!else` is not the outer one's
    (b"!if 0|!if 1|!else|!endif|!else|a|!endif", ("3222415", 0)),
    (b"!if 0|!if 1|!else|!endif|!elif 1|a|!endif", ("3222415", 0)),
    (b"!if 1|!else|!if 1|!else|!endif|!endif", ("432225", 0)),
    (b"!if 0|!else|!if 1|!else|!endif|!endif", ("344355", 0)),
]

# 21: with the line of the innermost group that is open.
OPEN = [
    (b"!if 1", (21, 1)),
    (b"!if 0|", (21, 1)),
    (b"!ifdef A", (21, 1)),
    (b"!ifndef A|a", (21, 1)),
    (b"a|b|!if 1|c", (21, 3)),
    (b"!if 1|!if 1", (21, 2)),
    (b"!if 1|!if 1|!endif", (21, 1)),
    (b"!if 1|!if 1|!endif|a|b", (21, 1)),
    (b"!if 0|!if @|!endif", (21, 1)),
    (b"!if 0|!if @", (21, 2)),
    (b"!if 0|!ifdef|a", (21, 2)),
    (b"!if 0|!ifdef A|!endif|a", (21, 1)),
    (b"!if 0|!ifndef A|!endif|a", (21, 1)),
    (b"a|!ifdef A|!ifndef A|!else|x", (21, 3)),
    (b"!if 1|!else", (21, 1)),
    (b"!if 0|!elif 1|a|!else|b", (21, 1)),
    (b"!if 1|!elseif @", (21, 1)),
    (b"!if 1|!endif|!if 0|!endif|!if 1|a", (21, 5)),
    (b"!if 1|!if 1|!endif|!if 0|!if 1|!endif|a", (21, 4)),
    (b"!if 1|a|!if 0|b|!if 1|c|!endif|d|!endif|e", (21, 1)),
    (b"!if 1|a|!if 0|b|!if 1|c|!else|d", (21, 5)),
    (b"!if 1|" * 16, (21, 16)),
    (b"!if 1|" * 16 + b"!endif|" * 15, (21, 1)),
    (b"!if 0|" * 16 + b"!endif|" * 9, (21, 7)),
    # every other number comes first
    (b"!if 1|!foo", (18, 2)),
    (b"!if 1|!else x", (22, 2)),
    (b"!if 1|!if @", (3, 2, 4)),
    (b"!if 0|!else|!else", (19, 3)),
]


def nested(*words):
    """These lines, and as many `!endif` lines."""
    return b"|".join(words + (b"!endif",) * len(words))


# 20: sixteen open groups, and one more, live or not.
DEEP = [
    (nested(*[b"!if 1"] * 16), ("4" * 16 + "5" * 16, 0)),
    (nested(*[b"!if 0"] * 16), ("3" + "2" * 30 + "5", 0)),
    (nested(*[b"!ifndef A"] * 16), ("4" * 16 + "5" * 16, 0)),
    (nested(*[b"!ifdef A"] * 16), ("3" + "2" * 30 + "5", 0)),
    (nested(*[b"!if 1", b"!ifndef A"] * 4, *[b"!if 0", b"!ifdef"] * 4), ("4" * 8 + "3" + "2" * 14 + "5" * 9, 0)),
    (nested(*[b"!if 1"] * 17), (20, 17)),
    (nested(*[b"!if 0"] * 17), (20, 17)),
    (nested(*[b"!ifdef A"] * 17), (20, 17)),
    (nested(*[b"!ifndef A"] * 17), (20, 17)),
    (nested(*[b"!if 1"] * 16, b"!ifdef A"), (20, 17)),
    (nested(*[b"!if 1"] * 16, b"!ifndef A"), (20, 17)),
    (nested(*[b"!if 1"] * 15, b"!if 0", b"!ifdef A"), (20, 17)),
    (nested(*[b"!if 0"] * 16, b"!ifndef"), (20, 17)),
    (nested(b"!if 0", *[b"!ifdef"] * 15, b"!if"), (20, 17)),
    (nested(*[b"!if 1"] * 18), (20, 17)),
    # a group that was closed is open no more
    (nested(*[b"!if 1"] * 15, b"!if 0|!endif|!if 1|!endif|!if 1"), ("4" * 15 + "35" + "45" + "4" + "5" * 16, 0)),
    (b"!if 1|!endif|" * 20, ("45" * 20, 0)),
    (b"!if 0|" + b"!if 1|!endif|" * 20 + b"!endif", ("3" + "22" * 20 + "5", 0)),
    (b"!if 1|!endif|a|" + nested(*[b"!if 1"] * 17), (20, 20)),
    # `!else` and `!elseif` open none
    (nested(*[b"!if 0|!elif 0|!elseif 0|!else"] * 16), ("3334" * 16 + "5" * 16, 0)),
    (nested(*[b"!if 0|!elif 0|!elseif 0|!else"] * 17), (20, 65)),
]

VECTORS = [(file.replace(b"|", b"\n"), table, wanted) for file, table, wanted in WITH_TABLE] + [
    (file.replace(b"|", b"\n"), b"", wanted) for file, wanted in TAKEN + UNREAD + COUNTS + OUT_OF_PLACE + OPEN + DEEP
]
