"""Runs the vectors against the shared library: run.py [NAME]... A vector's name is its part and its number, as `value:7`, or its part
and its input, as `value:1 << 64`; a part alone (tokens, places, scan, table, lookup, unread, malformed, value, field, selection, dialect)
is all of it. Where a call takes a dialect, a vector is run in both editions. The last line says how many passed and how many failed."""
import collections
import os
import sys
from functools import partial

import evaluation
import field
import offsets
import positions
import selection
import tables
import tokens
import unread
from editions import BAD_TOKEN, DIALECTS, EDITIONS, MALFORMED_TEXT, TRIED_IN_ALL, Differ, edition_of, mapped, wanted_in

sys.path.insert(0, os.path.join(os.path.dirname(os.path.abspath(__file__)), ".."))
import library
from tally import check, choose, chosen, end


def field_answer(wanted, room):
    """A field's refusal with its offset, length and whole buffer."""
    before = library.untouched(room)
    return (*wanted, 0, before) if isinstance(wanted, tuple) else (0, 0, len(wanted), wanted + before[len(wanted):])


def selection_answer(refusal, line, offset, marks, count, room):
    """A selection's refusal with its line and offset, its numbers and the whole array of marks."""
    if refusal:
        return refusal, line, offset, 0, 0, b"\xff" * room
    return 0, 0, 0, len(marks), count, marks + library.unmarked(room)[len(marks):]


def hardly_read():
    """The answer to a lookup of a very long name, and whether most of the name was left unread."""
    answer, touched = unread.lookup(library.lookup, tables.record(b"A" * 64, tables.NUMBER, 1))
    return answer, touched < 8


def without_edition():
    """The vectors of calls that take no dialect: the part, the input, the other arguments in words, the call and the answer to it."""
    for table, good in tables.TABLES:
        yield "table", b"", "%d bytes" % len(table), partial(library.table, table), 0 if good else 1
    for table, name, found in tables.LOOKUPS + positions.LOOKUPS:
        yield "lookup", name, "%d bytes of table" % len(table), partial(library.lookup, table, name), (0, found)
    yield "unread", b"", "a name of 64 MiB", hardly_read, ((0, (tables.MISSING, 0, 0)), True)
    for table, good in tables.TABLES:
        if not good:
            yield "malformed", b"", "%d bytes" % len(table), partial(library.lookup, table, b"A"), (1, (library.VALUE,) * 3)


def with_edition():
    """The vectors of calls that take a dialect, as above, the call without it; the answer is the same in both editions, or a Differ."""
    for expression, refusal, read in tokens.VECTORS:
        yield "tokens", expression, "", partial(library.tokens, expression), tokens.answer(expression, refusal, read)
    for expression, places in tokens.PLACES:
        yield "places", expression, "", partial(places_of, expression), places
    for expression, refusal in offsets.TOKENS:
        yield "scan", expression, "", partial(scanned, expression), refusal
    for expression, table, wanted in evaluation.VECTORS:
        yield "value", expression, "%d bytes of table" % len(table), partial(library.evaluate, expression, table), wanted
    for expression, table, datum, room, wanted in field.VECTORS:
        what, answer = "datum %d, %d bytes of room" % (datum, room), mapped(lambda each: field_answer(each, room), wanted)
        yield "field", expression, what, partial(library.field, expression, table, datum, room), answer
    for file, table, room, wanted in selection.VECTORS:
        what = "%d bytes of table, %d of marks" % (len(table), room)
        answer = mapped(lambda each: selection_answer(*each, room), wanted)
        yield "selection", file, what, partial(library.select, file, table, room), answer


def places_of(expression, dialect):
    """Where the tokens of an expression start."""
    return [token[1] for token in library.tokens(expression, dialect)[2]]


def scanned(expression, dialect):
    """The refusal of the tokens, with its offset."""
    return library.tokens(expression, dialect)[:2]


def vectors():
    """Every vector: its part, its input, and its runs, each with the edition and the other arguments in words, the call and its answer."""
    for part, given, more, call, wanted in without_edition():
        yield part, given, [(more, call, wanted)]
    for part, given, more, call, wanted in with_edition():
        # The old edition takes all that the new one does, with the same answer: only what the new one refuses can differ.
        if isinstance(wanted, Differ) and wanted.new[0] not in (BAD_TOKEN, MALFORMED_TEXT):
            raise AssertionError("%s: the new edition has %r of its own" % (given, wanted.new))
        runs = [("%s edition, %s" % (name, more), partial(call, dialect=code), wanted_in(code, wanted)) for name, code in EDITIONS.items()]
        yield part, given, runs
    for part, given, more, call, wanted in with_edition():
        if given in TRIED_IN_ALL:
            runs = [("%s, dialect %d" % (part, code), partial(call, dialect=code), wanted_in(edition_of(code), wanted)) for code in DIALECTS]
            yield "dialect", given, runs


def main():
    choose(sys.argv[1:])
    numbers = collections.Counter()
    for part, given, runs in vectors():
        numbers[part] += 1
        name, shown = "%s:%d" % (part, numbers[part]), repr(given)[2:-1]
        if chosen(name, part, "%s:%s" % (part, shown)):
            for what, call, wanted in runs:
                check("%s, %s, %s" % (name, shown[:120], what), call(), wanted)
    end()


main()
