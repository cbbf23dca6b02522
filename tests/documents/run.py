"""Runs every example of the manual and the README, and holds the manual's tables against the product: run.py [NAME]... A name is an
example's place, as `README.md:9`, a document, a section's heading, or a part (limits, tokens, precedence, kinds, values, lines, defines,
editions, records, fields, smallest, places, readings, refusals). What can be checked without the product is in tests/house. The last line
says how many passed and how many failed."""
import os
import sys

# The tally, the library's calls and the command's meanings are in the folder above.
sys.path.insert(0, os.path.join(os.path.dirname(os.path.abspath(__file__)), ".."))
import defines
import editions
import fields
import kinds
import limits
import lines
import places
import precedence
import readings
import records
import refusals
import smallest
import tokens
import values
from manual import MANUAL, sections
from sessions import examples, run
from tally import check, choose, chosen, end

README = "README.md"
PARTS = [limits, tokens, precedence, kinds, values, lines, defines, editions, records, fields, smallest, places, readings]


def check_examples(document):
    """Runs the examples of a document."""
    found = [each for each in examples(document) if chosen(each.place, document, each.section)]
    for example in found:
        wanted = example.wanted or "some output, or a status: a command without either shows nothing"
        check("%s: %s" % (example.place, example.command), run(example.command), wanted)
    if found:
        print("%s: %d examples" % (document, len(found)))

def check_sections():
    """The manual has an example in every section; of the README it is said which sections have none."""
    check("sections of the manual without an example", sorted(set(sections(MANUAL)) - {e.section for e in examples(MANUAL)}), [])
    tested = {e.section for e in examples(README)}
    check("examples in the README", bool(tested), True)
    print("not tested, as without examples, in %s: %s" % (README, "; ".join(s for s in sections(README) if s not in tested)))


def check_refusals():
    """The table of refusals, with what the examples of its section print."""
    printed = "".join(run(example.command) for example in examples(MANUAL) if example.section == "Refusals")
    for what, got, wanted in refusals.checks(printed):
        check("refusals, " + what, got, wanted)


def main():
    choose(sys.argv[1:])
    check_examples(MANUAL)
    check_examples(README)
    if chosen("sections"):
        check_sections()
    for part in PARTS:
        if chosen(part.__name__):
            for what, got, wanted in part.checks():
                check("%s, %s" % (part.__name__, what), got, wanted)
    if chosen("refusals"):
        check_refusals()
    end()


main()
