"""What can be checked of the repository by its text alone: run.py [NAME]... The names are those of the parts: crates, width, edits,
promises. The last line says how many passed and how many failed."""
import os
import sys

HERE = os.path.dirname(os.path.abspath(__file__))
# The tally is in the folder above; the page of promises is one of the documents.
sys.path[1:1] = [os.path.join(HERE, ".."), os.path.join(HERE, "..", "documents")]
import crates
import edits
import promises
import width
from tally import check, choose, chosen, end

choose(sys.argv[1:])
for part in crates, width, edits, promises:
    if chosen(part.__name__):
        for what, got, wanted in part.checks():
            check("%s, %s" % (part.__name__, what), got, wanted)
end()
