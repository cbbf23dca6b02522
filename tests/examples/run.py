"""Runs the examples as people run them: run.py [NAME]... A name is a part: folder, hook, annotations or rule. The last line says how many
passed and how many failed."""
import os
import sys

# The tally is in the folder above.
sys.path.insert(0, os.path.join(os.path.dirname(os.path.abspath(__file__)), ".."))
import annotations
import folder
import hook
import rule
from tally import check, choose, chosen, end

choose(sys.argv[1:])
for part in folder, hook, annotations, rule:
    if chosen(part.__name__):
        for what, got, wanted in part.checks():
            check("%s, %s" % (part.__name__, what), got, wanted)
end()
