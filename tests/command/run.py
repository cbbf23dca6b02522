"""Runs the command as people run it: run.py [NAME]... A name is a case's folder, a function of steps.py or of a file beside it (`--list`
prints them), or `cases` or the name of such a file for all that it has. The last line says how many passed and failed."""
import itertools
import os
import sys

# The tally, the command's meanings and the library's calls are in the folder above.
sys.path.insert(0, os.path.join(os.path.dirname(os.path.abspath(__file__)), ".."))
import cases
import completion
import defined
import editions
import json_output
import manual
import names
import notes
import objects
import options
import output
import several
import steps
import traced
import unseen
import writing
from tally import check, choose, end

choose(sys.argv[1:])
PARTS = (cases, steps, writing, traced, notes, defined, editions, output, several, names, options, json_output, objects, unseen, completion,
         manual)
for name, got, wanted in itertools.chain.from_iterable(part.checks() for part in PARTS):
    check("command, " + name, got, wanted)
end()
