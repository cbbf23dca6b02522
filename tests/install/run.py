"""Installs what was built, uses it as others would, and removes it again: run.py [NAME]... A name is a part: files, linking, programs,
example, command, package, machine. All of it happens in temporary folders, except `machine`, which installs the Debian package, and only as
root and where there is none yet. What cannot be looked at is named. `packages` installs what is needed. The last line says how many passed
and how many failed."""
import os
import sys

# The tally is in the folder above.
sys.path[1:1] = [os.path.join(os.path.dirname(os.path.abspath(__file__)), "..")]
import command
import example
import files
import linking
import machine
import package
import programs
from tally import check, choose, chosen, end

choose(sys.argv[1:])
for part in files, linking, programs, example, command, package, machine:
    if chosen(part.__name__):
        for what, got, wanted in part.checks():
            check("%s, %s" % (part.__name__, what), got, wanted)
end()
