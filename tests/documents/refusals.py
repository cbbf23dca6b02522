"""The table of refusals: each number means the same in the manual, the header and the command, and an example shows it."""
import os
import re
import subprocess
import tempfile

from manual import rows
from meanings import meanings
from sessions import ROOT

HEADING = ("no.", "meaning", "where", "smallest input", "offset", "more")
NUMBERS = range(1, 29)
# The command lends enough and knows no other datum types, so it never meets these.
LIBRARY_ONLY = {16, 23, 26}

# Prints what the header says of every number.
PROGRAM = """#include "korzhinay.h"
#include <stdio.h>
int main(void)
{
    for (int number = 0; number < 256; number++)
        puts(korzhinay_meaning((uint8_t)number));
}
"""


def header_meanings():
    """What the header says of the numbers 0 to 255."""
    with tempfile.TemporaryDirectory() as folder:
        source, program = os.path.join(folder, "meanings.c"), os.path.join(folder, "meanings")
        with open(source, "w", encoding="utf-8") as file:
            file.write(PROGRAM)
        flags = ["-std=c11", "-Wall", "-Wextra", "-Werror", "-I" + os.path.join(ROOT, "include")]
        subprocess.run(["gcc", *flags, "-o", program, source], check=True)
        return subprocess.run([program], check=True, capture_output=True, text=True).stdout.split("\n")[:-1]


def check_meanings(manual):
    header, command = header_meanings(), meanings()
    yield "numbers in the manual's table", list(manual), list(NUMBERS)
    yield "numbers in the command", list(command), list(NUMBERS)
    unknown = [header[number] for number in range(256) if number not in NUMBERS]
    yield "other numbers in the header", unknown, ["no refusal"] + ["unknown refusal"] * (255 - len(NUMBERS))
    for number in NUMBERS:
        yield "meaning of %d in manual and header" % number, [manual.get(number), header[number]], [command.get(number)] * 2


def checks(printed):
    """The examples of the section have printed this."""
    manual = {int(row[0]): row[1] for row in rows("Refusals", *HEADING)}
    yield from check_meanings(manual)
    shown = set(re.findall(r"refused \((\d+)\): (.*)", printed))
    bare = set(re.findall(r"refused \((\d+)\)$", printed, re.M))
    for number in NUMBERS:
        if number in LIBRARY_ONLY:
            yield "an example of %d through the library" % number, str(number) in bare, True
        else:
            yield "an example of %d" % number, {text for met, text in shown if met == str(number)}, {manual.get(number)}
