"""What the linker and the loader see of the libraries: their names, what they need and what they export."""
import os
import re

from files import SONAME
from installation import CALLS, installed, run


def entries(path, sort):
    """The entries of one sort in the dynamic section of a program or a shared library."""
    return re.findall(r"\(%s\).*\[(.*)\]" % sort, run("readelf", "--dynamic", "--wide", path, LC_ALL="C")[0])


def exported(*words):
    """The names of defined symbols."""
    return sorted(line.split()[2] for line in run("nm", "--defined-only", *words)[0].splitlines() if len(line.split()) == 3)


def needed(path):
    """The names of undefined symbols."""
    return sorted({line.split()[1] for line in run("nm", "--undefined-only", path)[0].splitlines() if len(line.split()) == 2})


def checks():
    lib = os.path.join(installed(), "lib")
    shared = os.path.join(lib, "libkorzhinay.so")
    yield "calls of the header", len(CALLS), 6
    yield "the shared library's name", entries(shared, "SONAME"), [SONAME]
    yield "what the shared library needs", entries(shared, "NEEDED"), ["libc.so.6"]
    yield "what the shared library exports", exported("--dynamic", shared), sorted(CALLS)
    yield "what the static library needs", needed(os.path.join(lib, "libkorzhinay.a")), ["memset"]
    yield "what the static library exports", exported("--extern-only", os.path.join(lib, "libkorzhinay.a")), sorted(CALLS)
