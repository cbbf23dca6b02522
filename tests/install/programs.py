"""Programs in C and C++ that use the installed header and libraries, by what pkg-config says of them."""
import os

from compiling import compiled, pkg_config, ran
from files import SONAME
from installation import VERSION, installed, made
from linking import entries

HERE = os.path.dirname(os.path.abspath(__file__))
SAID = """\
version %s: %s
1 + 2 * 3 = 7
1 / 0: zero divisor, at 2
'a' == a = 1
'a' == a: no token can be read at some byte, at 7
4 1 3 0 5
""" % (VERSION, VERSION.replace(".", " "))


def checks():
    prefix, folder = installed(), made("programs")
    yield "the version by pkg-config", pkg_config("--modversion", prefix=prefix), [VERSION]
    flags = ["-I%s/include" % prefix, "-L%s/lib" % prefix, "-lkorzhinay"]
    yield "the flags by pkg-config", pkg_config("--cflags", "--libs", prefix=prefix), flags
    moved = pkg_config("--cflags", "--libs", "--define-variable=prefix=/moved", prefix=prefix)
    yield "the flags of a folder that was moved", moved, ["-I/moved/include", "-L/moved/lib", "-lkorzhinay"]
    for name in "program.c", "program.cpp":
        source, program = os.path.join(HERE, name), os.path.join(folder, name + ".out")
        yield "%s, shared" % name, compiled(source, program, prefix=prefix), ("", "", 0)
        yield "%s needs the shared library" % name, SONAME in entries(program, "NEEDED"), True
        yield "%s runs with it" % name, ran(program, prefix=prefix), (SAID, "", 0)
        yield "%s, static" % name, compiled(source, program, static=True, prefix=prefix), ("", "", 0)
        yield "%s needs nothing" % name, entries(program, "NEEDED"), []
        yield "%s runs alone" % name, ran(program), (SAID, "", 0)
