"""Compiles programs with what pkg-config says, as somebody who installed the library would."""
import os

from installation import run

FLAGS = ["-Wall", "-Wextra", "-Wpedantic", "-Werror"]
COMPILERS = {".c": ["gcc", "-std=c11", *FLAGS], ".cpp": ["g++", "-std=c++11", *FLAGS]}


def pkg_config(*words, prefix=None):
    """The words that pkg-config prints of the installation in this folder or, without one, of the machine's."""
    environment = {"PKG_CONFIG_LIBDIR": os.path.join(prefix, "lib", "pkgconfig")} if prefix else {}
    printed, errors, status = run("pkg-config", *words, "korzhinay", **environment)
    return printed.split() if status == 0 else [errors]


def compiled(source, program, static=False, prefix=None):
    """What the compiler says of a source, and its status."""
    found = pkg_config("--cflags", "--libs", *(["--static"] if static else []), prefix=prefix)
    return run(*COMPILERS[os.path.splitext(source)[1]], *(["-static"] if static else []), "-o", program, source, *found)


def ran(*words, prefix=None):
    """What a program prints, and its status, with the shared library in this folder or, without one, the machine's."""
    environment = {"LD_LIBRARY_PATH": os.path.join(prefix, "lib")} if prefix else {}
    return run(*words, **environment)
