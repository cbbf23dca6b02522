"""What `make install` puts where, and that `make uninstall` takes all of it away, and nothing else."""
import os
import re

from installation import MODULE, MODULE_FOLDER, ROOT, TARGET, VERSION, listing, made, make, read

EXAMPLES = os.path.join(ROOT, "examples")
REAL = "libkorzhinay.so." + VERSION
# While the first number is 0, the second one is in the name too.
SONAME = "libkorzhinay.so." + re.match(r"0\.\d+|[1-9]\d*", VERSION)[0]


def mode(path):
    """The mode of a file that is installed: that of a program if it is one."""
    return "755" if os.access(path, os.X_OK) else "644"


def wanted(modules, commands="bin", libraries="lib", headers="include", pages="share/man"):
    """The files of an installation with these folders, their modes, and what the links point to."""
    return {
        commands + "/korzhinay": "755",
        libraries + "/libkorzhinay.a": "644",
        libraries + "/" + REAL: "644",
        libraries + "/" + SONAME: REAL,
        libraries + "/libkorzhinay.so": SONAME,
        libraries + "/pkgconfig/korzhinay.pc": "644",
        headers + "/korzhinay.h": "644",
        pages + "/man1/korzhinay.1": "644",
        "share/bash-completion/completions/korzhinay": "644",
        "share/doc/korzhinay/LICENSE": "644",
        **{"share/doc/korzhinay/examples/" + name: mode(os.path.join(EXAMPLES, name)) for name in os.listdir(EXAMPLES)},
        **{"%s/korzhinay/%s" % (modules, name): "644" for name in MODULE},
    }


# What the files that are installed as they are have been copied from.
SOURCES = {
    "bin/korzhinay": (TARGET, "korzhinay"),
    "lib/libkorzhinay.a": (TARGET, "staticlib", "libkorzhinay.a"),
    "lib/" + REAL: (TARGET, "libkorzhinay.so"),
    "include/korzhinay.h": (ROOT, "include", "korzhinay.h"),
    "share/man/man1/korzhinay.1": (TARGET, "korzhinay.1"),
    "share/bash-completion/completions/korzhinay": (TARGET, "korzhinay.bash"),
    "share/doc/korzhinay/LICENSE": (ROOT, "LICENSE"),
    **{"share/doc/korzhinay/examples/" + name: (EXAMPLES, name) for name in os.listdir(EXAMPLES)},
    **{"python/korzhinay/" + name: (MODULE_FOLDER, name) for name in MODULE},
}
# What an installation builds where it is missing or older than its sources.
BUILT = [os.path.join(*source) for source in SOURCES.values() if source[0] == TARGET]
# Files of others, in folders that an installation uses.
OTHERS = ["bin/other", "lib/libkorzhinay.so.9", "lib/libkorzhinay.so.0", "lib/libkorzhinay.so.0.1.0", "lib/pkgconfig/other.pc",
          "include/other.h", "share/doc/other/LICENSE", "python/other.py"]


def folders(top):
    """The folders below a folder, with their modes."""
    paths = [os.path.join(place, name) for place, names, _ in os.walk(top) for name in names]
    return {os.path.relpath(path, top): "%o" % (os.stat(path).st_mode & 0o7777) for path in paths if not os.path.islink(path)}


def times(top):
    """When each file below a folder was changed last."""
    return {path: os.lstat(os.path.join(top, path)).st_mtime_ns for path in listing(top)}


def place_others(prefix):
    for path in OTHERS:
        os.makedirs(os.path.dirname(os.path.join(prefix, path)), exist_ok=True)
        with open(os.path.join(prefix, path), "w", encoding="utf-8") as file:
            file.write("another's\n")


def check_prefix():
    """Into a folder that others use too, with Python's module, by somebody whose files nobody else may read."""
    prefix = os.path.join(made("prefix"), "usr")
    given = ["PREFIX=" + prefix, "PYTHONDIR=" + prefix + "/python"]
    place_others(prefix)
    others, before = listing(prefix), times(prefix)
    yield "make install", make("install", *given, umask=0o077), 0
    yield "files", listing(prefix), {**others, **wanted("python")}
    yield "folders that are not open to all", {path: mode for path, mode in folders(prefix).items() if mode != "755"}, {}
    for path, source in SOURCES.items():
        yield "bytes of " + path, read(prefix, path) == read(*source), True
    built = [os.stat(path).st_mtime_ns for path in BUILT]
    yield "make install once more", make("install", *given), 0
    yield "the same files", listing(prefix), {**others, **wanted("python")}
    yield "nothing is built again", [os.stat(path).st_mtime_ns for path in BUILT] == built, True

    # What Python leaves where a module was imported.
    compiled = os.path.join(prefix, "python", "korzhinay", "__pycache__")
    os.makedirs(compiled)
    open(os.path.join(compiled, "__init__.pyc"), "w", encoding="utf-8").close()
    yield "make uninstall", make("uninstall", *given), 0
    yield "what is left", times(prefix), before
    own = [path for path in folders(prefix) if os.path.basename(path) == "korzhinay"]
    yield "folders of its own that are left", own, []
    yield "make uninstall of nothing", make("uninstall", *given), 0


def check_places():
    """Every place can be given, and DESTDIR comes before it; the place itself is not touched."""
    top = made("places")
    prefix, stage = os.path.join(top, "prefix"), os.path.join(top, "a stage")
    places = {"BINDIR": "b", "LIBDIR": "lib64", "INCLUDEDIR": "include/sub", "MANDIR": "man", "PYTHONDIR": "py"}
    given = ["DESTDIR=" + stage, "PREFIX=" + prefix, *("%s=%s/%s" % (name, prefix, place) for name, place in places.items())]
    yield "make install with all places", make("install", *given), 0
    yield "files in all places", listing(stage + prefix), wanted("py", "b", "lib64", "include/sub", "man")
    yield "what is in the folder", os.listdir(top), ["a stage"]
    text = read(stage + prefix, "lib64", "pkgconfig", "korzhinay.pc").decode()
    lines = ["prefix=" + prefix, "libdir=${prefix}/lib64", "includedir=${prefix}/include/sub"]
    yield "the paths for pkg-config", text.splitlines()[:3], lines
    yield "make uninstall with all places", make("uninstall", *given), 0
    yield "what is left in all places", listing(stage), {}


def check_wrong_places():
    for word in "PREFIX=usr", "PREFIX=/a b", "LIBDIR=lib", "PYTHONDIR=py":
        stage = made("wrong")
        wrong = word.split("=")[1].split()[-1]
        for goal in "install", "uninstall":
            said = make(goal, "DESTDIR=" + stage, word)
            yield "make %s %s" % (goal, word), said and (said[0], "absolute paths without blanks: " + wrong in said[1]), (2, True)
        yield "what is installed with " + word, listing(stage), {}


def checks():
    yield from check_prefix()
    yield from check_places()
    yield from check_wrong_places()
