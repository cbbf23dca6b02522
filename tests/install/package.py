"""The Debian package: what is in it, with which modes and whose, what it says of itself, and that it is the same each time."""
import gzip
import os
import re
import shutil
import time

from files import SONAME, wanted
from installation import ROOT, TARGET, VERSION, installed, left_out, listing, made, make, read, run

# A date for all files of a package, in seconds, and as it is shown.
DATE, SHOWN = "1000000000", "2001-09-09 01:46"
NOBODY = 65534
CONTROL = {"control": "644", "md5sums": "644", "prerm": "755", "shlibs": "644", "triggers": "644"}
LIBRARIES = "lib/" + run("gcc", "-print-multiarch")[0].strip()


def path():
    """Where `make deb` leaves the package."""
    return os.path.join(TARGET, "korzhinay_%s_%s.deb" % (VERSION, run("dpkg", "--print-architecture")[0].strip()))


def in_package():
    """The files of the package below usr/, as those of an installation; two have another form."""
    found = wanted("lib/python3/dist-packages", libraries=LIBRARIES)
    found["share/doc/korzhinay/copyright"] = found.pop("share/doc/korzhinay/LICENSE")
    found["share/man/man1/korzhinay.1.gz"] = found.pop("share/man/man1/korzhinay.1")
    return found


def entries():
    """The lines about what is in the package, folders included, as words: mode, owner, size, day, time, path."""
    return [line.split() for line in run("dpkg-deb", "--contents", path(), LC_ALL="C", TZ="UTC")[0].splitlines()]


def dates():
    return {" ".join(words[3:5]) for words in entries()}


def date_of_sources():
    """The date of the last commit, or of the header, as it is shown."""
    printed, _, status = run("bash", "-c", "git log -1 --format=%ct", folder=ROOT)
    seconds = float(printed) if status == 0 else os.path.getmtime(os.path.join(ROOT, "include", "korzhinay.h"))
    return time.strftime("%Y-%m-%d %H:%M", time.gmtime(seconds))


def field(name):
    return run("dpkg-deb", "--field", path(), name)[0].strip()


def folder_of_others():
    """A folder in which new files belong to another group, where root makes it."""
    folder = made("others")
    if os.geteuid() == 0:
        os.chown(folder, -1, NOBODY)
    os.chmod(folder, 0o2777)
    return folder


def check_reproduction():
    """Two runs with one date make the same bytes, whatever the umask, the folder for temporary files and other variables are."""
    yield "make deb with a date", make("deb", SOURCE_DATE_EPOCH=DATE), 0
    first = read(path())
    others = {"TMPDIR": folder_of_others(), "PREFIX": "/elsewhere", "BINDIR": "/elsewhere"}
    yield "make deb once more", make("deb", umask=0o077, SOURCE_DATE_EPOCH=DATE, **others), 0
    yield "the same bytes", read(path()) == first, True
    yield "owners", {owner for _, owner, *_ in entries()}, {"root/root"}
    yield "modes of folders", {mode for mode, *_ in entries() if mode.startswith("d")}, {"drwxr-xr-x"}
    yield "dates", dates(), {SHOWN}


def check_files(folder):
    yield "files", listing(os.path.join(folder, "usr")), in_package()
    yield "files beside usr", os.listdir(folder), ["usr"]
    yield "the copyright", read(folder, "usr/share/doc/korzhinay/copyright") == read(ROOT, "LICENSE"), True
    page = read(folder, "usr/share/man/man1/korzhinay.1.gz")
    yield "the man page", gzip.decompress(page) == read(TARGET, "korzhinay.1"), True
    yield "name and time of the compressed page", (page[3], page[4:8]), (0, bytes(4))
    for each in "usr/bin/korzhinay", "usr/%s/libkorzhinay.so" % LIBRARIES:
        sections = run("readelf", "--sections", "--wide", os.path.join(folder, each))[0]
        yield "symbols that the loader needs, and others, in " + each, (".dynsym" in sections, ".symtab" in sections), (True, False)
    lines = read(folder, "usr", LIBRARIES, "pkgconfig", "korzhinay.pc").decode().splitlines()
    yield "the paths for pkg-config", lines[:3], ["prefix=/usr", "libdir=${prefix}/" + LIBRARIES, "includedir=${prefix}/include"]


def needed(folder):
    """The packages that dpkg-shlibdeps finds for the command and the shared library, libgcc without a version: every one is new enough."""
    os.mkdir(os.path.join(folder, "debian"))
    with open(os.path.join(folder, "debian", "control"), "w", encoding="utf-8") as file:
        file.write("Source: korzhinay\n\nPackage: korzhinay\nArchitecture: any\n")
    files = [os.path.join(folder, "usr", each) for each in ("bin/korzhinay", LIBRARIES + "/libkorzhinay.so")]
    printed = run("dpkg-shlibdeps", "-O", "--ignore-missing-info", *files, folder=folder)[0].strip()
    return re.sub(r"(libgcc-s1) \(.*?\)", r"\1", printed.removeprefix("shlibs:Depends="))


def check_control(folder, control):
    yield "control files", listing(control), CONTROL
    yield "package and version", (field("Package"), field("Version")), ("korzhinay", VERSION)
    yield "architecture", "_%s.deb" % field("Architecture") in path(), True
    yield "the loader's cache", read(control, "triggers"), b"activate-noawait ldconfig\n"
    wanted_line = "libkorzhinay %s korzhinay (>= %s)\n" % (SONAME.removeprefix("libkorzhinay.so."), VERSION)
    yield "for those who link", read(control, "shlibs").decode(), wanted_line
    yield "sums", run("md5sum", "--check", "--quiet", "--strict", os.path.join(control, "md5sums"), folder=folder), ("", "", 0)
    summed = {line.split("  ", 1)[1] for line in read(control, "md5sums").decode().splitlines()}
    yield "files with sums", summed, {"usr/" + each for each, mode in in_package().items() if mode in ("644", "755")}
    size = sum(-(-os.path.getsize(os.path.join(folder, each)) // 1024) for each in summed)
    yield "the size", size <= int(field("Installed-Size")) <= size + 100, True
    unknown = run(os.path.join(ROOT, "packaging", "depends"), shutil.which("bash"))
    yield "a library of no known package", unknown, ("", "no package is known that has libtinfo.so.6\n", 1)
    if shutil.which("dpkg-shlibdeps"):
        yield "packages that are needed", field("Depends"), needed(folder)
    else:
        left_out("packages that are needed", "dpkg-shlibdeps is not installed")


def check_without_tools():
    """Where dpkg-deb is missing this is said; everything else is built."""
    tools = made("tools")
    for name in "make", "bash", "dirname", "sed", "find":
        os.symlink(shutil.which(name), os.path.join(tools, name))
    status, said = make("deb", PATH=tools) or (0, "")
    yield "make deb without its tools", (status, "dpkg is missing" in said), (2, True)


def checks():
    installed()
    yield from check_without_tools()
    if not (shutil.which("dpkg-deb") and shutil.which("dpkg")):
        left_out("the Debian package", "dpkg-deb is not installed")
        return
    yield from check_reproduction()
    yield "make deb", make("deb"), 0
    yield "dates without one that is given", dates(), {date_of_sources()}
    folder, control = made("package"), made("control")
    yield "unpacked", run("dpkg-deb", "--extract", path(), folder), ("", "", 0)
    yield "its control files", run("dpkg-deb", "--control", path(), control), ("", "", 0)
    yield from check_files(folder)
    yield from check_control(folder, control)
