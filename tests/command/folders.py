"""Files of the folders in which the tests of this folder run the command."""
import os


def put(*path, text, mode=0o644):
    """Writes a file, and says where it is."""
    path = os.path.join(*map(os.fsencode, path))
    with open(path, "wb") as file:
        file.write(text)
    os.chmod(path, mode)
    return os.fsdecode(path)


def fill(folder, files):
    """Writes files, given by their names and contents, into a folder."""
    for name, text in files.items():
        put(folder, name, text=text)


def content(*path):
    """The content of a file, or None if there is no such file."""
    path = os.path.join(*path)
    return open(path, "rb").read() if os.path.exists(path) else None


def everything(folder):
    """The files of a folder and of those in it, with their contents; of a link where it leads."""
    found = {}
    for place, folders, names in os.walk(folder):
        for path in (os.path.join(place, name) for name in names + folders):
            if os.path.islink(path):
                found[os.path.relpath(path, folder)] = os.readlink(path)
            elif os.path.isfile(path):
                found[os.path.relpath(path, folder)] = content(path)
    return found
