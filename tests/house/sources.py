"""The repository's own files, as the tests of this folder read them."""
import os

ROOT = os.path.dirname(os.path.dirname(os.path.dirname(os.path.abspath(__file__))))


def read(path):
    with open(os.path.join(ROOT, path), encoding="utf-8") as file:
        return file.read()


def files(folder, *endings):
    """The files below a folder with these endings, by their paths from the root on, in order."""
    found = []
    for place, folders, names in os.walk(os.path.join(ROOT, folder)):
        # what `rt` made
        folders[:] = [inner for inner in folders if inner != "out"]
        found += [os.path.relpath(os.path.join(place, name), ROOT) for name in names if name.endswith(endings)]
    return sorted(found)
