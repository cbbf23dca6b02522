"""A lookup of a very long name: no name in a table has more than 64 bytes, so the rest of the name need not be read."""
import ctypes
import mmap
import resource
import tempfile

LENGTH = 64 * 2**20


def faults():
    """How many pages this process touched for the first time."""
    return resource.getrusage(resource.RUSAGE_SELF).ru_minflt


def lookup(lookup_of, table):
    """The answer to a lookup of a name of 64 MiB, and how often it touched pages for the first time. The name is a file's memory. Reading
    all of it takes at least 32 times: the system gives at most 2 MiB each time."""
    with tempfile.TemporaryFile() as file:
        file.write(b"A" * LENGTH)
        file.flush()
        with mmap.mmap(file.fileno(), LENGTH) as pages:
            name = (ctypes.c_char * LENGTH).from_buffer(pages)
            before = faults()
            answer = lookup_of(table, name)
            touched = faults() - before
            del name
    return answer, touched
