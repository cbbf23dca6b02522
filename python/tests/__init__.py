"""Tests of the module, over the library that was built in this checkout. From the root: `python3 tests/python/run.py`."""
