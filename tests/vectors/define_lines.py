"""Gathers the vectors of DEFINE lines (order 6 of document 02): a file, a table and the answer, as selection.py takes them."""
import define_bars
import define_branches
import define_counts
import define_editions
import define_limits
import define_settings
import define_shapes
import define_values
import define_words

WITHOUT_TABLE = define_words.VECTORS + define_shapes.VECTORS + define_branches.VECTORS + define_counts.VECTORS
VECTORS = [(file, b"", wanted) for file, wanted in WITHOUT_TABLE]
VECTORS += define_bars.VECTORS + define_values.VECTORS + define_settings.VECTORS + define_limits.VECTORS + define_editions.VECTORS
