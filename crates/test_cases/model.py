"""The output of the program `test_cases`, which bin/data writes: each case, and that it is right."""
import re

from lib.checks.sources import RUST

# The cases of lookups whose comparisons bin/planted counts, and how many there are, with those of the cases that catch its bodies.
COUNTED = ("keys_are_asked_by_texts", "keys_are_asked_by_slices", "names_are_asked_in_their_bytes")
COMPARISONS = 3631


def files():
    """The files of the crate, by their names."""
    cases = re.findall(r"^        \w+::(\w+),$", RUST["test_cases/src/main.rt"], re.MULTILINE)
    return {"stdout": "".join(f"{it}: right\n" for it in cases)}
