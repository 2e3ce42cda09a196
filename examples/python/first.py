"""first.py FILE: keeps a filter of texts in a file."""

import sys

from fastbloom import Filter

seen = Filter(1_000_000, "1/1000")
print(seen.add("crab"), "crab" in seen)  # False: it is new. True
seen.save(sys.argv[1])
print("crab" in Filter.load(sys.argv[1]))  # True
