"""The memory that a call takes."""

import tracemalloc


def peak_of(call):
    """How many bytes a call has at most at a time, besides those that there were before."""
    tracemalloc.start()
    try:
        call()
        return tracemalloc.get_traced_memory()[1]
    finally:
        tracemalloc.stop()
