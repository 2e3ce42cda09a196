"""A growing filter holds back what the program `duplicates` does, whose filter is proved."""

import random

import pytest
from conftest import TOP, run
from fastbloom import GrowingFilter

PROGRAM = TOP / "crates/duplicates/out/duplicates"


@pytest.mark.skipif(not PROGRAM.exists(), reason="duplicates isn't built")
@pytest.mark.parametrize("seed", range(8))
def test_what_is_held_back(tmp_path, seed):
    draw = random.Random(seed)
    items, rate = draw.choice((1, 7, 100)), draw.choice(("1/2", "1/10", "1/100", "1/100000"))
    key = draw.randbytes(16)
    lines = [f"line{draw.randrange(3000)}" for _ in range(5000)]
    (tmp_path / "lines").write_text("".join(f"{line}\n" for line in lines))
    options = ("--held-back", "--quiet", "--items", items, "--rate", rate, "--key", key.hex())
    status, held, errors = run(PROGRAM, *options, tmp_path / "lines")
    assert (status, errors) == (0, "")
    # Below 1/10000 the program grows by plain filters, and else by blocked ones.
    seen = GrowingFilter(items, rate, key, blocked=rate != "1/100000")
    assert held.splitlines() == [line for line in lines if seen.add(line)]
