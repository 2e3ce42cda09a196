"""The filter that each language builds, and files that every reader refuses."""

import os
import re

import pytest
from conftest import TOP, run
from fastbloom import BlockedFilter, Filter, Refusal, RotatingFilter

NAMES = [f"item{i}" for i in range(101_000)]
SIPHASH = TOP / "tests/siphash.text"


def digest(words):
    folded = 1469598103934665603
    for word in words:
        folded = (folded ^ word) * 1099511628211 % 2**64
    return folded


@pytest.fixture(scope="module")
def seen():
    made = Filter(1000, "1/1000")
    for name in NAMES[:1000]:
        made.add(name)
        assert name in made and made.add_hash(made.hash(name))
    return made


def test_values_from_outside(seen):
    keyed = Filter(1, "1/2", key=bytes(range(16)))
    wanted = (TOP / "tests/items.text").read_text()
    assert wanted == (
        f"words {seen.num_words} hashes {seen.num_hashes}\n"
        f"hash {keyed.hash(bytes(range(15))):016x}\n"
        f"digest {digest(seen.words()):016x}\n"
        f"false {sum(name in seen for name in NAMES[1000:])} of 100000\n"
    )


def test_hashes_are_those_of_siphash():
    """Under keys and of texts of all lengths, by another program."""
    rows = re.findall(r"^(\w{32}) (\w{16})\n((?: \w+\n)*)", SIPHASH.read_text(), re.M)
    for key, wanted, text in rows:
        message = bytes.fromhex("".join(text.split()))
        assert f"{Filter(1, '1/2', key=bytes.fromhex(key)).hash(message):016x}" == wanted, key
    assert len(rows) == 40


def test_its_file_is_loaded_and_mapped(seen, files):
    path = files / "python.bloom"
    seen.save(path)
    for is_mapped in (False, True):
        loaded = Filter.load(path, mapped=is_mapped)
        assert loaded == seen and not loaded.add("new") and loaded != seen
        assert Filter.load(path) == seen


def test_another_process_maps_its_file(seen, tmp_path):
    seen.save(tmp_path / "seen.bloom")
    child = os.fork()
    if child == 0:
        again = Filter.load(tmp_path / "seen.bloom", mapped=True)
        os._exit(0 if all(name in again for name in NAMES[:1000]) else 1)
    assert os.waitpid(child, 0)[1] == 0


def test_the_file_of_a_blocked_filter(files):
    made, path = BlockedFilter(1000, "1/1000"), files / "python.blocked"
    made.update(NAMES[:1000])
    made.save(path)
    assert BlockedFilter.load(path) == made == BlockedFilter.load(path, mapped=True)


def test_a_byte_of_a_file_without_a_seal(seen, tmp_path):
    """Nothing tells that it was changed: it is another filter."""
    path = tmp_path / "seen.bloom"
    seen.save(path, sealed=False)
    path.write_bytes(path.read_bytes()[:-1] + b"\0")
    assert Filter.load(path) != seen


def test_refused_files(seen, tmp_path):
    seen.save(tmp_path / "seen.bloom")
    folder = tmp_path / "refused"
    assert run(TOP / "tests/refused.py", tmp_path / "seen.bloom", folder)[0] == 0
    paths = sorted(folder.iterdir())
    assert len(paths) == 35
    for path in paths:
        for is_mapped in (False, True):
            with pytest.raises(Refusal) as told:
                Filter.load(path, mapped=is_mapped)
            assert told.value.code == int(path.name.split("-")[0]), path


def test_filters_in_turn_answer_as_the_model():
    """The table of its answers is up to date."""
    table = (TOP / "tests/rotating.txt").read_text()
    assert run(TOP / "tests/rotating.py") == (0, table, "") and table.count("\n") == 200
    for row in table.splitlines():
        number, rate, key, stream, replies, taken, wanted = row.split()
        seen = RotatingFilter(int(number), rate, bytes([int(key)] * 16))
        for item, reply in zip(stream, replies):
            assert (item in seen) == (reply == "+") == seen.add(item), row
        words = seen.older.words() + seen.newer.words()
        assert (seen.taken, f"{digest(words):016x}") == (int(taken), wanted), row
