"""The examples, and how a file is written in each language."""

import os
import shutil
import subprocess
import sys

import pytest
from conftest import BUILT, LIBRARY, TOP, run

EXAMPLES = TOP / "examples"
ENVIRONMENT = {**os.environ, "ASAN_OPTIONS": "detect_leaks=0"}


def program(name, preset="sanitizers"):
    """An example in C or C++, as tests/CMakeLists.txt builds it."""
    path = BUILT / preset / name
    if not path.exists():
        pytest.skip(f"{path} isn't built")
    return path


@pytest.fixture(scope="session")
def rust_program():
    """An example in Rust by its name."""
    if not shutil.which("cargo"):
        pytest.skip("there is no cargo")
    manifest = EXAMPLES / "rust/Cargo.toml"
    status, _, errors = run(
        "cargo",
        "build",
        "--offline",
        "--locked",
        "--examples",
        "--manifest-path",
        manifest,
        "--target-dir",
        BUILT / "target",
        env={**os.environ, "FASTBLOOM_LIB": str(LIBRARY)},
    )
    assert status == 0, errors
    return lambda name: BUILT / "target/debug/examples" / name


@pytest.fixture(params=["c", "c++17", "c++20", "python", "rust"])
def saves(request):
    """A command in each language that saves a filter of a million items in the file seen.bloom."""
    if request.param == "c":
        return [program("file"), "make", "seen.bloom", 1_000_000]
    if request.param == "python":
        return [sys.executable, EXAMPLES / "python/first.py", "seen.bloom"]
    if request.param == "rust":
        return [request.getfixturevalue("rust_program")("first"), "seen.bloom"]
    return [program(f"first_{request.param}"), "seen.bloom"]


@pytest.fixture
def old(tmp_path):
    """A folder with an old file that a filter is to replace."""
    (tmp_path / "seen.bloom").write_text("old")
    (tmp_path / "seen.bloom").chmod(0o600)
    return tmp_path


def state(folder):
    """The names in a folder, with their modes, and how the files begin."""
    return [
        (it.name, oct(it.lstat().st_mode & 0o777), it.read_bytes()[:6])
        for it in sorted(folder.iterdir())
    ]


def test_a_file_for_which_there_is_no_room(saves, old):
    """The old one stays, and nothing else."""
    before = state(old)
    words = ["sh", "-c", "ulimit -f 64; trap '' XFSZ; exec \"$@\"", "sh", *saves]
    assert run(*words, cwd=old, env=ENVIRONMENT)[0] != 0
    assert state(old) == before


def test_the_file_is_flushed_and_then_its_folder(saves, old):
    trace = old.with_name(f"{old.name}.trace")
    if run("strace", "-o", trace, "true")[0] != 0 if shutil.which("strace") else True:
        pytest.skip("there is no strace")
    words = ["strace", "-f", "-y", "-e", "trace=fsync", "-o", trace, *saves]
    assert run(*words, cwd=old, env=ENVIRONMENT)[0] == 0
    flushed = [
        line.partition("<")[2].partition(">)")[0]
        for line in trace.read_text().splitlines()
        if "fsync(" in line and line.endswith(" = 0")
    ]
    assert [path.startswith(f"{old}/seen.bloom.") or path for path in flushed] == [True, str(old)]


def test_a_file_keeps_its_mode_and_no_link_is_followed(old):
    (old / "other").write_text("other")
    (old / "other").chmod(0o644)
    (old / "seen.bloom.part").symlink_to("other")
    before = state(old)
    assert run(program("file"), "make", "seen.bloom", 1000, cwd=old)[0] == 0
    assert state(old) == [before[0], ("seen.bloom", "0o600", b"fbloom"), before[2]]


def test_c_writes_lines_that_are_new(tmp_path):
    words = [program("dedup"), tmp_path / "dedup.bloom"]
    assert run(*words, 1000, input="crab\nlobster\ncrab\nprawn")[1] == "crab\nlobster\nprawn\n"
    assert run(*words, input="prawn\n\nkrill\ncrab\n")[:2] == (0, "\nkrill\n")


def test_c_writes_blocks_of_lines(tmp_path):
    lines = "".join(f"{number}\n" for number in range(1, 1001))
    assert run(program("dedup"), tmp_path / "dedup.bloom", 100_000, input=lines)[1] == lines


def is_lost(words, line):
    """Whether a command fails for a full disk that takes its line."""
    return run("sh", "-c", '"$@" > /dev/full', "sh", *words, input=line)[0] != 0


def test_a_line_that_c_could_not_write_comes_again(tmp_path):
    words = [program("dedup"), tmp_path / "dedup.bloom", 1000]
    assert is_lost(words, "crab\n")
    assert run(*words, input="crab\n")[1] == "crab\n"


def test_c_leaves_out_lines_that_are_among_the_last():
    lines = "crab\neel\ncrab\nprawn\neel\n"
    assert run(program("rotating"), 2, input=lines)[:2] == (0, "crab\neel\nprawn\neel\n")


def test_a_guard_before_a_store(tmp_path):
    words = [program("guard", "threads"), tmp_path / "guard.bloom", 10_000]
    for _ in range(2):
        status, output, errors = run(*words)
        assert (status, errors) == (0, "")
        assert output.startswith("10000 look-ups, 5000 found,")


def test_a_guard_makes_no_filter_in_the_place_of_a_folder(tmp_path):
    assert run(program("guard", "threads"), tmp_path, 10)[:2] == (1, "input failed\n")


def test_a_first_use_of_python(tmp_path):
    words = [sys.executable, EXAMPLES / "python/first.py", tmp_path / "first.bloom"]
    assert run(*words) == (0, "False True\nTrue\n", "")


def test_a_first_use_of_rust(rust_program, tmp_path):
    told = "crab: new\nlobster: new\ncrab: seen before\nread back\n"
    assert run(rust_program("first"), tmp_path / "first.bloom") == (0, told, "")


def test_a_crawler_visits_each_page_once(tmp_path):
    """One page is linked by none, and then by a new one. A link to a folder is visited as one to a
    page, and has no links."""
    site = tmp_path / "site"
    for name, text in {
        "index.html": '<a href="eel.html">eel</a> <a href="more/crab.html">crab</a>',
        "eel.html": '<a href="index.html">home</a> <a href="/etc/passwd">no page</a> '
        '<a href="more/">more</a>',
        "more/crab.html": '<a href="../eel.html">eel</a> <a href="../../none">none</a>',
        "new.html": '<a href="alone.html#top">alone</a> <a href="eel.html">eel</a>',
        "alone.html": "no links",
    }.items():
        (site / name).parent.mkdir(parents=True, exist_ok=True)
        (site / name).write_text(text)
    words = [sys.executable, EXAMPLES / "python/crawler.py", tmp_path / "pages.bloom", site]
    first = ["eel.html", "index.html", "more", "more/crab.html"]
    for page, visited in (
        ("index.html", first),
        ("index.html", []),
        ("new.html", ["alone.html", "new.html"]),
    ):
        assert run(*words, page)[:2] == (0, "".join(f"{it}\n" for it in visited))


def test_a_crawler_ends_at_names_that_no_file_has(tmp_path):
    """A link has a zero byte, and the name of a page that is asked for is no UTF-8."""
    (tmp_path / "index.html").write_bytes(b'<a href="a\0b">no page</a> <a href="eel.html">eel</a>')
    words = [sys.executable, EXAMPLES / "python/crawler.py", tmp_path / "pages.bloom", tmp_path]
    done = subprocess.run(
        [*words, "index.html", b"\xff.html"],
        stdout=subprocess.PIPE,
        timeout=60,
        check=True,
        env={**os.environ, "PYTHONIOENCODING": "utf-8:surrogateescape"},
    )
    assert done.stdout == b"a\0b\neel.html\nindex.html\n\xff.html\n"


def test_rust_deduplicates_a_log(rust_program, tmp_path):
    words = [rust_program("log"), tmp_path / "log.bloom"]
    lines = "10:00 disk full\n10:01 disk full\n10:02 ready\nalone"
    assert run(*words, input=lines)[:2] == (0, "10:00 disk full\n10:02 ready\nalone")
    lines = "11:00 ready\n11:01 stopped\n11:02 alone\n"
    assert run(*words, input=lines)[:2] == (0, "11:01 stopped\n")
    assert is_lost(words, "12:00 lost\n")
    assert run(*words, input="12:01 lost\n")[:2] == (0, "12:01 lost\n")
