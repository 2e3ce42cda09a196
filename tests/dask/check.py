"""Tests the module bloom_dask and the program shards.py against the program summaries.

`check.py SUMMARIES` wants the package fastbloom on its path, and dask with bags and dataframes.
Four worker processes build the filter of 10^6 keys in 64 files. One of them is killed each time a
quarter of the parts is done, and one part is done twice: the file is that of `summaries build`.
Where root may make network namespaces, the workers are in another one than the scheduler.
"""

import logging
import os
import pty
import signal
import subprocess
import sys
import tempfile
import time
import tracemalloc
from pathlib import Path
from unittest import mock

import dask.bag
from dask import delayed
from distributed import Client, wait

TOP = Path(__file__).resolve().parents[2]
sys.path.insert(0, str(TOP / "examples/dask"))
import bloom_dask
from fastbloom import Filter
from machines import MARK, PATIENCE, cluster, is_open, namespaces, none_left, started, wait_for

SHARDS = [sys.executable, TOP / "examples/dask/shards.py"]
KEYS, FILES, LINES = 1_000_000, 64, 50_000_000
SIZE = ["--items", KEYS, "--rate", "1/1000"]


class Checks:
    """What passed and failed, and the folder where all files are."""

    def __init__(self, folder, summaries):
        self.passed = self.failed = 0
        self.folder, self.keys = folder, folder / "keys"
        write_keys(self.keys)
        self.files = sorted(self.keys.glob("*.keys"))
        self.whole = subprocess.run(
            list(map(str, [summaries, "build", *SIZE, *self.files])),
            stdout=subprocess.PIPE,
            check=True,
        ).stdout
        self.summaries = summaries

    def check(self, what, wanted, found):
        if wanted == found:
            self.passed += 1
            print(what, flush=True)
        else:
            self.failed += 1
            print(f"failed: {what}\n  wanted {wanted!r}\n  got    {found!r}", flush=True)

    def check_file(self, what, out):
        """The file is that of all keys, byte for byte."""
        self.check(what, True, out.exists() and out.read_bytes() == self.whole)

    def fails(self, what, pieces, words):
        """A program ends with status 1 and one line, which has these pieces, and writes no file."""
        before = sorted(self.folder.rglob("*.bloom*"))
        status, output, errors = run(*words)
        found = [piece for piece in pieces if piece in errors]
        self.check(
            what,
            (1, "", 1, pieces, before),
            (status, output, errors.count("\n"), found, sorted(self.folder.rglob("*.bloom*"))),
        )


def write_keys(folder):
    """Files of several sizes, of which one is empty. Some keys come in two of them.

    A hidden file, as an editor or a lost run may leave it, is no part.
    """
    folder.mkdir()
    (folder / ".01.keys.swp").write_text("".join(f"other{key}\n" for key in range(1000)))
    cuts = [KEYS * number * number // (FILES - 1) ** 2 for number in range(FILES)]
    (folder / "00.keys").write_text("")
    for number, (first, last) in enumerate(zip(cuts, cuts[1:]), 1):
        lines = "\n".join(f"key{key}" for key in range(max(0, first - 100), last))
        (folder / f"{number:02}.keys").write_text(lines if number % 2 else lines + "\n")


def run(*words):
    """The status, output and errors of a command."""
    done = subprocess.run(
        list(map(str, words)),
        stdin=subprocess.DEVNULL,
        capture_output=True,
        text=True,
        timeout=600,
        check=False,
    )
    return done.returncode, done.stdout, done.stderr


def why(call):
    """What a call raises."""
    try:
        return call()
    except Exception as error:
        return f"{type(error).__name__}: {error}"


def on_other_machines(checks):
    """Workers that lie behind another network, are killed, and do a part twice."""
    folder, out = checks.folder, checks.folder / "killed.bloom"
    with namespaces() as (near, far, here, there):
        with cluster(folder, near, far, here, there) as address:
            status, output, errors = run(
                *near,
                sys.executable,
                TOP / "tests/dask/killing.py",
                address,
                checks.keys,
                KEYS,
                out,
            )
            killed, parts, done = map(int, output.split()) if status == 0 else (0, 0, 0)
            checks.check(
                f"{killed} workers are killed, and {done} tasks do {parts} parts",
                (0, "", 3, FILES + 1, True),
                (status, errors, killed, parts, done > parts),
            )
            checks.check_file("the filter is that of all keys, though workers were killed", out)
            out = folder / "address.bloom"
            status, output, errors = run(
                *near, *SHARDS, checks.keys, *SIZE, "--scheduler", address, "--out", out
            )
            checks.check(
                "shards.py --scheduler",
                (0, "64 parts by 4 workers in "),
                (status, output[:25]) if status == 0 else (status, errors),
            )
            checks.check_file("the filter of shards.py --scheduler is that of all keys", out)
        # These workers don't find the package, by which they would add keys.
        with cluster(folder, near, far, here, there, PYTHONPATH="") as address:
            checks.fails(
                "workers that lack the package refuse",
                ["shards: ", "fastbloom"],
                [
                    *near,
                    *SHARDS,
                    checks.keys,
                    *SIZE,
                    "--scheduler",
                    address,
                    "--out",
                    folder / "refused.bloom",
                ],
            )


def on_own_workers(checks):
    """A scheduler and workers that shards.py starts, with a terminal, and what it refuses."""
    out, seen = Path(f"{checks.keys}.bloom"), b""
    terminal, other_end = pty.openpty()
    with subprocess.Popen(
        list(map(str, [*SHARDS, checks.keys, *SIZE])),
        stdout=other_end,
        stderr=other_end,
        stdin=subprocess.DEVNULL,
    ) as process:
        os.close(other_end)
        try:
            while piece := os.read(terminal, 65536):
                seen += piece
        except OSError:  # how a terminal ends
            pass
        os.close(terminal)
    checks.check(
        "shards.py shows a bar", (0, True), (process.returncode, b"100% Completed" in seen or seen)
    )
    checks.check_file("the filter of shards.py is that of all keys", out)
    out.unlink()
    (checks.folder / "bad").mkdir()
    (checks.folder / "bad" / "a.keys").write_text("a\n")
    (checks.folder / "bad" / "b.keys").symlink_to("none")
    checks.fails(
        "a part that can't be read",
        [f"shards: {checks.folder}/bad/b.keys: No such file or directory\n"],
        [*SHARDS, checks.folder / "bad", *SIZE],
    )
    checks.fails(
        "a folder that isn't there",
        ["No such file or directory"],
        [*SHARDS, checks.folder / "none", *SIZE],
    )
    (checks.folder / "bad" / "b.keys").unlink()
    inside = checks.folder / "bad" / "out.bloom"
    checks.fails(
        "a filter's file among the parts",
        [f"shards: {inside} lies in "],
        [*SHARDS, checks.folder / "bad", *SIZE, "--out", inside],
    )
    for out in checks.folder, "", "none/out.bloom", checks.folder / "bad" / "a.keys" / "out.bloom":
        checks.fails(
            f"a filter's file that can't be written: {str(out)[-15:]!r}",
            ["shards: ", " is no file" if out in (checks.folder, "") else " can't be written"],
            [*SHARDS, checks.folder / "bad", *SIZE, "--out", out],
        )
    os.mkfifo(checks.folder / "bad" / "pipe")
    checks.fails(
        "a pipe",
        [f"shards: {checks.folder}/bad/pipe is no file\n"],
        [*SHARDS, checks.folder / "bad", *SIZE],
    )
    checks.fails(
        "a folder with hidden files alone",
        ["/hidden has no file\n"],
        ["sh", "-c", 'mkdir hidden; touch hidden/.keys; exec "$@"', "sh", *SHARDS, "hidden", *SIZE],
    )
    checks.fails(
        "a filter for which there is no memory",
        ["shards: no memory of "],
        [
            "sh",
            "-c",
            'ulimit -v 8000000; exec "$@"',
            "sh",
            *SHARDS,
            checks.keys,
            "--items",
            10**12,
            "--rate",
            "1/1000",
        ],
    )
    long = checks.folder / "long"
    long.write_bytes(b"\n" * LINES)
    for number in signal.SIGINT, signal.SIGTERM, signal.SIGKILL:
        is_ended_by(checks, number, long)


def is_ended_by(checks, number, long):
    """A signal comes while a worker reads a part that takes a minute or so."""
    folder = checks.folder / number.name
    folder.mkdir()
    (folder / "a.keys").symlink_to(long)
    with started([*SHARDS, folder, *SIZE], f"{folder}.log") as process:
        wait_for(lambda: is_open(long))
        process.send_signal(number)
        process.wait(PATIENCE)
        left = none_left()
    checks.check(
        f"{number.name} leaves no worker behind, and no file",
        (True, [], False),
        (process.returncode != 0, left, Path(f"{folder}.bloom").exists()),
    )


def load_frames():
    """Loads what tasks on tables need, before two threads of a worker can load it at once.

    One of them may then see a module that is half loaded.
    """
    import dask.dataframe  # noqa: F401


def by_the_module(checks):
    """Bags, columns, look-ups, and what the module refuses."""
    whole = Filter.from_bytes(checks.whole)
    asked_for = [f"key{number}" for number in range(1000)]
    asked_for += [f"other{number}" for number in range(20_000)]
    here = "127.0.0.1"
    with cluster(checks.folder, [], [], here, here) as address, Client(address) as client:
        client.upload_file(bloom_dask.__file__)
        client.run(load_frames)
        bag = dask.bag.read_text(f"{checks.keys}/*.keys", files_per_partition=8)
        bag = bag.map(str.rstrip, "\n")
        frame = bag.map(lambda key: {"name": key, "length": len(key)}).to_dataframe()
        for name, parts in ("a bag", bag), ("a column", frame["name"]):
            built = bloom_dask.build(client, parts, KEYS, "1/1000")
            checks.check(f"the filter of {name} is that of all keys", True, built.result() == whole)
        files = checks.files
        thirds = [bloom_dask.build(client, files[third::3], KEYS, "1/1000") for third in range(3)]
        before = client.gather(thirds)
        united = bloom_dask.unite(client, [*thirds[:2], *thirds]).result()
        checks.check(
            "three filters are united, two of them twice, and stay as they were",
            (True, before),
            (united == whole, client.gather(thirds)),
        )
        asked = dask.bag.from_sequence(asked_for, npartitions=5)
        wanted = subprocess.run(
            [checks.summaries, "ask", checks.keys.parent / "whole.bloom"],
            stdout=subprocess.PIPE,
            input="".join(f"{key}\n" for key in asked_for),
            text=True,
            check=True,
        )
        for name, given in ("a future", built), ("a filter", whole):
            found = client.gather(bloom_dask.ask(client, given, asked))
            checks.check(
                f"{name} answers as summaries ask",
                wanted.stdout.split(),
                [key for part in found for key in part],
            )
        failures(checks, client, files[1])
        refusals(checks, client, frame, built)
        is_done_again(checks, client)
    grows_linearly(checks)


def is_done_again(checks, client):
    """All workers are killed that have a union, and look-ups, of filters that were handed over."""
    one, other = Filter(10, "1/1000"), Filter(10, "1/1000")
    one.add("crab")
    other.add("eel")
    united = bloom_dask.unite(client, [one, other])
    asked = bloom_dask.ask(client, one, dask.bag.from_sequence(["crab", "whale"], npartitions=1))
    wait([united, *asked])
    for pid in client.run(os.getpid).values():
        os.kill(pid, signal.SIGKILL)
    for what, wanted, call in [
        ("a union", True, lambda: united.result(PATIENCE) == one | other),
        ("look-ups", [["crab"]], lambda: [it.result(PATIENCE) for it in asked]),
    ]:
        checks.check(f"{what}, done again once all workers were lost", wanted, why(call))


def grows_linearly(checks):
    """What `build` does before the workers begin takes time by the number of parts."""
    client = mock.Mock(compute=lambda made, retries: made, nthreads=lambda: {"worker": 4})

    def seconds(count):
        began = time.process_time()
        bloom_dask.build(client, [f"/{number}" for number in range(count)], 1000, "1/1000")
        return time.process_time() - began

    ratios = [seconds(40_000) / seconds(20_000) for _ in range(5)]
    checks.check("twice the parts take less than three times as long", True, min(ratios) < 3)
    tracemalloc.start()
    bloom_dask.build(client, ["keys"], 50_000_000, "1/1000")
    checks.check(
        "no filter is made to check its size", True, tracemalloc.get_traced_memory()[1] < 10**6
    )
    tracemalloc.stop()


@delayed(pure=False)
def fails_at_first(mark):
    """The keys of a part whose first reading fails, and leaves a mark."""
    if os.path.exists(mark):
        return ["key0"]
    Path(mark).touch()
    raise OSError("the disk is away")


def failures(checks, client, file):
    """What fails at first, and succeeds when it is done again."""
    one = Filter(KEYS, "1/1000")
    one.add("key0")
    for retries, wanted in (None, True), (1, True), (0, "OSError: the disk is away"):
        bag = dask.bag.from_delayed([fails_at_first(str(checks.folder / f"mark{retries}"))])
        options = {} if retries is None else {"retries": retries}
        build = bloom_dask.build(client, bag, KEYS, "1/1000", **options)
        checks.check(
            f"a part that fails at first, retries {retries}",
            wanted,
            why(lambda: build.result() == one),
        )
    part = bloom_dask.build(client, [file], KEYS, "1/1000").result()
    with mock.patch.object(client, "nthreads", return_value={}):
        built = bloom_dask.build(client, [file], KEYS, "1/1000")
    checks.check("workers that were lost while none was busy", True, built.result() == part)
    built = bloom_dask.build(client, [os.fsencode(file)], KEYS, "1/1000")
    checks.check("a path that is bytes", True, why(lambda: built.result() == part))


def refusals(checks, client, frame, built):
    """What the module refuses."""
    size, rate = KEYS, "1/1000"
    for what, wanted, call in [
        (
            "a filter of another size",
            "ValueError: the filters differ in num_words",
            lambda: bloom_dask.unite(client, [built, Filter(1, rate), built]).result(),
        ),
        (
            "a filter of another number of hashes",
            "ValueError: the filters differ in num_hashes",
            lambda: bloom_dask.unite(client, [Filter(1, rate), Filter(2, rate)]).result(),
        ),
        (
            "a filter of another key",
            "ValueError: the filters differ in key",
            lambda: bloom_dask.unite(client, [built, Filter(size, rate, b"k" * 16)]).result(),
        ),
        (
            "numbers",
            "PartError: part 1 of 1: an item is a str or a bytes-like object, not int",
            lambda: bloom_dask.build(client, dask.bag.from_sequence([1]), size, rate).result(),
        ),
        (
            "a text with no UTF-8",
            "PartError: part 1 of 1: 'utf-8' codec can't encode character "
            "'\\ud800' in position 0: surrogates not allowed",
            lambda: bloom_dask.build(client, dask.bag.from_sequence(["\ud800"]), 1, rate).result(),
        ),
        (
            "a table",
            "TypeError: this is a table, and one column of it is wanted",
            lambda: bloom_dask.build(client, frame, size, rate),
        ),
        (
            "one file",
            "TypeError: this is one part, and a list is wanted",
            lambda: bloom_dask.build(client, "keys", size, rate),
        ),
        (
            "no part",
            "ValueError: there is no part",
            lambda: bloom_dask.build(client, [], size, rate),
        ),
        ("no filter", "ValueError: there is no filter", lambda: bloom_dask.unite(client, [])),
        (
            "a rate of zero",
            "Refusal: rate with a zero part",
            lambda: bloom_dask.build(client, ["keys"], size, 0),
        ),
        (
            "a part that can't be read, at look-ups",
            "PartError: /none: No such file or directory",
            lambda: client.gather(bloom_dask.ask(client, built, ["/none"])),
        ),
    ]:
        checks.check(f"refused: {what}", wanted, why(call))


def files_here():
    """The files beside this one, and beside the module that it tests."""
    folders = {Path(it).resolve().parent for it in (__file__, bloom_dask.__file__)}
    return sorted(it for folder in folders for it in folder.rglob("*"))


def main(summaries):
    # Nobody asks for the time-outs of connections to workers that were killed.
    logging.getLogger("asyncio").setLevel(logging.CRITICAL)
    signal.signal(signal.SIGTERM, lambda number, _: sys.exit(128 + number))
    signal.signal(signal.SIGINT, signal.default_int_handler)  # it may be ignored, and so inherited
    tree = files_here()
    with tempfile.TemporaryDirectory(prefix="test-dask-") as folder:
        os.environ.update({MARK: str(os.getpid()), "TMPDIR": folder})
        os.chdir(folder)
        checks = Checks(Path(folder), summaries)
        Path(folder, "whole.bloom").write_bytes(checks.whole)
        for part in on_other_machines, on_own_workers, by_the_module:
            try:
                part(checks)
            except Exception as error:
                checks.check(f"{part.__name__} ends well", None, error)
        checks.check("no process is left", [], none_left())
    checks.check("no file is left in the tree", tree, files_here())
    print(f"{checks.passed} passed, {checks.failed} failed")
    sys.exit(checks.failed > 0)


if __name__ == "__main__":
    main(sys.argv[1])
