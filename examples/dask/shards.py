#!/usr/bin/env python3
"""Builds one filter of the keys of a folder's files, one key a line, on a dask.distributed cluster.

The filter is written in the file form that `summaries ask`, Python and C read. With no address of a
scheduler it starts one, and workers, on this machine. The workers of another scheduler must see the
files under the same names, and have the package fastbloom. Status 1: the filter wasn't built, and
nothing was written.
"""

import argparse
import asyncio
import contextlib
import logging
import os
import re
import signal
import sys
import tempfile
import time

import distributed

try:
    import bloom_dask
except ImportError as error:
    sys.exit(f"shards: {error}")


def rate(text):
    """Two whole numbers, of which the second is the greater."""
    found = re.fullmatch(r"([0-9]+)/([0-9]+)", text)
    if not found or not 0 < int(found[1]) < int(found[2]):
        raise argparse.ArgumentTypeError("a rate is A/B, between 0 and 1")
    return text


def count(text):
    if not re.fullmatch("[0-9]{1,4}", text):
        raise argparse.ArgumentTypeError("a count is from 0 to 9999")
    return int(text)


def number(text):
    if not re.fullmatch("[0-9]+", text) or not 0 < int(text) <= 10**12:
        raise argparse.ArgumentTypeError("a number is from 1 to 10^12")
    return int(text)


def arguments():
    parser = argparse.ArgumentParser(prog="shards", description=__doc__.split("\n\n")[0])
    parser.add_argument(
        "folder",
        metavar="FOLDER",
        help="each file in it is a part of the keys, unless a dot begins its name",
    )
    parser.add_argument(
        "--items", type=number, required=True, metavar="N", help="how many keys the filter is for"
    )
    parser.add_argument(
        "--rate", type=rate, required=True, metavar="A/B", help="its rate of false positives"
    )
    parser.add_argument("--scheduler", metavar="ADDRESS", help="of a cluster that runs")
    parser.add_argument(
        "--workers",
        type=number,
        default=os.cpu_count(),
        metavar="N",
        help="how many are started where there is no address (%(default)s)",
    )
    parser.add_argument(
        "--retries",
        type=count,
        default=bloom_dask.RETRIES,
        metavar="N",
        help="how often a part that failed is done again (%(default)s)",
    )
    parser.add_argument(
        "--out", metavar="FILE", help="the filter's file, not in FOLDER (FOLDER.bloom)"
    )
    return parser.parse_args()


@contextlib.contextmanager
def held():
    """Signals wait for the end of this: a cluster that starts or ends isn't left half-way."""
    came = []
    handlers = {
        number: signal.signal(number, lambda number, _: came.append(number))
        for number in (signal.SIGINT, signal.SIGTERM)
    }
    try:
        yield
    finally:
        for number, handler in handlers.items():
            signal.signal(number, handler)
    for number in came:
        signal.raise_signal(number)


@contextlib.contextmanager
def own_cluster(workers):
    """A scheduler and workers of this machine, which leave nothing behind."""
    cluster = None
    with tempfile.TemporaryDirectory(prefix="shards-") as folder:
        try:
            with held():
                cluster = distributed.LocalCluster(
                    n_workers=workers,
                    threads_per_worker=1,
                    local_directory=folder,
                    dashboard_address=":0",
                    scheduler_kwargs={"dashboard": False},
                    silence_logs=logging.CRITICAL,
                )
            yield cluster
        finally:
            if cluster:
                with held():
                    cluster.close()


@contextlib.contextmanager
def client_of(chosen):
    """A client of the scheduler that was named, or else of one's own."""
    if chosen.scheduler is None:
        with own_cluster(chosen.workers) as cluster, distributed.Client(cluster) as client:
            yield client
    else:
        with distributed.Client(chosen.scheduler) as client:
            client.wait_for_workers(1, timeout=30)
            client.upload_file(bloom_dask.__file__)
            yield client


def files_of(folder):
    """The files of a folder by their names, but for those with a dot before it.

    What is neither a file nor a folder is refused, such as a pipe: its keys come once, if at all.
    """
    found = []
    for entry in os.scandir(folder):
        if not entry.name.startswith(".") and not entry.is_dir():
            if os.path.exists(entry.path) and not entry.is_file():
                raise ValueError(f"{entry.path} is no file")
            found.append(entry.path)  # a link that leads nowhere is told as a part that isn't there
    if not found:
        raise ValueError(f"{folder} has no file")
    return sorted(found)


def check_out(out, folder):
    """Refuses a file that can't be written, or that a later run would take for a part."""
    if not os.path.basename(out) or os.path.exists(out) and not os.path.isfile(out):
        raise ValueError(f"{out!r} is no file")
    place = os.path.realpath(os.path.dirname(os.path.abspath(out)))
    if place == os.path.realpath(folder):
        raise ValueError(f"{out} lies in {folder}, where each file is a part")
    if not os.path.isdir(place) or not os.access(place, os.W_OK):
        raise PermissionError(f"{out} can't be written")


def run(chosen):
    """Builds the filter and writes it."""
    folder = os.path.abspath(chosen.folder)
    out = folder + ".bloom" if chosen.out is None else chosen.out
    files = files_of(folder)
    check_out(out, folder)
    with client_of(chosen) as client:
        began = time.monotonic()
        future = bloom_dask.build(client, files, chosen.items, chosen.rate, retries=chosen.retries)
        if sys.stdout.isatty():
            distributed.progress(future)
        built = future.result()
        took = time.monotonic() - began
        workers = len(client.nthreads())
    built.save(out)
    print(f"{len(files)} parts by {workers} workers in {took:.1f} s: {out}")


def main():
    chosen = arguments()
    signal.signal(signal.SIGTERM, lambda number, _: sys.exit(128 + number))
    try:
        run(chosen)
    except KeyboardInterrupt:
        sys.exit(128 + signal.SIGINT)
    except (Exception, asyncio.CancelledError) as error:
        sys.exit(f"shards: {str(error) or type(error).__name__}")


if __name__ == "__main__":
    main()
