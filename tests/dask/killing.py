"""Builds a filter on a cluster while its workers are killed: `killing.py ADDRESS FOLDER ITEMS OUT`.

A worker that holds a filter is killed each time a quarter of the parts is done, and one part is
done twice. It prints how many were killed, of how many parts, and how often a part was done.
"""

import logging
import os
import signal
import sys
from pathlib import Path

from distributed import Client
from distributed.diagnostics.plugin import SchedulerPlugin

sys.path.insert(0, str(Path(__file__).resolve().parents[2] / "examples/dask"))
import bloom_dask
from machines import PATIENCE, WORKERS

KILLS = 3


class Done(SchedulerPlugin):
    """Counts in the scheduler how often a part was done."""

    name = "done"
    parts = 0

    def transition(self, key, start, finish, *_, **__):
        if "_with_part" in key and (start, finish) == ("processing", "memory"):
            self.parts += 1


def parts_done(dask_scheduler):
    return dask_scheduler.plugins["done"].parts


def kill_one(client):
    """Kills a worker that holds a filter. It returns how many it killed, 0 or 1."""
    holding = [address for address, keys in client.has_what().items() if keys]
    # One that was killed before may still be listed.
    pids = client.run(os.getpid, workers=holding, on_error="ignore") if holding else {}
    for pid in pids.values():
        os.kill(pid, signal.SIGKILL)
        return 1
    return 0


def main(address, folder, items, out):
    # Nobody asks for the time-outs of connections to workers that were killed.
    logging.getLogger("asyncio").setLevel(logging.CRITICAL)
    files = sorted(map(str, Path(folder).glob("*.keys")))
    files.append(files[len(files) // 2])
    with Client(address) as client:
        client.wait_for_workers(WORKERS, timeout=PATIENCE)
        client.register_scheduler_plugin(Done())
        client.upload_file(bloom_dask.__file__)
        future = bloom_dask.build(client, files, int(items), "1/1000")
        killed = 0
        while killed < KILLS and not future.done():
            if client.run_on_scheduler(parts_done) >= (killed + 1) * len(files) // (KILLS + 1):
                killed += kill_one(client)
        future.result().save(out)
        client.wait_for_workers(WORKERS, timeout=PATIENCE)
        print(killed, len(files), client.run_on_scheduler(parts_done))


if __name__ == "__main__":
    main(*sys.argv[1:])
