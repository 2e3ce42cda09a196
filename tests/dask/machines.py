"""Machines for the tests: clusters of processes with a mark, and network namespaces."""

import contextlib
import json
import os
import subprocess
import sys
import time
from pathlib import Path

MARK = "TEST_DASK"  # a variable by which the processes of one run are known
PATIENCE = 180  # seconds; only a machine with much other work needs more than a few
WORKERS = 4


@contextlib.contextmanager
def namespaces():
    """Ways to run a command in two network namespaces, with the address of the first.

    Where they can't be made, both are this machine.
    """
    near, far = (f"dask-{os.getpid()}-{end}" for end in ("near", "far"))
    steps = [
        f"netns add {near}",
        f"netns add {far}",
        f"link add near netns {near} type veth peer name far netns {far}",
    ]
    for name, wire, address in (near, "near", "10.0.0.1/30"), (far, "far", "10.0.0.2/30"):
        steps += [
            f"-n {name} address add {address} dev {wire}",
            f"-n {name} link set {wire} up",
            f"-n {name} link set lo up",
        ]
    try:
        try:
            for step in steps:
                subprocess.run(["ip", *step.split()], check=True, stderr=subprocess.PIPE, text=True)
        except (OSError, subprocess.CalledProcessError) as error:
            why = getattr(error, "stderr", None) or error
            print(f"skipped: two network namespaces: {str(why).strip()}", flush=True)
            yield [], [], "127.0.0.1", "127.0.0.1"
        else:
            enter = ["ip", "netns", "exec"]
            yield [*enter, near], [*enter, far], "10.0.0.1", "10.0.0.2"
    finally:
        for name in (near, far):
            with contextlib.suppress(OSError):
                subprocess.run(["ip", "netns", "del", name], stderr=subprocess.DEVNULL, check=False)


@contextlib.contextmanager
def started(words, log, **environment):
    """A process that is ended at the end."""
    with open(log, "wb") as file, subprocess.Popen(
        list(map(str, words)),
        stdout=file,
        stderr=file,
        stdin=subprocess.DEVNULL,
        env={**os.environ, **environment},
    ) as process:
        try:
            yield process
        finally:
            process.terminate()
            with contextlib.suppress(subprocess.TimeoutExpired):
                process.wait(PATIENCE)
            process.kill()


def address_in(file):
    """The address that a scheduler wrote, or nothing where it hasn't written it."""
    with contextlib.suppress(OSError, ValueError):
        return json.loads(file.read_text())["address"]
    return None


@contextlib.contextmanager
def cluster(folder, near, far, here, there, **environment):
    """The address of a scheduler, whose workers are in the other namespace."""
    told = folder / f"scheduler-{time.monotonic_ns()}.json"
    command = [sys.executable, "-m"]
    with started(
        [
            *near,
            *command,
            "distributed.cli.dask_scheduler",
            "--host",
            here,
            "--port",
            0,
            "--no-dashboard",
            "--scheduler-file",
            told,
        ],
        folder / "scheduler.log",
    ):
        with started(
            [
                *far,
                *command,
                "distributed.cli.dask_worker",
                "--scheduler-file",
                told,
                "--host",
                there,
                "--nworkers",
                WORKERS,
                "--nthreads",
                1,
                "--no-dashboard",
                "--local-directory",
                folder,
            ],
            folder / "workers.log",
            **environment,
        ):
            yield wait_for(lambda: address_in(told))


def wait_for(call):
    """What a call gives, once that is something."""
    end = time.monotonic() + PATIENCE
    while not (given := call()):
        if time.monotonic() > end:
            raise TimeoutError(f"nothing came in {PATIENCE} seconds")
        time.sleep(0.05)
    return given


def others():
    """The processes of this run besides this one."""
    found = []
    for entry in Path("/proc").iterdir():
        with contextlib.suppress(OSError):
            if entry.name.isdigit() and int(entry.name) != os.getpid():
                if f"{MARK}={os.environ[MARK]}\0".encode() in (entry / "environ").read_bytes():
                    found.append((entry / "cmdline").read_bytes().replace(b"\0", b" ").decode())
    return found


def is_open(file):
    """Whether a process of this run has a file open."""
    for entry in Path("/proc").iterdir():
        with contextlib.suppress(OSError):
            if entry.name.isdigit() and any(it.samefile(file) for it in (entry / "fd").iterdir()):
                return True
    return False


def none_left():
    """The processes that are left after a while."""
    with contextlib.suppress(TimeoutError):
        wait_for(lambda: not others())
    return others()
