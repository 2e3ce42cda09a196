"""Where the tests in this folder find what they call, and how they call it."""

import os
import subprocess
from pathlib import Path

import pytest

TOP = Path(__file__).resolve().parents[2]
LIBRARY = TOP / "out/c"
BUILT = TOP / "out/tests"


def run(*words, **options):
    """Runs a command, and returns its status, its output and its errors."""
    done = subprocess.run(
        list(map(str, words)), capture_output=True, text=True, timeout=1200, check=False, **options
    )
    return done.returncode, done.stdout, done.stderr


@pytest.fixture
def files(tmp_path):
    """The folder for the files that each language writes."""
    return Path(os.environ.get("FASTBLOOM_FILES", tmp_path))
