"""Runs the cases of the built programs, and compares what each writes, its status and its files.

transcripts.py describes the files of cases. `-k WORD` keeps those with the word in their place or
name.
"""

import os
import pathlib

import pytest

import runs
import transcripts

CASES = transcripts.read_all(pathlib.Path(__file__).parents[2])


@pytest.mark.parametrize('case', CASES, ids=lambda case: f'{case.place}: {case.name}')
def test_case(case, path_of):
    if case.needs_root() and os.geteuid():
        pytest.skip('only root can run it')
    differs = runs.carry_out(path_of(case.program), case)
    if differs:
        pytest.fail(differs, pytrace=False)
