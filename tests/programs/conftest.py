"""Where the programs are: `--program NAME=PATH` gives another one."""

import os
import pathlib

import pytest

TOP = pathlib.Path(__file__).resolve().parents[2]


def pytest_addoption(parser):
    parser.addoption('--program', action='append', default=[], metavar='NAME=PATH')


@pytest.fixture
def path_of(request):
    """The path of a built program, by its name."""

    def path(name):
        others = dict(it.split('=', 1) for it in request.config.getoption('--program'))
        found = os.path.abspath(others.get(name, TOP / f'crates/{name}/out/{name}'))
        if not os.access(found, os.X_OK):
            pytest.fail(f'{found} is not built: bin/{name} builds it', pytrace=False)
        return found

    return path
