"""Runs the tests of the package that is installed, by pytest where it is there: `python tests`."""

import importlib.util
import sys
import unittest
from pathlib import Path

HERE = str(Path(__file__).resolve().parent)
sys.dont_write_bytecode = True
sys.path.insert(0, HERE)

if importlib.util.find_spec("pytest"):
    import pytest

    sys.exit(pytest.main(["-q", "-p", "no:cacheprovider", HERE]))
tests = unittest.defaultTestLoader.discover(HERE)
sys.exit(not unittest.TextTestRunner(verbosity=1).run(tests).wasSuccessful())
