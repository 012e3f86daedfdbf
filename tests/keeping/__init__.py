"""What tests/keeper.py is made of. Importing it makes the independent program's modules, and those of the tests, importable."""

import pathlib
import sys

TESTS = pathlib.Path(__file__).resolve().parent.parent
sys.path[:0] = [str(TESTS), str(TESTS / "independent")]
