"""The independent program: document 01's chain store in plain Python."""

import os
import sys

# The files import each other by plain names, as scripts do.
sys.path.insert(0, os.path.dirname(os.path.abspath(__file__)))
