"""What the scripts of tests/ and bench/ that are written in Python share. With it they find the package of
bindings/python, beside which no bytecode is written."""

import sys
from pathlib import Path

sys.dont_write_bytecode = True
sys.path.insert(1, str(Path(__file__).resolve().parents[2] / "bindings/python"))
