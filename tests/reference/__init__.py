"""The reference implementation: a second verifier, which was written from the pages of docs/ alone, a second
explanation of its refusals, and what compares both with others."""

import importlib.util
from pathlib import Path

ORACLE = Path(__file__).parent / "oracle.py"
# The rules that no file breaks first: signature-slot of the unambiguous profile judges all slots, and stands before it.
HIDDEN = {"directory-repeated"}


def load(path=ORACLE):
    """The module of a reference implementation, which may be a copy with a mistake."""
    spec = importlib.util.spec_from_file_location("oracle", path)
    module = importlib.util.module_from_spec(spec)
    spec.loader.exec_module(module)
    return module
