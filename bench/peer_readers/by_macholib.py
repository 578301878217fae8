"""Reads all headers of a file by the package macholib, and the symbols of each. ../peers runs it.

macholib refuses a file by a ValueError, or by an OSError for an offset past its end. Any other error is one that nothing
caught.
"""

import sys

from macholib.MachO import MachO
from macholib.SymbolTable import SymbolTable

try:
    image = MachO(sys.argv[1])
    for header in image.headers:
        SymbolTable(image, header)
except (ValueError, OSError) as error:
    sys.exit(str(error) or type(error).__name__)
