"""The command `kesvuot`, which is also `python3 -m kesvuot`."""

from __future__ import annotations

import signal
import sys
from typing import List, Optional

from ._output import Output, ReaderGone, discard, end_by, say

NO_VERDICT_STATUS = 2


def main(words: Optional[List[str]] = None) -> int:
    """Runs the command with these words, or with those of the process. Python would end with 1 where an exception is
    left, and that is a refusal."""
    try:
        try:
            # What is not there, or cannot be loaded, is no refusal either.
            from ._words import run  # pylint: disable=import-outside-toplevel
            return run(sys.argv[1:] if words is None else words)
        except SystemExit as ended:
            # argparse has printed something, perhaps into a full disk.
            if ended.code == 0:
                Output().flush()
            return NO_VERDICT_STATUS if ended.code else 0
    except ReaderGone:
        end_by(signal.SIGPIPE)
    except Exception as error:  # pylint: disable=broad-except # whatever it is, it is no verdict
        say(str(error) or "out of memory")
        discard(1)
    return NO_VERDICT_STATUS


if __name__ == "__main__":
    sys.exit(main())
