"""What a check finds, as a command says it."""

import sys
from collections.abc import Iterable


def status_of(found: Iterable[str]) -> int:
    """Writes each finding to standard error; the exit status, which is 1 where there is one."""
    lines = list(found)
    for line in lines:
        print(line, file=sys.stderr)
    return 1 if lines else 0
