"""What several tests need and one of them makes, also where workers run side by side."""

import fcntl
import pathlib
from collections.abc import Callable


def make_once(path: pathlib.Path, make: Callable[[pathlib.Path], None]) -> pathlib.Path:
    """The path, once `make` has made it. Whoever comes second waits for the first."""
    path.parent.mkdir(parents=True, exist_ok=True)
    with open(f"{path}.lock", "w", encoding="utf-8") as lock:
        fcntl.flock(lock, fcntl.LOCK_EX)
        if not path.exists():
            make(path)
    assert path.exists(), f"{path} was not made"
    return path
