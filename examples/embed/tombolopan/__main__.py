"""The command line of mte_host: python3 -m tombolopan --frames N SCRIPT FILE..."""
from __future__ import annotations

import pathlib
import sys
from collections.abc import Sequence

from . import ScriptError, session


def main(words: Sequence[str]) -> int:
    """The command line of mte_host: --frames N SCRIPT FILE..."""
    if len(words) < 3 or words[0] != "--frames":
        return 2
    try:
        script, *files = (pathlib.Path(it).read_bytes() for it in words[2:])
        sys.stdout.buffer.write(session(int(words[1]), script, files))
    except ScriptError as error:
        print(f"mte_host: {error}", file=sys.stderr)
        return 3
    except ValueError:
        return 2
    except MemoryError:
        print("mte_host: out of memory", file=sys.stderr)
        return 4
    except OSError as error:
        print(f"mte_host: cannot read {error.filename}", file=sys.stderr)
        return 5
    return 0


if __name__ == "__main__":
    sys.exit(main(sys.argv[1:]))
