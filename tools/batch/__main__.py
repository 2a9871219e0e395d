#!/usr/bin/env python3
"""Runs many sessions: `batch --help` says how."""

import pathlib
import sys

sys.path.insert(0, str(pathlib.Path(__file__).resolve().parent.parent))

from batch.command import main  # noqa: E402

if __name__ == "__main__":
    sys.exit(main())
