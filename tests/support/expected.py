"""Compares a text with the one that is stored under a name in tests/expected."""

import difflib
import os

from tests.support.places import EXPECTED


def compare(name: str, text: str) -> None:
    """Fails where the text differs from the stored one. WRITE_EXPECTED=1 stores it, for review."""
    path = EXPECTED / name
    if os.environ.get("WRITE_EXPECTED") == "1":
        path.parent.mkdir(parents=True, exist_ok=True)
        path.write_text(text, encoding="utf-8")
    wanted = path.read_text(encoding="utf-8") if path.exists() else ""
    lines = difflib.unified_diff(
        wanted.splitlines(), text.splitlines(), f"expected/{name}", "got", lineterm="", n=1
    )
    assert text == wanted, "\n".join(list(lines)[:60])
