"""A copy of the data and of what is written from them, in which tests change lines."""

import pathlib

from a64 import table
from isa import checked_files, differences, differing_files, write_files

from tests.support.checkout import copy_files
from tests.support.places import ROOT

FOLDERS = ("isa/", "tools/", "docs/", "crates/a64_", "crates/run_records/", "crates/tombolopan/",
           "crates/run_cause/")


class AlteredIsa:
    """The copy; the package a64 reads it."""

    def __init__(self, root: pathlib.Path) -> None:
        self.root = copy_files(root, *FOLDERS)
        self.changed: set[str] = set()

    def text(self, path: str) -> str:
        return (self.root / path).read_text(encoding="utf-8")

    def write(self, path: str, text: str) -> None:
        self.changed.add(path)
        (self.root / path).write_text(text, encoding="utf-8")

    def change(self, path: str, old: str, new: str) -> None:
        """Puts a text in the place of another, which is there once."""
        text = self.text(path)
        assert text.count(old) == 1, f"{path}: {text.count(old)} times: {old}"
        self.write(path, text.replace(old, new))

    def restore(self) -> None:
        """Takes all changes back."""
        for path in self.changed:
            (self.root / path).write_bytes((ROOT / path).read_bytes())
        self.changed.clear()

    def line_of(self, path: str, part: str) -> int:
        """The number of the line that has a text first."""
        lines = self.text(path).split("\n")
        return next(number for number, line in enumerate(lines, 1) if part in line)

    def save(self) -> None:
        """Writes the files that follow from the data."""
        rows = table.read_rows()
        files = checked_files(rows, table.read_forms(rows))
        self.changed |= set(files)
        write_files(files)

    def findings(self, with_files: bool = False) -> list[str]:
        """What the tool says of the data and the definitions by hand, and of the written files."""
        try:
            rows = table.read_rows()
            files = checked_files(rows, table.read_forms(rows))
            files_told = list(differing_files(files)) if with_files else []
            return [*files_told, *differences(rows)]
        except table.TableError as error:
            return [str(error)]
