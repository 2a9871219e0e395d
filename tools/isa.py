#!/usr/bin/env python3
"""The instruction set as data: writes what follows from the files of isa/.

    isa.py               write the files that follow from the data
    isa.py --check       exit with 1 where a file isn't what the data give, or where a definition
                         that is written by hand says something else than the data
    isa.py --why WORD    the row, fields, refusals and form of a word (hexadecimal)
    isa.py --overlaps    the rows whose fixed bits overlap, and what keeps them apart
    isa.py --files       the files that it writes

The files are proved like any others, so nobody has to trust this tool. Only Python's standard
library is needed.
"""

import argparse
import re
import sys
from collections.abc import Iterator

import findings
from a64 import (
    absent, accesses, compare, dispatch, form_types, groups, kept_memory, meaning, pages, rows,
    table,
)
from a64.table import Form, Rows


def written_files(all_rows: Rows, all_forms: list[Form]) -> dict[str, str]:
    """What every file must be, by its path."""
    return {**rows.written(all_rows), **groups.written(all_rows),
            **dispatch.written(all_rows, all_forms), **accesses.written(all_rows),
            **form_types.written(all_forms), **kept_memory.written(all_rows),
            **pages.written(all_rows, all_forms),
            **absent.written(absent.read_families())}


def checked_files(all_rows: Rows, all_forms: list[Form]) -> dict[str, str]:
    """The same, and the page of which a part is written."""
    families = absent.read_families()
    absent.check_rows(all_rows, families)
    return {**written_files(all_rows, all_forms), absent.PAGE: absent.page(families)}


def differences(all_rows: Rows) -> list[str]:
    """Where what is written by hand says something else than the data."""
    return [*compare.differences(all_rows), *meaning.differences(all_rows),
            *absent.differences(absent.read_families())]


def differing_files(files: dict[str, str]) -> Iterator[str]:
    """The files that aren't what the data give, each with the first line that differs."""
    for path, text in files.items():
        place = table.ROOT / path
        if not place.exists():
            yield f"{path}: isn't there"
            continue
        stands, wanted = place.read_text().split("\n"), text.split("\n")
        if stands == wanted:
            continue
        line = next((n for n, pair in enumerate(zip(stands, wanted)) if pair[0] != pair[1]),
                    min(len(stands), len(wanted)))
        yield f"{path}:{line + 1}: isn't what the data give (run tools/isa.py)"


def write_files(files: dict[str, str]) -> None:
    for path, text in files.items():
        place = table.ROOT / path
        if not place.exists() or place.read_text() != text:
            place.parent.mkdir(parents=True, exist_ok=True)
            place.write_text(text)
            print(f"wrote {path}")


def explain(digits: str, all_rows: Rows, all_forms: list[Form]) -> str:
    """What a word in hexadecimal is."""
    if not re.fullmatch(r"(0x)?[0-9A-Fa-f]{1,8}", digits):
        raise table.TableError(f"{digits} is no word of 32 bits in hexadecimal")
    return pages.explained(int(digits, 16), all_rows, all_forms)


def main() -> int:
    parser = argparse.ArgumentParser(description=__doc__,
                                     formatter_class=argparse.RawDescriptionHelpFormatter)
    parser.add_argument("--check", action="store_true", help="compare, and write nothing")
    parser.add_argument("--why", metavar="WORD", help="tell what a word is")
    parser.add_argument("--overlaps", action="store_true", help="list the rows that overlap")
    parser.add_argument("--files", action="store_true", help="list the files")
    options = parser.parse_args()
    try:
        all_rows = table.read_rows()
        all_forms = table.read_forms(all_rows)
        if options.why:
            print(explain(options.why, all_rows, all_forms))
            return 0
        if options.overlaps:
            print(pages.overlaps(all_rows))
            return 0
        if options.files:
            print("\n".join(written_files(all_rows, all_forms)))
            return 0
        files = checked_files(all_rows, all_forms)
        found = differences(all_rows)
        if options.check:
            found = [*differing_files(files), *found]
        else:
            write_files(files)
    except (table.TableError, OSError) as error:
        found = [str(error)]
    return findings.status_of(found)


if __name__ == "__main__":
    sys.exit(main())
