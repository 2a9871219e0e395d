"""Compares the data with the definitions that are written by hand.

`word_of` and `tests` (Encoding.antt) and `step_of_instr` (Steps.antt) are what a reader must
believe. They come from another hand than the data, so that a slip in a row can't prove itself.
"""

import re
from collections.abc import Iterator

from a64 import table
from a64.table import Row, Rows

ENCODING = "crates/a64_asm/specs/Encoding.antt"
STEPS = "crates/a64_step/specs/Steps.antt"
Equations = dict[str, str]  # by the name of the row


def equations(path: str, name: str) -> dict[str, str]:
    """The equations of a definition, each on one line, by the variant that they are of."""
    found: Equations = {}
    lines = (table.ROOT / path).read_text().splitlines()
    for number, line in enumerate(lines):
        head = re.match(rf"{name} \(?instr\.(\w+)", line)
        if not head:
            continue
        whole = [line]
        for more in lines[number + 1:]:
            if not more.startswith(" "):
                break
            whole.append(more.strip())
        found[head[1]] = " ".join(whole)
    return found


def applied(row: Row) -> str:
    """The instruction with its fields, as the definitions write it."""
    text = " ".join([f"instr.{row.name}", *(f.name for f in row.fields)])
    return f"({text})" if row.fields else text


def word_equation(row: Row) -> str:
    terms = [f"0x{row.base:08X}"]
    for f in row.fields:
        value = f"twos_complement {f.width} {f.name}" if f.signed else f.name
        terms.append(f"{value} * 2 ^ {f.bit}" if f.bit else value)
    return f"word_of {applied(row)} = {' + '.join(terms)}"


def tests_equation(row: Row) -> str:
    tests = [f"signed {f.width} {f.name}" for f in row.fields if f.signed]
    tests += [f"unsigned {f.width} {f.name}" for f in row.unsigned]
    tests += [table.written_test(test) for test in row.allows]
    return f"tests {applied(row)} = {' ∷ '.join([*tests, '[]'])}"


def executed_head(row: Row) -> str:
    return f"step_of_instr {applied(row)} r m"


def compared(path: str, name: str, wanted: Equations, stands: Equations,
             rows: Rows) -> Iterator[str]:
    """Where a definition by hand isn't what the data say."""
    for row, text in wanted.items():
        if row not in stands:
            yield f"{rows[row].place}: {row}: {path} has no equation of {name} for it"
        elif stands[row] != text:
            yield (f"{rows[row].place}: {row}: {name} is `{stands[row]}` in {path}, and the data "
                   f"say `{text}`")
    for row in stands:
        if row not in wanted:
            yield f"{path}: {name} has an equation for {row}, which is no row"


def differences(rows: Rows) -> Iterator[str]:
    """Each line is a difference."""
    words = {row.name: word_equation(row) for row in rows.values()}
    yield from compared(ENCODING, "word_of", words, equations(ENCODING, "word_of"),
                        rows)
    tests = {row.name: tests_equation(row) for row in rows.values()}
    yield from compared(ENCODING, "tests", tests, equations(ENCODING, "tests"), rows)
    heads = {row.name: executed_head(row) for row in rows.values()}
    stands = {name: text.split(" = ")[0]
              for name, text in equations(STEPS, "step_of_instr").items()}
    yield from compared(STEPS, "step_of_instr", heads, stands, rows)
