"""Whether each form is reached: some instruction of it is taken by no earlier form of its row."""

import itertools
from collections.abc import Mapping

from a64 import table
from a64.table import Field, Form, Row, Rows


def takes(form: Form, values: Mapping[str, int]) -> bool:
    """Whether a form takes the row's instruction with these values."""
    return (all(values[name] == value for name, value in form.given.items())
            and all(values[name] < 31 for name in form.gprs)
            and all(values[name] < bound for name, bound in form.limits.items()))


def telling_values(field: Field, form: Form, others: list[Form]) -> list[int]:
    """Values of a field of which one is in each part into which the forms cut its range."""
    if field.name in form.given:
        return [form.given[field.name]]
    if field.signed:
        return [0, 1]
    found = {0, 1, 2, 31, (1 << field.width) - 1}
    for other in others:
        if field.name in other.given:
            found.add(other.given[field.name])
        if field.name in other.limits:
            found |= {other.limits[field.name] - 1, other.limits[field.name]}
    return sorted(value for value in found if value < 1 << field.width)


def is_reached(row: Row, form: Form, earlier: list[Form]) -> bool:
    choices = [telling_values(field, form, [form, *earlier]) for field in row.fields]
    names = [field.name for field in row.fields]
    for chosen in itertools.product(*choices):
        values = dict(zip(names, chosen))
        if (takes(form, values) and not any(takes(other, values) for other in earlier)
                and all(table.holds(test, values) for test in row.allows)):
            return True
    return False


def check(rows: Rows, forms: list[Form]) -> None:
    earlier: dict[str, list[Form]] = {}
    for form in forms:
        if not form.row:
            continue
        before = earlier.setdefault(form.row, [])
        if not is_reached(rows[form.row], form, before):
            raise form.error(f"it is never reached: earlier forms of {form.row} take its "
                             "instructions")
        before.append(form)
