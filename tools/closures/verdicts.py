"""What the prover printed of crates: read from a log of `rt ci`, kept in verdicts.toml."""

import datetime
import json
import pathlib
import re
import tomllib
from collections.abc import Container
from typing import Any

DATA = pathlib.Path(__file__).with_name("verdicts.toml")
COMMENT = """\
# What the prover printed of crates, for docs/BELIEVE.md; `tools/believe.py --record LOG` takes the
# crates that are listed here from a log of `rt ci`.
"""


def read() -> dict[str, Any]:
    """What is kept."""
    return tomllib.loads(DATA.read_text(encoding="utf-8"))


def found_in(log: str, crate: str, own: Container[str]) -> dict[str, Any] | None:
    """What a log has of a crate that was proved in it: its last line, how many modules of the kit's
    statements it loaded, by the kit's library, and the functions in C that it rests on."""
    part = re.search(rf"^== {crate}\n(.*?)^rt: {crate} proved$", log, re.M | re.S)
    if part is None:
        return None
    lines = re.findall(r"^logic=proved .*$", part[1], re.M)
    loaded = re.findall(r"^statements (\w+): modules loaded=(\d+)", part[1], re.M)
    statements = {name: int(count) for name, count in loaded if int(count) and name not in own}
    axioms = [line for line in re.findall(r"^axioms (.*)$", part[1], re.M) if ": none" not in line]
    return {"line": lines[-1], "statements": statements, "axioms": axioms} if lines else None


def count_functions(crate: pathlib.Path) -> tuple[int, int]:
    """How many functions the sources of a crate have, and how many of them are laws: public,
    without an argument and a result."""
    text = "".join(it.read_text(encoding="utf-8") for it in sorted((crate / "src").rglob("*.rt")))
    written = re.findall(r"^ *(?:pub(?:\(\w+\))? )?(?:unsafe )?(?:extern \"C\" )?fn \w", text, re.M)
    laws = re.findall(r"^pub fn \w+\(\)$", text, re.M)
    return len(written), len(laws)


def complaints(root: pathlib.Path) -> list[str]:
    """The verdicts that are of other sources: of a crate of laws the prover counts just these, of
    another one the functions that are written, with those that the compiler makes."""
    found = []
    for name, verdict in read()["crate"].items():
        counted = int(re.findall(r"functions=(\d+)", verdict["line"])[0])
        written, laws = count_functions(root / "crates" / name)
        if counted < written or (written == laws and counted != laws):
            found.append(f"verdicts.toml: the verdict of {name} is of {counted} functions, and the "
                         f"sources have {written}: record one of them (--record)")
    return found


def text_of(data: dict[str, Any]) -> str:
    """The file."""
    lines = [COMMENT.rstrip()]
    for name, verdict in data["crate"].items():
        counts = ", ".join(f"{it} = {count}" for it, count in verdict["statements"].items())
        lines += ["", f"[crate.{name}]", f"date = \"{verdict['date']}\"",
                  f"line = {json.dumps(verdict['line'])}", f"statements = {{ {counts} }}",
                  "axioms = [", *(f"    {json.dumps(it)}," for it in verdict["axioms"]), "]"]
    return "\n".join(lines) + "\n"


def record(log: pathlib.Path, own: Container[str]) -> None:
    """Takes in what a log has of the crates that are kept; `own` are the repository's crates."""
    data, text = read(), log.read_text(encoding="utf-8", errors="replace")
    date = datetime.date.fromtimestamp(log.stat().st_mtime).isoformat()
    for name in data["crate"]:
        found = found_in(text, name, own)
        if found is None:
            print(f"{name}: not proved in {log}")
        else:
            data["crate"][name] = {"date": date, **found}
    DATA.write_text(text_of(data), encoding="utf-8")
