"""The page with mte_run inside: made once, and its runs compared with the program's."""

import base64
import hashlib
import json
import pathlib
import random
from collections.abc import Sequence
from typing import Any, Union

from tests.support import places
from tests.support.browser import Browser
from tests.support.firefox import Firefox
from tests.support.once import make_once
from tests.support.places import ROOT
from tests.support.running import Word, run, succeed
from tests.support.tools import need

PAGE, SECONDS = "tombolopan.html", 3600
AnyBrowser = Union[Browser, Firefox]
BROWSERS: dict[str, type[Browser] | type[Firefox]] = {"chromium": Browser, "firefox": Firefox}
INPUT, STEPS = b"twelve bytes", "200000"
MADE = ("run.json", "run.sarif", "run.html", "run.map", "run.core", "run.trace")
DOCUMENTS = tuple(word for name in ("json", "sarif", "html", "map", "core")
                  for word in (f"--{name}", f"run.{name}"))
# The forms of options in which each image is run.
FORMS: tuple[tuple[str, ...], ...] = (
    (), (*DOCUMENTS, "--statistics", "--leaks"), ("--exact", *DOCUMENTS),
    ("--check", "--json", "run.json"), ("--async", "--seed", "abc"),
    ("--trace=1-200", "--services", "--trace-file", "run.trace"), ("--seeds", "5"),
)
# In a page: runs that are asked for one after another, each as a row of texts and sums.
COMPARE = """(async () => {
    const rows = [];
    for (const {words, image, input, made} of CASES) {
        const files = [['image.elf', fromLetters(image)], ['input', fromLetters(input)]];
        const end = await startRun({words, files, made}, () => {});
        const whole = async parts => sumOf(await new Blob(parts).arrayBuffer());
        const row = {status: end.failed || end.status};
        if (!end.failed) {
            row.out = await whole(end.texts[1].parts);
            row.errors = await whole(end.texts[2].parts);
            for (const name of Object.keys(end.made)) row[name] = await sumOf(end.made[name]);
        }
        rows.push(row);
    }
    return rows;
})()"""


def playground(shared: pathlib.Path) -> pathlib.Path:
    """The page, of the programs that are tested."""
    need("rt", "clang", "ld.lld")
    if places.BUILT is not None and (pathlib.Path(places.BUILT) / PAGE).exists():
        return pathlib.Path(places.BUILT).resolve() / PAGE

    def make(path: pathlib.Path) -> None:
        words: list[Word] = [ROOT / "tools" / "wasm.sh", path.parent]
        succeed(words, seconds=SECONDS)

    return make_once(shared / "playground" / PAGE, make)


def letters(content: bytes) -> str:
    """Bytes as the page reads them."""
    return base64.urlsafe_b64encode(content).decode().rstrip("=")


def sum_of(content: bytes) -> str:
    """A sum as the page has it."""
    return hashlib.sha256(content).hexdigest()[:16]


def altered(image: bytes, drawn: random.Random) -> bytes:
    """An image in which some drawn words are others."""
    changed = bytearray(image)
    for _ in range(drawn.randint(1, 6)):
        at = drawn.randrange(16, len(changed) - 4) & ~3
        changed[at:at + 4] = drawn.randbytes(4) if drawn.random() < 0.5 else changed[64:68]
    return bytes(changed)


def native_row(alone: pathlib.Path, words: Sequence[str], image: bytes,
               folder: pathlib.Path) -> dict[str, Any]:
    """What the program does with an image: status, sums of streams and of files."""
    for name in MADE:
        (folder / name).unlink(missing_ok=True)
    (folder / "image.elf").write_bytes(image)
    (folder / "input").write_bytes(INPUT)
    ran = run([alone, *words], cwd=folder)
    row: dict[str, Any] = {"status": ran.status, "out": sum_of(ran.out), "errors": sum_of(ran.err)}
    for name in MADE:
        if (folder / name).exists():
            row[name] = sum_of((folder / name).read_bytes())
    return row


def compare(page: AnyBrowser, alone: pathlib.Path, images: Sequence[bytes],
            folder: pathlib.Path) -> list[str]:
    """Runs each image in each form in the page and natively; the words of those that differ."""
    wrong = []
    for number, image in enumerate(images):
        lines = [["--steps", STEPS, "--input", "input", *form, "image.elf"] for form in FORMS]
        cases = [{"words": words, "image": letters(image), "input": letters(INPUT),
                  "made": list(MADE)} for words in lines]
        rows = page.value(COMPARE.replace("CASES", json.dumps(cases)))
        for words, row in zip(lines, rows, strict=True):
            want = native_row(alone, words, image, folder)
            if row != want:
                wrong.append(f"image {number}: {' '.join(words)}: {row}, natively {want}")
    return wrong
