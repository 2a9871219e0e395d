#!/usr/bin/env python3
"""Runs tenants alone and writes what came of them as JUnit's XML, which CI servers show.

    junit.py [--run MTE_RUN] [--option=OPTION].. IMAGE.. > report.xml

A tenant that exits with 0 passes. The exit status is 0 where all pass, else 1. MTE_RUN is the
program (mte_run); OPTION is one of its options, as --option=--exact or --option=--steps=1000000.
"""

import json
import pathlib
import subprocess
import sys
import tempfile
import time
import xml.etree.ElementTree as xml

sys.path.insert(0, str(pathlib.Path(__file__).resolve().parent))
from command_line import Parser  # noqa: E402


def plain(text: bytes) -> str:
    """What a document may have: printable characters of ASCII and newlines, others as \\xHH."""
    kept = {10, *range(32, 127)}
    return "".join(chr(byte) if byte in kept else f"\\x{byte:02x}" for byte in text)


def add_case(suite: xml.Element, program: str, options: list[str], image: str) -> bool:
    """Adds the case of an image, and returns whether it passes."""
    with tempfile.TemporaryDirectory() as folder:
        told = pathlib.Path(folder) / "told.json"
        began = time.monotonic()
        ran = subprocess.run([program, "--json", str(told), *options, image], check=False,
                             stdout=subprocess.PIPE, stderr=subprocess.PIPE)
        seconds = time.monotonic() - began
        held = json.loads(told.read_text(encoding="utf-8")) if told.exists() else {}
    name = pathlib.Path(image).name
    case = xml.SubElement(suite, "testcase", name=name, classname="tenant", time=f"{seconds:.3f}")
    said = plain(ran.stderr)
    if ran.returncode:
        reason = held.get("cause") or (said.splitlines() or ["no report"])[-1]
        kind = held.get("status", {}).get("kind", "not run")
        xml.SubElement(case, "failure", message=reason, type=kind).text = said
    xml.SubElement(case, "system-out").text = plain(ran.stdout)
    return ran.returncode == 0


def main() -> int:
    parser = Parser(__doc__)
    parser.add_argument("--run", default="mte_run")
    parser.add_argument("--option", action="append", default=[])
    parser.add_argument("image", nargs="+")
    given = parser.parse_args()
    suite = xml.Element("testsuite", name="tenants")
    passes = [add_case(suite, given.run, given.option, image) for image in given.image]
    suite.set("tests", str(len(passes)))
    suite.set("failures", str(passes.count(False)))
    xml.ElementTree(suite).write(sys.stdout.buffer, encoding="utf-8", xml_declaration=True)
    print()
    return 0 if all(passes) else 1


if __name__ == "__main__":
    sys.exit(main())
