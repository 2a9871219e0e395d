"""What came of the sessions as documents: JSON, and JUnit's XML, which CI servers show."""

import json
import os
import pathlib
from collections import Counter
from dataclasses import asdict

from batch.verdicts import DIFFERENT, VERDICTS, Verdict, Work, is_right

SHOWN = {10, *range(32, 127)}
FORMAT = "tombolopan results 2"


def plain(text: str) -> str:
    """What a document may have: printable characters of ASCII, others as escapes."""
    return "".join(it if ord(it) in SHOWN else ascii(it)[1:-1] for it in text)


def json_of(verdicts: list[Verdict], work: Work) -> str:
    """All that is said, as one object (results.schema.json)."""
    told = {
        "format": FORMAT,
        "right": is_right(verdicts, work),
        "verdicts": {it: count for it, count in Counter(it.verdict for it in verdicts).items()},
        "work": asdict(work),
        "sessions": [{name: value for name, value in asdict(it).items()
                      if value not in ("", None, ())} for it in verdicts],
    }
    return json.dumps(told, indent=1) + "\n"


def junit_of(verdicts: list[Verdict], work: Work) -> str:
    """A suite with a case for each session: a failure where it is different, an error where it has
    no verdict that counts; and an error of the suite where something was not stored or checked."""
    import xml.etree.ElementTree as xml  # most runs write none
    suite = xml.Element("testsuite", name="sessions")
    for it in verdicts:
        case = xml.SubElement(suite, "testcase", name=plain(it.name), classname="session")
        if not VERDICTS[it.verdict]:
            kind = "failure" if it.verdict == DIFFERENT else "error"
            xml.SubElement(case, kind, message=plain(it.why), type=it.verdict)
    for name, count, why in (("store", work.unkept, work.why_unkept),
                             ("sample", work.unchecked, work.why_unchecked)):
        if count:
            case = xml.SubElement(suite, "testcase", name=name, classname="batch")
            xml.SubElement(case, "error", message=plain(why), type=f"{count} sessions")
    for kind in ("failure", "error"):
        suite.set(f"{kind}s", str(len(suite.findall(f"testcase/{kind}"))))
    suite.set("tests", str(len(suite)))
    return xml.tostring(suite, encoding="unicode", xml_declaration=True) + "\n"


def write_whole(path: pathlib.Path, text: bytes) -> None:
    """Writes a file, all of it or nothing. Where it has that text already, it stays."""
    try:
        if path.read_bytes() == text:
            return
    except OSError:
        pass
    fresh = path.with_name(f"{path.name}.{os.getpid()}.new")
    try:
        fresh.write_bytes(text)
        os.replace(fresh, path)
    except OSError:
        fresh.unlink(missing_ok=True)
        raise
