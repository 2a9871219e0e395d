"""The page as one file: module, examples, texts, style and scripts, and a policy that lets a
browser run these scripts alone and load nothing."""

import base64
import hashlib
import html
import json
import pathlib
import re
import tempfile

from wasm import archive, sources, table

HERE = pathlib.Path(__file__).resolve().parent
PAGE = HERE / "page"
FRAME = sources.ROOT / "crates/report_documents/src/heap_page/frame.rt"
SCRIPTS = ("base", "options", "report", "runs", "share", "given", "main", "frames", "session",
           "lessons", "begin")
RUN_MARK = '<script type="text/plain" id="run">'


def text_of(name: str) -> str:
    """The text of a part of the page."""
    return (PAGE / name).read_text(encoding="utf-8")


def sum_of(text: str) -> str:
    """The sum of an element as a policy names it."""
    digest = hashlib.sha256(text.encode()).digest()
    return f"sha256-{base64.b64encode(digest).decode()}"


def heap_page_sums() -> tuple[str, str]:
    """Of style and script of the page that --html writes, which is shown in a frame: a frame's
    policy is its own and that of the page around it."""
    frame = FRAME.read_text(encoding="utf-8")
    style, script = (re.search(rf"{kind}-src '(sha256-[^']*)'", frame)
                     for kind in ("style", "script"))
    assert style and script
    return style[1], script[1]


def policy(style: str, script: str, hover: str) -> str:
    """What a browser may do for the page."""
    heap_style, heap_script = heap_page_sums()
    return (f"default-src 'none'; style-src '{sum_of(style)}' '{heap_style}'; "
            f"script-src '{sum_of(script)}' '{heap_script}' '{sum_of(hover)}' 'wasm-unsafe-eval'; "
            "worker-src blob:; base-uri 'none'; form-action 'none'")


def option_table(hover: str) -> str:
    """The table of options, and the sum of the script that is added to a page of the heap."""
    text = json.dumps({"group": table.groups(), "hover": sum_of(hover)}, separators=(",", ":"))
    return text.replace("<", "\\u003c")


def make_archive(module: bytes, session: bytes) -> bytes:
    """Modules and examples."""
    parts = [("module.wasm", module), ("session.wasm", session)]
    rows: list[dict[str, object]] = []
    texts = {"tenant.h": sources.HEADER, "start.c": sources.START}
    for example in sources.read_examples():
        with tempfile.TemporaryDirectory() as folder:
            image = sources.compile_example(example, pathlib.Path(folder))
        parts.append((f"images/{example.name}.elf", image))
        texts[example.path.name] = example.path
        rows.append({"name": example.name, "title": example.title, "about": example.about,
                     "input": example.input, "options": example.options,
                     "sources": [example.path.name, "tenant.h", "start.c"]})
    parts += [(f"sources/{name}", path.read_bytes()) for name, path in texts.items()]
    sessions = [vars(it) for it in sources.read_sessions()]
    return archive.join({"examples": rows, "sessions": sessions}, parts)


def make_page(module: bytes, session: bytes, is_proved: bool) -> str:
    """The page, without a run inside."""
    style, hover = text_of("style.css"), text_of("hover.js")
    script = "".join(text_of(f"{name}.js") for name in SCRIPTS)
    kept = archive.letters(archive.pack(make_archive(module, session)))
    proof = "proof" if is_proved else "no-proof"
    help_text = text_of("help.html").replace(f'data-of="{proof}" hidden', f'data-of="{proof}"')
    values = {
        "POLICY": html.escape(policy(style, script, hover), quote=True).replace("&#x27;", "'"),
        "STYLE": style, "LESSONS": text_of("lessons.html"), "HELP": help_text,
        "WORKER": text_of("host.js") + text_of("worker.js"), "HOVER": hover,
        "TABLE": option_table(hover), "ARCHIVE": kept, "RUN": "", "SCRIPT": script,
    }
    return re.sub(r"@([A-Z]+)@", lambda it: values[it[1]], text_of("index.html"))


def with_run(page: str, run: str) -> str:
    """The page with a run inside."""
    assert page.count(RUN_MARK) == 2, "the page has a place for a run, and names it"
    at = page.index(RUN_MARK) + len(RUN_MARK)
    return page[:at] + run + page[page.index("</script>", at):]
