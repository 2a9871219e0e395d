#!/usr/bin/env python3
"""Makes a folder of sessions of the image hi.elf, with what each must write.

    make_sessions.py FOLDER COUNT

A session admits 1 to 20 tenants and gives them slices of 1 to 4 steps in turns. The image writes
`Hi` by its 5th step and exits by its 8th.
"""
import os
import pathlib
import random
import shutil
import sys

sys.path.insert(0, str(pathlib.Path(__file__).resolve().parent.parent))
import command_line  # noqa: E402

PAGES = 5
STEPS = 8
WRITTEN = 5


def report(tenant: int, attempted: int) -> str:
    steps = min(attempted, STEPS)
    status = "exit 0" if steps == STEPS else "running"
    output = "2 4869" if steps >= WRITTEN else "0"
    return f"tenant {tenant}\nstatus {status}\nsteps {steps}\noutput {output}\nheap 0\nend\n"


def session(draw: random.Random) -> tuple[int, list[str], str]:
    tenants = list(range(1, draw.randint(1, 20) + 1))
    attempted = dict.fromkeys(tenants, 0)
    lines = [
        f"admit {tenant} image 1 input 0 seed {draw.getrandbits(64):016x} frames {PAGES} out 16"
        for tenant in tenants
    ]
    for _ in range(draw.randint(1, 3 * len(tenants))):
        tenant = draw.choice(tenants)
        steps = draw.randint(1, 4)
        attempted[tenant] += steps
        lines.append(f"slice {tenant} {steps}")
    frames = len(tenants) * (2 * PAGES + 1)
    return frames, lines, "".join(report(tenant, attempted[tenant]) for tenant in tenants)


def write_files(folder: str, files: dict[str, str]) -> None:
    for name, text in files.items():
        with open(os.path.join(folder, name), "w", encoding="utf-8") as file:
            file.write(text)


def main() -> None:
    folder, text = command_line.read_words(__doc__, 2, 2)
    if not text.isdigit():
        command_line.refuse("make_sessions.py", f"COUNT is a number, not {text}")
    count = int(text)
    if os.path.isdir(folder) and os.listdir(folder):
        sys.exit(f"make_sessions.py: {folder} is not empty")
    image = os.path.join(os.path.dirname(os.path.abspath(__file__)), "..", "hi.elf")
    draw = random.Random(1)
    for number in range(1, count + 1):
        at = os.path.join(folder, f"session-{number:06}")
        os.makedirs(at)
        frames, lines, wanted = session(draw)
        shutil.copy(image, os.path.join(at, "image"))
        files = {
            "args": f"--frames\n{frames}\nscript\nimage\n",
            "script": "\n".join(lines) + "\n",
            "want.out": wanted,
            "want.err": "",
            "want.status": "0\n",
        }
        write_files(at, files)


if __name__ == "__main__":
    main()
