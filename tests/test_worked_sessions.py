"""Worked sessions: what whole sessions of small programs report, line by line."""

import pathlib
import resource
import subprocess
from collections.abc import Callable, Sequence

import pytest

from tests.support import small_programs
from tests.support.host_sessions import HI_REPORT, assert_ended, assert_reports, make_image
from tests.support.running import Ran, Word, run

# Frames, programs as files, a script and its report.
Session = tuple[int, Sequence[Sequence[int]], str, str]

# One tenant with the first file, and one slice.
ADMIT = "admit 1 image 1 input 0 seed 0000000000000001 frames 5 out 16\nslice 1 100\n"

SESSIONS: list[Session] = [
    (11, [small_programs.HI],
     "admit 1 image 1 input 0 seed 0000000000000001 frames 5 out 16\n"
     "slice 1 3\n",
     "tenant 1\n"
     "status running\n"
     "steps 3\n"
     "output 0\n"
     "heap 0\n"
     "end\n"),
    (11, [small_programs.HI],
     "admit 1 image 1 input 0 seed 0000000000000001 frames 5 out 1\n"
     "slice 1 100\n",
     "tenant 1\n"
     "status exit 0\n"
     "steps 8\n"
     "output 1 48\n"
     "heap 0\n"
     "end\n"),
    (11, [small_programs.UNTAGGED],
     ADMIT,
     "tenant 1\n"
     "status fault TagCheck read addr 0x000000003fffc000 ptr 0 mem 1 pc 0x0000000000010018\n"
     "steps 7\n"
     "output 0\n"
     "heap 0\n"
     "end\n"),
    (11, [small_programs.PAIR_WITH_TAG],
     ADMIT,
     "tenant 1\n"
     "status fault TagCheck read addr 0x000000003fffc010 ptr 0 mem 1 pc 0x0000000000010018\n"
     "steps 7\n"
     "output 0\n"
     "heap 0\n"
     "end\n"),
    (11, [small_programs.PRE_INDEXED],
     ADMIT,
     "tenant 1\n"
     "status fault TagCheck read addr 0x000000003fffffe0 ptr 0 mem 1 pc 0x0000000000010010\n"
     "steps 5\n"
     "output 0\n"
     "heap 0\n"
     "end\n"),
    (11, [small_programs.ACROSS],
     ADMIT,
     "tenant 1\n"
     "status fault TagCheck read addr 0x000000003fffc010 ptr 1 mem 0 pc 0x0000000000010010\n"
     "steps 5\n"
     "output 0\n"
     "heap 0\n"
     "end\n"),
    (11, [small_programs.ILLEGAL],
     ADMIT,
     "tenant 1\n"
     "status illegal 0x00000000 pc 0x0000000000010000\n"
     "steps 1\n"
     "output 0\n"
     "heap 0\n"
     "end\n"),
    (11, [small_programs.UNALIGNED],
     ADMIT,
     "tenant 1\n"
     "status fault PcAlignment read addr 0x0000000000010001 ptr 0 mem 0 pc 0x0000000000010001\n"
     "steps 4\n"
     "output 0\n"
     "heap 0\n"
     "end\n"),
    # The asynchronous mode: an access whose tag differs completes, and the tenant ends at its next
    # service, or with its slice.
    (11, [small_programs.UNTAGGED],
     "admit 1 image 1 input 0 seed 0000000000000001 frames 5 out 16 async\n"
     "slice 1 7\n",
     "tenant 1\n"
     "status async pc 0x000000000001001c\n"
     "steps 7\n"
     "output 0\n"
     "heap 0\n"
     "end\n"),
    (11, [small_programs.UNTAGGED],
     "admit 1 image 1 input 0 seed 0000000000000001 frames 5 out 16 async\n"
     "slice 1 100\n",
     "tenant 1\n"
     "status illegal 0x00000000 pc 0x000000000001001c\n"
     "steps 8\n"
     "output 0\n"
     "heap 0\n"
     "end\n"),
    (11, [small_programs.UNTAGGED_EXIT],
     "admit 1 image 1 input 0 seed 0000000000000001 frames 5 out 16 async\n"
     "slice 1 100\n",
     "tenant 1\n"
     "status async pc 0x0000000000010020\n"
     "steps 9\n"
     "output 0\n"
     "heap 0\n"
     "end\n"),
    (11, [small_programs.UNTAGGED_EXIT],
     "admit 1 image 1 input 0 seed 0000000000000001 frames 5 out 16\n"
     "slice 1 100\n",
     "tenant 1\n"
     "status fault TagCheck read addr 0x000000003fffc000 ptr 0 mem 1 pc 0x0000000000010018\n"
     "steps 7\n"
     "output 0\n"
     "heap 0\n"
     "end\n"),
    (11, [small_programs.UNTAGGED_WRITE],
     "admit 1 image 1 input 0 seed 0000000000000001 frames 5 out 16 async\n"
     "slice 1 100\n",
     "tenant 1\n"
     "status async pc 0x0000000000010020\n"
     "steps 9\n"
     "output 16 00000000000000000000000000000000\n"
     "heap 0\n"
     "end\n"),
    (11, [small_programs.UNTAGGED_WRITE],
     "admit 1 image 1 input 0 seed 0000000000000001 frames 5 out 16 async\n"
     "slice 1 7\n",
     "tenant 1\n"
     "status async pc 0x000000000001001c\n"
     "steps 7\n"
     "output 16 00000000000000000000000000000000\n"
     "heap 0\n"
     "end\n"),
    (11, [small_programs.UNTAGGED_WRITE],
     "admit 1 image 1 input 0 seed 0000000000000001 frames 5 out 16\n"
     "slice 1 100\n",
     "tenant 1\n"
     "status fault TagCheck read addr 0x000000003fffc000 ptr 0 mem 1 pc 0x0000000000010018\n"
     "steps 7\n"
     "output 0\n"
     "heap 0\n"
     "end\n"),
    # The empty script has the empty report.
    (1, [],
     "",
     ""),
    # The largest reservation has 4096 pages, and is charged 8193 frames.
    (8193, [small_programs.HI],
     "admit 1 image 1 input 0 seed 0000000000000001 frames 4096 out 16\n"
     "slice 1 100\n",
     "tenant 1\n"
     "status exit 0\n"
     "steps 8\n"
     "output 2 4869\n"
     "heap 0\n"
     "end\n"),
    # Files are numbered in their order, from 1.
    (11, [small_programs.HI, small_programs.ILLEGAL],
     "admit 1 image 2 input 1 seed 0000000000000001 frames 5 out 16\n"
     "slice 1 100\n",
     "tenant 1\n"
     "status illegal 0x00000000 pc 0x0000000000010000\n"
     "steps 1\n"
     "output 0\n"
     "heap 0\n"
     "end\n"),
    # A tenant that leaves a tag and bytes on its stack, and after its stop another that looks for
    # them there.
    (11, [small_programs.UNTAGGED, small_programs.LEFT_ON_THE_STACK],
     "admit 1 image 1 input 0 seed 0000000000000001 frames 5 out 16\n"
     "slice 1 100\n"
     "stop 1\n"
     "admit 2 image 2 input 0 seed 0000000000000001 frames 5 out 16\n"
     "slice 2 100\n",
     "tenant 1\n"
     "status fault TagCheck read addr 0x000000003fffc000 ptr 0 mem 1 pc 0x0000000000010018\n"
     "steps 7\n"
     "output 0\n"
     "heap 0\n"
     "end\n"
     "tenant 2\n"
     "status exit 0\n"
     "steps 9\n"
     "output 16 00000000000000000000000000000000\n"
     "heap 0\n"
     "end\n"),
    # Translations of one tenant, beside one with the same pages, and after its stop.
    (300, [small_programs.LARGE_FREED, small_programs.LEFT_ON_THE_STACK],
     "admit 1 image 1 input 0 seed 0000000000000001 frames 60 out 16\n"
     "admit 2 image 1 input 0 seed 0000000000000001 frames 60 out 16\n"
     "slice 1 100\n"
     "slice 2 6\n"
     "slice 1 100\n"
     "stop 1\n"
     "admit 3 image 2 input 0 seed 0000000000000001 frames 5 out 16\n"
     "slice 3 100\n",
     "tenant 1\n"
     "status fault Translation read addr 0x000000003d0012c0 ptr 0 mem 0 pc 0x0000000000010028\n"
     "steps 11\n"
     "output 0\n"
     "heap 2\n"
     "call malloc 0x0000000000030d40 0x0000000000000000 = 0x000000003d0012c0\n"
     "call free 0x000000003d0012c0 0x0000000000000000 = 0x0000000000000000\n"
     "end\n"
     "tenant 2\n"
     "status running\n"
     "steps 6\n"
     "output 0\n"
     "heap 1\n"
     "call malloc 0x0000000000030d40 0x0000000000000000 = 0x000000003d0012c0\n"
     "end\n"
     "tenant 3\n"
     "status exit 0\n"
     "steps 9\n"
     "output 16 00000000000000000000000000000000\n"
     "heap 0\n"
     "end\n"),
    # Seven chunks, each in a page and with a leaf of its own, take the last frames.
    (25, [small_programs.SEVEN_SIZES],
     "admit 1 image 1 input 0 seed 0000000000000001 frames 12 out 16\n"
     "slice 1 100\n",
     "tenant 1\n"
     "status exit 0\n"
     "steps 47\n"
     "output 0\n"
     "heap 8\n"
     "call malloc 0x0000000000000030 0x0000000000000000 = 0x0100000012000010\n"
     "call malloc 0x0000000000000050 0x0000000000000000 = 0x0100000013000010\n"
     "call malloc 0x0000000000000070 0x0000000000000000 = 0x0100000014000010\n"
     "call malloc 0x0000000000000090 0x0000000000000000 = 0x0d00000015000010\n"
     "call malloc 0x00000000000000b0 0x0000000000000000 = 0x0f00000016000010\n"
     "call malloc 0x00000000000000d0 0x0000000000000000 = 0x0700000017000010\n"
     "call malloc 0x00000000000000f0 0x0000000000000000 = 0x0f00000018000010\n"
     "call malloc 0x0000000000000010 0x0000000000000000 = 0x0000000000000000\n"
     "end\n"),
    # A yield in the middle and at the end of a slice.
    (11, [small_programs.YIELDS],
     "admit 1 image 1 input 0 seed 0000000000000001 frames 5 out 16\n"
     "slice 1 100\n"
     "slice 1 5\n",
     "tenant 1\n"
     "status exit 3\n"
     "steps 6\n"
     "output 0\n"
     "heap 0\n"
     "end\n"),
    (11, [small_programs.YIELDS],
     "admit 1 image 1 input 0 seed 0000000000000001 frames 5 out 16\n"
     "slice 1 2\n"
     "slice 1 5\n",
     "tenant 1\n"
     "status exit 3\n"
     "steps 6\n"
     "output 0\n"
     "heap 0\n"
     "end\n"),
]

# Frames, a script with events that are refused, and its report. File 1 is a program, file 2 the
# same cut short.
REFUSED: list[tuple[int, str, str]] = [
    (10,
     "admit 1 image 1 input 0 seed 0000000000000001 frames 5 out 16\n"
     "slice 1 5\n",
     "refused 1 NoFrames\n"
     "refused 2 NotLive\n"),
    (11,
     "admit 1 image 1 input 0 seed 0000000000000001 frames 4 out 16\n",
     "refused 1 ReservationTooSmall\n"),
    (11,
     "admit 1 image 1 input 0 seed 0000000000000001 frames 0 out 16\n",
     "refused 1 BadReservation\n"),
    (11,
     "admit 1 image 1 input 0 seed 0000000000000001 frames 4097 out 16\n",
     "refused 1 BadReservation\n"),
    (8192,
     "admit 1 image 1 input 0 seed 0000000000000001 frames 4096 out 16\n",
     "refused 1 NoFrames\n"),
    (11,
     "admit 1 image 1 input 0 seed 0000000000000001 frames 5 out 65537\n",
     "refused 1 BadReservation\n"),
    (65536,
     "admit 1 image 2 input 0 seed 0000000000000001 frames 5 out 16\n",
     "refused 1 Image SegmentRange\n"),
    (22,
     "admit 1 image 1 input 0 seed 0000000000000001 frames 5 out 16\n"
     "admit 1 image 1 input 0 seed 0000000000000001 frames 5 out 16\n"
     "admit 2 image 1 input 0 seed 0000000000000001 frames 5 out 16\n"
     "stop 1\n"
     "slice 1 5\n",
     "refused 2 Duplicate\n"
     "refused 5 NotLive\n"
     "tenant 1\n"
     "status stopped\n"
     "steps 0\n"
     "output 0\n"
     "heap 0\n"
     "end\n"
     "tenant 2\n"
     "status running\n"
     "steps 0\n"
     "output 0\n"
     "heap 0\n"
     "end\n"),
    (21,
     "admit 1 image 1 input 0 seed 0000000000000001 frames 5 out 16\n"
     "slice 1 100\n"
     "slice 1 100\n"
     "admit 2 image 1 input 0 seed 0000000000000001 frames 5 out 16\n"
     "stop 1\n"
     "admit 2 image 1 input 0 seed 0000000000000001 frames 5 out 16\n"
     "slice 1 5\n",
     "refused 4 NoFrames\n"
     "refused 7 NotLive\n"
     "tenant 1\n"
     "status exit 0\n"
     "steps 8\n"
     "output 2 4869\n"
     "heap 0\n"
     "end\n"
     "tenant 2\n"
     "status running\n"
     "steps 0\n"
     "output 0\n"
     "heap 0\n"
     "end\n"),
]

# Programs, what follows `admit 1 image 1 input `, and the lines after `tenant 1`.
SERVICES: list[tuple[Sequence[int], str, str]] = [
    (small_programs.READS,
     "1 seed 0000000000000001 frames 5 out 16\n"
     "slice 1 100\n",
     "status exit 10\n"
     "steps 12\n"
     "output 10 7f454c46020101000000\n"
     "heap 0\n"),
    (small_programs.READS,
     "0 seed 0000000000000001 frames 5 out 16\n"
     "slice 1 100\n",
     "status exit 0\n"
     "steps 12\n"
     "output 0\n"
     "heap 0\n"),
    (small_programs.COUNTS,
     "0 seed 0000000000000001 frames 5 out 16\n"
     "slice 1 5\n",
     "status exit 3\n"
     "steps 4\n"
     "output 0\n"
     "heap 0\n"),
    (small_programs.USED_AFTER_FREE,
     "0 seed 0000000000000001 frames 6 out 16\n"
     "slice 1 100\n",
     "status fault TagCheck read addr 0x0000000012000010 ptr 1 mem 3 pc 0x0000000000010018\n"
     "steps 7\n"
     "output 0\n"
     "heap 2\n"
     "call malloc 0x0000000000000018 0x0000000000000000 = 0x0100000012000010\n"
     "call free 0x0100000012000010 0x0000000000000000 = 0x0000000000000000\n"),
    (small_programs.CORRUPTS,
     "0 seed 0000000000000001 frames 6 out 16\n"
     "slice 1 100\n",
     "status abort HeaderCorrupt ptr 0x0100000012000010 pc 0x000000000001001c\n"
     "steps 8\n"
     "output 0\n"
     "heap 1\n"
     "call malloc 0x0000000000000018 0x0000000000000000 = 0x0100000012000010\n"),
    (small_programs.FORGES_A_CLASS,
     "0 seed 0000000000000001 frames 6 out 16\n"
     "slice 1 100\n",
     "status abort NotABlock ptr 0x0100000012000010 pc 0x0000000000010024\n"
     "steps 10\n"
     "output 0\n"
     "heap 1\n"
     "call malloc 0x0000000000000018 0x0000000000000000 = 0x0100000012000010\n"),
    (small_programs.PAGES_AFTER_ONE,
     "0 seed 0000000000000001 frames 5 out 16\n"
     "slice 1 100\n",
     "status exit 0\n"
     "steps 7\n"
     "output 0\n"
     "heap 1\n"
     "call malloc 0x0000000000000018 0x0000000000000000 = 0x0000000000000000\n"),
    (small_programs.PAGES_AFTER_ONE,
     "0 seed 0000000000000001 frames 6 out 16\n"
     "slice 1 100\n",
     "status exit 0\n"
     "steps 7\n"
     "output 0\n"
     "heap 1\n"
     "call malloc 0x0000000000000018 0x0000000000000000 = 0x0100000012000010\n"),
    (small_programs.PAGES_AFTER_ONE,
     "0 seed 0000000000000001 frames 7 out 16\n"
     "slice 1 100\n",
     "status exit 1\n"
     "steps 7\n"
     "output 0\n"
     "heap 1\n"
     "call malloc 0x0000000000000018 0x0000000000000000 = 0x0100000012000010\n"),
    (small_programs.GROWS,
     "0 seed 0000000000000001 frames 7 out 16\n"
     "slice 1 100\n",
     "status exit 0\n"
     "steps 11\n"
     "output 0\n"
     "heap 3\n"
     "call malloc 0x0000000000000018 0x0000000000000000 = 0x0100000012000010\n"
     "call realloc 0x0100000012000010 0x0000000000000030 = 0x0100000012000010\n"
     "call realloc 0x0100000012000010 0x0000000000000031 = 0x0100000013000010\n"),
    (small_programs.SHRINKS_TWICE,
     "0 seed 0000000000000001 frames 7 out 16\n"
     "slice 1 100\n",
     "status abort InvalidState ptr 0x0100000012000010 pc 0x0000000000010020\n"
     "steps 9\n"
     "output 0\n"
     "heap 2\n"
     "call malloc 0x0000000000000018 0x0000000000000000 = 0x0100000012000010\n"
     "call realloc 0x0100000012000010 0x0000000000000000 = 0x0000000000000000\n"),
    (small_programs.LARGE_FREED,
     "0 seed 0000000000000001 frames 60 out 16\n"
     "slice 1 100\n"
     "slice 1 100\n",
     "status fault Translation read addr 0x000000003d0012c0 ptr 0 mem 0 pc 0x0000000000010028\n"
     "steps 11\n"
     "output 0\n"
     "heap 2\n"
     "call malloc 0x0000000000030d40 0x0000000000000000 = 0x000000003d0012c0\n"
     "call free 0x000000003d0012c0 0x0000000000000000 = 0x0000000000000000\n"),
]

# The services by their numbers in x8, docs/TENANTS.md.
EXIT, WRITE, READ, MALLOC, FREE, CALLOC, REALLOC, MEMALIGN = 0, 1, 2, 3, 4, 5, 6, 7
USABLE_SIZE, YIELD, STEPS_LEFT, PAGES_LEFT = 8, 9, 10, 11
# What a service answers that failed, and the largest number.
FAILED = ALL_ONES = (1 << 64) - 1
# The only chunk of 32 bytes, while it is live the first time; the only one with pages of its own;
# an address of the stack, which is mapped and has no chunk.
CHUNK, LARGE, STACK = 0x0100000011000010, 0x3D002000, 0x3FFFD010
# The SVC that makes the call.
SVC = "pc 0x0000000000010024"

# Calls, as x8, x0, x1 and the answer; the last call, and the status by it.
EDGES: list[tuple[list[tuple[int, int, int, int]], tuple[int, int, int], str]] = [
    ([(12, 0, 0, FAILED), (ALL_ONES, 0, 0, FAILED), (1 << 32, 7, 0, FAILED),
      (WRITE, 0, 0, 0), (READ, 0, 0, 0), (YIELD, 5, 5, 0), (STEPS_LEFT, 0, 0, 986),
      (PAGES_LEFT, 0, 0, 45)],
     (EXIT, 256, 0), "exit 0"),
    ([(MALLOC, 1048577, 0, 0), (MALLOC, ALL_ONES, 0, 0), (MALLOC, 1048576, 0, 0),
      (CALLOC, 1 << 63, 2, 0), (CALLOC, ALL_ONES, ALL_ONES, 0), (REALLOC, 0, ALL_ONES, 0),
      (MEMALIGN, 0, 8, 0), (MEMALIGN, 24, 8, 0), (MEMALIGN, 8192, 8, 0),
      (USABLE_SIZE, 0, 0, 0), (FREE, 0, 0, 0), (PAGES_LEFT, 0, 0, 45)],
     (EXIT, 0x1FF, 0), "exit 255"),
    ([(MALLOC, 0, 0, CHUNK), (USABLE_SIZE, CHUNK, 0, 1), (REALLOC, CHUNK, 1048577, 0),
      (REALLOC, CHUNK, 16, CHUNK), (USABLE_SIZE, CHUNK, 0, 16), (REALLOC, CHUNK, 0, 0),
      (CALLOC, 0, ALL_ONES, 0x0500000011000010), (REALLOC, 0, 0, 0x0200000011000030),
      (MEMALIGN, 1, 16, 0x0300000011000050), (MEMALIGN, 4096, 100, 0x0B00000029001000),
      (MALLOC, 131072, 0, LARGE), (USABLE_SIZE, LARGE, 0, 131072), (FREE, LARGE, 0, 0),
      (PAGES_LEFT, 0, 0, 42)],
     (EXIT, ALL_ONES, 0), "exit 255"),
    ([], (WRITE, 0, 8),
     f"fault Translation read addr 0x0000000000000000 ptr 0 mem 0 {SVC}"),
    ([], (READ, 0, 8),
     f"fault Translation write addr 0x0000000000000000 ptr 0 mem 0 {SVC}"),
    ([], (USABLE_SIZE, 8, 0), f"abort Misaligned ptr 0x0000000000000008 {SVC}"),
    ([], (USABLE_SIZE, 16, 0), f"abort Unmapped ptr 0x0000000000000010 {SVC}"),
    ([], (FREE, 1 << 56, 0), f"abort Unmapped ptr 0x0100000000000000 {SVC}"),
    ([], (REALLOC, 0x10010, ALL_ONES), f"abort Unmapped ptr 0x0000000000010010 {SVC}"),
    ([], (USABLE_SIZE, STACK, 0), f"abort HeaderCorrupt ptr 0x000000003fffd010 {SVC}"),
    ([(MALLOC, 0, 0, CHUNK), (FREE, CHUNK, 0, 0)], (REALLOC, CHUNK, 0),
     f"abort InvalidState ptr 0x0100000011000010 {SVC}"),
    ([(MALLOC, 0, 0, CHUNK), (FREE, CHUNK, 0, 0)], (USABLE_SIZE, CHUNK, 0),
     f"abort InvalidState ptr 0x0100000011000010 {SVC}"),
]


def session(host: pathlib.Path, folder: pathlib.Path, frames: int, script: str,
            files: Sequence[Sequence[int]]) -> Ran:
    """A session over programs, which are its files 1 and on."""
    names = [f"{number}.elf" for number in range(1, len(files) + 1)]
    for name, words in zip(names, files):
        make_image(folder / name, [f"{word:08x}" for word in words])
    (folder / "script").write_text(script)
    return run([host, "--frames", str(frames), "script", *names], cwd=folder)


@pytest.mark.parametrize(("frames", "files", "script", "report"), SESSIONS)
def test_sessions(host: pathlib.Path, tmp_path: pathlib.Path, frames: int,
                  files: Sequence[Sequence[int]], script: str, report: str) -> None:
    """Tenants run, fault, wait and end, one beside and after another."""
    assert_reports(session(host, tmp_path, frames, script, files), report)


@pytest.mark.parametrize(("frames", "script", "report"), REFUSED)
def test_refused_events(host: pathlib.Path, tmp_path: pathlib.Path,
                        frames: int, script: str, report: str) -> None:
    """What is refused is reported first, and changes nothing."""
    make_image(tmp_path / "whole.elf", [f"{word:08x}" for word in small_programs.HI])
    (tmp_path / "cut.elf").write_bytes((tmp_path / "whole.elf").read_bytes()[:155])
    (tmp_path / "script").write_text(script)
    words: list[Word] = [host, "--frames", str(frames), "script", "whole.elf", "cut.elf"]
    assert_reports(run(words, cwd=tmp_path), report)


@pytest.mark.parametrize(("program", "terms", "lines"), SERVICES)
def test_services(host: pathlib.Path, tmp_path: pathlib.Path,
                  program: Sequence[int], terms: str, lines: str) -> None:
    """A tenant's calls of its services."""
    script = f"admit 1 image 1 input {terms}"
    assert_reports(session(host, tmp_path, 300, script, [program]), f"tenant 1\n{lines}end\n")


def test_the_65th_heap_call(host: pathlib.Path, tmp_path: pathlib.Path) -> None:
    """The report has the last 64 heap calls, and counts all of them."""
    script = ADMIT.replace("slice 1 100", "slice 1 200")
    none = f"0x{0:016x}"
    calls = f"call usable_size {none} {none} = {none}\n" * 64
    ran = session(host, tmp_path, 11, script, [small_programs.CALLS_65_TIMES])
    assert_reports(ran, f"tenant 1\nstatus exit 0\nsteps 199\noutput 0\nheap 65\n{calls}end\n")


def test_report_to_a_full_file(host: pathlib.Path, tmp_path: pathlib.Path) -> None:
    """Where a file takes fewer bytes than the report has, it has the report's first bytes."""
    report = HI_REPORT.encode()
    make_image(tmp_path / "1.elf", [f"{word:08x}" for word in small_programs.HI])
    (tmp_path / "script").write_text(ADMIT)
    for limit in range(len(report) + 1):
        with open(tmp_path / "report", "wb") as out:
            ran = subprocess.run([host, "--frames", "11", "script", "1.elf"], cwd=tmp_path,
                                 stdout=out, stderr=subprocess.PIPE, check=False,
                                 preexec_fn=limited(limit), restore_signals=False)
        is_whole = limit == len(report)
        assert (ran.returncode, ran.stderr) == (
            (0, b"") if is_whole else (6, b"mte_host: cannot write\n"))
        assert (tmp_path / "report").read_bytes() == report[:limit]


def limited(size: int) -> Callable[[], None]:
    """Bounds the bytes of each file that the next program writes. Python ignores the signal."""

    def limit() -> None:
        resource.setrlimit(resource.RLIMIT_FSIZE, (size, size))

    return limit


# A tenant alone, and beside three others that come, run and stop between its slices.
ALONE = """\
admit 7 image 1 input 1 seed 0000000000000001 frames 60 out 16
slice 7 5
slice 7 100
slice 7 100
stop 7
"""
BESIDE = """\
admit 1 image 2 input 0 seed 0000000000000001 frames 60 out 16
slice 1 6
admit 2 image 3 input 0 seed 0000000000000001 frames 5 out 16
slice 2 100
stop 2
admit 3 image 4 input 0 seed 0000000000000002 frames 9 out 16
slice 3 5
admit 7 image 1 input 1 seed 0000000000000001 frames 60 out 16
slice 1 100
slice 7 5
slice 3 100
slice 2 1
stop 3
slice 1 100
slice 7 100
stop 1
slice 7 100
stop 7
stop 7
"""


def test_each_program_is_named() -> None:
    """All programs of the file run beside others but the one that needs an input."""
    programs = {name for name, it in vars(small_programs).items()
                if name.isupper() and isinstance(it, list)}
    assert programs - {"NAMES", "CALLS_FROM_INPUT"} == set(small_programs.NAMES)


@pytest.mark.parametrize("name", small_programs.NAMES)
def test_alone_and_beside_others(host: pathlib.Path, tmp_path: pathlib.Path, name: str) -> None:
    """A tenant's lines are the whole report where it is alone, and the last lines where not."""
    files = [getattr(small_programs, name), small_programs.LARGE_FREED, small_programs.UNTAGGED,
             small_programs.CORRUPTS]
    alone = session(host, tmp_path, 200, ALONE, files)
    beside = session(host, tmp_path, 4000, BESIDE, files)
    assert (alone.status, beside.status) == (0, 0)
    assert alone.out.startswith(b"tenant 7\nstatus ")
    assert len(beside.out) > len(alone.out)
    assert beside.out.endswith(alone.out)


def in_bytes(numbers: Sequence[int]) -> bytes:
    """Eight bytes of each number, the lowest first."""
    return b"".join(number.to_bytes(8, "little") for number in numbers)


@pytest.mark.parametrize(("calls", "last", "status"), EDGES)
def test_services_at_their_edges(host: pathlib.Path, tmp_path: pathlib.Path,
                                 calls: Sequence[tuple[int, int, int, int]],
                                 last: tuple[int, int, int], status: str) -> None:
    """A tenant makes the calls that its input has, writes what each answers, and ends by the last,
    behind which the input has eight bytes more."""
    make_image(tmp_path / "1.elf", [f"{word:08x}" for word in small_programs.CALLS_FROM_INPUT])
    made = [in_bytes(call[:3]) for call in calls]
    (tmp_path / "input").write_bytes(b"".join(made) + in_bytes([*last, 0]))
    (tmp_path / "script").write_text(
        "admit 1 image 1 input 2 seed 0000000000000001 frames 50 out 1024\n"
        "slice 1 1000\nslice 1 1000\n")
    ran = run([host, "--frames", "101", "script", "1.elf", "input"], cwd=tmp_path)
    assert_ended(ran, 0, "")
    answers = in_bytes([call[3] for call in calls]).hex()
    lines = ran.output.splitlines()
    assert lines[1] == f"status {status}"
    assert lines[3] == f"output {len(answers) // 2} {answers}".rstrip()
