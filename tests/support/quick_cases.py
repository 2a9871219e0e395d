"""The quickest cases that look at mte_run, for a program with a wrong body.

    quick_cases.py PROGRAM FOLDER

Names the first that is red, with status 1. Images that the folder has are not compiled again.
"""

import pathlib
import sys
import tempfile
from collections.abc import Callable, Iterator

from tests import test_checks, test_cxx_names, test_explanations, test_gdb, test_heap_page
from tests import test_explanations_beside_tools as beside_tools
from tests import test_profile, test_reference, test_report_lines, test_run_statuses, test_sarif
from tests.reference import compare
from tests.reference.runs import Runner
from tests.support.explained import run_acts
from tests.support.running import run

BUILD = "clang-O0"
ACTS = (
    test_report_lines.test_lines_have_known_forms_in_their_order,
    test_report_lines.test_lines_have_what_json_has,
    beside_tools.test_calls_are_those_of_the_trace,
    beside_tools.test_a_trace_agrees_with_a_model,
    beside_tools.test_statistics_count_the_trace,
    beside_tools.test_causes_are_those_of_the_list_of_heap_calls,
    beside_tools.test_leaks_are_the_chunks_that_are_live,
    beside_tools.test_calls_have_the_names_and_lines_of_other_tools,
)
CHECKS = (
    test_checks.test_bugs_are_told, test_checks.test_variables, test_checks.test_arithmetic,
    test_checks.test_lost_chunks, test_checks.test_lost_chunks_that_lead_to_one_another,
    test_checks.test_mismatched_frees,
)
DRAWN = 10  # programs of the reference


def stored(alone: pathlib.Path, folder: pathlib.Path) -> Iterator[Callable[[], None]]:
    """Those that compare what is stored."""
    texts = test_explanations
    for source in texts.SOURCES:
        yield lambda: texts.test_a_report_of_each_kind_is_as_stored(alone, folder, source)
    for source, build in (("chunks", "gcc-O2"), ("places", "clang-O0")):
        yield lambda: texts.test_what_is_told_on_request_is_as_stored(
            alone, folder, folder, source, build)
    for picture in texts.PICTURES:
        yield lambda: texts.test_pictures_are_as_stored(alone, folder, folder, *picture)
    yield lambda: texts.test_cores_are_as_stored(alone, folder, folder, "chunks", "gcc-O2")
    yield lambda: test_run_statuses.test_usage_is_as_stored(alone)
    yield lambda: test_gdb.test_stored_packets(alone, folder)
    for packet, answer in test_gdb.ASKED:
        yield lambda: test_gdb.test_what_gdb_asks(alone, packet, answer)


def written(alone: pathlib.Path, folder: pathlib.Path) -> Iterator[Callable[[], None]]:
    """Those that compare what is written with a model or with another tool."""
    for end in test_run_statuses.ENDS:
        yield lambda: test_run_statuses.test_each_end_has_its_status_and_lines(alone, folder, *end)
    # What they write is a body's own: several are tried at a time.
    with tempfile.TemporaryDirectory() as own:
        for path in test_profile.IMAGES[:4]:
            yield lambda: test_profile.test_images(alone, pathlib.Path(own), path)
            yield lambda: test_profile.test_functions_and_lines(alone, pathlib.Path(own), path)
    yield lambda: test_run_statuses.test_why_a_call_made_no_chunk(alone, folder)
    acts = run_acts(alone, "chunks", "gcc-O2", folder)
    for case in ACTS:
        yield lambda: case(acts)
    yield lambda: test_cxx_names.test_names_of_every_kind(alone, folder)
    yield lambda: test_cxx_names.test_names_are_those_of_cxxfilt(alone, folder)
    yield lambda: test_sarif.test_a_log_says_what_the_report_says(
        alone, folder, test_sarif.SOURCES[0])
    image = test_heap_page.image_of(folder, "long_page", test_heap_page.LONG)
    page = image.with_suffix(".html")
    run([alone, "--html", page, image])
    yield lambda: test_heap_page.test_a_page_has_what_json_has(alone, page)
    yield lambda: test_heap_page.test_steps_are_those_of_the_trace(alone, page)


def checked(alone: pathlib.Path, folder: pathlib.Path) -> Iterator[Callable[[], None]]:
    """Those of --check."""
    runner = Runner(alone, folder)
    for _, words in test_reference.RULES:
        yield lambda: test_reference.test_rules(runner, words)
    for kind in (compare.undefined_values, compare.wrong_pointers):
        yield lambda: agree(runner, kind)
    for case in CHECKS:
        yield lambda: case(alone, folder, BUILD)
    for other in (test_checks.test_kinds, test_checks.test_suppressions, test_checks.test_statuses,
                  test_checks.test_json):
        yield lambda: other(alone, folder)
    yield lambda: test_gdb.test_a_dialog(alone, folder, "double_free")


def agree(runner: Runner, kind: Callable[[Runner, int], compare.Outcome]) -> None:
    """Drawn programs of the reference agree."""
    assert not any(kind(runner, seed).differences for seed in range(DRAWN))


def main() -> None:
    """Runs them up to the first that is red."""
    alone, folder = map(pathlib.Path, sys.argv[1:])
    for cases in (stored, written, checked):
        number = 0
        try:
            for number, case in enumerate(cases(alone, folder)):
                case()
        except Exception as error:  # of any kind: a model may meet what it cannot read
            sys.exit(f"{cases.__name__} {number}: {error!r:.200}")


if __name__ == "__main__":
    main()
