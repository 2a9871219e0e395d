#!/usr/bin/env bash
# Builds what is missing without proof, runs the first script, and tries one case of each kind over
# it: sessions, GDB, --check, the page of --html, SARIF, the library from C and Python, mte_split.
#     tests/quick.sh    within ten minutes of two processors; its last line has the counts
set -euo pipefail
cd "$(dirname "$0")/.."
tools/build.sh --unproved --only programs
examples/hi.sh
exec tests/run.sh --suite tests/test_commands.py::test_hi tests/test_worked_sessions.py \
    "tests/test_gdb.py::test_a_dialog" "tests/test_checks.py::test_bugs_are_told[clang-O0]" \
    tests/test_heap_page.py::test_a_page_has_what_json_has \
    tests/test_sarif.py::test_a_log_says_what_the_report_says \
    tests/test_embedding.py::test_the_first_program_in_c \
    tests/test_embedding.py::test_the_first_program_in_python tests/test_split.py::test_parts
