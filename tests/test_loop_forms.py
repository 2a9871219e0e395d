"""Instructions that the loop of a run executes since real programs have many of them, in a session
and in QEMU."""

import pathlib

import pytest

from tests.support import samples
from tests.support.host_sessions import admission
from tests.support.places import TESTS
from tests.support.running import run, succeed
from tests.support.tools import need

SOURCE = TESTS / "sources/loop_forms.c"
BYTES = 64 * 17 * 8


@pytest.mark.parametrize("compiler", sorted(samples.COMPILERS))
def test_both_write_the_same(host: pathlib.Path, shared: pathlib.Path, tmp_path: pathlib.Path,
                             compiler: str) -> None:
    """RBIT and CLZ of 64 bits, ADDS and CMN of 32, loads with a sign and pairs of 32 bits, also
    over the ends of granules and of a page."""
    need("aarch64-linux-gnu-gcc", "clang", "qemu-aarch64")
    native = tmp_path / "native"
    succeed(["aarch64-linux-gnu-gcc", "-DLINUX", "-O2", "-static", "-o", native, SOURCE])
    wanted = run(["qemu-aarch64", native])
    assert (wanted.status, wanted.errors, len(wanted.out)) == (0, "", BYTES)
    image = samples.tenant(shared, SOURCE, compiler)
    script = tmp_path / "script"
    script.write_text(f"{admission(1, pages=32, room=BYTES)}\nslice 1 1000000\n")
    lines = succeed([host, "--frames", "65", script, image]).output.splitlines()
    assert "status exit 0" in lines
    assert f"output {BYTES} {wanted.out.hex()}" in lines
