"""The tenants of examples/rust: output, exit status and cause are what their comments expect."""

import pathlib

import pytest

from tests.support.running import run
from tests.support.rust_tenants import RustTenant, build_tenants, names, run_package
from tests.support.told import read_told


@pytest.fixture(scope="session")
def images(tmp_path_factory: pytest.TempPathFactory) -> dict[str, pathlib.Path]:
    """The images; core and alloc are built once, in a minute."""
    return build_tenants(tmp_path_factory.mktemp("rust"))


@pytest.mark.parametrize("name", names())
def test_a_tenant_in_rust_does_as_its_comment_expects(
    alone: pathlib.Path, images: dict[str, pathlib.Path], tmp_path: pathlib.Path, name: str
) -> None:
    """Its lines, its status, and what is told of it."""
    tenant, data = RustTenant(name), tmp_path / "input"
    data.write_text(tenant.text("input"), encoding="utf-8")
    ran = run([alone, "--input", data, images[name]])
    assert ran.status == int((tenant.values("ends") or ["0"])[0]), ran.errors
    if tenant.values("output"):
        assert ran.output == tenant.text("output")
    causes = tenant.values("cause")
    assert all(text in ran.errors for text in causes), ran.errors
    assert bool(read_told(ran.errors).cause) == bool(causes)


def test_a_package_of_cargo_does_as_its_comment_expects(
    alone: pathlib.Path, tmp_path: pathlib.Path
) -> None:
    """serde_json and hashbrown as Debian has them, built and run by one command."""
    tenant = RustTenant("records/src/main")
    data = tenant.text("input").encode()
    ran = run_package(alone, tmp_path, "records", data)
    assert (ran.output, ran.status) == (tenant.text("output"), 0), ran.errors


def test_a_stale_pointer_is_told_with_its_calls(
    alone: pathlib.Path, images: dict[str, pathlib.Path]
) -> None:
    """The vector that moved: made by the allocator, freed as it grew, both below `main`."""
    told = read_told(run([alone, images["use_after_free"]]).errors)
    assert [call.did for call in told.calls] == ["allocated", "freed"]
    assert told.calls[0].text == "malloc(32)" and "realloc(" in told.calls[1].text
    for call in told.calls:
        frame = call.frames[0]
        assert (frame.inlined or (frame,))[0].file == "tenant.rs"
        assert "tenant_main" in [frame.function for frame in call.frames]
