"""LLVM's Scudo with memory tagging (FEAT_MTE), for programs of AArch64 Linux under `qemu-aarch64
-cpu max`.

The source is that of Debian's package llvm-toolchain-14 (130 MB). Its heap stands under names of
its own, scudo_malloc and so on (scudo_wrap.cpp), so that the C library keeps its own, in the
default configuration but for the size of its regions.
"""
import pathlib
import signal
import subprocess
import sys
from typing import Optional, Union

from commands import leave, run_tool

HERE = pathlib.Path(__file__).resolve().parent
sys.path.insert(0, str(HERE.parents[1] / "examples"))
import debian_source  # noqa: E402

PACKAGE = "llvm-toolchain-14"
FOLDER, BUILTINS = "compiler-rt/lib/scudo", "compiler-rt/lib/builtins"
PARTS = ["checksum", "common", "crc32_hw", "flags", "flags_parser", "linux", "release", "report",
         "string_utils"]
AARCH64 = ["--target=aarch64-linux-gnu", "-O2"]
HEADERS = ["-isystem", "/usr/aarch64-linux-gnu/include"]
SCUDO = [*AARCH64, "-march=armv8.5-a+memtag", "-std=c++17", "-fno-exceptions", "-fno-rtti",
         "-nostdinc++", *HEADERS]
TOOLS = {
    "clang": "clang", "clang++": "clang", "aarch64-linux-gnu-gcc": "gcc-aarch64-linux-gnu",
    "qemu-aarch64": "qemu-user", "apt-get": "apt", "tar": "tar", "xz": "xz-utils",
}
# The heap's functions in C, by the names that a program has to call.
DECLARATIONS = (
    "#include <stddef.h>\n#include <stdint.h>\n"
    "void *scudo_malloc(size_t);\nvoid *scudo_calloc(size_t, size_t);\n"
    "void *scudo_realloc(void *, size_t);\nvoid scudo_free(void *);\n"
)
# Status 2: a pointer without a tag in its bits 59 to 56. With an argument, a read of a freed chunk.
PROBE = DECLARATIONS + """
int main(int count, char **words)
{
    volatile char *p = scudo_malloc(24);
    (void)words;
    *p = 1;
    if (((uintptr_t)p >> 56 & 15) == 0)
        return 2;
    scudo_free((void *)p);
    if (count > 1)
        (void)*p;
    return 0;
}
"""


def fetch(folder: pathlib.Path) -> Optional[pathlib.Path]:
    """The folder of compiler-rt's libraries, or None, with the reason told, where they are not
    fetched."""
    try:
        fetched = debian_source.fetch(folder, PACKAGE, (FOLDER, BUILTINS))
        return fetched / "compiler-rt" / "lib"
    except debian_source.NotFetched as error:
        print(f"{pathlib.Path(sys.argv[0]).name}: {error}", file=sys.stderr)
        return None


def command(program: pathlib.Path) -> list[Union[str, pathlib.Path]]:
    """The command that runs a program with tag checks. Of glibc's `memset` it takes one without DC
    ZVA, by which QEMU 7.2 ends a program (SIGSEGV) where the pointer has a tag."""
    tunables = "GLIBC_TUNABLES=glibc.cpu.name=kunpeng920"
    return ["qemu-aarch64", "-cpu", "max", "-E", tunables, program]


def link(parts: list[pathlib.Path], out: pathlib.Path) -> None:
    """Links objects into a static program."""
    run_tool(["aarch64-linux-gnu-gcc", "-static", "-o", out, *parts, "-lm", "-lpthread"])


def build(libraries: pathlib.Path, work: pathlib.Path) -> list[pathlib.Path]:
    """The objects of Scudo and of our wrapper."""
    scudo = libraries / "scudo" / "standalone"
    objects: list[pathlib.Path] = []
    for source in [*(scudo / f"{part}.cpp" for part in PARTS), HERE / "scudo_wrap.cpp"]:
        objects.append(work / f"{source.stem}.o")
        run_tool(["clang++", *SCUDO, f"-I{scudo}", f"-I{scudo}/include", "-c", "-o", objects[-1],
                  source])
    check_tags(objects, work)
    return objects


def check_tags(objects: list[pathlib.Path], work: pathlib.Path) -> None:
    """Ends unless pointers of Scudo's heap have tags, and a read of a freed chunk ends a
    program."""
    source, part, probe = work / "probe.c", work / "probe.o", work / "probe"
    source.write_text(PROBE)
    run_tool(["clang", *AARCH64, *HEADERS, "-c", "-o", part, source])
    link([part, *objects], probe)
    sound = subprocess.run(command(probe)).returncode
    freed = subprocess.run([*command(probe), "freed"], stderr=subprocess.DEVNULL).returncode
    if sound == 2:
        leave("Scudo's pointers have no tags: this QEMU has no memory tagging, or Scudo was built "
              "without it")
    if sound or freed != -signal.SIGSEGV:
        leave(f"Scudo's program does not check tags: status {sound} where it is sound, {freed} "
              "where it reads a freed chunk")
