#!/usr/bin/env python3
"""Builds tenants to be fuzzed, and the fuzzers.

    build.py FOLDER [--library LIBRARY.a] [--tenant NAME]... [--fuzzer libfuzzer|afl]...
             [--counts N]

FOLDER gets NAME.elf of each tenant, the programs libfuzzer and afl, and for each tenant a corpus
and perhaps a dictionary. NAME is cards (by default), labels, expat or lua, or one whose bug a
comparison guards: magic, magic_bytes, chunk, commands, sum or json. Without --fuzzer it is each
one that is there.
N (4096) is how many counts of edges they have, a power of two up to 65536.
LIBRARY is crates/tombolopan_c/out/libtombolopan_c.a, which tools/build.sh makes, or that of the
prefix in which this is installed. expat, lua and json are built from Debian's sources by
../libc/tenant-cc. Needed (Debian): clang, lld, libclang-rt-14-dev, afl++; for these three llvm, apt
and the network too.
"""
import pathlib
import shutil
import subprocess
import sys
from collections.abc import Callable, Sequence
from typing import NoReturn

HERE = pathlib.Path(__file__).resolve().parent
sys.path.insert(0, str(HERE.parent))
import debian_source  # noqa: E402
import over_library  # noqa: E402
from command_line import Parser  # noqa: E402

LIBRARY = over_library.archive()
# What is wanted of this machine in any case, with the Debian packages that have it.
TOOLS = {"clang": "clang", "ld.lld": "lld"}
TENANT_CC = HERE.parent / "libc/tenant-cc"
BARE = ["clang", "--target=aarch64-linux-gnu", "-fuse-ld=lld", "-ffreestanding", "-nostdlib",
        "-static", "-mgeneral-regs-only"]
EXPAT = ["xmlparse", "xmlrole", "xmltok"]
LUA = ("lapi lauxlib lbaselib lcode lcorolib lctype ldblib ldebug ldo ldump lfunc lgc linit liolib "
       "llex lmathlib lmem loadlib lobject lopcodes loslib lparser lstate lstring lstrlib ltable "
       "ltablib ltm lundump lutf8lib lvm lzio").split()
# What both fuzzers have.
SHARED = ("kept_tenant", "compared")
# The bug that is planted in cJSON: who frees a reference frees what it refers to.
PLANTED = ("item->type = cJSON_Object | cJSON_IsReference;", "item->type = cJSON_Object;")
Words = Sequence["str | pathlib.Path"]
Builder = Callable[[pathlib.Path], None]


def leave(text: str) -> NoReturn:
    """Says why nothing is built."""
    sys.exit(f"build.py: {text}")


def run(words: Words) -> None:
    """Runs a command; ends where it fails."""
    ran = subprocess.run([str(it) for it in words], stdout=subprocess.PIPE,
                         stderr=subprocess.STDOUT, text=True, check=False)
    if ran.returncode:
        leave(f"{' '.join(map(str, words))}\n{ran.stdout[-3000:]}")


def bare(folder: pathlib.Path, name: str, *words: str) -> None:
    """A tenant of sources of this folder, without a C library."""
    files = [it if it.startswith("-") else HERE / it for it in ("../c/start.c", *words)]
    run([*BARE, "-O2", "-g", "-Wall", "-Wextra", "-o", folder / f"{name}.elf", *files])


def cards(folder: pathlib.Path) -> None:
    """The reader of cards."""
    bare(folder, "cards", "cards_tenant.c", "cards.c")


def labels(folder: pathlib.Path) -> None:
    """The keeper of labels, whose bug no tag shows."""
    bare(folder, "labels", "labels.c")


def guarded(name: str) -> Builder:
    """One of the readers whose bug a comparison guards."""
    return lambda folder: bare(folder, name, f"-D{name.upper()}", "guarded.c")


def tenant(folder: pathlib.Path, name: str, flags: Words, files: Words) -> None:
    """A tenant of the C library of tenants."""
    run([sys.executable, TENANT_CC, "-O2", "-g", "-w", *flags, "-o", folder / f"{name}.elf",
         HERE / f"{name}_tenant.c", *files])


def source(folder: pathlib.Path, package: str) -> pathlib.Path:
    """The source of a package of Debian, which the folder keeps."""
    try:
        return debian_source.fetch(folder / "sources", package)
    except debian_source.NotFetched as error:
        leave(str(error))


def expat(folder: pathlib.Path) -> None:
    """Expat's parser."""
    lib = source(folder, "expat") / "expat/lib"
    flags: Words = [f"-I{HERE}", f"-I{lib}"]
    tenant(folder, "expat", flags, [lib / f"{it}.c" for it in EXPAT])


def lua(folder: pathlib.Path) -> None:
    """Lua's interpreter."""
    src = source(folder, "lua5.4") / "src"
    tenant(folder, "lua", [f"-I{src}", "--stack=262144"], [src / f"{it}.c" for it in LUA])


def json(folder: pathlib.Path) -> None:
    """cJSON, with a bug that is planted."""
    source_folder = source(folder, "cjson")
    text = (source_folder / "cJSON.c").read_text(encoding="utf-8")
    if text.count(PLANTED[0]) != 1:
        leave("cJSON.c has no place for its bug")
    planted = folder / "sources/planted_cjson.c"
    planted.write_text(text.replace(*PLANTED), encoding="utf-8")
    tenant(folder, "json", [f"-I{source_folder}", "--stack=262144"], [planted])


TENANTS = {"cards": cards, "labels": labels, "expat": expat, "lua": lua, "json": json,
           **{it: guarded(it) for it in ("magic", "magic_bytes", "chunk", "commands", "sum")}}


def plain(folder: pathlib.Path, names: Sequence[str], flags: Words) -> list[pathlib.Path]:
    """Objects that are not instrumented, so that the tenant alone is counted and compares."""
    made = [folder / f"{name}.o" for name in names]
    for path in made:
        run(["clang", "-O2", "-g", *flags, "-c", "-o", path, HERE / f"{path.stem}.c"])
    return made


def libfuzzer(folder: pathlib.Path, flags: Words, linked: Words) -> None:
    """The tenant's edges are the extra counters of libFuzzer."""
    run(["clang", "-fsanitize=fuzzer", "-o", folder / "libfuzzer",
         *plain(folder, ("libfuzzer", *SHARED), flags), *linked])


def afl(folder: pathlib.Path, flags: Words, linked: Words) -> None:
    """The tenant's edges are AFL++'s map: only its own loop is instrumented."""
    run(["env", "AFL_QUIET=1", "AFL_LLVM_INSTRUMENT=CLASSIC", "afl-clang-fast", "-O2", *flags,
         "-o", folder / "afl", HERE / "afl.c", *plain(folder, ("afl_map", *SHARED), flags),
         *linked])


def has_libfuzzer() -> bool:
    """Whether clang has libFuzzer."""
    told = subprocess.run(["clang", "-print-resource-dir"], stdout=subprocess.PIPE, text=True,
                          check=True)
    return any(pathlib.Path(told.stdout.strip()).glob("lib/*/libclang_rt.fuzzer*"))


def has_afl() -> bool:
    """Whether AFL++ is there."""
    return shutil.which("afl-clang-fast") is not None


# How each is built, whether it is there, and the Debian package that has it.
FUZZERS = {"libfuzzer": (libfuzzer, has_libfuzzer, "libclang-rt-14-dev"),
           "afl": (afl, has_afl, "afl++")}


def there(wanted: Sequence[str]) -> list[str]:
    """The fuzzers that are wanted, or all that are there; ends where one or each is not."""
    found = [name for name, (_, is_there, _) in FUZZERS.items() if is_there()]
    for name in wanted or ([] if found else FUZZERS):
        if name not in found:
            leave(f"{name} is not there (Debian: {FUZZERS[name][2]})")
    return list(wanted) or found


def heap(library: pathlib.Path) -> list[pathlib.Path]:
    """The archive by which the library calls malloc and free; none where the library has it."""
    if library.name == over_library.INSTALLED:
        return []
    page = subprocess.run(["rt", "doc"], stdout=subprocess.PIPE, text=True, check=True).stdout
    return [pathlib.Path(page.splitlines()[0]).resolve().parent / "c/liblibc_c.a"]


def main() -> None:
    """The command line."""
    parser = Parser(__doc__)
    parser.add_argument("folder", type=pathlib.Path)
    parser.add_argument("--library", type=pathlib.Path, default=LIBRARY)
    parser.add_argument("--tenant", action="append", choices=TENANTS)
    parser.add_argument("--fuzzer", action="append", choices=FUZZERS)
    parser.add_argument("--counts", type=int, default=4096)
    wanted = parser.parse_args()
    if not wanted.library.is_file():
        leave(f"{wanted.library} is not there: {over_library.ARCHIVE_MAKER}")
    for tool, package in TOOLS.items():
        if not shutil.which(tool):
            leave(f"{tool} is not there (Debian: {package})")
    fuzzers = there(wanted.fuzzer or [])
    folder = wanted.folder.resolve()
    folder.mkdir(parents=True, exist_ok=True)
    for name in wanted.tenant or ["cards"]:
        TENANTS[name](folder)
        shutil.copytree(HERE / "corpus" / name, folder / f"{name}.corpus", dirs_exist_ok=True)
        if (HERE / f"{name}.dict").exists():
            shutil.copyfile(HERE / f"{name}.dict", folder / f"{name}.dict")
    flags = [f"-I{over_library.prefix()}/include", f"-DCOUNTS={wanted.counts}"]
    linked = [wanted.library, *heap(wanted.library)]
    for name in fuzzers:
        FUZZERS[name][0](folder, flags, linked)


if __name__ == "__main__":
    main()
