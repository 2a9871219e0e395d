"""Real programs, for `--real`: zlib, lz4, Lua, expat, bzip2, libtommath and XZ of Debian's source
packages (their archives as they are, without Debian's changes), each with a driver of some 100
million steps (real/): zlib, lz4, bzip2 and XZ pack and expand words, Lua runs real/program.lua,
expat parses a document, libtommath raises numbers to powers.

A program's first lines have each HOST's instructions a step under callgrind, of a short run less an
admission alone. Then its whole runs: zlib, lz4, bzip2 and expat once over bytes in chunks of size
classes, and once over larger ones, whose pages Scudo leaves without tags for the most part; Lua,
libtommath and XZ once. Each runs in turns, N times (5), as a tenant of each HOST, as the same
program of AArch64 Linux under `qemu-aarch64`, and with `--scudo` as one on LLVM's Scudo with memory
tagging, synchronous checks (`-cpu max`), and with `--native` as a program of this machine: as it
is, under AddressSanitizer, and under Valgrind's memcheck. A figure is the best user time of the
whole run less the best of a start, a run over next to nothing: a program on Scudo starts for a
tenth of a second, one under memcheck for half a second. Each run writes a sum of what it made,
which has to be that of the same program on this machine. `--ir` has the instructions alone.

clang builds all, with -O2. A tenant has no registers of floating point and SIMD
(-mgeneral-regs-only); its C library is real/strings.c and real/tenant_libc.c, and Lua's numbers
with a fraction are computed by compiler-rt and real/tenant_math.c, libtommath's divisions of 128
bits by real/tenant_division.c. The Linux programs have all registers and Debian's glibc.

Sources come by apt-get from where apt's own configuration says, and stay in FOLDER, outside the
repository, for the next time (a temporary folder): 14 MB, and for Lua and `--scudo`
llvm-toolchain-14 of 130 MB. Fetched in half a minute, all programs with `--scudo` and one HOST take
five minutes, with `--ir` two.
"""
import pathlib
import sys
from argparse import Namespace
from collections.abc import Callable
from pathlib import Path
from typing import Optional

import scudo
from commands import SLICE, Command, instructions, leave, need_tools, run_tool, user_time, version

HERE = pathlib.Path(__file__).resolve().parent
REAL = HERE / "real"
EXAMPLES = HERE.parents[1] / "examples"
sys.path.insert(0, str(EXAMPLES))
import debian_source  # noqa: E402

TOOLS = {**scudo.TOOLS, "ld.lld": "lld", "valgrind": "valgrind"}
CLANG = ["clang", "--target=aarch64-linux-gnu", *scudo.HEADERS]
COMMON = ["-O2", "-w", "-DNDEBUG", "-ffp-contract=off"]
TENANT = ["-mgeneral-regs-only", "-ffunction-sections", "-D__NO_CTYPE"]
LIBRARY = ["-ffreestanding", "-fno-builtin"]
HEAP = [f"-D{name}=scudo_{name}" for name in ("malloc", "calloc", "realloc", "free")]
PAGES, SLICES = 2000, 200

# In a program's flags, its folder.
FOLDER = "{folder}"

Run = tuple[int, int]  # rounds, and bytes
Best = dict[tuple[str, Path], float]  # seconds, by who runs and over what

# Rounds and bytes of the run that is taken off.
START = 1, 1000


class Program:
    """A library's package, its folder and files in it, flags, and rounds and bytes of a short run
    and of whole ones."""

    def __init__(self, package: str, folder: str, files: str, flags: list[str],
                 short: Run, *whole: Run) -> None:
        self.package, self.folder = package, folder
        self.files, self.flags = files.split(), flags
        self.short, self.whole = short, whole


LUA = (
    "lapi lauxlib lbaselib lcode lcorolib lctype ldebug ldo ldump lfunc lgc llex lmem lobject "
    "lopcodes lparser lstate lstring lstrlib ltable ltablib ltm lundump lvm lzio"
)
# A tenant's arithmetic of numbers with a fraction, of compiler-rt.
FRACTIONS = (
    "adddf3 subdf3 muldf3 divdf3 comparedf2 extendsfdf2 truncdfsf2 fixdfdi fixdfsi fixunsdfdi "
    "fixunsdfsi floatdidf floatsidf floatundidf floatunsidf fp_mode"
)
# Of libtommath what raises to powers modulo a number: files bn_mp_* and bn_s_mp_*.
POWERS = (
    "2expt abs add clamp clear clear_multi cmp cmp_d cmp_mag copy count_bits div div_2 div_2d "
    "div_3 dr_is_modulus dr_reduce dr_setup exch exptmod from_ubin grow init init_copy init_multi "
    "init_size invmod lshd mod mod_2d montgomery_calc_normalization montgomery_reduce "
    "montgomery_setup mul mul_2 mul_2d mul_d mulmod reduce reduce_2k reduce_2k_l reduce_2k_setup "
    "reduce_2k_setup_l reduce_is_2k reduce_is_2k_l reduce_setup rshd set sqr sub to_ubin "
    "ubin_size zero"
)
POWERS_INSIDE = (
    "add balance_mul exptmod exptmod_fast invmod_fast invmod_slow karatsuba_mul karatsuba_sqr "
    "montgomery_reduce_fast mul_digs mul_digs_fast mul_high_digs mul_high_digs_fast sqr sqr_fast "
    "sub toom_mul toom_sqr"
)
# Of XZ's library LZMA2, its format, and CRC32.
LZMA = (
    "common/common common/block_util common/filter_common common/vli_size common/vli_encoder "
    "common/vli_decoder common/stream_flags_common common/stream_flags_encoder "
    "common/stream_flags_decoder common/stream_buffer_encoder common/stream_buffer_decoder "
    "common/stream_decoder common/block_buffer_encoder common/block_decoder "
    "common/block_header_encoder common/block_header_decoder common/filter_encoder "
    "common/filter_decoder common/filter_flags_encoder common/filter_flags_decoder common/index "
    "common/index_encoder common/index_hash check/check check/crc32_fast check/crc32_table "
    "lz/lz_encoder lz/lz_encoder_mf lz/lz_decoder lzma/fastpos_table lzma/lzma2_encoder "
    "lzma/lzma2_decoder lzma/lzma_encoder lzma/lzma_encoder_presets "
    "lzma/lzma_encoder_optimum_fast lzma/lzma_encoder_optimum_normal lzma/lzma_decoder "
    "rangecoder/price_table"
)
LZMA_DEFINED = (
    "HAVE_STDBOOL_H HAVE__BOOL HAVE_STDINT_H HAVE_INTTYPES_H HAVE_LIMITS_H HAVE_STRING_H "
    "HAVE_CHECK_CRC32 HAVE_ENCODERS HAVE_DECODERS HAVE_ENCODER_LZMA2 HAVE_DECODER_LZMA2 "
    "HAVE_ENCODER_LZMA1 HAVE_DECODER_LZMA1 HAVE_MF_HC3 HAVE_MF_HC4 HAVE_MF_BT4 SIZEOF_SIZE_T=8 "
    "ASSUME_RAM=128 TUKLIB_FAST_UNALIGNED_ACCESS HAVE_VISIBILITY=0"
)
LZMA_FOLDERS = "api common check lz lzma rangecoder delta simple ../common"
LZMA_FLAGS = [*(f"-D{it}" for it in LZMA_DEFINED.split()),
              *(f"-I{FOLDER}/{it}" for it in LZMA_FOLDERS.split())]
# In Lua no order of keys depends on an address or a clock.
LUA_FLAGS = ["-Dluai_makeseed(state)=1u", "-Dl_randomizePivot()=0u",
             "-Dlua_getlocaledecpoint()='.'"]
# The first of two whole runs has its bytes in chunks of size classes, the second in larger ones;
# lz4's hash table is one too, since a tenant's stack has no room for it.
PROGRAMS = {
    "zlib": Program(
        "zlib", "", "adler32 crc32 deflate inffast inflate inftrees trees zutil", ["-DZ_SOLO"],
        (1, 60_000), (7, 60_000), (1, 400_000),
    ),
    "lz4": Program(
        "lz4", "lib", "lz4", ["-DLZ4_HEAPMODE=1"], (15, 60_000), (146, 60_000), (8, 1_000_000),
    ),
    "lua": Program("lua5.4", "src", LUA, LUA_FLAGS, (3, 0), (17, 0)),
    "expat": Program(
        "expat", "expat/lib", "xmlparse xmlrole xmltok", [], (6, 40_000), (45, 40_000),
        (2, 1_000_000),
    ),
    "bzip2": Program(
        "bzip2", "", "blocksort bzlib compress crctable decompress huffman randtable",
        ["-DBZ_NO_STDIO"], (1, 30_000), (7, 30_000), (1, 230_000),
    ),
    "libtommath": Program(
        "libtommath", "",
        " ".join(["bn_cutoffs", *(f"bn_mp_{it}" for it in POWERS.split()),
                  *(f"bn_s_mp_{it}" for it in POWERS_INSIDE.split())]),
        [], (1, 0), (60, 0),
    ),
    "xz": Program(
        "xz-utils", "src/liblzma", LZMA, LZMA_FLAGS, (1, 8_000), (5, 60_000),
    ),
}


class Builder:
    """Builds a program's forms in a folder; `libraries` is compiler-rt's, if it is there."""

    def __init__(self, libraries: Optional[Path], sources: dict[str, Path], work: Path) -> None:
        self.libraries, self.work = libraries, work
        self.folder = sources

    def compile(self, command: list[str], files: list[Path], kind: str) -> list[Path]:
        """The objects of these files."""
        objects: list[Path] = []
        for file in files:
            objects.append(self.work / f"{file.stem}.{kind}.o")
            run_tool([*command, *COMMON, "-c", "-o", objects[-1], file])
        return objects

    def parts(self, name: str) -> tuple[list[Path], list[str]]:
        """The files of a program and the flags that they need."""
        program = PROGRAMS[name]
        folder = self.folder[name] / program.folder
        files = [folder / f"{file}.c" for file in program.files] + [REAL / f"{name}_run.c"]
        flags = [flag.replace(FOLDER, str(folder)) for flag in program.flags]
        return files, [*flags, f"-I{folder}", f"-I{REAL}", f"-I{EXAMPLES / 'fuzz'}"]

    def tenant(self, name: str) -> Path:
        files, flags = self.parts(name)
        objects = self.compile([*CLANG, *TENANT, *flags], files, "tenant")
        library = [REAL / "strings.c", REAL / "tenant_libc.c"]
        if name == "lua":
            library += [REAL / "tenant_math.c"]
            assert self.libraries, "without compiler-rt Lua is left out"
            builtins = [self.libraries / "builtins" / f"{file}.c" for file in FRACTIONS.split()]
            objects += self.compile([*CLANG, *TENANT], builtins, "tenant")
        if name == "libtommath":
            library += [REAL / "tenant_division.c"]
        objects += self.compile([*CLANG, *TENANT, *LIBRARY], library, "tenant")
        image = self.work / f"{name}.elf"
        run_tool(["ld.lld", "-static", "--gc-sections", "-o", image, *objects])
        return image

    def linux(self, name: str) -> Path:
        files, flags = self.parts(name)
        program = self.work / f"{name}.linux"
        scudo.link(self.compile([*CLANG, *flags], files, "linux"), program)
        return program

    def on_scudo(self, name: str, heap: list[Path]) -> Path:
        files, flags = self.parts(name)
        objects = self.compile([*CLANG, *flags, *HEAP], files, "scudo")
        program = self.work / f"{name}.scudo"
        scudo.link([*objects, *heap], program)
        return program

    def native(self, name: str, kind: str = "native", *more: str) -> Path:
        """A program of this machine, by clang with more flags."""
        files, flags = self.parts(name)
        program = self.work / f"{name}.{kind}"
        run_tool(["clang", *COMMON, *flags, *more, "-o", program, *files, "-lm"])
        return program

    def natives(self, name: str) -> dict[str, Command]:
        """The commands of this machine that find mistakes of the heap, and the program alone."""
        alone = self.native(name)
        checked = self.native(name, "asan", "-fsanitize=address")
        # What a driver keeps to its end is no mistake.
        return {"native": [alone], "memcheck": ["valgrind", "-q", alone],
                "AddressSanitizer": ["env", "ASAN_OPTIONS=detect_leaks=0", checked]}


# Measures a program by its name; the objects are those of Scudo, where it is asked for.
Measure = Callable[[str, Builder, list[Path], Namespace], None]


def make_input(work: Path, name: str, run: Run) -> Path:
    """The input of a run: how many rounds, over how many bytes, and Lua's program."""
    text = (REAL / "program.lua").read_text() if name == "lua" else ""
    path = work / "{}.{}.{}".format(name, *run)
    path.write_text("{} {}\n{}".format(*run, text))
    return path


def session(host: str, work: Path, image: Path, data: Path, slices: int = SLICES) -> Command:
    path = work / f"real.{slices}"
    admit = f"admit 1 image 1 input 2 seed 0000000000000001 frames {PAGES} out 64\n"
    path.write_text(admit + f"slice 1 {SLICE}\n" * slices)
    return [host, "--frames", str(2 * PAGES + 1), path, image, data]


def read_report(text: str) -> tuple[int, str]:
    """Steps and output of a tenant that came to its end with status 0."""
    said = dict(line.split(" ", 1) for line in text.splitlines()
                if " " in line and not line.startswith("call "))
    if said.get("status") != "exit 0":
        leave(f"a tenant did not come to its end:\n{text}")
    return int(said["steps"]), bytes.fromhex(said["output"].split(" ", 1)[1]).decode()


def count(host: str, work: Path, image: Path, name: str) -> float:
    """Instructions of the host for a step of a short run."""
    data = make_input(work, name, PROGRAMS[name].short)
    command = session(host, work, image, data)
    steps, _ = read_report(user_time(command, 1)[1])
    alone = session(host, work, image, data, 0)
    return (instructions(command) - instructions(alone)) / steps


class Runs:
    """The ways to run one program: as a tenant of each host, and as Linux programs by other
    commands."""

    def __init__(self, work: Path, image: Path, hosts: list[str], others: dict[str, Command],
                 native: Path) -> None:
        self.work, self.image, self.native = work, image, native
        self.hosts, self.others = hosts, others

    def run(self, who: str, data: Path, wanted: str) -> tuple[float, int]:
        """Seconds of user time, and steps where it is a tenant; ends where another sum is written
        than is wanted."""
        steps = 0
        if who in self.hosts:
            nanoseconds, report = user_time(session(who, self.work, self.image, data), 1)
            steps, wrote = read_report(report)
        else:
            nanoseconds, wrote = user_time(self.others[who], 1, data)
        if wrote != wanted:
            leave(f"{who} writes {wrote!r}, and a program of this machine {wanted!r}")
        return nanoseconds / 1e9, steps

    def best(self, whole: Path, start: Path, turns: int) -> tuple[Best, int]:
        """Seconds of the best whole run and of the best start of each, and a tenant's steps between
        them."""
        wanted = {data: user_time([self.native], 1, data)[1] for data in (whole, start)}
        best: Best = {}
        steps: dict[tuple[str, Path], int] = {}
        each = [(who, data) for who in [*self.hosts, *self.others] for data in (whole, start)]
        for who, data in each * turns:
            time, steps[who, data] = self.run(who, data, wanted[data])
            best[who, data] = min(time, best.get((who, data), time))
        host = self.hosts[0]
        return best, steps[host, whole] - steps[host, start]


def show(runs: Runs, best: Best, whole: Path, start: Path, steps: int) -> None:
    """A line for each host and each other way of one program and input."""
    hosts, others = runs.hosts, runs.others
    spent = {who: best[who, whole] - best[who, start] for who in [*hosts, *others]}
    for who, time in spent.items():
        line = f"  {who}: {time:.3f} s after a start of {best[who, start]:.3f} s"
        if who in hosts:
            line += f", {time * 1e9 / steps:.2f} ns a step"
        if who in others and time <= 0:
            line += "; no longer than its start, so it is not compared"
        for host in hosts if who in others and time > 0 else ():
            line += f"; {host} is {time / spent[host]:.2f} times as fast"
        print(line, flush=True)


def measure_program(name: str, builder: Builder, heap: list[Path], options: Namespace) -> None:
    image, work = builder.tenant(name), builder.work
    for host in options.hosts:
        found = count(host, work, image, name)
        print(f"{name}: {found:.2f} instructions a step, {host}", flush=True)
    if options.ir:
        return
    others: dict[str, Command] = {"QEMU": ["qemu-aarch64", builder.linux(name)]}
    if heap:
        others["Scudo"] = scudo.command(builder.on_scudo(name, heap))
    if options.native:
        others.update(builder.natives(name))
    runs = Runs(work, image, options.hosts, others, builder.native(name))
    for run in PROGRAMS[name].whole:
        whole = make_input(work, name, run)
        start = make_input(work, name, START if run[1] else (0, 0))
        best, steps = runs.best(whole, start, options.rounds)
        size = f" of {run[1]} bytes" if run[1] else ""
        print(f"{name}: {run[0]} rounds{size}, {steps / 1e6:.1f} million steps")
        show(runs, best, whole, start, steps)


def fetch_sources(names: list[str], folder: Path) -> dict[str, Path]:
    """The folder of each program's source that is fetched."""
    found = {}
    for name in names:
        try:
            found[name] = debian_source.fetch(folder, PROGRAMS[name].package)
        except debian_source.NotFetched as error:
            print(f"measure.py: without {name}: {error}", file=sys.stderr)
    return found


def measure(options: Namespace, work: Path, program: Measure) -> None:
    """The lines of all programs, or of one, each as `program` measures it."""
    need_tools(TOOLS)
    folder = (options.work or work / "source").resolve()
    names = [options.only] if options.only else list(PROGRAMS)
    libraries = scudo.fetch(folder) if options.scudo or "lua" in names else None
    if libraries is None and "lua" in names:
        print("measure.py: without lua: it needs compiler-rt", file=sys.stderr)
        names.remove("lua")
    heap = scudo.build(libraries, work) if options.scudo and libraries else []
    sources = fetch_sources(names, folder)
    print(f"{version(CLANG[0])}; {version('qemu-aarch64')}", flush=True)
    builder = Builder(libraries, sources, work)
    for name in sources:
        program(name, builder, heap, options)
