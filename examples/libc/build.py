#!/usr/bin/env python3
"""Builds the C library of tenants, from source that apt fetches, into a folder.

    build.py [--c++ | --only-c++] [--out FOLDER] [--sources FOLDER] [--jobs N]

musl is compiled without registers of floating point, with what stands here in place of its system
calls, heap, start and atomics; the arithmetic of `double` and of 128-bit integers is that of
compiler-rt. FOLDER (out, beside this script) gets `include` and `lib`, which tenant-cc reads, and
keeps the sources (`sources`, 140 MB, fetched once). It takes two minutes on two processors; an
installed library stays as it is.
Needed (Debian): clang, llvm, apt, tar, xz-utils, and the network the first time.

With --c++ it gets the C++ library too, LLVM's libc++ with exceptions; with --only-c++ that alone,
where FOLDER has the C library. This needs binutils-aarch64-linux-gnu besides.
"""
import concurrent.futures
import os
import pathlib
import shutil
import subprocess
import sys

HERE = pathlib.Path(__file__).resolve().parent
sys.path[:0] = [str(HERE), str(HERE.parent)]
import cxx_library  # noqa: E402
import debian_source  # noqa: E402
from command_line import Parser  # noqa: E402

CLANG = [
    "clang", "--target=aarch64-linux-gnu", "-mgeneral-regs-only", "-Xclang", "-mlong-double-64",
]
COMMON = [
    "-O2", "-g1", "-w", "-ffunction-sections", "-fdata-sections", "-fno-asynchronous-unwind-tables",
    "-fno-omit-frame-pointer", "-fno-stack-protector", "-fdebug-compilation-dir=.",
    "-moutline-atomics", "-ffp-contract=off",
]
MUSL = ["-std=c99", "-ffreestanding", "-nostdinc", "-frounding-math", "-D_XOPEN_SOURCE=700"]
BUILTINS = ["-std=c11", "-ffreestanding", "-fno-builtin"]
# What this folder has in musl's place, or a tenant has no use for.
LEFT_OUT = {
    "env/__init_tls.c", "env/__libc_start_main.c", "env/__stack_chk_fail.c", "exit/abort.c",
    "internal/vdso.c", "mman/mmap.c", "mq/mq_notify.c", "process/system.c", "process/vfork.c",
    "setjmp/longjmp.c", "setjmp/setjmp.c", "signal/restore.c", "signal/sigsetjmp.c",
    "stdio/__stdout_write.c", "temp/__randname.c", "thread/__set_thread_area.c",
    "thread/__timedwait.c", "thread/__unmapself.c", "thread/__wait.c", "thread/clone.c",
    "thread/pthread_cancel.c", "thread/pthread_create.c", "thread/syscall_cp.c",
    "time/timer_create.c",
}
FOLDERS_LEFT_OUT = {"aio", "ldso", "malloc"}
# What is compiled of these folders; dlopen and its relatives fail, as in musl's static programs.
NOT_LEFT_OUT = {
    "malloc/reallocarray.c", "ldso/__dlsym.c", "ldso/dladdr.c", "ldso/dlclose.c",
    "ldso/dlerror.c", "ldso/dlinfo.c", "ldso/dlopen.c", "ldso/dlsym.c",
}
# Headers of musl that end with more of ours, include/bits/NAME_more.h.
WITH_MORE = ("stdlib", "string")
# What each tenant begins with, and what --large-blocks has in the place of heap.c: no members.
APART = ("start", "large_blocks")
# Where musl sees a GNU compiler these read a word at once, up to seven bytes past the end of a
# string. Byte by byte they keep to the bytes of their chunk, which `mte_run --exact` compares.
BYTE_BY_BYTE = {
    f"string/{name}.c"
    for name in ("memccpy", "memchr", "stpcpy", "stpncpy", "strchrnul", "strlcpy", "strlen")
}
# What makes a descriptor or takes a name: a program that has one of these has src/files.c too.
WITH_FILES = {
    "dirent/opendir.c", "fcntl/fcntl.c", "fcntl/open.c", "fcntl/openat.c", "stat/chmod.c",
    "stat/fchmodat.c", "stat/fstatat.c", "stat/mkdir.c", "stat/mkdirat.c", "stat/utimensat.c",
    "stdio/__fopen_rb_ca.c", "stdio/fopen.c", "stdio/freopen.c", "stdio/remove.c",
    "stdio/rename.c", "stdio/tempnam.c", "stdio/tmpfile.c", "stdio/tmpnam.c", "time/__map_file.c",
    "unistd/access.c", "unistd/chdir.c", "unistd/dup.c", "unistd/dup2.c", "unistd/dup3.c",
    "unistd/faccessat.c", "unistd/getcwd.c", "unistd/pipe.c", "unistd/pipe2.c",
    "unistd/readlink.c", "unistd/readlinkat.c", "unistd/renameat.c", "unistd/rmdir.c",
    "unistd/truncate.c", "unistd/unlink.c", "unistd/unlinkat.c",
}
# What sets something of signals, and links src/signals.c.
WITH_SIGNALS = {"signal/sigaction.c", "signal/sigprocmask.c", "thread/pthread_sigmask.c"}
# compiler-rt's helpers in C that are about a system or another machine, or have no use here.
BUILTINS_LEFT_OUT = {
    "apple_versioning", "atomic", "atomic_flag_clear", "atomic_flag_clear_explicit",
    "atomic_flag_test_and_set", "atomic_flag_test_and_set_explicit", "atomic_signal_fence",
    "atomic_thread_fence", "clear_cache", "cpu_model", "emutls", "enable_execute_stack", "eprintf",
    "gcc_personality_v0", "os_version_check", "trampoline_setup",
}
LLVM, BUILTINS_FOLDER = "llvm-toolchain-14", "compiler-rt/lib/builtins"
TOOLS = {"clang": "clang", "llvm-ar": "llvm", "apt-get": "apt", "tar": "tar", "xz": "xz-utils"}
CXX_TOOLS = {"aarch64-linux-gnu-as": "binutils-aarch64-linux-gnu"}


def leave(text):
    print(f"build.py: {text}", file=sys.stderr)
    sys.exit(2)


def run(command):
    """What a command says, or its end with what it says where it fails."""
    words = [str(word) for word in command]
    ran = subprocess.run(words, stdout=subprocess.PIPE, stderr=subprocess.STDOUT, text=True)
    if ran.returncode:
        leave(f"{' '.join(words)}\n{ran.stdout}")
    return ran.stdout


def make_headers(musl, out):
    """musl's headers, those of its AArch64 and those of this folder, a later one for an earlier."""
    include, machine = out / "include", musl / "arch/aarch64/bits"
    shutil.rmtree(include, ignore_errors=True)
    shutil.copytree(musl / "include", include)
    for folder in (musl / "arch/generic/bits", machine, HERE / "arch/bits"):
        shutil.copytree(folder, include / "bits", dirs_exist_ok=True)
    rules, kinds = musl / "tools/mkalltypes.sed", "alltypes.h.in"
    made = run(["sed", "-f", rules, machine / kinds, musl / "include" / kinds])
    (include / "bits/alltypes.h").write_text(made)
    numbers = (machine / "syscall.h.in").read_text()
    again = [line.replace("__NR_", "SYS_") for line in numbers.split("\n") if "__NR_" in line]
    (include / "bits/syscall.h").write_text(numbers + "\n".join(again) + "\n")
    shutil.copytree(HERE / "include", include, dirs_exist_ok=True)
    for name in WITH_MORE:
        with (include / f"{name}.h").open("a") as header:
            header.write(f"\n#include <bits/{name}_more.h>\n")
    shutil.copy(HERE.parent / "c/tenant.h", include / "tenant.h")
    for left in include.rglob("*.in"):
        left.unlink()
    return include


def musl_units(musl, include, work):
    """Each file of musl and of this folder, its object, and the words of its compilation."""
    internal = work / "internal"
    internal.mkdir(parents=True, exist_ok=True)
    version = (musl / "VERSION").read_text().strip()
    (internal / "version.h").write_text(f'#define VERSION "{version}"\n')
    places = [
        HERE / "arch", musl / "arch/aarch64", musl / "arch/generic", internal, musl / "src/include",
        musl / "src/internal", include,
    ]
    words = [*CLANG, *COMMON, *MUSL, *(f"-I{place}" for place in places)]
    words += [f"-ffile-prefix-map={musl}=musl", f"-ffile-prefix-map={HERE}=tenant"]
    words += [f"-ffile-prefix-map={include.parent}=tenant/out"]
    for file in sorted((musl / "src").glob("*/*.c")):
        name = file.relative_to(musl / "src")
        if str(name) in LEFT_OUT:
            continue
        if name.parts[0] not in FOLDERS_LEFT_OUT or str(name) in NOT_LEFT_OUT:
            own = ["-U__GNUC__"] if str(name) in BYTE_BY_BYTE else []
            if str(name) in WITH_FILES:
                own += ["-include", str(HERE / "arch/with_files.h")]
            if str(name) in WITH_SIGNALS:
                own += ["-include", str(HERE / "arch/with_signals.h")]
            yield file, work / f"musl.{'.'.join(name.parts)}.o", words + own
    for file in sorted((HERE / "src").iterdir()):
        yield file, work / f"tenant.{file.name}.o", words


def builtin_units(builtins, work):
    """The files of compiler-rt in C that are no other machine's."""
    words = [*CLANG, *COMMON, *BUILTINS, f"-I{builtins}"]
    words += [f"-ffile-prefix-map={builtins}=compiler-rt"]
    for file in sorted(builtins.glob("*.c")):
        if file.stem not in BUILTINS_LEFT_OUT:
            yield file, work / f"builtins.{file.name}.o", words


def compile_all(units, jobs, script, language):
    """The objects. One that is newer than its file and than what stands here stays. It says ten
    times how many there are."""
    ours = [script, *(HERE / "arch").rglob("*.h"), *(HERE / "include").rglob("*.h")]
    newest = max(path.stat().st_mtime for path in ours)

    def compile_one(unit):
        file, made, words = unit
        if not made.exists() or made.stat().st_mtime < max(newest, file.stat().st_mtime):
            run([*words, "-c", "-o", made, file])
        return made

    made = []
    with concurrent.futures.ThreadPoolExecutor(jobs) as pool:
        for it in pool.map(compile_one, units):
            made.append(it)
            if len(made) * 10 // len(units) > (len(made) - 1) * 10 // len(units):
                print(f"{len(made)} of {len(units)}, compiles {language}", flush=True)
    return made


def archive(objects, path):
    path.parent.mkdir(parents=True, exist_ok=True)
    path.unlink(missing_ok=True)
    run(["llvm-ar", "rcs", path, *objects])


def fetch(folder, package, parts=()):
    """The folder of a package's source."""
    try:
        return debian_source.fetch(folder, package, parts)
    except debian_source.NotFetched as error:
        leave(error)


def build_c(out, sources, jobs):
    """The C library, and what tenant-cc links as a file."""
    print("build.py: fetching the sources", flush=True)
    work = out / "objects"
    musl = fetch(sources, "musl")
    builtins = fetch(sources, LLVM, (BUILTINS_FOLDER,)) / BUILTINS_FOLDER
    work.mkdir(parents=True, exist_ok=True)
    include = make_headers(musl, out)
    units = [*musl_units(musl, include, work), *builtin_units(builtins, work)]
    print(f"build.py: compiling {len(units)} files", flush=True)
    objects = compile_all(units, jobs, HERE / "build.py", "C")
    apart = [work / f"tenant.{name}.c.o" for name in APART]
    archive([made for made in objects if made not in apart], out / "lib/libc.a")
    for name, made in zip(APART, apart):
        shutil.copy(made, out / f"lib/{name}.o")
    print(f"build.py: {out}/lib/libc.a")


def build_cxx(out, sources, jobs):
    """The three libraries of C++, over the C library's headers."""
    print("build.py: fetching the sources of C++", flush=True)
    llvm = fetch(sources, LLVM, (BUILTINS_FOLDER, *cxx_library.PARTS))
    cxx_library.make_headers(llvm, out)
    units = list(cxx_library.units(llvm, out, [*CLANG, *COMMON]))
    print(f"build.py: compiling {len(units)} files of C++", flush=True)
    objects = compile_all(units, jobs, HERE / "cxx_library.py", "C++")
    for name in cxx_library.LIBRARIES:
        own = [made for made in objects if made.name.startswith(f"{name}.")]
        archive(own, out / f"lib/{name}.a")
        print(f"build.py: {out}/lib/{name}.a")


def arguments():
    parser = Parser(__doc__)
    parser.add_argument("--out", type=pathlib.Path, default=HERE / "out")
    parser.add_argument("--sources", type=pathlib.Path)
    parser.add_argument("--jobs", type=int, default=2)
    parser.add_argument("--c++", action="store_true", dest="cxx")
    parser.add_argument("--only-c++", action="store_true", dest="only_cxx")
    return parser.parse_args()


def is_installed(out):
    """Whether the folder is that of an installation, which a checkout's crates.txt is not in."""
    return out == HERE / "out" and not (HERE.parents[1] / "crates.txt").exists()


def main():
    options = arguments()
    has_cxx = options.cxx or options.only_cxx
    out, last = options.out.resolve(), "libc++.a" if has_cxx else "libc.a"
    if is_installed(options.out) and (out / "lib" / last).exists():
        print(f"build.py: {out}/lib/{last} is installed")
        return
    for tool, package in {**TOOLS, **(CXX_TOOLS if has_cxx else {})}.items():
        if not shutil.which(tool):
            leave(f"{tool} is not there (Debian: {package})")
    if out.exists() and not os.access(out, os.W_OK):
        leave(f"{out} may not be written to (--out FOLDER is another one)")
    sources = options.sources or out / "sources"
    if not options.only_cxx:
        build_c(out, sources, options.jobs)
    elif not (out / "lib/libc.a").exists():
        leave(f"{out}/lib/libc.a is not there: --c++ builds it too")
    if has_cxx:
        build_cxx(out, sources, options.jobs)


if __name__ == "__main__":
    main()
