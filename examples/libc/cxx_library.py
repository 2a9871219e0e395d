"""The C++ library of tenants, for build.py: LLVM's libc++, libc++abi and libunwind without
registers of floating point, from the archive that has compiler-rt. What is compiled, with which
words, and the headers."""

import pathlib
import re
import shutil
from collections.abc import Iterator, Sequence

HERE = pathlib.Path(__file__).resolve().parent
PARTS = tuple(
    f"{library}/{part}" for library in ("libcxx", "libcxxabi", "libunwind")
    for part in ("include", "src")
)
LIBRARIES = ("libc++", "libc++abi", "libunwind")
# What each tenant's headers say of their system. There is one thread: what starts another one
# does not link, mutexes do nothing.
SETTINGS = {
    "_LIBCPP_ABI_VERSION": "1", "_LIBCPP_ABI_NAMESPACE": "__1", "_LIBCPP_HAS_MUSL_LIBC": "",
    "_LIBCPP_HAS_THREAD_API_PTHREAD": "", "_LIBCPP_HAS_NO_VENDOR_AVAILABILITY_ANNOTATIONS": "",
    # The small functions of its headers are inlined at -O0 too, so that the few calls that a report
    # has of each heap call reach the program's.
    "_LIBCPP_HIDE_FROM_ABI": '__attribute__((__visibility__("hidden"), __always_inline__, '
                             "__exclude_from_explicit_instantiation__))",
}
# What is another text in the headers: std::async without a policy waits until it is asked.
CHANGES = {"future": ("if (__does_policy_contain(__policy, launch::async))",
                      "if (__policy == launch::async)")}
# Files of libc++ that only other systems need, or its debug mode.
LIBCXX_LEFT_OUT = {"debug.cpp", "legacy_pointer_safety.cpp"}
# new and delete are libc++'s, the guards of local static objects and pure virtual calls src/'s.
LIBCXXABI_LEFT_OUT = {
    "cxa_guard.cpp", "cxa_noexception.cpp", "cxa_thread_atexit.cpp", "cxa_virtual.cpp",
    "stdlib_new_delete.cpp",
}
LIBUNWIND_FILES = ("UnwindLevel1.c", "UnwindLevel1-gcc-ext.c", "libunwind.cpp")
# Each file of assembler, and the names of its function.
LIBUNWIND_ASSEMBLER = {
    "UnwindRegistersRestore.S": ("__libunwind_Registers_arm64_jumpto",),
    "UnwindRegistersSave.S": ("__unw_getcontext", "unw_getcontext"),
}
# A load or store of registers of floating point, which a tenant does not have.
OF_FLOATING_POINT = re.compile(r"^\s*(?:stp|ldp|str|ldr)\s+d\d+,.*\n", re.M)
WORDS = [
    "-nostdinc", "-nostdinc++", "-moutline-atomics", "-fexceptions", "-fno-integrated-as",
    f"-Wa,{HERE}/single_thread.s", "-Dthread_local=", "-D__thread=", "-D_Thread_local=",
    f"-ffile-prefix-map={HERE}=tenant",
]
Unit = tuple[pathlib.Path, pathlib.Path, list[str]]


def make_headers(llvm: pathlib.Path, out: pathlib.Path) -> pathlib.Path:
    """The headers of C++, in front of those of C."""
    include = out / "include_cxx"
    shutil.rmtree(include, ignore_errors=True)
    shutil.copytree(llvm / "libcxx/include", include)
    for left in (*include.rglob("*.in"), include / "CMakeLists.txt"):
        left.unlink()
    for library, name in (("libcxxabi", "cxxabi.h"), ("libcxxabi", "__cxxabi_config.h"),
                          ("libunwind", "unwind.h"), ("libunwind", "unwind_itanium.h"),
                          ("libunwind", "libunwind.h"), ("libunwind", "__libunwind_config.h")):
        shutil.copy(llvm / library / "include" / name, include / name)
    for name, (old, new) in CHANGES.items():
        text = (include / name).read_text()
        if text.count(old) != 1:
            raise ValueError(f"{name} of libc++ is another one: {old}")
        (include / name).write_text(text.replace(old, new))
    lines = [f"#define {name} {value}".rstrip() for name, value in SETTINGS.items()]
    site = ["#ifndef _LIBCPP_CONFIG_SITE", "#define _LIBCPP_CONFIG_SITE", *lines, "#endif"]
    (include / "__config_site").write_text("\n".join(site) + "\n")
    return include


def without_floating_point(file: pathlib.Path, folder: pathlib.Path) -> pathlib.Path:
    """A file of assembler without its loads and stores of registers of floating point. Its one
    function has a size, so that no other address has its name."""
    made, text = folder / file.name, OF_FLOATING_POINT.sub("", file.read_text())
    sizes = (f".size {name}, . - {name}\n" for name in LIBUNWIND_ASSEMBLER[file.name])
    text += "".join([".text\n", *sizes])
    if not made.exists() or made.read_text() != text:
        made.write_text(text)
    return made


def files_of(llvm: pathlib.Path, work: pathlib.Path) -> Iterator[tuple[str, pathlib.Path]]:
    """Each file that is compiled, and whose it is."""
    libcxx = llvm / "libcxx/src"
    for file in sorted([*libcxx.glob("*.cpp"), *libcxx.glob("ryu/*.cpp"),
                        *libcxx.glob("filesystem/*.cpp")]):
        if file.name not in LIBCXX_LEFT_OUT:
            yield "libc++", file
    for file in sorted((llvm / "libcxxabi/src").glob("*.cpp")):
        if file.name not in LIBCXXABI_LEFT_OUT:
            yield "libc++abi", file
    for file in sorted((HERE / "src_cxx").glob("*.c")):
        yield "libc++abi", file
    for name in LIBUNWIND_FILES:
        yield "libunwind", llvm / "libunwind/src" / name
    for name in LIBUNWIND_ASSEMBLER:
        yield "libunwind", without_floating_point(llvm / "libunwind/src" / name, work)


def units(llvm: pathlib.Path, out: pathlib.Path, front: Sequence[str]) -> Iterator[Unit]:
    """Each file, its object, and the words of its compilation, which begin with `front`."""
    work = out / "objects/cxx"
    work.mkdir(parents=True, exist_ok=True)
    own = {
        "libc++": ["-D_LIBCPP_BUILDING_LIBRARY", "-DLIBCXX_BUILDING_LIBCXXABI"],
        "libc++abi": [
            "-D_LIBCXXABI_BUILDING_LIBRARY", "-D_LIBCXXABI_HAS_NO_THREADS",
            "-D_LIBCPP_ENABLE_CXX17_REMOVED_UNEXPECTED_FUNCTIONS",
        ],
        "libunwind": ["-D_LIBUNWIND_HAS_NO_THREADS", "-funwind-tables", "-fno-rtti"],
    }
    places = [out / "include_cxx", out / "include", llvm / "libcxx/src",
              llvm / "libcxxabi/include", llvm / "libunwind/include", llvm / "libunwind/src",
              HERE / "arch"]
    common = [*front, *WORDS, *(f"-I{place}" for place in places)]
    common += [f"-ffile-prefix-map={llvm}=llvm", f"-ffile-prefix-map={out}=tenant/out"]
    for library, file in files_of(llvm, work):
        words = [*common, *own[library]]
        if file.suffix == ".cpp":
            words.append("-std=c++20")
        yield file, work / f"{library}.{file.name}.o", words
