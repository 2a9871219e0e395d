"""Names of C++ in what mte_run says, beside c++filt: those of the C++ library of this machine's
gcc, cut and altered ones, and ones whose text would grow without a bound."""

import pathlib
import random

from tests.support.drawn_names import told_names
from tests.support.running import succeed
from tests.support.tools import give_up, need

# The most letters of a name that is told, and of its text.
LONGEST, LONGEST_TEXT = 1_023, 4_096
COUNT = 600
# Names of every kind, as linkers have them, and what c++filt 2.40 (binutils) writes with -i.
OF_EVERY_KIND = (
    ("_ZN6Events3addEi", "Events::add(int)"),
    ("_ZNSt6vectorIiSaIiEE9push_backEOi",
     "std::vector<int, std::allocator<int> >::push_back(int&&)"),
    ("_ZN3FooD0Ev", "Foo::~Foo()"),
    ("_ZlsRSoRK1A", "operator<<(std::ostream&, A const&)"),
    ("_ZN1AltIiEEbT_", "bool A::operator< <int>(int)"),
    ("_ZNK1AcvbEv", "A::operator bool() const"),
    ("_ZN1AcvT_IiEEv", "A::operator int<int>()"),
    ("_ZdaPv", "operator delete[](void*)"),
    ("_Zli2_mPKc", 'operator"" _m(char const*)'),
    ("_ZThn16_N3FooD1Ev", "non-virtual thunk to Foo::~Foo()"),
    ("_ZTCN1A1BE16_1C", "construction vtable for C-in-A::B"),
    ("_ZTV1A", "vtable for A"),
    ("_ZGVZ1fvE1x", "guard variable for f()::x"),
    ("_ZZ1gIiEPFvvEvE1A", "g<int>()::A"),
    ("_ZZ1fiENKUlvE_clEv", "f(int)::{lambda()#1}::operator()() const"),
    ("_Z1fM1AKFivE", "f(int (A::*)() const)"),
    ("_Z1fPA3_A4_i", "f(int (*) [3][4])"),
    ("_Z1fIiEPFPFvcES0_ET_", "void (*(*f<int>(int))(void (char)))(char)"),
    ("_Z1fIJPiRcEEvDpOT_", "void f<int*, char&>(int*&&, char&)"),
    ("_Z1fIJicdEEvDpRKT_", "void f<int, char, double>(int const&, char const&, double const&)"),
    ("_Z1fILin5EEvv", "void f<-5>()"),
    ("_Z1fILb1ELj5ELl6EL1E1EEvv", "void f<true, 5u, 6l, (E)1>()"),
    ("_Z1fIiEvNSt9enable_ifIXgtstT_Li4EEvE4typeE",
     "void f<int>(std::enable_if<((sizeof (int))>(4)), void>::type)"),
    ("_Z1fIiEDTclL_Z1gvEEET_", "decltype (g()) f<int>(int)"),
    ("_Z1fIXadL_ZN1A1gEvEEEvv", "void f<&A::g>()"),
    ("_Z1fPDoFvvE", "f(void (*)() noexcept)"),
    ("_Z1fPVKi", "f(int const volatile*)"),
    ("_Z1fIiLi3EEvRAT0__T_", "void f<int, 3>(int (&) [3])"),
    ("_ZN12_GLOBAL__N_11fEv", "(anonymous namespace)::f()"),
    ("_ZN1A1fB5cxx11Ev", "A::f[abi:cxx11]()"),
    ("_Z3foov.isra.0.cold", "foo() [clone .isra.0] [clone .cold]"),
    ("_ZNSt5dequeIiSaIiEE12emplace_backIIiEEERiDpOT_",
     "int& std::deque<int, std::allocator<int> >::emplace_back<int>(int&&)"),
    ("_ZN5alloc7raw_vec11finish_grow17h84ebeec1da03e89eE", "alloc::raw_vec::finish_grow"),
)
# Names of no C++: cut ones, and those with references to what did not come before.
OF_NO_KIND = (
    "main", "_Z", "_ZN", "_Z1", "_Z99999999999999999999f", "_ZTV", "_Z1fI", "_ZS_", "_Z1fS9_",
    "_ZN1AIiE",
)


def library_names() -> list[str]:
    """Some names of the C++ library, each of another function or variable."""
    need("c++filt", "g++", "nm")
    path = pathlib.Path(succeed(["g++", "-print-file-name=libstdc++.so"]).output.strip())
    if not path.is_file():
        give_up("missing: libstdc++.so")
    listed = succeed(["nm", "--dynamic", "--format=just-symbols", path.resolve()]).output
    names = sorted({line.partition("@")[0] for line in listed.splitlines()})
    fitting = [name for name in names if name.startswith("_Z") and len(name) <= LONGEST]
    assert len(fitting) > 4_000
    return random.Random(1).sample(fitting, COUNT)


def in_source(names: list[str]) -> list[str]:
    """The names as c++filt writes them."""
    text = "\n".join(names) + "\n"
    return succeed(["c++filt", "-i"], stdin=text.encode("ascii")).output.splitlines()


def told(alone: pathlib.Path, folder: pathlib.Path, names: list[str]) -> list[str]:
    """What a trace calls functions with these names."""
    return told_names(alone, folder, [name.encode("ascii") for name in names])


def test_names_of_every_kind(alone: pathlib.Path, tmp_path: pathlib.Path) -> None:
    """Operators, templates, lambdas, thunks, clones, tags, names of Rust; and other names are
    shown as they are."""
    names = [name for name, _ in OF_EVERY_KIND] + list(OF_NO_KIND)
    wanted = [source for _, source in OF_EVERY_KIND] + list(OF_NO_KIND)
    assert told(alone, tmp_path, names) == wanted


def test_names_are_those_of_cxxfilt(alone: pathlib.Path, tmp_path: pathlib.Path) -> None:
    """Each of some hundred names is told as c++filt writes it."""
    names = library_names()
    wanted = in_source(names)
    found = told(alone, tmp_path, names)
    assert len(found) == COUNT
    other = [it for it in zip(names, wanted, found) if it[1] != it[2]]
    assert not other, f"{len(other)} of {COUNT}, as {other[:3]}"


def altered(names: list[str]) -> list[str]:
    """The names with a letter in place of another, and cut ones."""
    drawn = random.Random(2)
    made = set()
    for name in names:
        at = drawn.randrange(2, len(name))
        made |= {name[:at], name[:at] + drawn.choice("STIENKPRXLJ0129_") + name[at + 1:]}
    return sorted(made - set(names))


def growing() -> list[str]:
    """Names whose text is twice as long with each level, and deep ones."""
    names = ["_Z1f" + "P" * 900 + "i", "_Z1f" + "1AI" * 200 + "i" + "E" * 200, "_ZZ" + "Z" * 500]
    text, last = "_Z1f", "i"
    for level in range(40):
        text += f"1{chr(65 + level % 26)}I{last}{last}E"
        digits = "0123456789ABCDEFGHIJKLMNOPQRSTUVWXYZ"
        number = 2 * level
        last = f"S{digits[number // 36] if number >= 36 else ''}{digits[number % 36]}_"
        names.append(text)
    return names


def test_names_that_nobody_gave_are_bounded(alone: pathlib.Path, tmp_path: pathlib.Path) -> None:
    """What is told of cut, altered and growing names is in printable ASCII, and bounded."""
    names = [*altered(library_names()[:200]), *growing()]
    found = told(alone, tmp_path, names)
    assert len(found) == len(names)
    assert all(len(text) <= LONGEST_TEXT and text.isascii() and text.isprintable()
               for text in found)
    assert any(text == name for name, text in zip(growing(), found[-len(growing()):]))
