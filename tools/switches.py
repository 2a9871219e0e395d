"""Wrong bodies in programs, of which each is a few bytes.

Drawn ones are in the machine code of a program (x86-64): a jump by the opposite condition, and a
comparison with another number. Those of files are behind switches: a module without checks has,
next to its own functions, those of another checkout, each of which runs where a byte of the
program says so.
"""
import hashlib
import pathlib
import random
import re
import subprocess
from collections.abc import Iterator, Mapping, Sequence
from dataclasses import dataclass

# Lines of objdump: the section of the code, a function, an instruction.
SECTION = re.compile(r"^ *\d+ \.text +\w+ +(\w+) +\w+ +(\w+) ", re.M)
CODE_OF = re.compile(r"^\w+ <(\w+)(::.*)>:$")
INSTRUCTION = re.compile(r"^ *(\w+):\t((?:\w\w )+) *\t(\w+)(.*)$")
JUMP = re.compile(r"j(?!mp)")
WITH_NUMBER = re.compile(r" +\$0x(\w+),")
# What the bytes of switches begin with in a program.
MARK = b"tombolopan: a byte for each wrong body follows\n"
# Where a function or a constant of a module begins; the first line of a function: what it answers,
# its name and its arguments.
PART = re.compile(r"^(?=define |@static)", re.M)
HEAD = re.compile(r'define (?:internal )?([^@]*?(\S+|\{[^}]*\}) )(@"[^"]*")(\(.*\)) #\d+ \{\n')
NAMED = re.compile(r'@"[^"\n]*"|@static\.\d+')

Parts = Mapping[str, str]


@dataclass(frozen=True)
class Body:
    """A wrong body: its name, and the bytes of the program that are other ones."""

    name: str
    at: int
    new: bytes

    def put(self, program: bytes) -> bytes:
        """The program with it."""
        return program[:self.at] + self.new + program[self.at + len(self.new):]


# ---- bodies that are drawn


def changes_of(code: bytes, name: str, operands: str) -> Iterator[tuple[int, int, str]]:
    """What the rules change in an instruction: which byte, its new value, and the rule."""
    number = WITH_NUMBER.match(operands)
    if JUMP.match(name):
        at = 0 if code[0] >> 4 == 7 else 1
        yield at, code[at] ^ 1, "the opposite condition"
    elif number and name.startswith("cmp"):
        value = int(number[1], 16)
        sizes = [it for it in (1, 2, 4) if int.from_bytes(code[-it:], "little")
                 == value % (1 << 8 * it)]
        yield len(code) - sizes[0], code[-sizes[0]] ^ 1, "another number"


def bodies_of(path: pathlib.Path, crates: frozenset[str]) -> dict[str, dict[str, list[Body]]]:
    """All wrong bodies in a program's functions of some crates, by function and rule. Instances of
    a function are one."""
    words = ["objdump", "-h", "-d", "-w", "--section=.text"]
    text = subprocess.run([*words, path], stdout=subprocess.PIPE, text=True, check=True).stdout
    section = SECTION.search(text)
    assert section
    start, function = int(section[1], 16) - int(section[2], 16), ""
    found: dict[str, dict[str, list[Body]]] = {}
    for line in text[section.end():].splitlines():
        if named := CODE_OF.match(line):
            function = re.sub("::<.*", "", named[1] + named[2]) if named[1] in crates else ""
        elif function and (it := INSTRUCTION.match(line)):
            shown = re.sub(r" +(?:\w+ <.*(\+.*)>)?", r" \1", it[3] + it[4])
            code = bytes.fromhex(it[2])
            for byte, new, rule in changes_of(code, it[3], it[4]):
                body = Body(f"{function}, {rule}: {shown}", int(it[1], 16) - start + byte,
                            bytes([new]))
                found.setdefault(function, {}).setdefault(rule, []).append(body)
    return found


def draw(path: pathlib.Path, crates: frozenset[str], count: int, seed: int) -> list[Body]:
    """So many bodies, of as many functions. The seed puts all functions in an order, so that a
    change of one changes nothing of what is drawn of others."""
    found, drawn = bodies_of(path, crates), list[Body]()
    keys = {hashlib.sha256(f"{seed} {name}".encode()).hexdigest(): name for name in found}
    for key in sorted(keys)[:count]:
        source, rules = random.Random(key), found[keys[key]]
        drawn.append(source.choice(rules[source.choice(sorted(rules))]))
    return drawn


def crates_that_explain(root: pathlib.Path) -> frozenset[str]:
    """The crates of the layers without exact contracts, by crates.txt."""
    found, is_wanted = set(), False
    for line in (root / "crates.txt").read_text(encoding="utf-8").splitlines():
        section = re.match(r"# .*\((exact|explaining|program|tests)\)", line)
        if section:
            is_wanted = section[1] in ("explaining", "program")
        elif is_wanted and ":" in line and not line.startswith("#"):
            found.add(line.split(":")[0].split()[0])
    return frozenset(found)


# ---- bodies of files, behind switches


def parts_of(module: str) -> dict[str, str]:
    """The functions and the constants of a module by their names, each with what stands up to the
    next one."""
    found: dict[str, str] = {}
    for part in PART.split(module):
        named = NAMED.search(part.split("\n", 1)[0])
        found[named[0] if named else f"part {len(found)}"] = part
    return found


def plain(parts: Parts, name: str) -> str:
    """A function, with its constants in place of their names, which are numbers."""
    def value(it: "re.Match[str]") -> str:
        return NAMED.sub("@", parts[it[0]]) if it[0].startswith("@static") else it[0]
    return NAMED.sub(value, HEAD.sub(r"\1\3\4", parts[name].split("\n}\n")[0]))


def changed(right: Parts, wrong: Parts) -> list[str]:
    """The functions that are other ones in a second module."""
    both = [it for it, text in wrong.items() if it[:2] == '@"' and right.get(it, text) != text]
    return [it for it in both if plain(right, it) != plain(wrong, it)]


def other_name(name: str, number: int) -> str:
    """The name of a part of a wrong body."""
    return f'@"{name[1:].strip(chr(34))} wrong {number}"'


def body_of(right: Parts, wrong: Parts, names: Sequence[str], number: int) -> str:
    """Functions of a second module with all that the first one lacks for them, by other names."""
    found: dict[str, str] = {}
    waiting = list(names)
    while waiting:
        name = waiting.pop()
        if name not in found:
            end = "\n}\n" if name[:2] == '@"' else "\n"
            found[name] = wrong[name][:wrong[name].index(end) + len(end)]
            waiting += [it for it in NAMED.findall(found[name])
                        if it in wrong and (it not in right or it.startswith("@static"))]
    text = HEAD.sub(r"define internal \1\3\4 #0 {\n", "".join(found.values()))
    text = re.sub(r", !range !\d+", "", text)
    return NAMED.sub(lambda it: other_name(it[0], number) if it[0] in found else it[0], text)


def chooser(text: str, name: str, numbers: Sequence[int]) -> str:
    """A function under another name, and one in its place that calls it or a wrong body."""
    found = HEAD.match(text)
    assert found, text[:200]
    kind, result, _, given = found.groups()
    right = way = f'{name[:-1]} right"'
    lines = [f"define internal {kind}{name}{given} #0 {{"]
    for number in numbers:
        at = f'getelementptr (i8, ptr @"wrong bodies", i64 {len(MARK) + number})'
        lines += [f"  %byte.{number} = load i8, ptr {at}",
                  f"  %is.{number} = icmp ne i8 %byte.{number}, 0",
                  f"  %way.{number} = select i1 %is.{number}, ptr {other_name(name, number)}, "
                  f"ptr {way}"]
        way = f"%way.{number}"
    call, answer = ("  call", "") if result == "void" else ("  %answer = call", " %answer")
    lines += [f"{call} {kind}{way}{given}", f"  ret {result}{answer}", "}", ""]
    return "\n".join(lines) + text.replace(name, right, 1)


def with_bodies(right: Parts, bodies: Sequence[tuple[Parts, Sequence[str]]]) -> str:
    """A module with the wrong bodies of others behind switches: of each one the parts of its module
    and the names of its functions."""
    made = dict(right)
    for name in {it for _, names in bodies for it in names}:
        numbers = [at for at, (_, names) in enumerate(bodies) if name in names]
        made[name] = chooser(right[name], name, numbers)
    more = [body_of(right, parts, names, at) for at, (parts, names) in enumerate(bodies)]
    text = "".join(f"\\{it:02X}" for it in MARK + bytes(len(bodies)))
    size = len(MARK) + len(bodies)
    more.append(f'@"wrong bodies" = global [{size} x i8] c"{text}"\n')
    return "".join([*made.values(), *more])


def switches_of(program: bytes, names: Sequence[str]) -> list[Body]:
    """The wrong bodies of a program that has them behind switches."""
    assert program.count(MARK) == 1
    start = program.index(MARK) + len(MARK)
    return [Body(name, start + number, b"\1") for number, name in enumerate(names)]
