#!/usr/bin/env python3
"""Writes what a shell completes for a program, by the options of its own help.

    completions.py bash|zsh|fish NAME < HELP      HELP is what NAME --help prints, or --help-all
"""
import re
import sys
from dataclasses import dataclass

# An option's line: its short name, its name, its value (`=VALUE`, ` <VALUE>`, `[=<VALUE>]`) and
# what it is for.
LINE = re.compile(r"^ +(?:(-\w), )?(--[\w+-]+)"
                  r"((?:\[?=| )(?:<[^>]+>\]?(?: <[^>]+>)*|[A-Z]+(?:=[A-Z]+)?))?"
                  r"(?:  +(\S.*))?$", re.M)
FILES = {"FILE", "SCRIPT", "FOLDER", "PATH"}
CHOICES = re.compile(r"\[possible values: ([^\]]+)\]")


@dataclass(frozen=True)
class Option:
    """An option: its names, the names of its values, its choices, and what it is for."""

    short: str
    name: str
    values: tuple[str, ...]
    is_joined: bool
    is_optional: bool
    choices: tuple[str, ...]
    about: str

    @property
    def takes_next(self) -> bool:
        """Whether the next word is its value."""
        return bool(self.values) and not self.is_joined

    @property
    def is_file(self) -> bool:
        """Whether its first value is a name of a file or folder."""
        return bool(self.values) and self.values[0] in FILES


def options_of(text: str) -> list[Option]:
    """The options of a help text."""
    found = []
    for short, name, value, about in LINE.findall(text):
        names = tuple(re.findall(r"<([^>]+)>", value) or re.findall(r"[A-Z]+", value))
        choices = CHOICES.search(about)
        known = tuple(choices[1].split(", ")) if choices else ()
        about = re.sub(r" \[(?:possible values|default): [^\]]*\]", "", about).rstrip(";,")
        found.append(Option(short, name, names, "=" in value, "[" in value, known, about))
    return found


def bash(name: str, options: list[Option]) -> str:
    """A function of bash, and the line that names it."""
    words = []
    for option in options:
        words += [option.short] if option.short else []
        has_sign = option.is_joined and not option.is_optional
        words.append(f"{option.name}=" if has_sign else option.name)
        words += [f"{option.name}={choice}" for choice in option.choices]
    function = "_" + re.sub(r"\W", "_", name)
    files = "|".join(option.name for option in options if option.takes_next and option.is_file)
    others = "|".join(option.name for option in options
                      if option.takes_next and not option.is_file)
    lines = [f"# Completions of {name} for bash.", f"{function}() {{",
             "    local word=${COMP_WORDS[COMP_CWORD]} before=${COMP_WORDS[COMP_CWORD - 1]}"]
    if files or others:
        lines.append("    case $before in")
        lines += [f"        {files}) mapfile -t COMPREPLY < <(compgen -f -- \"$word\"); return ;;"
                  ] if files else []
        lines += [f"        {others}) COMPREPLY=(); return ;;"] if others else []
        lines.append("    esac")
    lines += ["    if [[ $word == -* ]]; then",
              f"        mapfile -t COMPREPLY < <(compgen -W '{' '.join(words)}' -- \"$word\")",
              "    else", "        mapfile -t COMPREPLY < <(compgen -f -- \"$word\")", "    fi",
              "    [[ ${COMPREPLY[*]} != *= ]] || compopt -o nospace 2>/dev/null",
              "}", f"complete -o filenames -F {function} {name}"]
    return "\n".join(lines) + "\n"


def quoted(text: str) -> str:
    """Text between single quotes."""
    return "'" + text.replace("'", "'\\''") + "'"


def zsh(name: str, options: list[Option]) -> str:
    """A file of zsh's own completions."""
    lines = [f"#compdef {name}", "_arguments -S \\"]
    for option in options:
        about = re.sub(r"([\[\]:\\])", r"\\\1", option.about)
        action = f"({' '.join(option.choices)})" if option.choices else (
            "_files" if option.is_file else " ")
        sign = "=-" if option.is_joined else ""
        between = "::" if option.is_optional else ":"
        values = f"{between}{option.values[0].lower()}:{action}" if option.values else ""
        values += "".join(f":{it.lower()}: " for it in option.values[1:])
        for it in filter(None, (option.short, option.name)):
            lines.append(f"    {quoted(f'{it}{sign}[{about}]{values}')} \\")
    return "\n".join([*lines, "    '*:file:_files'"]) + "\n"


def fish(name: str, options: list[Option]) -> str:
    """Lines of fish."""
    lines = [f"# Completions of {name} for fish."]
    for option in options:
        words = ["complete", "-c", name, "-l", option.name[2:]]
        words += ["-s", option.short[1:]] if option.short else []
        if option.choices:
            words += ["-a", quoted(" ".join(option.choices))]
        elif option.values:
            words.append("-r" if option.is_file else "-x")
        lines.append(" ".join([*words, *(["-d", quoted(option.about)] if option.about else [])]))
    return "\n".join(lines) + "\n"


SHELLS = {"bash": bash, "zsh": zsh, "fish": fish}


def main() -> None:
    """Reads the command line."""
    if len(sys.argv) != 3 or sys.argv[1] not in SHELLS:
        sys.exit(__doc__)
    sys.stdout.write(SHELLS[sys.argv[1]](sys.argv[2], options_of(sys.stdin.read())))


if __name__ == "__main__":
    main()
