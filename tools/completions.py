#!/usr/bin/env python3
"""Makes the completions of all programs for bash, zsh and fish, from what the programs say of themselves.

usage: tools/completions.py FOLDER --look RQLOOK --write RQLOG
It leaves FOLDER/bash/NAME, FOLDER/zsh/_NAME and FOLDER/fish/NAME.fish. The commands and words of rqlook and rqlog are those of their
help, those of rq-many are in its own table, and those of rq, which has no help, in its manual. What has no description is a fault.
"""
from __future__ import annotations
import argparse, importlib.machinery, importlib.util, os, re, subprocess, sys
from typing import NamedTuple

sys.dont_write_bytecode = True
TOP = os.path.dirname(os.path.dirname(os.path.abspath(__file__)))
# A line of a help: a command or an argument, and what it is.
TOLD = re.compile(r"^ +(?:[<\[])?([A-Za-z-]+)(?:[>\]])?  +(\S.*)$", re.M)
# A line of a help: a letter, a word, what stands behind it, and what it is.
OPTION = re.compile(r"^ +(?:-(\w), )? *--([a-z-]+)(?: <(\w+)>)?  +(\S.*)$", re.M)
POSSIBLE = re.compile(r" ?\[possible values: ([^\]]*)\]")
# What follows the description of a word in a help.
BEHIND = re.compile(r" ?\[(?:default|possible values): [^\]]*\]")
# A word that names no file, by its description or, in rq's manual, by its name.
NO_FILE = re.compile(r"The number|How ")
NUMBERS = ("WORKERS", "GRAIN", "OFFSET", "NAME")
# What stands behind an option and is a file: another log, or a list.
FILES = ("OLD", "FILE", "LIST")


class Argument(NamedTuple):
    name: str
    is_file: bool


class Option(NamedTuple):
    name: str
    letter: str
    # What stands behind it, if anything does; and which words may, if they are known.
    value: str
    values: list[str]
    about: str

    def is_repeated(self) -> bool:
        return "several times" in self.about

    def has_file(self) -> bool:
        return self.value in FILES


class Command(NamedTuple):
    name: str
    about: str
    arguments: list[Argument]
    options: list[Option]

    def files(self) -> int:
        """How many words of it are files, the first ones."""
        return sum(it.is_file for it in self.arguments)


class Program(NamedTuple):
    name: str
    commands: list[Command]
    # What stands in the place of a command.
    options: list[str]


def section(text: str, head: str) -> str:
    """The lines of a help below a head."""
    return text.partition(f"{head}:\n")[2].partition("\n\n")[0]


def help_of(program: str, *words: str) -> str:
    return subprocess.run([program, *words, "--help"], check=True, stdout=subprocess.PIPE, universal_newlines=True).stdout


def option_of(found: tuple[str, str, str, str]) -> Option:
    letter, name, value, about = found
    possible = POSSIBLE.search(about)
    return Option(name, letter, value, possible[1].split(", ") if possible else [], BEHIND.sub("", about))


def by_help(name: str, program: str) -> Program:
    """A program whose help tells all."""
    commands = []
    for command, about in TOLD.findall(section(help_of(program), "Commands")):
        if command != "help":
            told = help_of(program, command)
            arguments = [Argument(it, not NO_FILE.match(what)) for it, what in TOLD.findall(section(told, "Arguments"))]
            commands.append(Command(command, about, arguments, [option_of(it) for it in OPTION.findall(section(told, "Options"))]))
    return Program(name, commands, ["--help", "--version"])


def text_in(name: str) -> str:
    with open(os.path.join(TOP, name), encoding="utf-8") as file:
        return file.read()


def by_manual() -> Program:
    """rq, by its manual: the lines of the synopsis, and the first sentence on each command."""
    text = text_in("docs/rq.1").replace("\\-", "-")
    told = dict(re.findall(r"^\.TP\n\.B ([\w-]+)\n((?:.*\n)+?)(?=\.TP|\.SH)", text.partition(".SH COMMANDS\n")[2], re.M))
    commands = []
    for name, words in re.findall(r"^\.B rq ([\w-]+)\n\.I (.*)$", text, re.M):
        about = re.split(r"[.:] |[.:]$", re.sub(r"^\.\w+ ", "", told[name], flags=re.M).replace("\n", " "))[0]
        commands.append(Command(name, about.strip(), [Argument(it, it not in NUMBERS) for it in words.split()], []))
    return Program("rq", commands, [])


def by_table() -> Program:
    """rq-many, by its own table, with the words of its help."""
    loader = importlib.machinery.SourceFileLoader("rq_many", os.path.join(TOP, "rq-many"))
    many = importlib.util.module_from_spec(importlib.util.spec_from_loader("rq_many", loader))
    loader.exec_module(many)
    abouts = dict(re.findall(r"--([a-z]+)(?: [A-Z/]+)?  +(\S.*)$", many.__doc__, re.M))
    commands = []
    for name, command in many.COMMANDS.items():
        options = [Option(it, "", it.upper() if it in many.VALUES else "", [], abouts[it]) for it in command.options]
        about = re.search(rf"^(?:usage:)? +rq-many {name} .*?  +(\S.*)$", many.__doc__, re.M)[1]
        names = [Argument(it, True) for it in (*command.folders, *(["NAME"] if command.has_names else []))]
        commands.append(Command(name, about, names, options))
    return Program("rq-many", commands, ["--help", "--version"])


# --- bash ----------------------------------------------------------------------------------------------------------

BASH = """# bash completion for @name@, made by tools/completions.py
_@symbol@() {
    local cur=${COMP_WORDS[COMP_CWORD]} before=${COMP_WORDS[COMP_CWORD - 1]} command=${COMP_WORDS[1]}
    local words= valued='@valued@' files=0 plain=0 at
    COMPREPLY=()
    case $command in
@files@
    esac
    if [ "$COMP_CWORD" = 1 ]; then
        words='@first@'
    elif [[ $valued == *" $before "* ]]; then
        case "$command $before" in
@values@
        esac
    elif [[ $cur == -* ]]; then
        case $command in
@options@
        esac
    else
        for ((at = 2; at < COMP_CWORD; at++)); do
            [[ ${COMP_WORDS[at]} == -?* || $valued == *" ${COMP_WORDS[at - 1]} "* ]] || plain=$((plain + 1))
        done
        if [ "$plain" -lt "$files" ]; then
            compopt -o filenames 2> /dev/null
            mapfile -t COMPREPLY < <(compgen -f -- "$cur")
        fi
        return
    fi
    mapfile -t COMPREPLY < <(compgen -W "$words" -- "$cur")
}
complete -F _@symbol@ @name@
"""


def filled(text: str, **parts: str) -> str:
    for name, part in parts.items():
        text = text.replace(f"@{name}@", part)
    return text


def spellings(option: Option) -> list[str]:
    return [f"--{option.name}", *([f"-{option.letter}"] if option.letter else [])]


def cases(lines: list[str]) -> str:
    return "\n".join(lines) or "        *) ;;"


def bash(program: Program) -> str:
    options = [(command, it) for command in program.commands for it in command.options]
    values = [f"        '{command.name} --{it.name}') words='{' '.join(it.values)}' ;;" for command, it in options if it.values]
    values += [f"        '{command.name} --{it.name}') mapfile -t COMPREPLY < <(compgen -f -- \"$cur\"); return ;;"
               for command, it in options if it.has_file()]
    many = 999
    return filled(BASH, name=program.name, symbol=program.name.replace("-", "_"),
                  first=" ".join([*(it.name for it in program.commands), *program.options]),
                  valued=" ".join(["", *sorted({f"--{it.name}" for _, it in options if it.value}), ""]),
                  files=cases([f"    {it.name}) files={many if it.arguments and it.arguments[-1].name == 'NAME' else it.files()} ;;"
                               for it in program.commands]),
                  values=cases(values),
                  options=cases([f"        {it.name}) words='{' '.join(word for option in it.options for word in spellings(option))}' ;;"
                                 for it in program.commands]))


# --- zsh -----------------------------------------------------------------------------------------------------------

ZSH = """#compdef @name@
# zsh completion for @name@, made by tools/completions.py
local -a commands
commands=(
@commands@
)
if (( CURRENT == 2 )); then
    _describe command commands
    return
fi
local command=$words[2]
shift words
(( CURRENT-- ))
case $command in
@cases@
esac
"""


def quoted(text: str) -> str:
    return "'" + text.replace("'", "'\\''") + "'"


def zsh_text(text: str) -> str:
    """A description in which nothing is taken for a sign."""
    return re.sub(r"([\[\]:\\])", r"\\\1", text)


def zsh_option(option: Option) -> list[str]:
    behind = f":{option.value}:" if option.value else ""
    if option.values:
        behind += f"({' '.join(option.values)})"
    elif option.has_file():
        behind += "_files"
    star = "*" if option.is_repeated() else ""
    apart = f"({' '.join(spellings(option))})" if option.letter and not star else ""
    return [quoted(f"{apart}{star}{it}[{zsh_text(option.about)}]{behind}") for it in spellings(option)]


def zsh_argument(at: int, argument: Argument) -> str:
    place = "*" if argument.name == "NAME" else at
    return quoted(f"{place}:{argument.name}:{'_files' if argument.is_file else ''}")


def zsh(program: Program) -> str:
    lines = []
    for it in program.commands:
        words = [word for option in it.options for word in zsh_option(option)]
        words += [zsh_argument(at, argument) for at, argument in enumerate(it.arguments, 1)]
        lines.append(f"{it.name}) _arguments {' '.join(words)} ;;")
    commands = "\n".join(f"    {quoted(f'{it.name}:{zsh_text(it.about)}')}" for it in program.commands)
    return filled(ZSH, name=program.name, commands=commands, cases="\n".join(lines))


# --- fish ----------------------------------------------------------------------------------------------------------

def fish_option(name: str, command: Command, option: Option) -> str:
    letter = f" -s {option.letter}" if option.letter else ""
    behind = " -r" if option.has_file() else " -x" if option.value else ""
    values = f" -a '{' '.join(option.values)}'" if option.values else ""
    line = f"complete -c {name} -n '__fish_seen_subcommand_from {command.name}' -l {option.name}{letter}{behind}{values}"
    return f"{line} -d {fish_text(option.about)}"


def fish_text(text: str) -> str:
    return "'" + text.replace("\\", "\\\\").replace("'", "\\'") + "'"


def fish(program: Program) -> str:
    lines = [f"# fish completion for {program.name}, made by tools/completions.py"]
    lines += [f"complete -c {program.name} -f -n __fish_use_subcommand -a {it.name} -d {fish_text(it.about)}" for it in program.commands]
    lines += [f"complete -c {program.name} -f -n __fish_use_subcommand -l {it[2:]}" for it in program.options]
    lines += [fish_option(program.name, it, option) for it in program.commands for option in it.options]
    return "\n".join(lines) + "\n"


def main() -> int:
    words = argparse.ArgumentParser()
    words.add_argument("folder")
    words.add_argument("--look", required=True)
    words.add_argument("--write", required=True)
    options = words.parse_args()
    for program in (by_manual(), by_help("rqlook", options.look), by_help("rqlog", options.write), by_table()):
        name = program.name
        for path, text in ((f"bash/{name}", bash(program)), (f"zsh/_{name}", zsh(program)), (f"fish/{name}.fish", fish(program))):
            place = os.path.join(options.folder, path)
            os.makedirs(os.path.dirname(place), exist_ok=True)
            with open(place, "w", encoding="utf-8") as file:
                file.write(text)
    return 0


if __name__ == "__main__":
    sys.exit(main())
