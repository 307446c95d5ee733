#!/usr/bin/env python3
"""Writes the texts that list the commands and options of the program, by what its source says of them to clap.

Usage: command_line.py              says which texts are stale, and fails if one is
       command_line.py --write      writes them
       command_line.py PROGRAM      says also where the --help of a built program isn't as the source has it, or is
                                    wider than a terminal of 80 columns
       command_line.py --help       prints this

The source is crates/warnc_cli/src/options.rt. The completions are written whole. Of the man page, docs/warnc.1, the
commands are put in the program's order and their options are written; what stands between the heading of a command and
its options stays, and a new command gets the line of its --help there. Of docs/usage.md the list of commands is
written.
"""
import functools
import os
import re
import subprocess
import sys
import textwrap
from dataclasses import dataclass, field, replace

import limits
import release

TOP = os.path.dirname(os.path.dirname(os.path.realpath(__file__)))
SOURCE = "crates/warnc_cli/src/options.rt"
STRING = r'"((?:[^"\\]|\\.)*)"'
HELP = ("help", "Prints what a command takes")
# a range of up to this many numbers is listed in completions
FEW = 16
WIDTH = 120
# columns of a terminal; clap breaks no line, and a line of usage has as many words as the command takes
TERMINAL, USAGE = 80, "Usage: "


@dataclass
class Option:
    """An option as clap is told of it."""

    name: str
    value: str
    text: str
    is_required: bool
    excludes: list
    needs: list
    # the options unless one of which is given it is required, and those in whose place it stands with all that need it
    unless: list
    instead: list
    choices: list


@dataclass
class Command:
    """A command as clap is told of it."""

    name: str
    text: str
    options: list = field(default_factory=list)


# --- The source ---


def read(path):
    with open(os.path.join(TOP, path), encoding="utf-8") as it:
        return it.read()


def fail(text):
    sys.exit(f"tools/command_line.py: {SOURCE} {text}")


def only(pattern, text):
    """Returns what a pattern finds in a part of the source, where it has to be once."""
    found = re.findall(pattern, text, re.M | re.S)
    if len(found) != 1:
        fail(f"has '{pattern}' {len(found)} times in:\n{text}")
    return found[0]


def plain(string):
    """Returns what a string of the source says, in one line."""
    return " ".join(string.replace('\\"', '"').replace("\\n", " ").split())


def given(body, method):
    """Returns the functions whose results a body gives to a method of clap; each call has to be of that form."""
    names = re.findall(rf"\.{method}\((\w+)\(alloc\)", body)
    if len(names) != body.count(f".{method}("):
        fail(f"calls {method} in a form that isn't known:\n{body}")
    return names


def value_of(bound):
    """Returns the number that a bound of a range is: a number, or a constant that docs/limits.md has."""
    if bound.isdigit():
        return int(bound)
    found = [number for number, said in limits.bullets() if re.search(rf"`{bound}` in", said)]
    if len(found) != 1:
        fail(f"has a bound that docs/limits.md doesn't have: {bound}")
    return int(found[0].replace(",", ""))


def choices_of(text, body):
    """Returns the values that an option has, if they are few: those of a short range, or words after a colon."""
    bounds = re.search(r"\.\s*range\(\s*(\d+)\.\.=(\w+)(?: as i64)?,?\s*\)", body)
    if bounds:
        least, most = map(value_of, bounds.groups())
        return [str(it) for it in range(least, most + 1)] if most - least < FEW else []
    words = re.split(r", | or ", without_default(text)[0].partition(": ")[2])
    return words if len(words) > 1 and all(re.fullmatch("[a-z]+", it) for it in words) else []


@functools.cache
def helpers():
    """Returns the functions that have an option exclude others, in whose place it stands, and the names of these."""
    bodies = re.findall(r"^fn (\w+)<'a>\(arg: Arg<'a>\)[^{]*\{\n(.*?)^\}", read(SOURCE), re.M | re.S)
    return {name: re.findall(STRING, only(r"\.conflicts_with_all\(&\[(.*?)\]\)", body)) for name, body in bodies}


def option_of(body):
    kind, said = only(rf"\b(option|optional|threads|flag)\(\s*alloc,((?:\s*{STRING},?)+)\s*\)", body)[:2]
    name, *value, text = (plain(it) for it in re.findall(STRING, said))
    excludes, needs, unless = (re.findall(rf"\.{it}\({STRING}\)", body)
                               for it in ("conflicts_with", "requires_arg", "required_unless_present"))
    instead = [name for helper, names in helpers().items() if f"{helper}(" in body for name in names]
    return Option(name, value[0] if value else "", text, kind == "option", excludes, needs, unless, instead,
                  choices_of(text, body))


@functools.cache
def parts():
    """Returns the functions that go on with a command that is put together."""
    return dict(re.findall(r"^fn (\w+)<'a>\(alloc: Global, command: Command<'a>\)[^{]*\{\n(.*?)^\}", read(SOURCE),
                           re.M | re.S))


def of_source():
    """Returns the commands that the source describes, in the order of the program."""
    found = re.findall(r"^(?:pub\(crate\) )?fn (\w+)<'a>\(alloc: Global\)[^{]*\{\n(.*?)^\}", read(SOURCE), re.M | re.S)
    bodies = {name: re.sub(r"(\w+)\(alloc, command\)", lambda it: parts()[it[1]], body) for name, body in found}
    commands = []
    for body in (bodies[it] for it in given(bodies["warnc"], "subcommand")):
        name, text = only(rf"Command::new\(alloc, {STRING}\)", body), only(rf"\.about\(\s*{STRING},?\s*\)", body)
        commands.append(Command(name, plain(text), [option_of(bodies[it]) for it in given(body, "arg")]))
    return commands


# --- A built program ---


def said_by(program, *words):
    return subprocess.run([program, *words], stdout=subprocess.PIPE, text=True, check=True).stdout


def unlike(program, commands):
    """Yields where a built program's help isn't as the source has it."""
    listed = re.search(r"^Commands:\n((?: +.*\n)+)", said_by(program, "--help"), re.M)[1]
    if [it for it in re.findall(r"^  (\w+)", listed, re.M) if it != HELP[0]] != [it.name for it in commands]:
        yield f"{program} --help lists other commands"
    for command in commands:
        said = said_by(program, command.name, "--help")
        for line in said.splitlines():
            if len(line) > TERMINAL and not line.startswith(USAGE):
                yield f"{program} {command.name} --help has a line of {len(line)} columns: {line.strip()}"
        options = set(re.findall(r"^ +(?:-\w, )?--([\w-]+)", said, re.M)) - {"help"}
        if options != {it.name for it in command.options}:
            yield f"{program} {command.name} --help lists other options"
        for text in (command.text, *(it.text for it in command.options)):
            if text not in " ".join(said.split()):
                yield f"{program} {command.name} --help doesn't say: {text}"


# --- What texts have of an option ---


def without_default(text):
    """Returns the text of an option, and its value if it isn't given."""
    found = re.fullmatch(r"(.*) \[(.*)\]", text)
    return found.groups() if found else (text, None)


def uncapped(text):
    return text[0].lower() + text[1:]


# --- The man page ---


def roff(text):
    return text.replace("-", "\\-")


def man_lines(text):
    """Yields the lines of a sentence; options that it names stand on lines of their own, in bold."""
    for part in re.split(r" ?(--[\w-]+) ?", text):
        if part.startswith("--"):
            yield f".B {roff(part)}"
        elif part:
            yield from textwrap.wrap(roff(part), WIDTH, break_on_hyphens=False)


def man_option(option, known):
    """Yields the lines of an option; one that was described before is told in a line."""
    yield ".TP"
    yield f'.BI \\-\\-{roff(option.name)} " {roff(option.value)}"' if option.value else f".B \\-\\-{roff(option.name)}"
    before = known.setdefault((option.name, option.text), None)
    if before:
        yield from ("As for", f".BR {before} .")
        return
    text, default = without_default(option.text)
    end = f"; {default} if it isn't given." if default else "."
    yield from man_lines(text + end)
    if option.is_required:
        yield "Has to be given."
    for name in option.unless:
        yield from ("Has to be given, unless", f".B \\-\\-{roff(name)}", "is.")
    for name in option.excludes:
        yield from ("Can't be given beside", f".BR \\-\\-{roff(name)} .")
    if option.instead:
        yield from ("Can't be given beside", f".B \\-\\-{roff(option.instead[0])}", "and what goes with it.")


def man_commands(commands, page):
    """Returns the section of the commands, with what the page says of each before its options."""
    said = dict(re.findall(r"^\.SS (\w+)\n(.*?)(?=^\.TP|^\.S[SH]|^It has no options)", page, re.M | re.S))
    lines, known = [], {}
    for command in [*commands, Command(*HELP)]:
        lines += [f".SS {command.name}", *said.get(command.name, command.text + ".\n").splitlines()]
        for option in command.options:
            lines += man_option(option, known)
            known[option.name, option.text] = known[option.name, option.text] or command.name
        if not command.options and command.name != HELP[0]:
            lines.append("It has no options.")
    return "\n".join(lines) + "\n"


def man_page(commands):
    page = re.sub(r'"warnc [0-9.]+"', f'"warnc {release.version_of(TOP)[0].split()[-1]}"', read("docs/warnc.1"))
    front, commands_of_page, rest = re.fullmatch(r"(.*?)(^\.SS .*?)(^\.SH BOOKS.*)", page, re.M | re.S).groups()
    return front + man_commands(commands, commands_of_page + rest) + rest


# --- The list of usage.md ---


def in_words(option, others, needing):
    """Returns an option as a line of words has it, with those that can't be given beside it, and those that need it."""
    def form(one):
        # a choice of two or three is named
        value = "|".join(one.choices) if len(one.choices) <= 3 else one.value
        return f"--{one.name} {value or one.value}".rstrip()

    forms, more = list(map(form, (option, *others))), "".join(f" [{form(it)}]" for it in needing)
    return forms[0] + more if option.is_required else f"[{'|'.join(forms)}{more}]"


def words_of(name, options):
    """Returns the words of a command with these options: those that have to be given first."""
    beside = {it.name for it in options if it.excludes}
    # an option that can't be given beside one that stands beside another already has its own place
    excluding = {name: it for it in options for name in it.excludes if name not in beside}
    hidden = {it.name for it in excluding.values()} | {it.name for it in options if it.needs}
    ordered = sorted((it for it in options if it.name not in hidden), key=lambda it: not it.is_required)
    return " ".join([name, *(in_words(it, [excluding[it.name]] if it.name in excluding else [],
                                      [one for one in options if it.name in one.needs]) for it in ordered)])


def forms_of(command):
    """Yields the words of a command, and those with an option that stands in place of others."""
    other = next((it for it in command.options if it.instead), None)
    beside = [it for it in command.options if other and (it is other or other.name in it.needs)]
    yield words_of(command.name, [replace(it, is_required=it.is_required or bool(other and other.name in it.unless))
                                  for it in command.options if it not in beside])
    if other:
        both = [it for it in command.options if other.name in it.unless and it.name not in other.instead]
        yield words_of(command.name, [replace(it, is_required=it is other or it.name in other.needs, needs=[])
                                      for it in beside + both])


def usage(commands):
    """Returns usage.md with its list of commands, which is the first list there."""
    lines = []
    for it in commands:
        # the words of a command aren't broken, but between options where they are longer than a line
        blank = "\N{NO-BREAK SPACE}"
        forms = [re.sub(r" (?!\[)" if len(words) > WIDTH - 8 else " ", blank, words) for words in forms_of(it)]
        line = f"- `{'` or `'.join(forms)}`: {uncapped(it.text)}"
        lines += [part.replace(blank, " ") for part in textwrap.wrap(line, WIDTH, subsequent_indent="  ",
                                                                     break_on_hyphens=False)]
    made = "\n".join(lines) + "\n\n"
    return re.sub(r"^- `.*?\n\n", lambda _: made, read("docs/usage.md"), count=1, flags=re.M | re.S)


# --- Completions ---


def head(where):
    return f"# Completes the words of warnc in {where}\n# tools/command_line.py writes it by what {SOURCE} says.\n\n"


BASH = """_warnc() {{
    local word=${{COMP_WORDS[COMP_CWORD]}} before=${{COMP_WORDS[COMP_CWORD - 1]}} words=
    # bash takes `--lang=de` for three words
    if [ "$word" = "=" ]; then
        word=
    elif [ "$before" = "=" ]; then
        before=${{COMP_WORDS[COMP_CWORD - 2]}}
    fi
    # after an option without a value comes another option
    case $before in {flags}) before= ;; esac
    if [ "$COMP_CWORD" -eq 1 ]; then
        words="{commands} -h --help -V --version"
    else
        case ${{COMP_WORDS[1]}}$before in
{values}
        {files})
            mapfile -t COMPREPLY < <(compgen -f -- "$word")
            compopt -o filenames
            return
            ;;
        *--*)
            # the value of any other option can't be guessed
            ;;
        *)
            case ${{COMP_WORDS[1]}} in
{options}
            help) words="{helped}" ;;
            esac
            ;;
        esac
    fi
    COMPREPLY=($(compgen -W "$words" -- "$word"))
}}

complete -F _warnc warnc
"""


def bash(commands):
    every = {it.name: it for command in commands for it in command.options}.values()
    names = " ".join(it.name for it in commands)
    options = [f"            {it.name}) words=\"{' '.join(f'--{one.name}' for one in it.options)} -h --help\" ;;"
               .replace('" -h', '"-h') for it in commands]
    # an option of several commands may have other values with each
    choices = {}
    for command, it in ((command, one) for command in commands for one in command.options if one.choices):
        choices.setdefault((it.name, " ".join(it.choices)), []).append(f"{command.name}--{it.name}")
    values = [f"        {' | '.join(them)}) words=\"{words}\" ;;" for (_, words), them in choices.items()]
    return head("bash. To install it, source it in ~/.bashrc.") + BASH.format(
        flags=" | ".join(f"--{it.name}" for it in every if not it.value), commands=f"{names} {HELP[0]}",
        values="\n".join(values), files=" | ".join(f"*--{it.name}" for it in every if it.value == "FILE"),
        options="\n".join(options), helped=names)


ZSH = """local -a commands help line
local context state state_descr
typeset -A opt_args

commands=(
{commands}
)
help=('(- *)'{{-h,--help}}'[print what the command takes]')

_arguments -C \\
    '(- *)'{{-h,--help}}'[print the commands]' \\
    '(- *)'{{-V,--version}}'[print the version and the toolchain]' \\
    '1:command:->command' \\
    '*::option:->option'

case $state in
command)
    _describe command commands
    ;;
option)
    case $line[1] in
{options}
    help)
        _describe command commands
        ;;
    esac
    ;;
esac
"""


def zsh_text(text):
    """Returns a text as a quoted word of zsh may have it in brackets."""
    return re.sub(r"([\[\]:\\])", r"\\\1", text).replace("'", "'\\''")


def zsh_option(option, others):
    text = zsh_text(uncapped(without_default(option.text)[0].partition(": ")[0]))
    not_beside = [f"--{it.name}" for it in others if it.name in option.excludes + option.instead
                  or option.name in it.excludes + it.instead]
    front = f"({' '.join(not_beside)})" if not_beside else ""
    if not option.value:
        return f"'{front}--{option.name}[{text}]'"
    action = "_files" if option.value == "FILE" else f"({' '.join(option.choices)})" if option.choices else ""
    return f"'{front}--{option.name}=[{text}]:{option.value}:{action}'"


def zsh(commands):
    named = [f"    '{it.name}:{zsh_text(uncapped(it.text))}'" for it in [*commands, Command(*HELP)]]
    options = []
    for it in commands:
        words = " \\\n            ".join(["_arguments $help", *(zsh_option(one, it.options) for one in it.options)])
        options.append(f"    {it.name})\n        {words}\n        ;;")
    return "#compdef warnc\n" + head("zsh. To install it, put it into a folder of $fpath.") + ZSH.format(
        commands="\n".join(named), options="\n".join(options))


FISH = """complete -c warnc -f
complete -c warnc -s h -l help -d 'Print what is taken'
complete -c warnc -n __fish_use_subcommand -s V -l version -d 'Print the version and the toolchain'

"""


def fish_option(command, option):
    text = without_default(option.text)[0].partition(": ")[0].replace("'", "\\'")
    kind = "" if not option.value else "-r -F " if option.value == "FILE" else "-x "
    line = f"complete -c warnc -n '__fish_seen_subcommand_from {command}' {kind}-l {option.name} -d '{text}'"
    if not option.choices:
        return line
    more = f"-a '{' '.join(option.choices)}'"
    return f"{line} {more}" if len(line) + len(more) < WIDTH else f"{line} \\\n    {more}"


def fish(commands):
    lines = [f"complete -c warnc -n __fish_use_subcommand -a {it.name} -d '{quoted}'" for it, quoted in
             ((one, one.text.replace("'", "\\'")) for one in [*commands, Command(*HELP)])]
    lines += ["", *(fish_option(command.name, it) for command in commands for it in command.options)]
    names = " ".join(it.name for it in commands)
    lines.append(f"complete -c warnc -n '__fish_seen_subcommand_from {HELP[0]}' -a '{names}'")
    return head("fish. To install it, put it into ~/.config/fish/completions.") + FISH + "\n".join(lines) + "\n"


TEXTS = {
    "docs/warnc.1": man_page,
    "docs/usage.md": usage,
    "tools/completions/warnc.bash": bash,
    "tools/completions/_warnc": zsh,
    "tools/completions/warnc.fish": fish,
}


def main(words):
    if words in (["-h"], ["--help"]):
        print(__doc__)
        return 0
    if len(words) > 1 or words and words != ["--write"] and not os.path.isfile(words[0]):
        print(f"tools/command_line.py: unknown words: {' '.join(words)}\n\n{__doc__}", file=sys.stderr)
        return 2
    commands, found = of_source(), []
    for path, made in TEXTS.items():
        text = made(commands)
        if text == read(path):
            continue
        if words == ["--write"]:
            with open(os.path.join(TOP, path), "w", encoding="utf-8") as it:
                it.write(text)
            print(f"tools/command_line.py: {path} is written")
        else:
            found.append(f"{path} isn't what 'tools/command_line.py --write' writes")
    if words and words != ["--write"]:
        found += unlike(words[0], commands)
    print("\n".join(found), end="\n" if found else "")
    return 1 if found else 0


if __name__ == "__main__":
    sys.exit(main(sys.argv[1:]))
