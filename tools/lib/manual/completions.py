"""The completions of bash and zsh, made from the commands and options of the help."""
import shlex

from .help import Command, Option

BASH = """\
# Completion of opcmds in bash. `tools/manual --write` makes this file from the program's own help.
_opcmds() {{
    local word=$2 before=$3 options given
    COMPREPLY=()
    if ((COMP_CWORD == 1)) && [[ $word == -* ]]; then
        mapfile -t COMPREPLY < <(compgen -W {own} -- "$word")
        return
    fi
    if ((COMP_CWORD == 1)) || [[ ${{COMP_WORDS[1]}} == help && $COMP_CWORD == 2 ]]; then
        mapfile -t COMPREPLY < <(compgen -W {names} -- "$word")
        return
    fi
    if [[ $before == = ]]; then
        before=${{COMP_WORDS[COMP_CWORD - 2]}}
    elif [[ $word == = ]]; then
        before=${{COMP_WORDS[COMP_CWORD - 1]}} word=
    fi
    case ${{COMP_WORDS[1]}} in
{options}
        *) return ;;
    esac
    case "${{COMP_WORDS[1]}} $before" in
{values}
    esac
{files}    # an option that was given is not given again
    for given in "${{COMP_WORDS[@]:2:COMP_CWORD - 2}}"; do
        options=" $options " options=${{options/ "$given" / }}
    done
    mapfile -t COMPREPLY < <(compgen -W "$options" -- "$word")
}}
complete -F _opcmds opcmds
"""
FILES = 'compopt -o filenames; mapfile -t COMPREPLY < <(compgen -f -- "$word"); return'
WORDS = 'mapfile -t COMPREPLY < <(compgen -W {} -- "$word"); return'

ZSH = """\
#compdef opcmds
# Completion of opcmds in zsh. `tools/manual --write` makes this file from the program's own help.
local curcontext=$curcontext state line
local -A opt_args
local -a commands=(
{commands}
)
_arguments -C {own} '1: :->command' '*:: :->options' && return
case $state in
command) _describe command commands ;;
options)
    case $words[1] in
{options}
    esac
    ;;
esac
"""


# the options of the program before its commands
OWN = {"--help": "Print help", "--version": "Print version"}


def named(words: list[str]) -> str:
    return shlex.quote(" ".join(words))


def bash_values(command: Command) -> list[str]:
    """What may stand after the options of a command; if nothing is known of it, nothing is offered."""
    paths = [option.name for option in command.options if option.is_path()]
    lists = [option for option in command.options if option.words()]
    others = [option.name for option in command.options if option.value and option.name not in paths]
    others = [name for name in others if name not in [option.name for option in lists]]
    found = [(f'"{command.name} {option.name}"', WORDS.format(named(option.words()))) for option in lists]
    for names, action in ((paths, FILES), (others, "return")):
        if names:
            found.append((" | ".join(f'"{command.name} {name}"' for name in names), action))
    return [f"        {pattern}) {action} ;;" for pattern, action in found]


def bash_files(commands: list[str]) -> str:
    """What stands in the place of an option of these commands, which take a file alone."""
    if not commands:
        return ""
    line = f"{' | '.join(commands)}) [[ $word == -* ]] || {{ {FILES}; }} ;;"
    return f"    case ${{COMP_WORDS[1]}} in\n        {line}\n    esac\n"


def bash(table: list[Command]) -> str:
    options = [
        f"        {command.name}) options={named([option.name for option in command.options])} ;;"
        for command in table
        if command.options
    ]
    values = [line for command in table for line in bash_values(command)]
    names = named([command.name for command in table])
    return BASH.format(
        own=named(list(OWN)),
        names=names,
        options="\n".join(options),
        values="\n".join(values),
        files=bash_files([command.name for command in table if command.file]),
    )


def escaped(text: str, marks: str = "[]:\\") -> str:
    return "".join(f"\\{mark}" if mark in marks else mark for mark in text)


def quoted(text: str) -> str:
    return "'" + text.replace("'", "'\\''") + "'"


def zsh_option(option: Option) -> str:
    """An option as `_arguments` takes it, with what may stand after it."""
    if option.name in OWN:
        return quoted(f"(- *){option.name}[{escaped(option.text)}]")
    value = ""
    if option.is_path():
        value = f":{option.value}:_files"
    elif option.words():
        value = f":{option.value}:({' '.join(option.words())})"
    elif option.value:
        value = f":{option.value}: "
    return quoted(f"{option.name}[{escaped(option.text)}]{value}")


def zsh(table: list[Command]) -> str:
    commands = [f"    {quoted(escaped(command.name) + ':' + command.text)}" for command in table]
    options = ["    help) _describe command commands ;;"]
    for command in table:
        if command.options:
            words = [zsh_option(option) for option in command.options]
            words += [quoted(f"::{command.file.value}:_files")] if command.file else []
            lines = " \\\n".join(f"        {word}" for word in words)
            options.append(f"    {command.name}) _arguments \\\n{lines} ;;")
    own = " ".join(zsh_option(Option(name, "", text)) for name, text in OWN.items())
    return ZSH.format(own=own, commands="\n".join(commands), options="\n".join(options))
