"""Makes completions for bash, zsh and fish of the help of the program: its commands, the options of the command that was typed, files, and the values
that the help lists. The help says in sentences which options go together and which may be repeated, so all of them are offered at any time.
"""
import typing

from help_texts import PROGRAM, Help, Manual, Option, Value

MADE = "# Completes what is typed after atomfs. embed/manual made this of `atomfs help`.\n"
BASH = (
    MADE
    + """
# What may come next, by the command and its options or the place of its argument. An option that takes a value has a line here,
# without words if the help lists none. FILE is any file.
_atomfs_words() {
    case $1 in
@WORDS@
        *) return 1 ;;
    esac
}

_atomfs() {
    local current=${COMP_WORDS[COMP_CWORD]} command='' option='' place=1 word words
    for word in "${COMP_WORDS[@]:1:COMP_CWORD-1}"; do
        # Bash takes the sign of `--seed=7` for a word.
        if [[ $option && $word == '=' ]]; then
            continue
        elif [[ $option ]]; then
            option=''
        elif [[ $word == -?* ]]; then
            _atomfs_words "$command $word" > /dev/null && option=$word
        elif [[ $command ]]; then
            place=$((place + 1))
        else
            command=$word
        fi
    done
    if [[ $option ]]; then
        words=$(_atomfs_words "$command $option")
        [[ $current != '=' ]] || current=''
    elif [[ $current == -* ]]; then
        words=$(_atomfs_words "$command -")
    else
        words=$(_atomfs_words "$command $place")
    fi
    if [[ $words == FILE ]]; then
        compopt -o filenames 2> /dev/null
        mapfile -t COMPREPLY < <(compgen -f -- "$current")
    else
        mapfile -t COMPREPLY < <(compgen -W "$words" -- "$current")
    fi
}

complete -F _atomfs atomfs
"""
)
ZSH = (
    "#compdef atomfs\n"
    + MADE
    + """
_atomfs_commands() {
    local -a commands=(
@COMMANDS@
    )
    _describe -t commands command commands
}

_atomfs() {
    local curcontext=$curcontext state line
    local -A opt_args
    _arguments -C -S : \\
@PROGRAM@
        '1: :_atomfs_commands' \\
        '*:: :->command' && return
    case $words[1] in
@CASES@
    esac
}

if [[ $funcstack[1] == _atomfs ]]; then
    _atomfs "$@"
else
    compdef _atomfs atomfs
fi
"""
)
FISH = (
    MADE
    + """
# Whether the command that was typed is one of these; an empty name is that none was.
function __atomfs_is
    set -l words (commandline -opc)
    set -e words[1]
    set -l typed (string match --invert -- '-*' $words)
    contains -- "$typed[1]" $argv
end

complete -c atomfs -f
@LINES@
"""
)


def filled(template: str, **parts: typing.Iterable[str]) -> str:
    """A template with lines in place of its marks."""
    for name, lines in parts.items():
        template = template.replace(f"@{name}@", "\n".join(lines))
    return template


def of_helps(manual: Manual) -> list[str]:
    """The commands that take the name of another one."""
    return [entry.term for entry in manual.without_help()]


def names(options: typing.Iterable[Option]) -> str:
    return " ".join(name for option in options for name in option.names)


def candidates(value: Value) -> str:
    """What bash offers for a value."""
    return "FILE" if value.is_file else " ".join(value.words)


def bash_lines(command: str, help: Help) -> typing.Iterator[tuple[str, str]]:
    """What may come after a command, or after the program where its name is empty."""
    yield f"{command} -", names(help.options())
    for option in help.options():
        if option.value:
            yield from ((f"{command} {name}", candidates(option.value)) for name in option.names)
    for place, argument in enumerate(help.arguments(), 1):
        yield f"{command} {place}", candidates(argument.value)


def bash(manual: Manual) -> str:
    listed = " ".join(entry.term for entry in manual.listed())
    lines = dict(bash_lines("", manual.program))
    # The command is the first word that is no option.
    lines[" 1"] = listed
    for command in manual.commands:
        lines.update(bash_lines(command.name, command))
    lines.update({f"{name} 1": listed for name in of_helps(manual)})
    return filled(BASH, WORDS=(f"        '{key}') echo '{words}' ;;" for key, words in lines.items()))


def zsh_text(text: str) -> str:
    """A text as it is written between quotes and in brackets of `_arguments`."""
    for sign in "\\[]:":
        text = text.replace(sign, f"\\{sign}")
    return text.replace("'", r"'\''")


def zsh_value(value: Value) -> str:
    """A value with what is offered for it; a space is nothing."""
    return f":{value.name}:{'_files' if value.is_file else '(' + ' '.join(value.words) + ')' if value.words else ' '}"


def zsh_options(help: Help) -> typing.Iterator[str]:
    for option in help.options():
        for name in option.names:
            sign = "=" if option.value and name.startswith("--") else "+" if option.value else ""
            yield f"'*{name}{sign}[{zsh_text(option.says)}]{zsh_value(option.value) if option.value else ''}'"


def zsh_case(name: str, words: typing.Iterable[str]) -> list[str]:
    """What may come after a command."""
    lines = " \\\n".join(f"                {word}" for word in words)
    return [f"        {name})", "            _arguments -S : \\", lines, "            ;;"]


def zsh(manual: Manual) -> str:
    cases: list[str] = []
    for command in manual.commands:
        places = (f"'{place}{zsh_value(one.value)}'" for place, one in enumerate(command.arguments(), 1))
        cases += zsh_case(command.name, [*zsh_options(command), *places])
    for name in of_helps(manual):
        cases += zsh_case(name, ["'1: :_atomfs_commands'"])
    return filled(
        ZSH,
        COMMANDS=(f"        '{entry.term}:{zsh_text(entry.says)}'" for entry in manual.listed()),
        PROGRAM=(f"        {word} \\" for word in zsh_options(manual.program)),
        CASES=cases,
    )


def fish_text(text: str) -> str:
    """A text between quotes."""
    return "'" + text.replace("\\", "\\\\").replace("'", "\\'") + "'"


def fish_value(value: typing.Optional[Value]) -> str:
    """What fish offers after an option: files, words or nothing."""
    if not value:
        return ""
    return " -r -F" if value.is_file else f" -x{' -a ' + fish_text(' '.join(value.words)) if value.words else ''}"


def fish_options(command: str, help: Help) -> typing.Iterator[str]:
    for option in help.options():
        flags = " ".join(f"-l {name[2:]}" if name.startswith("--") else f"-s {name[1:]}" for name in option.names)
        value = fish_value(option.value)
        yield f"complete -c atomfs -n '__atomfs_is {command}' {flags}{value} -d {fish_text(option.says)}"


def fish_arguments(help: Help) -> typing.Iterator[str]:
    """What is offered for the arguments of a command, at any place: fish says where options have their values, and where words are of none."""
    for value in dict.fromkeys(one.value for one in help.arguments()):
        offered = "-F" if value.is_file else f"-a {fish_text(' '.join(value.words))}"
        yield f"complete -c atomfs -n '__atomfs_is {help.name}' {offered}"


def fish(manual: Manual) -> str:
    lines = list(fish_options('""', manual.program))
    named = " ".join(('""', *of_helps(manual)))
    for entry in manual.listed():
        lines.append(f"complete -c atomfs -n '__atomfs_is {named}' -a {entry.term} -d {fish_text(entry.says)}")
    for command in manual.commands:
        lines += [*fish_options(command.name, command), *fish_arguments(command)]
    return filled(FISH, LINES=lines)


def completions(manual: Manual) -> typing.Iterator[tuple[str, str]]:
    """The places of all completions below share/, with their texts."""
    yield f"bash-completion/completions/{PROGRAM}", bash(manual)
    yield f"zsh/site-functions/_{PROGRAM}", zsh(manual)
    yield f"fish/vendor_completions.d/{PROGRAM}.fish", fish(manual)
