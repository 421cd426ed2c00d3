"""Completions for bash, which need nothing but bash."""

from __future__ import annotations

from .lines import FILE, NOTHING, WORD, Command, Line, Option

HEAD = """\
# Completions of {program} for bash: source this file, or put it as {program} into bash-completion's folder.
# Made by tools/pages.

_{program}_words() {{
    local command= word words= files= at
{guard}    local current=${{COMP_WORDS[COMP_CWORD]}} before=${{COMP_WORDS[COMP_CWORD - 1]}}
    case $current in '<' | '>' | '>>') return ;; esac
    case $before in '<' | '>' | '>>') return ;; esac
    # bash cuts --option=value into three words
    if [[ $current == = ]]; then
        current=
    elif [[ $before == = ]]; then
        before=${{COMP_WORDS[COMP_CWORD - 2]}}
    fi
    for ((at = 1; at < COMP_CWORD; at++)); do
        word=${{COMP_WORDS[at]}}
        if [[ $word != -* ]]; then
            command=$word
            break
        fi
    done
    case "$command $before" in
"""
GUARD = """\
    # fc is a builtin of bash too, which this is not for
    if [[ $1 != */* && $(type -t "$1") == builtin ]]; then
        return
    fi
"""
TAIL = """\
    esac
    if [[ $files && $current != -* ]]; then
        return
    fi
    {no_files}
    COMPREPLY=($(compgen -W "$words" -- "$current"))
}}

complete -o bashdefault -o default -F _{program}_words {program}
"""
NO_FILES = "compopt +o bashdefault +o default 2>/dev/null"


def completion(line: Line) -> str:
    """The file for a command line."""
    text = HEAD.format(program=line.program, guard=GUARD if line.program == "fc" else "")
    text += "".join(values(command) for command in line.commands)
    text += "    esac\n    case $command in\n"
    names = " ".join(
        [command.name for command in line.commands] + [name for option in line.options for name in option.names]
    )
    text += f'        "") words="{names}" ;;\n'
    help_too = ("-h", "--help") if line.program == "fieldc" else ()
    for command in line.commands:
        options = " ".join([*(name for option in command.options for name in option.names), *help_too])
        files = "files=yes " if any(word.takes == FILE for word in command.words) else ""
        text += f'        {command.name}) {files}words="{options}" ;;\n'
    return text + TAIL.format(program=line.program, no_files=NO_FILES)


def values(command: Command) -> str:
    """What stands after the options of a command that take a value."""
    text = ""
    for kind in (FILE, WORD):
        plain = [option for option in command.options if option.takes == kind and not option.offered]
        if plain:
            pattern = " | ".join(f'"{command.name} {name}"' for option in plain for name in option.names)
            text += f"        {pattern})\n{behind(kind)}            return ;;\n"
    for option in command.options:
        if option.offered:
            text += chosen(command, option)
    return text


def behind(kind: str) -> str:
    """What is done after an option whose value is a file, which bash itself completes, or another word."""
    return "" if kind in (FILE, NOTHING) else f"            {NO_FILES}\n"


def chosen(command: Command, option: Option) -> str:
    """One of the words that an option takes."""
    pattern = " | ".join(f'"{command.name} {name}"' for name in option.names)
    words = " ".join(option.offered)
    return (
        f"        {pattern})\n            {NO_FILES}\n"
        f'            COMPREPLY=($(compgen -W "{words}" -- "$current"))\n            return ;;\n'
    )
