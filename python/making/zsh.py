"""Completions for zsh."""

from __future__ import annotations

from .lines import FILE, Command, Line, Option

CUT = "\\\n"
GUARD = """\
# fc is a builtin of zsh too, which has completions of its own
if [[ $words[1] != */* ]] && (( $+builtins[fc] )); then
    autoload -Uz _fc
    _fc "$@"
    return
fi

"""


def file_name(line: Line) -> str:
    """The name of the file: zsh has a `_fc` of its own."""
    return "_fc_calculus" if line.program == "fc" else f"_{line.program}"


def completion(line: Line) -> str:
    """The file for a command line."""
    text = f"#compdef {line.program}\n# Completions of {line.program} for zsh: put this file into a folder of fpath.\n"
    text += "# Made by tools/pages.\n\n"
    text += GUARD if line.program == "fc" else ""
    text += "local -a commands\nlocal context state state_descr line\nlocal -A opt_args\ncommands=(\n"
    text += "".join(f"    {quoted(f'{command.name}:{command.summary}')}\n" for command in line.commands)
    own = "".join(f" \\\n    {spec(option)}" for option in line.options)
    text += f")\n\n_arguments -C{own} \\\n    '1:command:->command' \\\n    '*::argument:->argument' && return 0\n\n"
    text += "if [[ $state == command ]]; then\n    _describe command commands\n    return\nfi\n\ncase $line[1] in\n"
    return text + "".join(part(line, command) for command in line.commands) + "esac\n"


def part(line: Line, command: Command) -> str:
    """The part of a command."""
    specs = [spec(option) for option in command.options]
    specs += ["'(- *)'{-h,--help}'[shows this help]'"] if line.program == "fieldc" else []
    for word in command.words:
        where = "*" if word.repeated else "1"
        specs.append(quoted(f"{where}:{word.value}:{'_files' if word.takes == FILE else ' '}"))
    return f"    {command.name})\n        {' {}            '.format(CUT).join(['_arguments', *specs])}\n        ;;\n"


def spec(option: Option) -> str:
    """An option as `_arguments` takes it: what it shuts out, its names, its help, its value."""
    out = () if option.repeated else option.names
    shut = " ".join(out + option.instead)
    front = f"({shut})" if shut and (len(option.names) > 1 or option.instead) else ""
    front = "(- *)" if {"--help", "--version"} & set(option.names) else front
    front = f"{'*' if option.repeated else ''}{front}"
    names = [name + ("=" if option.takes and name.startswith("--") else "") for name in option.names]
    tail = f"[{escaped(option.help)}]" + (f":{escaped(option.value)}:{action(option)}" if option.takes else "")
    if len(names) == 1:
        return quoted(front + names[0] + tail)
    return f"{quoted(front) if front else ''}{{{','.join(names)}}}{quoted(tail)}"


def action(option: Option) -> str:
    """What completes the value of an option."""
    return f"({' '.join(option.offered)})" if option.offered else "_files" if option.takes == FILE else " "


def escaped(text: str) -> str:
    """A text in which no bracket and no colon has a meaning."""
    return "".join("\\" + sign if sign in "[]:\\" else sign for sign in text)


def quoted(text: str) -> str:
    """A text as one word of the shell."""
    return "'" + text.replace("'", "'\\''") + "'"
