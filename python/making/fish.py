"""Completions for fish."""

from __future__ import annotations

from .lines import FILE, Command, Line, Option


def completion(line: Line) -> str:
    """The file for a command line."""
    text = f"# Completions of {line.program} for fish: put this file into a folder of fish_complete_path.\n"
    text += "# Made by tools/pages.\n"
    names = " ".join(command.name for command in line.commands)
    none = f"not __fish_seen_subcommand_from {names}"
    text += f"complete -c {line.program} -n {quoted(none)} -f\n"
    text += "".join(f"complete -c {line.program} -n {quoted(none)} {option_words(option)}\n" for option in line.options)
    for command in line.commands:
        text += f"complete -c {line.program} -n {quoted(none)} -a {command.name} -d {quoted(command.summary)}\n"
    return text + "".join(part(line, command) for command in line.commands)


def part(line: Line, command: Command) -> str:
    """The part of a command."""
    front = f"complete -c {line.program} -n {quoted(f'__fish_seen_subcommand_from {command.name}')}"
    text = f"\n# {command.name}\n"
    if all(word.takes != FILE for word in command.words):
        text += f"{front} -f\n"
    text += "".join(f"{front} {option_words(option)}\n" for option in command.options)
    return text + (f"{front} -s h -l help -d 'shows this help'\n" if line.program == "fieldc" else "")


def option_words(option: Option) -> str:
    """An option as `complete` takes it."""
    parts = [f"-l {name[2:]}" if name.startswith("--") else f"-s {name[1:]}" for name in option.names]
    parts += ["-r -F" if option.takes == FILE else "-x"] if option.takes else []
    parts += [f"-a {quoted(' '.join(option.offered))}"] if option.offered else []
    return " ".join([*parts, "-d", quoted(option.help)])


def quoted(text: str) -> str:
    """A text as one word of the shell."""
    return "'" + text.replace("\\", "\\\\").replace("'", "\\'") + "'"
