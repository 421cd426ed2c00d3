"""The manual pages of `fieldc` and `fc`, in the macros of man."""

from __future__ import annotations

import re
import textwrap
from pathlib import Path

from .lines import Command, Line, Option

FIRST = '.\\" Made from the parser of fieldc by tools/pages: change the parser, and run it again.\n'
FIRST_OF_FC = '.\\" Made from lines.py and fc.1.in of python/making by tools/pages: change them, and run it again.\n'
TEXT_OF_FC = Path(__file__).with_name("fc.1.in")
STATUSES = re.compile(r"statuses: (.*?)\.(?:\n|$)", re.S)


def page(line: Line, version: str, date: str) -> str:
    """The whole page."""
    parts = [
        FIRST + f'.TH {line.program.upper()} 1 "{date}" "{line.program} {version}" "User Commands"\n.nh\n.ad l',
        section("NAME", f"{line.program} \\- the front end of fc, the checker of the field calculus"),
        section("SYNOPSIS", "\n.br\n".join(synopsis(line, command) for command in line.commands)),
        section("DESCRIPTION", paragraphs(line.description), files_and_answers()),
        section("OPTIONS", *(described(option) for option in line.options)),
        section("COMMANDS", *(command_part(line, command) for command in line.commands)),
        section("EXIT STATUS", *(tagged(number, text) for number, text in statuses(line.epilog))),
        section("ENVIRONMENT", tagged("FC", "the program fc to ask, if it isn't the installed one.")),
        section("SEE ALSO", "\\fBfc\\fR(1)"),
    ]
    return filled("\n".join(parts) + "\n")


def page_of_fc(line: Line, version: str, date: str) -> str:
    """The page of `fc`: what `fc.1.in` says, with its command lines and commands."""
    made = {
        "DATE": date,
        "VERSION": version,
        "DESCRIPTION": plain(line.description),
        "SYNOPSIS": "\n.br\n".join(call(line, command) for command in line.commands),
        "COMMANDS": "\n".join(command_part(line, command) for command in line.commands),
    }

    def part(word: re.Match[str]) -> str:
        return made[word[1]]

    return filled(FIRST_OF_FC + re.sub("@([A-Z]+)@", part, TEXT_OF_FC.read_text()))


def call(line: Line, command: Command) -> str:
    """How a command of `fc` is called, with all its options. One that takes no word reads its input."""
    parts = [bold(f"{line.program} {command.name}"), *(word_of(word) for word in command.words)]
    parts += [bracketed(option, command) for option in command.options if not option.beside]
    return " ".join(parts if command.words else [*parts, "<", italic("input")])


def bracketed(option: Option, command: Command) -> str:
    """An option, and after it those that need it."""
    needing = [bracketed(one, command) for one in command.options if one.beside in option.names]
    return f"[{' '.join([called(option), *needing])}]"


def filled(text: str) -> str:
    """A page whose lines of text have at most 80 letters; lines of macros and of examples stay."""
    lines, as_it_is = [], False
    for line in text.splitlines():
        as_it_is = line == ".nf" or (as_it_is and line != ".fi")
        if as_it_is or line.startswith((".", "'")):
            lines.append(line)
        else:
            cut = textwrap.wrap(line, 80, break_long_words=False, break_on_hyphens=False)
            lines += ["\\&" + part if part.startswith((".", "'")) else part for part in cut]
    return "".join(line + "\n" for line in lines)


def plain(text: str) -> str:
    """Words of text, in which a backslash is one and no line begins with a control character."""
    safe = text.replace("\\", "\\e").replace("-", "\\-").replace('"', "\\(dq")
    return re.sub(r"(?m)^([.'])", r"\\&\1", safe)


def bold(text: str) -> str:
    return f"\\fB{plain(text)}\\fR"


def italic(text: str) -> str:
    return f"\\fI{plain(text)}\\fR"


def section(title: str, *parts: str) -> str:
    """A section with its parts."""
    return "\n".join([f".SH {title}", *parts])


def tagged(tag: str, text: str) -> str:
    """A paragraph with a tag before it."""
    return f".TP\n{bold(tag)}\n{sentence(text)}"


def sentence(text: str) -> str:
    """A text as a sentence: with a capital letter, and a full stop."""
    first = text[:1].upper() + text[1:]
    return plain(first if first.endswith((".", "..")) else first + ".")


def paragraphs(text: str) -> str:
    """Paragraphs, which empty lines part; an example stands on a line of its own, and indented lines stay as they
    are."""
    made = []
    for part in text.strip().split("\n\n"):
        example = re.fullmatch(r"Example: (.*)", part)
        if part.startswith("  "):
            made.append(f".RS\n.nf\n{plain(textwrap.dedent(part))}\n.fi\n.RE")
            continue
        made.append(f"Example:\n.PP\n.RS\n.nf\n{bold(example[1])}\n.fi\n.RE" if example else plain(part))
    return "\n.PP\n".join(made)


def files_and_answers() -> str:
    """What holds of all commands."""
    return (
        ".PP\nEach file is a section of the input of fc: a program, a network, and a script or a log. A file may\n"
        "have several sections, separated by lines that are exactly %%, and \\- is standard input. A refusal goes to\n"
        "standard error, with the line of the file and what to try; then nothing is written on standard output.\n"
        ".PP\nEach command explains itself with\n.BR \\-\\-help ."
    )


def synopsis(line: Line, command: Command) -> str:
    """How a command is called."""
    parts = [bold(f"{line.program} {command.name}")]
    parts += [f"{{{' | '.join(map(called, group))}}}" for group in choices(command)]
    parts += [called(option) for option in command.options if option.required and not option.instead]
    if any(not option.required for option in command.options):
        parts.append(f"[{italic('options')}]")
    return " ".join([*parts, *(word_of(word) for word in command.words)])


def choices(command: Command) -> list[list[Option]]:
    """The groups of options of which one has to be there."""
    groups: list[list[Option]] = []
    for option in command.options:
        if option.required and option.instead and not any(option in group for group in groups):
            groups.append([option, *(one for one in command.options if set(one.names) & set(option.instead))])
    return groups


def called(option: Option) -> str:
    """An option with its value, by its shortest name."""
    name = bold(min(option.names, key=len))
    return f"{name} {italic(option.shown)}" if option.shown else name


def word_of(word: Option) -> str:
    """A word that stands alone, as in a synopsis."""
    shown = italic(word.value) + (" ..." if word.repeated else "")
    return shown if word.required else f"[{shown}]"


def described(option: Option) -> str:
    """An option with all its names, and what it does; a line may be broken after the comma of a choice."""
    shown = italic(option.shown).replace(",", ",\\:") if option.choices else italic(option.shown)
    value = f" {shown}" if option.shown else ""
    long = [name for name in option.names if name.startswith("--")] or option.names
    names = ", ".join(bold(name) + (value if name in long else "") for name in option.names)
    return f".TP\n{names}\n{sentence(option.help)}"


def command_part(line: Line, command: Command) -> str:
    """A command with its options."""
    parts = [f".SS {plain(command.name)}", f"{bold(f'{line.program} {command.name}')} {plain(command.summary)}."]
    parts += [f".TP\n{word_of(word)}\n{sentence(word.help)}" for word in command.words]
    parts += [described(option) for option in command.options]
    if command.epilog:
        parts.append(".PP\n" + paragraphs(command.epilog))
    return "\n".join(parts)


def statuses(epilog: str) -> list[tuple[str, str]]:
    """The statuses that an epilog lists, as `statuses: 0 done; 1 a no`."""
    found = STATUSES.search(epilog)
    pairs = [part.strip().split(" ", 1) for part in found[1].replace("\n", " ").split(";")] if found else []
    return [(number, text) for number, text in pairs]
