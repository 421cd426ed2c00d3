"""Command lines as data: commands with their options, read from the parser of `fieldc`, and those of `fc`."""

from __future__ import annotations

import argparse
from dataclasses import dataclass, replace

FILE = "file"
WORD = "word"
NOTHING = ""


@dataclass(frozen=True)
class Option:
    """An option, or a word that stands alone (then without names).

    `takes` is FILE, WORD or NOTHING; `value` what the value is called, `choices` all that it can be, and `known` some
    that a shell may offer; `instead` are the options that it can't stand beside, and `beside` is one that it needs.
    """

    names: tuple[str, ...]
    help: str
    takes: str = NOTHING
    value: str = ""
    choices: tuple[str, ...] = ()
    known: tuple[str, ...] = ()
    required: bool = False
    repeated: bool = False
    instead: tuple[str, ...] = ()
    beside: str = ""

    @property
    def offered(self) -> tuple[str, ...]:
        """The values that a shell offers."""
        return self.choices or self.known

    @property
    def shown(self) -> str:
        """The value as it is shown after the option."""
        return "{" + ",".join(self.choices) + "}" if self.choices else self.value


@dataclass(frozen=True)
class Command:
    """A command: its name, one line on it, its options in their order, and the words that stand alone."""

    name: str
    summary: str
    options: tuple[Option, ...] = ()
    words: tuple[Option, ...] = ()
    epilog: str = ""


@dataclass(frozen=True)
class Line:
    """A whole command line: the program, what it says of itself, its own options, and its commands."""

    program: str
    description: str
    options: tuple[Option, ...]
    commands: tuple[Command, ...]
    epilog: str = ""


def of_parser(whole: argparse.ArgumentParser) -> Line:
    """The command line that a parser with subparsers reads."""
    inner = next(action for action in whole._actions if isinstance(action, argparse._SubParsersAction))
    commands = tuple(
        _command(pseudo.dest, pseudo.help or "", inner.choices[pseudo.dest]) for pseudo in inner._choices_actions
    )
    own = tuple(_option(whole, action) for action in whole._actions if action.option_strings)
    return Line(whole.prog, whole.description or "", own, commands, whole.epilog or "")


def _command(name: str, summary: str, parser: argparse.ArgumentParser) -> Command:
    """A command of its parser, whose `--help` is left out: each command has it."""
    found = {id(action): _option(parser, action) for action in parser._actions}
    for group in parser._mutually_exclusive_groups:
        names = [name for action in group._group_actions for name in action.option_strings]
        for action in group._group_actions:
            others = tuple(name for name in names if name not in action.option_strings)
            found[id(action)] = replace(found[id(action)], instead=others, required=group.required)
    made = [option for option in found.values() if "--help" not in option.names]
    options, words = (tuple(one for one in made if bool(one.names) == named) for named in (True, False))
    return Command(name, summary, options, words, parser.epilog or "")


def _option(parser: argparse.ArgumentParser, action: argparse.Action) -> Option:
    """An option or word of a parser."""
    text = parser._get_formatter()._expand_help(action) if action.help else ""
    value = str(action.metavar or action.dest.upper()) if action.nargs != 0 else ""
    takes = NOTHING if not value else FILE if value == "FILE" else WORD
    return Option(
        tuple(action.option_strings),
        text,
        takes,
        value,
        tuple(map(str, action.choices or ())),
        required=bool(action.required),
        repeated=isinstance(action, argparse._AppendAction) or action.nargs in ("+", "*"),
    )


def of_fieldc() -> Line:
    """The command line of `fieldc`, in which `compose --show` knows the blocks of the library."""
    from fieldc.blocks import own_library, read_library
    from fieldc.command import parser

    blocks = tuple(sorted(name for name, block in read_library([own_library()]).items() if not block.is_part))
    line = of_parser(parser())
    commands = [
        replace(one, options=tuple(_with_known(option, blocks) for option in one.options))
        if one.name == "compose"
        else one
        for one in line.commands
    ]
    return replace(line, commands=tuple(commands))


def _with_known(option: Option, blocks: tuple[str, ...]) -> Option:
    return replace(option, known=blocks) if "--show" in option.names else option


def of_fc() -> Line:
    """The command line of `fc`, which reads its input from standard input, but for `gen`, which reads nothing."""

    def flag(name: str, text: str, beside: str = "") -> Option:
        return Option((name,), text, beside=beside)

    def number(name: str, value: str, text: str) -> Option:
        return Option((name,), text, WORD, value)

    workers = number("--workers", "N", "threads that fire devices, 1 to 16 (4)")
    table = flag("--table", "adds the table of what the devices have published")
    settle = (
        flag("--facts", "adds the facts of each node of the unfolded main"),
        flag("--settle", "adds after how many rounds each device holds its value"),
        flag("--from-table", "with --settle: counts from the network's table and pending firings", "--settle"),
        flag("--changes", "with --settle: what holds while the network changes as a third section allows", "--settle"),
    )
    log = flag("--log", "adds the log of all steps")
    rounds = flag("--rounds", "adds how many rounds the log has after its last edit")
    devices = number("--devices", "D", "devices of the ring, 3 to 512 (64)")
    scenario = Option((), "the number of the scenario", WORD, "N", required=True)
    mailed = number("--number", "N", "makes the log from this number; then the input has no log")
    commands = (
        Command("check", "says whether a program stabilises, and after how many rounds", settle, epilog=CHECK),
        Command("stable", "writes the final value of each device, without running the program", epilog=STABLE),
        Command("trace", "writes for each device its final value and a cheapest path", epilog=TRACE),
        Command(
            "run",
            "runs a script: rounds on several threads, edits, rubbish, shows",
            (workers, log, table),
            epilog=RUN,
        ),
        Command("gen", "runs a scenario made from a number", (devices, workers), (scenario,), GEN),
        Command("replay", "replays a log, and writes what each device then holds", (rounds, table), epilog=REPLAY),
        Command("mail", "replays a log of messages, or makes one from a number", (mailed,), epilog=MAIL),
        Command("format", "writes a program in its standard layout", epilog=FORMAT),
    )
    return Line("fc", "interpreter and proved checker of the first-order field calculus", (), commands)


# what the manual page says further of each command of `fc`
CHECK = """\
Input: a program and a network. The verdict is "yes K" or "no PLACE REASON". After at most K rounds without an edit \
every device has its final value, whatever it held at the start. With --facts and a yes a line for each node of the \
unfolded program follows. With --settle a line "settles R" follows, or "open", and then for each device of this \
network after how many rounds it holds which value; with --from-table the rounds are counted from the network's table \
and pending firings, as after an edit. With --settle --changes the input has a third section, of lines "set D NAME V", \
"link A B W", "unlink A B", "leave D" and "join D V1 V2 ..": what may happen to the network, at any time and any \
number of times. A value V or W is one, LO..HI, or "any". Then a line "within R" follows, and for each device that may \
be there "ID ROUNDS BOUND": after so many rounds its value is within the bound, as long as nothing else happens; \
"away" behind it says that the device may be away. With --from-table a second bound follows, which holds from now \
on."""
STABLE = "Input: a program and a network."
TRACE = "Input: a program and a network. The verdict comes first; where no walks are to be had, it writes \"no walks\"."
RUN = """\
Input: a program, a network and a script. It writes the verdict and what the script shows, and then what was asked \
for."""
GEN = "It reads nothing: the scenario is a hop count on a ring of devices that hold rubbish."
REPLAY = "Input: a program, a network and a log."
MAIL = """\
Input: a program, a network and a mail log. Devices hear of each other by messages alone, which links lose, repeat and \
deliver late, but in order, with at most 4 in transit. A log that is made from a number ends at the values of fc \
stable."""
FORMAT = "Input: a program."
