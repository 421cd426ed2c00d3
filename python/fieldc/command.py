"""The command line of `fieldc`: `main(words)` returns a status, and `parser()` makes the whole parser."""

from __future__ import annotations

import argparse
import importlib
import signal
import sys
from collections.abc import Sequence
from types import ModuleType
from typing import TYPE_CHECKING, NoReturn

from .json_results import faulted, refused
from .program import bytes_of
from .refusals import Fault, Refusal
from .streams import pour, ready, say
from .telling import told
from .version import VERSION

if TYPE_CHECKING:
    from _typeshed import SupportsWrite

COMMANDS = {
    "check": "fieldc.commands.check",
    "settle": "fieldc.commands.settle",
    "changes": "fieldc.commands.changes",
    "stable": "fieldc.commands.stable",
    "trace": "fieldc.commands.trace",
    "run": "fieldc.commands.run",
    "replay": "fieldc.commands.replay",
    "mail": "fieldc.commands.mail",
    "gen": "fieldc.commands.gen",
    "format": "fieldc.commands.format",
    "compose": "fieldc.composing",
    "network": "fieldc.commands.network",
    "picture": "fieldc.commands.picture",
    "rounds": "fieldc.commands.rounds",
    "sweep": "fieldc.commands.sweep",
    "firmware": "fieldc.commands.firmware",
}
DESCRIPTION = """\
The front end of fc, the interpreter and proved checker of the first-order field calculus.
fc computes; fieldc reads files, explains refusals and draws."""
EPILOG = """\
statuses: 0 done; 1 a no, open, or no walks; 2 a wrong command line; 3 something is wrong in a file;
4 a limit is exceeded; 5 reading failed; 6 writing failed; 7 memory ran out.

fieldc COMMAND --help explains a command. The variable FC names the program fc, if it isn't the installed one."""


class Parser(argparse.ArgumentParser):
    """A parser whose help and refusals are written as all else is."""

    def error(self, message: str) -> NoReturn:
        """Refuses words in one line."""
        self.exit(2, f"{self.prog}: {message}: {self.prog} --help\n")

    def _print_message(self, message: str, file: SupportsWrite[str] | None = None) -> None:
        if file is sys.stdout:
            pour(bytes_of(message))
        else:
            say(message)


def modules() -> dict[str, ModuleType]:
    """The modules of the commands, by the name of the command."""
    return {name: importlib.import_module(path) for name, path in COMMANDS.items()}


def parser() -> argparse.ArgumentParser:
    """The parser of the command line, whose `perform` is the function of the command that was read."""
    whole = Parser(
        prog="fieldc", description=DESCRIPTION, epilog=EPILOG, formatter_class=argparse.RawDescriptionHelpFormatter
    )
    whole.add_argument("--version", action="version", version=f"fieldc {VERSION}")
    commands = whole.add_subparsers(metavar="COMMAND", dest="command", required=True)
    for name, module in modules().items():
        summary = getattr(module, "SUMMARY", (module.__doc__ or "").strip().partition("\n")[0])
        one = commands.add_parser(
            name,
            help=summary,
            description=summary[:1].upper() + summary[1:] + ".",
            epilog=getattr(module, "EPILOG", None),
            formatter_class=argparse.RawDescriptionHelpFormatter,
            allow_abbrev=False,
        )
        module.arguments(one)
        one.set_defaults(perform=module.perform)
    return whole


def take_rest(options: argparse.Namespace, rest: Sequence[str]) -> None:
    """Takes files that follow an option. Raises Fault if there is another word that the command doesn't know."""
    wrong = [word for word in rest if not hasattr(options, "files") or (word.startswith("-") and word != "-")]
    if wrong:
        raise Fault(f"{wrong[0]} isn't one of its options, nor a word that it takes: fieldc {options.command} --help")
    if rest:
        options.files = [*options.files, *rest]


def main(words: Sequence[str] | None = None) -> int:
    """Reads a command line (without `fieldc`; else that of the process), does it, and returns the status.

    Whatever is refused is told on standard error.
    """
    if signal.getsignal(signal.SIGINT) == signal.SIG_DFL:
        signal.signal(signal.SIGINT, signal.default_int_handler)
    ready()
    try:
        return performed(words)
    except Fault as fault:
        return fault.status
    except BrokenPipeError:
        return 6
    except KeyboardInterrupt:
        return 130


def performed(words: Sequence[str] | None) -> int:
    """Does a command line and returns the status. Raises Fault if standard error can't be written."""
    options = argparse.Namespace(command="", json=False)
    try:
        options, rest = parser().parse_known_args(words, options)
        take_rest(options, rest)
        status: int = options.perform(options)
        return status
    except SystemExit as end:
        return end.code if isinstance(end.code, int) else 2
    except Refusal as refusal:
        say(refused(refusal, refusal.explanation) if options.json else told(refusal, refusal.explanation))
        return refusal.status if 0 < refusal.status < 128 else 70
    except Fault as fault:
        return tell(fault, options)
    except BrokenPipeError:
        raise
    except OSError as error:
        return tell(Fault(str(error), 5), options)
    except MemoryError:
        return tell(Fault("memory ran out", 7), options)
    except KeyboardInterrupt:
        say("\n")
        return 130


def tell(fault: Fault, options: argparse.Namespace) -> int:
    """Tells what `fieldc` itself refuses, and returns its status."""
    name = " ".join(["fieldc", options.command]).rstrip()
    say(faulted(fault) if options.json else f"{name}: {fault}\n")
    return fault.status
