"""The words of `fc`: the list from which the manual page and the completions are made, against the program."""

from __future__ import annotations

import itertools
import random
import re
import subprocess
import unittest

from helping import needs_fc

from fieldc import program
from making.lines import Command, Option, of_fc

FURTHER = (
    "--workers=0", "--workers=4=4", "--devices=2", "--number=", "0", "17", "0000003", "12345678", "4x", "", "--",
    "--help", "-h", "--facts=1", "check",
)  # fmt: skip
# the least value that each option takes
LEAST = {"--workers": 1, "--devices": 3, "--number": 0, "N": 0}


def is_number(text: str, least: int) -> bool:
    """Whether the text is a number of at most seven digits, and great enough."""
    return re.fullmatch("[0-9]{1,7}", text) is not None and int(text) >= least


def are_of(command: Command, words: tuple[str, ...]) -> bool:
    """Whether the words are such as the list has behind a command."""
    options = {name: option for option in command.options for name in option.names}
    alone = list(command.words)
    seen: list[str] = []
    rest = list(words)
    while rest:
        word = rest.pop(0)
        name, _, value = word.partition("=")
        if name in options and name not in seen:
            seen.append(name)
            if not is_given(options[name], name, word, value, rest):
                return False
        elif not alone or not is_number(word, LEAST[alone.pop(0).value]):
            return False
    return not any(word.required for word in alone) and all(
        not options[name].beside or options[name].beside in seen for name in seen
    )


def is_given(option: Option, name: str, word: str, value: str, rest: list[str]) -> bool:
    """Whether an option has its value, behind = or as the next word, or none where it takes none."""
    if not option.takes:
        return word == name
    if word == name:
        return bool(rest) and is_number(rest.pop(0), LEAST[name])
    return is_number(value, LEAST[name])


def lists_of_words() -> list[tuple[str, ...]]:
    """Words of which some are commands' and some aren't: each option at each command, with and without a value."""
    line = of_fc()
    names = sorted({name for command in line.commands for option in command.options for name in option.names})
    words = (*names, *(f"{name}=4" for name in names), *FURTHER)
    found: list[tuple[str, ...]] = [(), ("--help",), ("help",), ("-h",), ("--version",), ("chek",), ("CHECK",), ("",)]
    for command in line.commands:
        least = ("3",) if command.words else ()
        found += [(command.name, *more) for count in (0, 1) for more in itertools.permutations(words, count)]
        for option in command.options:
            beside = (option.beside,) if option.beside else ()
            for given in ((option.names[0], "4"), (option.names[0] + "=4",)) if option.takes else ((option.names[0],),):
                found += [(command.name, *given, *beside, *least), (command.name, *least, *beside, *given, *given)]
    draw = random.Random(43)
    names_of_commands = [command.name for command in line.commands]
    found += [(draw.choice(names_of_commands), *draw.choices(words, k=draw.randint(2, 4))) for _ in range(60)]
    return found


class Words(unittest.TestCase):
    @needs_fc
    def test_words_of_the_list_and_no_others_are_commands(self) -> None:
        line = of_fc()
        commands = {command.name: command for command in line.commands}
        inside = 0
        for words in lists_of_words():
            done = subprocess.run([program.find(), *words], stdin=subprocess.DEVNULL, capture_output=True, check=False)
            asks = bool(words) and words[0] in commands and are_of(commands[words[0]], words[1:])
            inside += asks
            self.assertEqual(asks, done.returncode != 2, words)
            self.assertEqual(asks, not done.stdout.startswith(b"usage: "), words)
            if not asks:
                said = done.stdout.decode().removeprefix("usage: fc ").strip()
                self.assertEqual(sorted(commands), sorted(said.split("|")), words)
        self.assertGreater(inside, 30)


if __name__ == "__main__":
    unittest.main()
