"""The completions: each command and option in those of each shell, and tried in the shells that are there."""

from __future__ import annotations

import os
import pty
import re
import select
import shutil
import subprocess
import time
import unittest
from collections.abc import Callable

from helping import TOP, Test
from test_files import InFolder

from making import lines

FOLDER = TOP / "completions"
LINES = (lines.of_fc(), lines.of_fieldc())


def needs_shell(name: str) -> Callable[[Test], Test]:
    """Skips a test where a shell is missing."""
    skips: Callable[[Test], Test] = unittest.skipIf(shutil.which(name) is None, f"{name} isn't there (Debian: {name})")
    return skips


def named(line: lines.Line) -> list[tuple[str, str]]:
    """Each command with each name of each of its options."""
    return [(one.name, name) for one in line.commands for option in one.options for name in option.names]


class Written(unittest.TestCase):
    def test_zsh_has_each_option(self) -> None:
        for line, file in zip(LINES, ("_fc_calculus", "_fieldc"), strict=True):
            text = (FOLDER / file).read_text()
            parts = text.split("\ncase $line[1] in\n")[1]
            for command, name in named(line):
                part = parts.split(f"    {command})\n")[1].split(";;")[0]
                self.assertRegex(part, rf"['{{,]([(][^)]*[)])?[*]?([(][^)]*[)])?{name}[=\[,}}]", command)
            for one in line.commands:
                self.assertIn(f"    '{one.name}:", text)

    def test_fish_has_each_option(self) -> None:
        for line in LINES:
            text = (FOLDER / f"{line.program}.fish").read_text()
            for command, name in named(line):
                word = f" -l {name[2:]} " if name.startswith("--") else f" -s {name[1:]} "
                rows = [row for row in text.split("\n") if f"seen_subcommand_from {command}'" in row]
                self.assertTrue(any(word in row for row in rows), (command, name))
            for one in line.commands:
                self.assertIn(f" -a {one.name} -d ", text)


class Blocks(unittest.TestCase):
    def test_each_shell_offers_the_blocks(self) -> None:
        files = (TOP / "library").glob("*.fc")
        named = {name for file in files for name in re.findall(r"^def ([a-z]\w*)\(", file.read_text(), re.MULTILINE)}
        compose = next(one for one in lines.of_fieldc().commands if one.name == "compose")
        offered = next(option.offered for option in compose.options if "--show" in option.names)
        self.assertGreater(len(offered), 50)
        self.assertLess(set(offered), named)
        for file in ("fieldc.bash", "fieldc.fish", "_fieldc"):
            self.assertIn(" ".join(offered), (FOLDER / file).read_text(), file)


@needs_shell("bash")
class Bash(InFolder):
    def words(self, program: str, *typed: str, called: str | None = None) -> list[str]:
        """What bash completes behind words that are typed, the last of which may be a part; a builtin is switched
        off."""
        script = (
            f'enable -n fc; source "{FOLDER}/{program}.bash"; compopt() {{ :; }}\n'
            'COMP_WORDS=("$@"); COMP_CWORD=$(($# - 1))\n'
            f'_{program}_words "$1" "${{@: -1}}" "${{@: -2:1}}"; printf "%s\\n" "${{COMPREPLY[@]}}"'
        )
        done = subprocess.run(
            ["bash", "--norc", "-c", script, "bash", called or program, *typed],
            capture_output=True, text=True, check=True, cwd=self.folder,
        )  # fmt: skip
        self.assertEqual(done.stderr, "")
        return done.stdout.split()

    def test_commands(self) -> None:
        for line in LINES:
            found = {*self.words(line.program, "")} - {"-h", "--help", "--version"}
            self.assertEqual(found, {one.name for one in line.commands})
        self.assertEqual(self.words("fieldc", "s"), ["settle", "stable", "sweep"])
        self.assertEqual(self.words("fc", "re", called="/opt/bin/fc"), ["replay"])

    def test_options(self) -> None:
        for line in LINES:
            for command in line.commands:
                wanted = {name for option in command.options for name in option.names}
                self.assertEqual(
                    {*self.words(line.program, command.name, "-")} - {"-h", "--help"}, wanted, command.name
                )
        self.assertEqual(self.words("fieldc", "check", "a.fc", "--set"), ["--settle"])

    def test_values(self) -> None:
        self.assertEqual(self.words("fieldc", "picture", "--of", "r"), ["run", "replay"])
        self.assertEqual(self.words("fieldc", "picture", "--of", "=", "st"), ["stable"])
        every = "stable settle from-table trace run replay mail changes changes-from-table".split()
        self.assertEqual(self.words("fieldc", "picture", "--of", "="), every)
        self.assertEqual(self.words("fieldc", "run", "--workers", ""), [])
        self.assertEqual(self.words("fieldc", "compose", "--show", "hopsA"), ["hopsAround"])
        self.assertEqual(self.words("fieldc", "run", "--names", ""), [])
        self.assertEqual(self.words("fieldc", "check", ""), [])
        self.assertEqual(self.words("fc", "check", "<", ""), [])

    def test_the_builtin_is_left_alone(self) -> None:
        typed = 'COMP_WORDS=(fc ""); COMP_CWORD=1; _fc_words fc "" fc'
        script = f'source "{FOLDER}/fc.bash"; {typed}; echo "${{#COMPREPLY[@]}}"'
        done = subprocess.run(["bash", "--norc", "-c", script], capture_output=True, text=True, check=True)
        self.assertEqual(done.stdout, "0\n")

    def test_keys_in_a_shell(self) -> None:
        (self.folder / "mine.fc").write_text("")
        typed = f'source "{FOLDER}/fieldc.bash"; fieldc() {{ echo "got:$*:"; }}\nfieldc che\t--fac\tmin\t--set\t\n'
        self.assertIn("got:check --facts mine.fc --settle:", self.shell(typed, "got:check"))

    def shell(self, typed: str, awaited: str) -> str:
        """What a shell on a terminal shows when this is typed."""
        process, terminal = pty.fork()
        if not process:
            os.chdir(self.folder)
            os.execvp("bash", ["bash", "--norc", "--noprofile", "-i"])
        os.write(terminal, typed.encode())
        shown, end = "", time.monotonic() + 20
        while awaited not in shown and time.monotonic() < end:
            if select.select([terminal], [], [], 0.2)[0]:
                shown += os.read(terminal, 4096).decode("utf-8", "replace")
        time.sleep(0.1)
        shown += os.read(terminal, 4096).decode("utf-8", "replace") if select.select([terminal], [], [], 0.2)[0] else ""
        os.write(terminal, b"\nexit\n")
        os.close(terminal)
        os.waitpid(process, 0)
        return shown


@needs_shell("fish")
class Fish(unittest.TestCase):
    def words(self, program: str, typed: str) -> list[str]:
        """What fish completes."""
        script = f'source {FOLDER}/{program}.fish; complete -C "{typed}"'
        home = {"HOME": "/nonexistent", "XDG_CONFIG_HOME": "/nonexistent", "PATH": os.environ["PATH"]}
        done = subprocess.run(
            ["fish", "--no-config", "-c", script], capture_output=True, text=True, check=True, env=home
        )
        return [row.split("\t")[0] for row in done.stdout.splitlines()]

    def test_commands_and_options(self) -> None:
        for line in LINES:
            own = {name for option in line.options for name in option.names}
            self.assertEqual({*self.words(line.program, f"{line.program} ")} - own, {one.name for one in line.commands})
            for command in line.commands:
                wanted = {name for option in command.options for name in option.names if name.startswith("--")}
                found = {*self.words(line.program, f"{line.program} {command.name} --")}
                self.assertEqual(found - {"--help"}, wanted, command.name)

    def test_values(self) -> None:
        self.assertEqual(self.words("fieldc", "fieldc picture --of r"), ["replay", "run"])
        self.assertEqual(self.words("fieldc", "fieldc gen --devices "), [])


@needs_shell("zsh")
class Zsh(unittest.TestCase):
    def run_zsh(self, script: str) -> str:
        done = subprocess.run(["zsh", "-f", "-c", script], capture_output=True, text=True, check=True)
        self.assertEqual(done.stderr, "")
        return done.stdout

    def test_syntax(self) -> None:
        for file in ("_fc_calculus", "_fieldc"):
            done = subprocess.run(["zsh", "-n", FOLDER / file], capture_output=True, text=True, check=False)
            self.assertEqual((done.returncode, done.stderr), (0, ""), file)

    def test_they_are_found(self) -> None:
        script = f"fpath=({FOLDER} $fpath); autoload -Uz compinit; compinit -u -D; "
        script += "print $_comps[fc] $_comps[fieldc] $_comps[history]"
        self.assertEqual(self.run_zsh(script), "_fc_calculus _fieldc _fc\n")

    def test_keys(self) -> None:
        """What zsh completes, as a shell on a terminal of its own shows it."""
        script = f"""
            zmodload zsh/zpty
            zpty shell 'PS1=; HOME=/nonexistent TERM=dumb zsh -f -i'
            zpty -w shell 'fpath=({FOLDER} $fpath); autoload -Uz compinit; compinit -u -D; fieldc() {{ print got:$*: }}'
            zpty -w -n shell $'fieldc che\\t--set\\t\\n'
            zpty -r -m shell shown '*got:check*:*'
            print -r -- $shown
        """
        words = ["timeout", "30", "zsh", "-f", "-c", script]
        shown = subprocess.run(words, capture_output=True, text=True, check=False).stdout
        self.assertIn("got:check --settle:", shown)


if __name__ == "__main__":
    unittest.main()
