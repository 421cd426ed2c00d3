"""`./build`: what it asks of rt, how far it says it is, what it does on a failure, and what it installs."""

from __future__ import annotations

import importlib.machinery
import importlib.util
import os
import re
import shutil
import subprocess
import tempfile
import unittest
from pathlib import Path
from typing import Any

from checkouts import PROGRAM, Checkout
from helping import TOP, Done
from test_files import InFolder

from fieldc.version import VERSION

BELOW = "fc_values fc_nodes fc_io command_words fc_answers"
CRATES = """\
# the crates of a small checkout
fc_values:
fc_program: fc_io fc_answers
fc_nodes: fc_values arrayvec
tests: fc_answers
fc_answers: fc_nodes fc_io command_words
command_words: fc_values clap
fc_io: fc_values
"""
PROVES = f"""\
echo "$PWD: $*" >> {{calls}}
case $1 in
    all)
        for name in {BELOW}; do echo "== $name"; echo "fn $name::f: proved"; done
        echo "== summary"; echo "5 of 5 crates ok" ;;
    run)
        mkdir -p out; printf '%s' '{PROGRAM}' > out/fc_program; chmod +x out/fc_program
        echo "rt: chose --jobs 4" >&2; cat > {{given}}; echo "0 5" ;;
esac
"""
FAILS = """\
[ "$1" = all ] || exit 0
echo "== fc_values"; echo "src/lib.rt:3:1: error: a clause stays open"; echo "logic=not-proved functions=3"
echo "== fc_nodes"
echo "== summary"; echo "fc_values: failed (1)"; echo "fc_nodes: not run, since fc_values failed"; exit 1
"""


def build_itself() -> Any:
    """What stands in `./build`, as a module."""
    loader = importlib.machinery.SourceFileLoader("build_itself", str(TOP / "build"))
    spec = importlib.util.spec_from_loader("build_itself", loader)
    assert spec is not None
    made = importlib.util.module_from_spec(spec)
    loader.exec_module(made)
    return made


# crates on which no command leans yet
AHEAD: tuple[str, ...] = ()


class Build(InFolder):
    def setUp(self) -> None:
        super().setUp()
        self.checkout = Checkout(Path(self.folder))
        (self.folder / "crates.txt").write_text(CRATES)

    def proves(self) -> None:
        self.checkout.rt(PROVES.format(calls=self.folder / "calls", given=self.folder / "given"))

    def test_each_crate_is_told_of(self) -> None:
        self.proves()
        done = self.checkout.run("build", "--jobs", "2")
        self.assertEqual((done.status, done.output), (0, "0 5\n"))
        lines = [re.sub(r"\(\d+:\d\d\)", "(T)", line) for line in done.errors.splitlines()]
        self.assertEqual(
            lines,
            [
                "build: 6 crates, 2 at once; what rt says goes into out/build.log",
                "build: at work: fc_values",
                "build: rt reads the sources of all crates (T)",
                "build: 1 of 6 done (T): fc_values; 5 left; at work: fc_nodes, fc_io",
                "build: 2 of 6 done (T): fc_nodes; 4 left; at work: fc_io, command_words",
                "build: 3 of 6 done (T): fc_io; 3 left; at work: command_words",
                "build: 4 of 6 done (T): command_words; 2 left; at work: fc_answers",
                "build: 5 of 6 done (T): fc_answers; 1 left; at work: fc_program",
                "build: proves, compiles and links fc_program (T)",
                "build: fc is built (T)",
            ],
        )

    def test_what_is_asked_of_rt(self) -> None:
        self.proves()
        self.checkout.run("build", "--jobs", "6")
        calls = [
            line.removeprefix(f"{self.folder}/crates/") for line in (self.folder / "calls").read_text().splitlines()
        ]
        self.assertEqual(calls, ["fc_values: lib", "fc_answers: all check --jobs 6", "fc_program: run -- replay"])
        self.assertEqual((self.folder / "given").read_text(), (TOP / "examples/two_devices.txt").read_text())
        log = (self.folder / "out/build.log").read_text()
        self.assertIn("fn fc_nodes::f: proved\n", log)
        self.assertIn("rt: chose --jobs 4\n", log)
        self.assertEqual(self.checkout.run("fc", "format").output, "proved format\n")

    def test_a_failure(self) -> None:
        self.checkout.rt(FAILS)
        done = self.checkout.run("build", "--prefix", "there")
        self.assertEqual((done.status, done.output), (1, ""))
        wanted = ("build: fc_values: failed (1)", "build: fc_nodes: not run, since fc_values failed")
        for said in (*wanted, "build: fc_values isn't proved", "a clause stays open", "out/build.log"):
            self.assertIn(said, done.errors)
        self.assertNotIn("fc_nodes; ", done.errors)
        self.assertFalse((self.folder / "there").exists())

    def test_a_failure_of_a_single_crate(self) -> None:
        for call in ("lib", "run"):
            self.checkout.rt(f'[ "$1" != {call} ] || {{ echo "error: in {call}" >&2; exit 2; }}\n')
            done = self.checkout.run("build")
            self.assertEqual((done.status, done.output), (1, ""))
            self.assertIn(f"error: in {call}", done.errors)

    def test_where_no_crate_is_below_all(self) -> None:
        (self.folder / "crates.txt").write_text(CRATES.replace("fc_io: fc_values", "fc_io:"))
        self.proves()
        self.assertNotIn("at work: fc_values\n", self.checkout.run("build").errors)
        self.assertEqual((self.folder / "calls").read_text().count("lib"), 0)

    def test_without_a_toolchain(self) -> None:
        done = self.checkout.run("build")
        self.assertEqual((done.status, done.output), (127, ""))
        self.assertIn("rattle-kit-13f", done.errors)

    def test_wrong_words(self) -> None:
        for words in (("--jobs", "0"), ("--jobs", "x"), ("--prefix",), ("more",)):
            self.assertEqual(self.checkout.run("build", *words).status, 2, words)

    def test_how_many_at_once(self) -> None:
        made = build_itself()
        self.assertTrue(1 <= made.processors() <= (os.cpu_count() or 1))
        rows = ((4, 64, 6), (4, 16, 4), (4, 2, 1), (1, 64, 2), (2, 64, 3), (16, 64, 18), (4, 0, 4))
        for processors, memory, wanted in rows:
            made.processors, made.memory = lambda n=processors: n, lambda n=memory: n * 10**9
            self.assertEqual(made.at_once(), wanted, (processors, memory))

    def test_the_crates_of_the_repository(self) -> None:
        """Each crate but the program, the library, those of tests and laws that they don't lean on is counted, after
        those that it names."""
        made = build_itself()
        named = made.libraries()
        order = made.Crates(made.ROOF).order
        others = {made.PROGRAM, made.library.CRATE, *AHEAD}
        self.assertEqual({name for name in named if not name.endswith("_tests")} - set(order), others)
        for at, name in enumerate(order):
            self.assertEqual({*named[name]} - set(order[:at]), set(), name)
        for name in (made.PROGRAM, made.library.CRATE):
            self.assertEqual({*named[name]} - set(order), set(), name)


class Install(unittest.TestCase):
    folder: Path
    checkout: Checkout
    prefix: Path
    stale: Path
    done: Done

    @classmethod
    def setUpClass(cls) -> None:
        kept = tempfile.TemporaryDirectory()
        cls.addClassCleanup(kept.cleanup)
        cls.folder = Path(kept.name)
        # a checkout without a C compiler
        cls.checkout = Checkout(cls.folder / "checkout", {"CC": "absent"})
        cls.checkout.rt(PROVES.format(calls="/dev/null", given="/dev/null"))
        cls.prefix = cls.folder / "there"
        # what an earlier version left, and an earlier program
        cls.stale = cls.prefix / "lib/fc/fieldc/gone.py"
        for file in (cls.stale, cls.prefix / "libexec/fc/fc", cls.prefix / "bin/fc"):
            file.parent.mkdir(parents=True, exist_ok=True)
            file.write_text("")
        cls.done = cls.checkout.run("build", "--prefix", str(cls.prefix))

    def run_there(self, name: str, *words: str, prefix: Path | None = None, status: int = 0) -> str:
        """Runs an installed program, where nothing of a checkout is found; with a status above 0 what it tells."""
        environment = {"PATH": "/usr/bin:/bin", "HOME": str(self.folder)}
        done = subprocess.run(
            [(prefix or self.prefix) / name, *words], capture_output=True, text=True, check=False, env=environment,
            cwd=self.folder, input="",
        )  # fmt: skip
        self.assertEqual(done.returncode, status, done)
        return done.stderr if status else done.stdout

    def test_programs(self) -> None:
        self.assertEqual(self.run_there("bin/fc", "check", "--facts"), "proved check --facts\n")
        self.assertEqual(self.run_there("libexec/fc/fc", "gen", "3"), "proved gen 3\n")
        self.assertEqual(self.run_there("bin/fieldc", "--version"), f"fieldc {VERSION}\n")
        self.assertIn("wrote 'proved format\\n'", self.run_there("bin/fieldc", "format", "-", status=2))
        self.assertIn("usage: fieldc network", self.run_there("bin/fieldc", "network", "--help"))

    def test_they_may_be_moved(self) -> None:
        there = Path(shutil.copytree(self.prefix, self.folder / "elsewhere", symlinks=True))
        (there / "libexec/fc/fc").write_text(PROGRAM.replace("proved", "moved"))
        told = self.run_there("bin/fieldc", "format", "-", prefix=there, status=2)
        self.assertIn("wrote 'moved format\\n'", told)
        self.assertEqual(self.run_there("bin/fc", "format", prefix=there), "moved format\n")

    def test_pages_completions_and_documents(self) -> None:
        share = self.prefix / "share"
        for name, of in (
            ("man/man1/fc.1", "man/fc.1"),
            ("man/man1/fieldc.1", "man/fieldc.1"),
            ("bash-completion/completions/fc", "completions/fc.bash"),
            ("bash-completion/completions/fieldc", "completions/fieldc.bash"),
            ("zsh/site-functions/_fc_calculus", "completions/_fc_calculus"),
            ("zsh/site-functions/_fieldc", "completions/_fieldc"),
            ("fish/vendor_completions.d/fc.fish", "completions/fc.fish"),
            ("fish/vendor_completions.d/fieldc.fish", "completions/fieldc.fish"),
            ("doc/fc/README.md", "README.md"),
            ("doc/fc/CHANGELOG.md", "CHANGELOG.md"),
            ("doc/fc/CONTRIBUTING.md", "CONTRIBUTING.md"),
            ("doc/fc/docs/scene.schema.json", "docs/scene.schema.json"),
            ("fc/editors/vim/syntax/fieldcalculus.vim", "editors/vim/syntax/fieldcalculus.vim"),
        ):
            self.assertEqual((share / name).read_text(), (TOP / of).read_text(), name)

    def test_what_is_said(self) -> None:
        self.assertEqual((self.done.status, self.done.output), (0, "0 5\n"))
        said = ("bin isn't on the PATH", "fc is also a builtin of bash", f"installed under {self.prefix}")
        for words in (*said, "no C compiler"):
            self.assertIn(words, self.done.errors)

    def test_what_was_there_before_is_replaced(self) -> None:
        self.assertFalse(self.stale.exists())
        self.assertEqual(list(self.prefix.rglob(".*")), [])
        self.assertTrue((self.prefix / "bin/fc").is_symlink())

    def test_the_package_is_whole(self) -> None:
        def of(folder: Path) -> set[str]:
            kept = [path for path in folder.rglob("*") if path.suffix in (".py", ".lark", ".typed")]
            return {str(path.relative_to(folder)) for path in kept}

        self.assertEqual(of(self.prefix / "lib/fc/fieldc"), of(TOP / "python/fieldc"))
        blocks = sorted(path.name for path in (TOP / "library").glob("*.fc"))
        self.assertEqual(sorted(path.name for path in (self.prefix / "lib/fc/fieldc/library").glob("*.fc")), blocks)


if __name__ == "__main__":
    unittest.main()
