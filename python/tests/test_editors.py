"""The highlighting of editors: each token of the examples and of the pages has the class that its kind wants."""

# mypy: no-strict-optional

from __future__ import annotations

import json
import re
import shutil
import subprocess
import unittest
from collections.abc import Iterator
from dataclasses import dataclass

from helping import EXAMPLES, TOP
from test_files import InFolder
from textmate import Grammar

EDITORS = TOP / "editors"
GRAMMAR = EDITORS / "vscode/fc.tmLanguage.json"
VIM = shutil.which("vim")
# the words of the language, by what they are
WORDS = {
    "declaration": "language ceiling input metric def main",
    "control": "let in if nbr rep share sense",
    "word operator": "not and or",
    "truth": "true false",
    "of a device": "uid nbrLink",
    "type": "bool int field",
    "builtin": "min max mux fst snd minHoodLoc maxHoodLoc sumHood anyHood allHood rise",
}
KIND_OF_WORD = {word: kind for kind, words in WORDS.items() for word in words.split()}
# the values that are words, behind a program
TRUTHS = "true false null any".split()
STEPS = "link unlink set poke join leave run mix show scramble deliver again lose".split()
EITHER = r"(?P<space>[ \t\r\n]+)|(?P<number>[0-9]+)|(?P<name>[A-Za-z][A-Za-z0-9_]*)"
TOKEN = re.compile(EITHER + r"|(?P<comment>//[^\n]*)|(?P<mark>=>|\.\.|.)", re.S)
PART = re.compile(EITHER + r'|(?P<string>"(?:[^"\\\n]|\\.)*")|(?P<mark>\.\.|.)', re.S)
SCOPES = {
    "comment": "comment.line.double-slash.fc",
    "number": "constant.numeric.fc",
    "declaration": "keyword.declaration.fc",
    "control": "keyword.control.fc",
    "word operator": "keyword.operator.word.fc",
    "truth": "constant.language.fc",
    "of a device": "variable.language.fc",
    "type": "storage.type.fc",
    "builtin": "support.function.fc",
    "function": "entity.name.function.fc",
    "input": "variable.other.input.fc",
    "name": "variable.other.fc",
    "operator": "keyword.operator.fc",
    "bracket": "punctuation.fc",
    "wrong": "invalid.illegal.fc",
    "separator": "meta.separator.fc",
    "step": "keyword.other.step.fc",
    "string": "string.quoted.double.fc",
    "member": "support.type.property-name.fc",
}
GROUPS = {
    "comment": ("fcComment",),
    "number": ("fcNumber", "fcCount"),
    "declaration": ("fcDeclaration",),
    "control": ("fcControl",),
    "word operator": ("fcWordOperator",),
    "truth": ("fcConstant", "fcTruth"),
    "of a device": ("fcDevice",),
    "type": ("fcType",),
    "builtin": ("fcBuiltin",),
    "function": ("fcFunction",),
    "input": ("fcInput", "fcOf"),
    "name": ("fcName",),
    "operator": ("fcOperator", "fcRange"),
    "bracket": ("fcPunctuation", "fcMark"),
    "wrong": ("fcInvalid", "fcWrong"),
    "separator": ("fcSeparator",),
    "step": ("fcStep",),
    "string": ("fcString",),
    "member": ("fcMember",),
}
# what no example has; it has to be right all the same
CORNERS = """\
language 2; // é is a comment, %% too
ceiling 007;metric 1..9;
input lets:bool; input
 w : int 0..5;
def main2(a_1:field int,b:(int,bool)):int=rise(a_1*2-1,b,3);
main=let in_=10in share(nbrLink){(x)=>if(not true){uid}{10x};
main = a # b == é;
%%
{"devices":[{"id":0,"inputs":{"true":true,"say \\"x\\"": null}}],"links":[]}
%%
B12
I
 E3
mix 3 set 2 lets (1,true)
poke 0 1 2
showing
show
link 0 1 2..any
%% %%
lose 1 2 3
"""


@dataclass(frozen=True)
class Token:
    """A token: where it begins and ends in its text, and of what kind it is."""

    start: int
    end: int
    kind: str


def tokens(text: str) -> list[Token]:
    """The tokens of an input: those of its program, and of the sections behind it."""
    found = re.search(r"(?m)^%%\r?$", text)
    cut = found.start() if found else len(text)
    return [*of_program(text[:cut]), *of_sections(text, cut)]


def of_program(text: str) -> Iterator[Token]:
    """The tokens of a program, by the rules of the language: a name before a bracket is a function's."""
    found = [hit for hit in TOKEN.finditer(text) if hit.lastgroup != "space"]
    words = [hit for hit in found if hit.lastgroup != "comment"]
    before = {hit.start(): other.group() for other, hit in zip(words, words[1:], strict=False)}
    behind = {hit.start(): other.group() for hit, other in zip(words, words[1:], strict=False)}
    for hit in found:
        kind = hit.lastgroup
        if kind == "name":
            named = "function" if behind.get(hit.start()) == "(" else "name"
            is_input = before.get(hit.start()) in ("input", "sense")
            kind = "input" if is_input else KIND_OF_WORD.get(hit.group(), named)
        elif kind == "mark":
            kind = mark(hit.group())
        yield Token(hit.start(), hit.end(), kind)


def mark(sign: str) -> str:
    """What a mark is."""
    return "operator" if sign in ("=>", "..", *"=+-*<") else "bracket" if sign in "(){},;:" else "wrong"


def of_sections(text: str, start: int) -> Iterator[Token]:
    """The tokens of a network, and of the lines of a log, a script or changes."""
    for line in re.finditer(r"[^\n]+", text[start:]):
        first, row = start + line.start(), line.group().rstrip("\r")
        if row == "%%":
            yield Token(first, first + 2, "separator")
        elif re.fullmatch(r"[BE][0-9]+|I", row):
            yield Token(first, first + 1, "step")
            if len(row) > 1:
                yield Token(first + 1, first + len(row), "number")
        else:
            yield from (Token(first + one.start, first + one.end, one.kind) for one in of_row(row))


def of_row(row: str) -> Iterator[Token]:
    """The tokens of a line of a network, log or script."""
    edit = re.match(r"mix +[0-9]+ +", row)
    for hit in PART.finditer(row):
        kind = hit.lastgroup
        if kind == "space":
            continue
        if kind == "name":
            is_edit = edit and hit.start() == edit.end() and hit.group() in STEPS[:4]
            is_step = is_edit or hit.start() == 0 and hit.group() in STEPS
            kind = "step" if is_step else "truth" if hit.group() in TRUTHS else "input"
        elif kind == "string":
            kind = "member" if re.match(r"\s*:", row[hit.end() :]) else "string"
        elif kind == "mark":
            kind = "operator" if hit.group() == ".." else "bracket" if hit.group() in "[]{}(),:" else "wrong"
        yield Token(hit.start(), hit.end(), kind)


def texts() -> list[tuple[str, str]]:
    """What is coloured: each example whole, and each program of the pages."""
    found = [(path.name, path.read_text()) for path in sorted(EXAMPLES.glob("*")) if path.suffix in (".txt", ".fc")]
    found += [(path.name, path.read_text()) for path in sorted((TOP / "library").glob("*.fc"))]
    for page in ("patterns.md", "language.md", "commands.md", "settle.md"):
        blocks = re.findall(r"(?ms)^```[^\n]*\n(.*?)^```", (TOP / "docs" / page).read_text())
        begins = re.compile(r"(//.*\n)*(language 2|ceiling \d+);")
        found += [(f"{page} {at}", text) for at, text in enumerate(blocks) if begins.match(text)]
    return found


class Words(unittest.TestCase):
    def test_words_are_those_of_the_language(self) -> None:
        listed = re.search(
            r"These are words, and so never names: `([^`.]+)\.?`", (TOP / "docs/language.md").read_text()
        )[1]
        self.assertEqual(sorted(KIND_OF_WORD), sorted(listed.split()))

    def test_kinds_of_some_tokens(self) -> None:
        def kinds(text: str) -> list[tuple[str, str]]:
            return [(text[one.start : one.end], one.kind) for one in tokens(text)]

        wanted = [("def", "declaration"), ("f", "function"), ("(", "bracket"), ("lets", "name"), ("..", "operator")]
        self.assertEqual(kinds("def f(lets..007"), [*wanted, ("007", "number")])
        wanted = [("sense", "control"), ("x", "input"), (";", "bracket"), ("%%", "separator"), ("E", "step")]
        self.assertEqual(kinds("sense x;\n%%\nE10\n"), [*wanted, ("10", "number")])

    def test_there_are_enough(self) -> None:
        found = texts()
        self.assertGreater(sum(name.startswith("patterns.md") for name, _ in found), 15)
        self.assertGreater(sum(name.endswith(".txt") for name, _ in found), 10)


class TextMate(unittest.TestCase):
    def test_each_token(self) -> None:
        grammar = Grammar(GRAMMAR)
        for name, text in [*texts(), ("corners", CORNERS)]:
            flat = [scope for line in grammar.colours(text) for scope in line]
            for token in tokens(text):
                found = set(flat[token.start : token.end])
                self.assertEqual(found, {SCOPES[token.kind]}, f"{name}: {text[token.start - 20 : token.end]!r}")

    def test_nothing_else_is_coloured(self) -> None:
        grammar = Grammar(GRAMMAR)
        for name, text in texts():
            flat = [scope for line in grammar.colours(text) for scope in line]
            spaces = [scope for sign, scope in zip(text, flat, strict=True) if sign == "\n"]
            self.assertEqual(set(spaces), {""}, name)
            self.assertFalse("invalid.illegal.fc" in flat, name)

    def test_expressions_are_read_alike_everywhere(self) -> None:
        r"""No expression has what Oniguruma and Python read otherwise, as \w, which may be a letter of any script."""
        for expression in re.findall(r'"(?:match|begin|end)": "((?:[^"\\]|\\.)*)"', GRAMMAR.read_text()):
            self.assertNotRegex(json.loads(f'"{expression}"'), r"\\[wWdDhH]|\(\?[<imx]|\[\[")

    def test_the_extension_names_its_files(self) -> None:
        folder = EDITORS / "vscode"
        said = json.loads((folder / "package.json").read_text())["contributes"]
        self.assertEqual(said["grammars"][0]["scopeName"], json.loads(GRAMMAR.read_text())["scopeName"])
        for name in (said["grammars"][0]["path"], said["languages"][0]["configuration"]):
            json.loads((folder / name).read_text())


@unittest.skipIf(VIM is None, "vim isn't there (Debian: vim)")
class Vim(InFolder):
    def groups(self, named: list[tuple[str, str]]) -> list[list[str]]:
        """For each text the group of each of its bytes, line by line, line ends left out."""
        script = [
            f"set runtimepath^={EDITORS}/vim",
            "set encoding=utf-8 nocompatible",
            "filetype plugin on",
            "syntax on",
        ]
        for at, (_, text) in enumerate(named):
            (self.folder / f"{at}.fc").write_text(text)
            script += [f"edit {self.folder}/{at}.fc", f"call Write('{self.folder}/{at}.out')"]
        (self.folder / "run.vim").write_text(
            "function Write(to)\n  let rows = []\n  for line in range(1, line('$'))\n"
            "    let names = map(range(1, len(getline(line))), {_, at -> synIDattr(synID(line, at, 0), 'name')})\n"
            "    call add(rows, join(names, ' '))\n"
            "  endfor\n  call writefile([&filetype] + rows, a:to)\nendfunction\n" + "\n".join(script) + "\nqall!\n"
        )
        words = [VIM, "-e", "-s", "-u", "NONE", "-i", "NONE", "-n", "-S", str(self.folder / "run.vim")]
        subprocess.run(words, check=True, timeout=300, stdin=subprocess.DEVNULL, capture_output=True)
        return [(self.folder / f"{at}.out").read_text().split("\n") for at in range(len(named))]

    def test_each_token(self) -> None:
        named = [(name, shorter(text)) for name, text in [*texts(), ("corners", CORNERS)]]
        for (name, text), (filetype, *rows) in zip(named, self.groups(named), strict=True):
            self.assertEqual(filetype, "fieldcalculus", name)
            lined = zip(text.encode().split(b"\n"), rows, strict=False)
            flat = [group for line, row in lined for group in [*row.split(" ")[: len(line)], ""]]
            starts = [len(text[:at].encode()) for at in range(len(text) + 1)]
            for token in tokens(text):
                found = set(flat[starts[token.start] : starts[token.end]])
                said = f"{name}: {text[token.start - 20 : token.end]!r} {token.kind} {found}"
                self.assertTrue(found <= set(GROUPS[token.kind]) and found, said)

    def test_each_group_has_a_colour(self) -> None:
        text = (EDITORS / "vim/syntax/fieldcalculus.vim").read_text()
        linked = set(re.findall(r"highlight default link (\w+)", text))
        self.assertEqual({group for groups in GROUPS.values() for group in groups} - linked, {"fcName"})


def shorter(text: str) -> str:
    """A long log with its steps left out, but for the first hundred, and every line that is no step."""
    lines, steps = [], 0
    for line in text.split("\n"):
        steps += bool(re.fullmatch(r"[BE]\d+", line))
        if steps <= 100 or not re.fullmatch(r"[BE]\d+", line):
            lines.append(line)
    return "\n".join(lines)


if __name__ == "__main__":
    unittest.main()
