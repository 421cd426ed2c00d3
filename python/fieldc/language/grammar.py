"""The grammar of programs, for lark. It is that of docs/language.md, a declaration at a time."""

GRAMMAR = r"""
first: language | ceiling
second: ceiling
item: input | metric | define | main

language: LANGUAGE NUMBER SEMI
ceiling: CEILING NUMBER SEMI
input: INPUT NAME COLON BOOL SEMI              -> truth_input
     | INPUT NAME COLON INT NUMBER DOTS NUMBER SEMI -> whole_input
metric: METRIC NUMBER DOTS NUMBER SEMI
define: DEF NAME OPEN parameters CLOSE COLON type IS expr SEMI
main: MAIN IS expr SEMI

parameters: (parameter (COMMA parameter)*)?
parameter: NAME COLON type
type: local         -> local_type
    | FIELD local   -> field_type
local: INT          -> simple
     | BOOL         -> simple
     | OPEN local COMMA local CLOSE -> pair_type

?expr: LET NAME IS expr IN expr -> let
     | disj
?disj: conj | disj OR conj      -> binary
?conj: comp | conj AND comp     -> binary
?comp: sum | sum (LESS | IS) sum -> binary
?sum: prod | sum (PLUS | MINUS) prod -> binary
?prod: unary | prod STAR unary  -> binary
?unary: atom | NOT unary        -> negation
?atom: NUMBER                   -> number
     | TRUE                     -> truth
     | FALSE                    -> truth
     | UID                      -> plain
     | NBRLINK                  -> plain
     | NAME                     -> variable
     | SENSE NAME               -> sense
     | NAME OPEN (expr (COMMA expr)*)? CLOSE -> call
     | NBR BEGIN expr END       -> nbr
     | REP OPEN expr CLOSE BEGIN OPEN NAME CLOSE ARROW expr END   -> keeping
     | SHARE OPEN expr CLOSE BEGIN OPEN NAME CLOSE ARROW expr END -> keeping
     | IF OPEN expr CLOSE BEGIN expr END BEGIN expr END -> choice
     | (FST | SND | SUMHOOD | ANYHOOD | ALLHOOD) OPEN expr CLOSE -> builtin
     | (MIN | MAX | MINHOODLOC | MAXHOODLOC) OPEN expr COMMA expr CLOSE -> builtin
     | (MUX | RISE) OPEN expr COMMA expr COMMA expr CLOSE -> builtin
     | OPEN expr CLOSE          -> group
     | OPEN expr COMMA expr CLOSE -> pair

LANGUAGE: "language"
CEILING: "ceiling"
INPUT: "input"
METRIC: "metric"
DEF: "def"
MAIN: "main"
LET: "let"
IN: "in"
IF: "if"
NBR: "nbr"
REP: "rep"
SENSE: "sense"
UID: "uid"
NBRLINK: "nbrLink"
NOT: "not"
AND: "and"
OR: "or"
TRUE: "true"
FALSE: "false"
INT: "int"
BOOL: "bool"
FIELD: "field"
MIN: "min"
MAX: "max"
MUX: "mux"
FST: "fst"
SND: "snd"
MINHOODLOC: "minHoodLoc"
MAXHOODLOC: "maxHoodLoc"
SUMHOOD: "sumHood"
ANYHOOD: "anyHood"
ALLHOOD: "allHood"
SHARE: "share"
RISE: "rise"

OPEN: "("
CLOSE: ")"
BEGIN: "{"
END: "}"
COMMA: ","
SEMI: ";"
COLON: ":"
DOTS: ".."
ARROW: "=>"
IS: "="
PLUS: "+"
MINUS: "-"
STAR: "*"
LESS: "<"
NUMBER: /[0-9]+/
NAME: /[A-Za-z][A-Za-z0-9_]*/

SPACE: /[ \t\r\n]+/
COMMENT: /\/\/[^\n]*/
%ignore SPACE
%ignore COMMENT
"""

STARTS = ("first", "second", "item")

MARKS = {
    "OPEN": "(",
    "CLOSE": ")",
    "BEGIN": "{",
    "END": "}",
    "COMMA": ",",
    "SEMI": ";",
    "COLON": ":",
    "DOTS": "..",
    "ARROW": "=>",
    "IS": "=",
    "PLUS": "+",
    "MINUS": "-",
    "STAR": "*",
    "LESS": "<",
}
"""The marks of programs, by the names that the grammar gives them."""

WORDS = frozenset(
    "ceiling input metric def main let in if nbr rep sense uid nbrLink not and or true false int bool field min max "
    "mux fst snd minHoodLoc maxHoodLoc sumHood anyHood allHood share rise language".split()
)
"""The words of programs, which are never names."""
