"""The promises whose closure is read, and the names that say only which answer it is."""

from __future__ import annotations

from dataclasses import dataclass

# the definitions by which the clause of `fc` leads to the rules of the calculus
WAY = (
    "fc_program/src/top.rt fc",
    "fc_answers/specs/Headline.antt IsKept",
    "fc_check/specs/Promises.antt VerdictKept",
    "converge_laws/specs/Stabilising.antt Stabilises",
    "device_eval/specs/Rules.antt Evaluates",
)
# where that way branches off to what a solution is, and to what rounds are
BRANCHES = (
    "interval_facts/specs/Solutions.antt Solves",
    "firing_core/specs/Rounds.antt Covers",
    "firing_core/specs/Cores.antt IsGood",
)


@dataclass(frozen=True)
class Promise:
    """A part of the page: its title, what is said of it, and the definitions whose closure it has."""

    title: str
    said: str
    roots: tuple[str, ...]
    # what isn't gone into here, beside what isn't anywhere
    cut: tuple[str, ...] = ()


YES = "command_frame/specs/Yes.antt HasYes"
CHECK = "fc_check/specs/Promises.antt "
STABLE = "fc_stable/specs/Promises.antt "
TRACE = "fc_trace/specs/Promises.antt "
# what an edit is and does: a log that has rounds has none
EDITS = ("firing_core/specs/Cores.antt Edits", "firing_core/specs/Entries.antt EditValue")
PROMISES = (
    Promise(
        "What stabilises means",
        "The rules of the calculus, networks, firings and rounds, solutions, and the promise itself, `Stabilises`. "
        "What an edit is and does (`EditValue`, `Edits`) is left for `replay`: a log that has rounds has no edit "
        "(`HasRounds`, `has_edit`).",
        ("converge_laws/specs/Stabilising.antt Stabilises",),
        EDITS,
    ),
    Promise(
        "Which program and which network two texts are",
        "Tokens, grammar, calls replaced by what they call, and JSON: `ReadsInput`. With them `HasYes` can be read.",
        ("command_frame/specs/Inputs.antt ReadsInput", YES),
        EDITS,
    ),
    Promise(
        "What `check` and `stable` promise",
        "`VerdictKept` and `SolvesYes`: the verdict stands in the text and a yes is kept, and the lines of `stable` "
        "are the one field.",
        (CHECK + "VerdictKept", STABLE + "SolvesYes"),
        EDITS,
    ),
    Promise(
        "What `check --settle` promises",
        "`SettlesKept` and `StartKept`, over firings and over message links.",
        (CHECK + "SettlesKept", CHECK + "StartKept"),
        EDITS,
    ),
    Promise(
        "What `trace` promises", "`TraceKept`: walks, their costs, and the best.", (TRACE + "TraceKept",), EDITS
    ),
    Promise(
        "What `replay` promises",
        "`ReplaysKept`: which entries the lines of a log are, and what each does to a core, edits too.",
        ("fc_replay/specs/Promises.antt ReplaysKept",),
    ),
    Promise(
        "What `run` promises",
        "`RunKeepsYes`: which commands the lines of a script are, and what each does to a core.",
        ("fc_run/specs/Promises.antt RunKeepsYes",),
    ),
    Promise(
        "What `mail` promises",
        "`MailPromises`: which entries the lines of a mail log are, and what each does to a mail core.",
        ("fc_mail/specs/Promises.antt MailPromises",),
    ),
    Promise(
        "What `gen` promises",
        "`ScenarioAgrees`: the program and the ring of a number.",
        ("fc_gen/specs/Promises.antt ScenarioAgrees",),
    ),
    Promise(
        "What `check --settle --changes` promises",
        "`ChangesKept`: what the lines allow, the envelope of a scene and lines, and logs that stay within it.",
        ("fc_changes/specs/Promises.antt ChangesKept",),
    ),
    Promise(
        "The limits",
        "`LimitsAre`, the clause of `fc_answers::limits_are`: each limit as a number.",
        ("fc_answers/specs/Limits.antt LimitsAre",),
    ),
    Promise(
        "The clause of `fc`",
        "`CallEnds`: what a command line asks for, which promise is kept of which status (`IsKept`), and what source "
        "and sink have to do with it.",
        ("fc_program/src/top.rt fc",),
    ),
)

# What is promised of a text that was written would be promised whatever these names meant; each has the reason why.
CUTS = {
    "fc_answers/specs/Answers.antt Answers":
        "which answer is prescribed: what is promised of the one that was written stands beside it, in `IsKept`",
    "fragment_check/specs/Verdicts.antt verdict_of":
        "which programs get a yes, and which `K`: the `K` that is written is the one of the promise",
    "report/specs/Facts.antt facts_text": "what `--facts` writes behind the verdict: nothing is promised of it",
    "interval_facts/specs/Ranges.antt ranges_of": "the same",
    "fragment_check/specs/Verdicts.antt levels_of": "the same",
    "settle_rounds/specs/SettleTimes.antt settled_from":
        "which settle rounds and values are found: those that are written are the ones of the promise",
    "settle_rounds/specs/SettleTimes.antt settle_time": "which settle time is found: as with settle rounds",
    "settle_rounds/specs/Rounds.antt any_table": "from which table of bounds they are counted: as with settle rounds",
    "settle_rounds/specs/Within.antt StartTable": "the same, from one start",
    "settle_rounds/specs/Starts.antt growing_cap": "the same",
    "bound_rounds/specs/Rounds.antt BoundTable": "the same",
    "command_frame/specs/Sources.antt IsNoProgram": "why a text is refused: where it is, nothing is promised of it",
    "fc_parser/specs/Limits.antt limit_passed":
        "which programs are accepted beyond grammar: a promise is of an accepted program",
    "unfold/specs/Nodes.antt Nodes": "the same",
    "fc_types/specs/Typing.antt IsTyped":
        "the same; of a program without types the promise would be about what it unfolds to, where `untyped` stands "
        "for a name that nothing binds",
    "fragment_check/specs/Patterns.antt body_pattern":
        "which programs have the walk form: what it makes of one that has it stands beside it",
    "fc_mail/specs/Drives.antt driven_log":
        "which log a number makes: that it has so many rounds is said beside it",
    "scenarios/specs/Rubbish.antt AreDrawn": "which exports a `scramble` draws: a yes is from any",
    "scenarios/specs/Words.antt stream_of": "the same",
    "command_frame/specs/Causes.antt Cause": "why texts are refused: a promise is of those that are accepted",
    "command_frame/specs/Ledgers.antt ledger_of":
        "what the book of the outcome stands for; the promise has the answer's own book",
    "firing_core/src/books.rt Book": "the same",
    "export_table/src/firing.rt Gate": "what tests call between a begin and an end: no clause speaks of it",
}  # fmt: skip
