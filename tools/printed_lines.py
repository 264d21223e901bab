"""What the lines that `cilkp` prints mean: a sentence for each, and the offsets that it is about."""

import re
from typing import Dict, List, Optional, Sequence, Tuple

import refusals
from meaning import Files, Meaning
from pipe_source import STAGE_WORDS, Source

CELL = r"[A-Za-z_][A-Za-z_0-9]*(?:\[[0-9]+\])?"
INSTANCE = r"([0-9]+)/(-?[0-9]+)"
RACE = re.compile(rf"race ({CELL}) (read|write) {INSTANCE} (read|write) {INSTANCE}")
TRAP = re.compile(rf"trap ([A-Za-z]+) (?:at {INSTANCE}|in (init|final))")
EVENT_TRAP = re.compile(r"trap ([0-9]+) ([A-Za-z]+)")
ACCESS = re.compile(rf"(read|write) ([0-9]+) ({CELL}) (-?[0-9]+)")
NAMED_STAGE = re.compile(r"(wait|continue) ([0-9]+) (-?[0-9]+)")
ITERATION = re.compile(r"(begin|enter|end|closed) ([0-9]+)")
RUN_KIND = re.compile(r"run (finished|unfinished|stopped)")
WEIGHT = re.compile(r"(work|span) ([0-9]+)")
ON_PATH = re.compile(INSTANCE)
SUMMARY = re.compile(r"(?:(items|instances) ([0-9]+)|workers ([0-9]+) last (-?[0-9]+))")

TRAPS = {
    "Overflow": "a value or a stage number did not fit into 64 bits: keep the operands smaller, or test them before",
    "DivZero": "a divisor was 0: test it with `if` before the division",
    "Index": "an index was below 0 or not below the size of its array: test it, or declare a larger array",
    "Budget": "no step was left: raise the limit `steps`{limit}, which bounds each stage instance, or cut the stage in two by a stage"
    " statement; a loop that does not end meets every limit",
    "StageOrder": "the number of a stage statement was not above the current stage: stage numbers rise within an iteration",
    "StageLimit": "the iteration has had as many stage instances as the limit `stages` allows{limit}: raise it (at most 262,144 divided"
    " by `iterations`), or go through fewer stages",
    "InputEnd": "`take()` was called with no number left: ask `more()` first",
    "IterLimit": "the loop's test was not 0, and as many iterations as the limit `iterations` allows{limit} have run: raise it if the"
    " input may be longer, or see whether the test becomes 0 at all",
    "OutputLimit": "as many numbers as the limit `emits` allows{limit} were emitted: raise it",
}
LIMITS = {"Budget": "steps", "StageLimit": "stages", "IterLimit": "iterations", "OutputLimit": "emits"}
CAUSES: Dict[str, Sequence[str]] = {
    "Overflow": ("+", "-", "*", "/", "%"),
    "DivZero": ("/", "%"),
    "Budget": ("while",),
    "StageOrder": STAGE_WORDS,
    "StageLimit": STAGE_WORDS,
    "InputEnd": ("take",),
    "IterLimit": ("pipe_while",),
    "OutputLimit": ("emit",),
}
RUN_KINDS = {
    "finished": "The record is a run of the program that is finished: the loop is closed, and every iteration has ended. The races of this run follow,"
    " if it has any.",
    "unfinished": "The record is the beginning of a run of the program: no event is wrong, and others can follow. The races of these events follow,"
    " if there are any.",
    "stopped": "The record is a run of the program that broke off with `stop`. The races of its events follow, if there are any.",
}
WEIGHTS = {
    "work": "All stage instances of the loop together take {} steps.",
    "span": "The stage instances in the lines that follow are a heaviest path: they take {} steps, and each of them has to wait for the one before it, so"
    " work / span is the most speedup that any number of processors can give.",
}
SUMMARIES = {
    "items": "The generated pipeline of `bench` has {} items.",
    "instances": "The serial elision of the generated pipeline has {} stage instances.",
}


class Explainer:
    """Explains printed lines, one after the other. It knows the stage of each iteration whose events it has seen."""

    def __init__(self, files: Files):
        self.files = files
        self._stages: Dict[str, int] = {}
        self._named: Dict[str, Tuple[int, List[int]]] = {}

    def meaning(self, line: str) -> Optional[Meaning]:
        """Returns the meaning of a line, or `None` if `cilkp` prints no such line, or it is an emitted number."""
        forms = [
            (RACE, self._race),
            (TRAP, self._trap),
            (EVENT_TRAP, self._event_trap),
            (ACCESS, self._access),
            (NAMED_STAGE, self._named_stage),
            (ITERATION, self._iteration),
            (RUN_KIND, lambda kind: Meaning(RUN_KINDS[kind])),
            (WEIGHT, lambda kind, steps: Meaning(WEIGHTS[kind].format(steps))),
            (ON_PATH, self._on_path),
            (SUMMARY, self._summary),
        ]
        for form, explain in forms:
            match = form.fullmatch(line)
            if match:
                return explain(*match.groups())
        return refusals.meaning(line, self.files)

    def _about_source(self, sentence: str, offsets: Sequence[int]) -> Meaning:
        """Returns a meaning that is about places of the source."""
        return Meaning(sentence, self.files.source, sorted(set(offsets)))

    def _race(self, cell: str, kind: str, i: str, s: str, other_kind: str, j: str, t: str) -> Meaning:
        """Explains a race line."""
        source = self.files.source
        offsets = source.accesses(cell, kind, int(s)) + source.accesses(cell, other_kind, int(t))
        verbs = {"read": "reads", "write": "writes"}
        first, second = f"Stage {s} of iteration {i} {verbs[kind]}", f"stage {t} of iteration {j} {verbs[other_kind]}"
        remedy = race_remedy(cell, (int(i), int(s)), (int(j), int(t)))
        return self._about_source(f"{first} {described(cell)} and {second} it, and nothing orders the two: {remedy}.", offsets)

    def _trap(self, name: str, i: Optional[str], s: Optional[str], part: Optional[str]) -> Optional[Meaning]:
        """Explains the line of a trap that follows the output."""
        if name not in TRAPS:
            return None
        where = f"`{part}`" if part else f"stage {s} of iteration {i}"
        return self._trap_meaning(name, where, part or "pipe_while", int(s) if s else None)

    def _event_trap(self, i: str, name: str) -> Optional[Meaning]:
        """Explains a trap in a log."""
        stage = self._stages.get(i)
        where = f"iteration {i}" if stage is None else f"stage {stage} of iteration {i}"
        return self._trap_meaning(name, where, "pipe_while", stage) if name in TRAPS else None

    def _trap_meaning(self, name: str, where: str, part: str, stage: Optional[int]) -> Meaning:
        """Explains a trap in a stage or a part, by its limit and what may cause it there."""
        source = self.files.source
        value, offset = source.limit(LIMITS[name]) if name in LIMITS else (None, None)
        causes = source.offsets(part, stage, lambda index: may_trap(source, index, name))
        limit = "" if value is None else f" ({value:,} now)"
        sentence = f"In {where}, {TRAPS[name].format(limit=limit)}."
        return self._about_source(sentence, causes if offset is None else [offset] + causes)

    def _access(self, kind: str, i: str, cell: str, value: str) -> Meaning:
        """Explains a read or a write in a log."""
        sentences = {
            ("read", "output"): f"Iteration {i} is about to emit, and {value} numbers were emitted before.",
            ("write", "output"): f"Iteration {i} emits {value}.",
            ("read", "input"): f"Iteration {i} looks at the input's cursor: {value} numbers were taken before.",
            ("write", "input"): f"Iteration {i} takes a number, and the input's cursor becomes {value}.",
        }
        of_cell = f"reads `{cell}`, which is {value}" if kind == "read" else f"writes {value} to `{cell}`"
        sentence = sentences.get((kind, cell), f"Iteration {i} {of_cell}.")
        return self._about_source(sentence, self.files.source.accesses(cell, kind, self._stages.get(i)))

    def _named_stage(self, word: str, i: str, s: str) -> Meaning:
        """Explains the end of a stage instance in a log, and notes the stage that the iteration has named."""
        source, texts = self.files.source, self.files.source.symbols
        offsets = source.offsets("pipe_while", self._stages.get(i), lambda index: texts[index].text == f"pipe_{word}")
        self._named[i] = (int(s), offsets)
        waits = f"once iteration {int(i) - 1} has passed that stage" if word == "wait" and int(i) > 0 else "at once"
        return self._about_source(f"The stage instance of iteration {i} ends, and it may go on in stage {s} {waits}.", offsets)

    def _iteration(self, event: str, i: str) -> Meaning:
        """Explains an event of a log that has only an iteration, and notes the stage in which the iteration is."""
        source = self.files.source
        loop = source.offsets("pipe_while", None, lambda index: source.symbols[index].text == "pipe_while")
        if event == "begin":
            self._stages[i] = 0
            return self._about_source(f"Iteration {i} begins, in stage 0, with the loop's test.", loop)
        if event == "enter":
            stage, offsets = self._named.get(i, (None, []))
            self._stages.update({} if stage is None else {i: stage})
            return self._about_source(f"Iteration {i} enters {'its next stage' if stage is None else f'stage {stage}'}.", offsets)
        if event == "closed":
            return self._about_source(f"The loop's test is 0 in iteration {i}, so the loop is closed and this iteration ends.", loop)
        ends = source.offsets("pipe_while", None, lambda index: source.symbols[index].text == "}")
        return self._about_source(f"Iteration {i} ends, at the end of the loop's body.", ends[-1:])

    def _on_path(self, i: str, s: str) -> Meaning:
        """Explains an instance of the heaviest path."""
        sentence = f"The heaviest path goes through stage {s} of iteration {i}: with less work in that stage, the span may be less."
        return self._about_source(sentence, self.files.source.stage_begins(int(s)))

    @staticmethod
    def _summary(word: Optional[str], count: Optional[str], workers: Optional[str], last: Optional[str]) -> Meaning:
        """Explains a line of the summary of `bench`."""
        if word is not None:
            return Meaning(SUMMARIES[word].format(count))
        return Meaning(f"The last number that the run of `bench` with {workers} workers emitted is {last} (0 if it emitted none).")


def described(cell: str) -> str:
    """Returns how a sentence calls a cell."""
    return {"output": "the output (`emit`)", "input": "the input's cursor (`more()`, `take()`)"}.get(cell, f"`{cell}`")


def race_remedy(cell: str, first: Tuple[int, int], second: Tuple[int, int]) -> str:
    """Returns what to do about a race of two instances, each an iteration and a stage."""
    (before, stage), (after, later_stage) = sorted((first, second))
    own = "" if cell in ("output", "input") else ", or give each iteration a local (`let`) or an element of its own"
    between = " (one between the two that skips the stage, or traps before it, does not wait there)" if after - before > 1 else ""
    if later_stage >= stage:
        order = "so that they go through it one by one"
        return f"let every iteration enter stage {later_stage} by `pipe_wait({later_stage})`, {order}{between}{own}"
    return (
        f"iteration {after} may make its access only after iteration {before} has passed stage {stage}, so in stage {stage} or a later one"
        f" that every iteration enters by `pipe_wait`{between}{own}"
    )


def may_trap(source: Source, index: int, trap: str) -> bool:
    """Returns whether a symbol of the source may cause a trap."""
    if trap == "Index":
        return source.symbols[index].is_name and source.text_after(index) == "["
    text = source.symbols[index].text
    if trap == "Overflow" and text in STAGE_WORDS:
        return source.text_after(index, 2) == ")"
    return text in CAUSES[trap]
