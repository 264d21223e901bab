"""Judges a recorded run of a random program: its events, its races, its text."""
from collections import namedtuple

Verdict = namedtuple("Verdict", "events overlaps")
Access = namedtuple("Access", "node cell kind")


class Wrong(Exception):
    """Why a run is wrong."""


def need(holds, what):
    if not holds:
        raise Wrong(what)


class Iteration:
    def __init__(self, program, number):
        self.actions = program.iteration(number)
        self.stages = [(0, "zero")]     # the stage number of each instance, and how it was entered
        self.named = None               # the kind and number of the next stage, between two instances
        self.ended = None               # how it ended
        self.result = None
        self.next(None)

    def next(self, value):
        try:
            self.action = self.actions.send(value)
        except StopIteration as stop:
            self.action, self.result = None, stop.value

    def passed(self, number):
        return self.ended is not None or (self.named is not None and self.named[1] > number) or self.stages[-1][0] > number

    def first_stage_ended(self):
        return self.ended is not None or self.named is not None or len(self.stages) > 1


class Run:
    """A run so far: its iterations, memory, output and accesses."""

    def __init__(self, program, limit):
        self.program, self.limit = program, limit
        self.iterations, self.accesses, self.output = [], [], []
        self.memory = program.first_memory()
        self.closed = False
        self.overlapped = False

    def alive(self):
        return sum(iteration.ended is None for iteration in self.iterations)

    def begin(self, number):
        need(number == len(self.iterations), f"iteration {number} begins out of order")
        need(not self.closed, f"iteration {number} begins after the loop was closed")
        need(number == 0 or self.iterations[-1].first_stage_ended(), f"iteration {number} begins too early")
        need(self.alive() < self.limit, f"iteration {number} begins above the throttling limit")
        self.iterations.append(Iteration(self.program, number))
        self.overlapped |= self.alive() > 1

    def running(self, number):
        need(number < len(self.iterations), f"iteration {number} has not begun")
        iteration = self.iterations[number]
        need(iteration.ended is None and iteration.named is None, f"iteration {number} does not run")
        return iteration

    def access(self, kind, number, cell, value):
        iteration = self.running(number)
        if kind == "read":
            need(iteration.action == ("read", cell), f"iteration {number} reads {cell}, and not {iteration.action}")
            need(self.memory[cell] == value, f"iteration {number} reads {value} in {cell}, which has {self.memory[cell]}")
        else:
            need(iteration.action == ("write", cell, value), f"iteration {number} writes {value} to {cell}, and not {iteration.action}")
            if cell == "output":
                self.output.append(value)
            self.memory[cell] = len(self.output) if cell == "output" else value
        self.accesses.append(Access((number, len(iteration.stages) - 1), cell, kind))
        iteration.next(value if kind == "read" else None)

    def advance(self, kind, number, stage):
        iteration = self.running(number)
        need(iteration.action == ("stage", kind, stage), f"iteration {number} names stage {stage}, and not {iteration.action}")
        iteration.named = (kind, stage)

    def enter(self, number):
        need(number < len(self.iterations), f"iteration {number} has not begun")
        iteration = self.iterations[number]
        need(iteration.named is not None, f"iteration {number} enters no stage")
        kind, stage = iteration.named
        need(kind == "continue" or number == 0 or self.iterations[number - 1].passed(stage), f"iteration {number} enters stage {stage} too early")
        iteration.stages.append((stage, kind))
        iteration.named = None
        iteration.next(None)

    def finish(self, number, how):
        iteration = self.running(number)
        need(iteration.action is None and iteration.result == how, f"iteration {number} ends by {how}, and not {iteration.result or iteration.action}")
        iteration.ended = how
        self.closed |= len(iteration.stages) == 1 and how != "end"

    def is_finished(self):
        return self.closed and self.alive() == 0

    def trap(self):
        for number, iteration in enumerate(self.iterations):
            if iteration.ended not in ("end", "closed"):
                return f"trap {iteration.ended} at {number}/{iteration.stages[-1][0]}"
        return None

    def final(self):
        """The output and the trap of a finished run without races."""
        output, trap = list(self.output), self.trap()
        if trap is None and self.program.final:
            memory, actions, value = dict(self.memory), self.program.last(), None
            try:
                while True:
                    action = actions.send(value)
                    value = memory[action[1]] if action[0] == "read" else None
                    if action[0] == "write":
                        if action[1] == "output":
                            output.append(action[2])
                        memory[action[1]] = len(output) if action[1] == "output" else action[2]
            except StopIteration as stop:
                trap = None if stop.value == "end" else f"trap {stop.value} in final"
        return output, trap


def event(run, line):
    words = line.split()
    number = int(words[1])
    if words[0] == "begin":
        run.begin(number)
    elif words[0] in ("read", "write"):
        run.access(words[0], number, words[2], int(words[3]))
    elif words[0] in ("wait", "continue"):
        run.advance(words[0], number, int(words[2]))
    elif words[0] == "enter":
        run.enter(number)
    else:
        need(words[0] in ("end", "closed", "trap"), f"unknown line {line}")
        run.finish(number, words[2] if words[0] == "trap" else words[0])


def serial_run(program):
    run = Run(program, 1)
    while not run.closed:
        number = len(run.iterations)
        run.begin(number)
        iteration = run.iterations[-1]
        while iteration.ended is None:
            if iteration.action is None:
                run.finish(number, iteration.result)
            elif iteration.action[0] == "stage":
                run.advance(iteration.action[1], number, iteration.action[2])
                run.enter(number)
            elif iteration.action[0] == "read":
                run.access("read", number, iteration.action[1], run.memory[iteration.action[1]])
            else:
                run.access("write", number, iteration.action[1], iteration.action[2])
    return run


def before_each(run):
    """For each instance, the set of those before it in the dag, and itself, as the bits of a number."""
    places, before = {}, {}
    for number, iteration in enumerate(run.iterations):
        for index in range(len(iteration.stages)):
            places[(number, index)] = len(places)
    for number, iteration in enumerate(run.iterations):
        for index, (stage, kind) in enumerate(iteration.stages):
            node = (number, index)
            before[node] = 1 << places[node]
            if index > 0:
                before[node] |= before[(number, index - 1)]
            if kind != "continue" and number > 0:
                left = run.iterations[number - 1].stages
                last = max(k for k, (other, _) in enumerate(left) if other <= stage)
                before[node] |= before[(number - 1, last)]
    return places, before


def races(run):
    """The pairs of accesses that race, as cell, kinds and instances, the earlier one first."""
    places, before = before_each(run)
    of_cell, found = {}, set()
    for access in run.accesses:
        for other in of_cell.setdefault(access.cell, []):
            parallel = not (before[access.node] >> places[other.node] & 1 or before[other.node] >> places[access.node] & 1)
            if parallel and "write" in (access.kind, other.kind):
                found.add((access.cell, other.kind, other.node, access.kind, access.node))
        if access not in of_cell[access.cell]:
            of_cell[access.cell].append(access)
    return found


def judge(program, limit, status, text):
    lines = text.splitlines()
    start = lines.index("begin 0") if "begin 0" in lines else len(lines)
    run = Run(program, limit)
    for line in lines[start:]:
        event(run, line)
    need(run.is_finished(), f"status {status}, and the run is not finished")
    serial, found = serial_run(program), races(run)
    need(bool(found) == bool(races(serial)), "a race in this run or in the serial run, and not in both")
    if found:
        need(status == 2, f"status {status}, and there is a race")
        judge_reports(run, found, lines[:start])
    else:
        output, trap = serial.final()
        need(status == (3 if trap else 0), f"status {status}, and the trap is {trap}")
        need(lines[:start] == [str(number) for number in output] + [trap] * bool(trap), "another text than that of the serial run")
    return Verdict(len(lines) - start, run.overlapped)


def judge_reports(run, found, lines):
    def named(node):
        return f"{node[0]}/{run.iterations[node[0]].stages[node[1]][0]}"
    known = {f"race {cell} {kind} {named(node)} {other_kind} {named(other)}" for cell, kind, node, other_kind, other in found}
    for line in lines:
        need(line in known, f"no such race: {line}")
    cells = [line.split()[1] for line in lines]
    need(sorted(cells) == sorted({race[0] for race in found}), f"reported {cells}")
