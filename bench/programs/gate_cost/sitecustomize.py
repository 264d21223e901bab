"""Appends to the file GATE_COST_LOG a line for each command that a Python program waits for: processor seconds, part of the gate, crate.

Python imports a module of this name when it starts. So `rt`, which starts all checks of the gate, does as it always does, and the
system's account of each process that ended is read beside it.

Parts are `proof`, `tests`, `edit` (the check of a mutation test), `whole` (a check of the crate around its mutation tests) and
`other`. Some versions of `rt` try each test of a crate over a folder of its own, named by a number, beside the folder `seed` of the crate
itself. Others try the tests one after the other over one folder, and at last the crate itself. Of these
checks the order says which is which, so their part is `over`, and the folder follows the crate."""
import os
import re
import subprocess

LOG = os.environ.get("GATE_COST_LOG")
RUN = re.compile(r".*/rt-run-[^/]*/bin/(\w+?)(_tests)?(\.by-rattle)?")


def part_of(words):
    """Returns the part of the gate that a command serves, and its crate."""
    tools = [at for at, word in enumerate(words) if word.endswith("/bin/rattle")]
    if tools and "--crate-name" in words:
        verb, crate = words[tools[0] + 1], words[words.index("--crate-name") + 1]
        if "--test" in words:
            return "tests", crate
        if verb == "check" and "-o" not in words:
            kept = words[words.index("--incremental") + 1] if "--incremental" in words else ""
            if kept.endswith("/seed"):
                return "whole", crate
            if "/rt-edits-" in kept and not os.path.basename(kept).isdigit():
                return "over", f"{crate} {kept}"
            return "edit", crate
        return "proof", crate
    run = next(filter(None, map(RUN.fullmatch, words)), None)
    if run:
        is_test = any(word.endswith("/rattle-test") for word in words)
        return ("tests", run[1]) if is_test and run[2] else ("other", "-")
    return "other", "-"


def try_wait(self, wait_flags):
    try:
        pid, status, used = os.wait4(self.pid, wait_flags)
    except ChildProcessError:
        return self.pid, 0
    if pid == self.pid:
        words = [self.args] if isinstance(self.args, (str, bytes)) else self.args
        part, crate = part_of([os.fsdecode(word) for word in words])
        with open(LOG, "a") as log:
            log.write(f"{used.ru_utime + used.ru_stime:.3f} {part} {crate}\n")
    return pid, status


if LOG:
    subprocess.Popen._try_wait = try_wait
