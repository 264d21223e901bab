"""Makes calls in rounds, COUNT times, each time in another order, and prints of each the median of its seconds by the clock, the
least, and the median of its processor seconds, and how many times as fast it is as the first.

    clocked_calls.py COUNT NAME < CALLS

Each line of CALLS has, separated by tabs: a label, how many of these calls are made at the same time, and the words of the command.
Of calls at the same time the clock runs until the last has ended, and they are compared with the line above: so many calls one after
the other, and all at the same time. That is how many processors were free."""
import os
import random
import subprocess
import sys
import time


def make(command, together):
    """Makes so many calls at the same time, and returns their seconds by the clock and their processor seconds."""
    begin, used = time.monotonic(), 0.0
    calls = [subprocess.Popen(command, stdin=subprocess.DEVNULL, stdout=subprocess.DEVNULL) for _ in range(together)]
    for call in calls:
        _, status, usage = os.wait4(call.pid, 0)
        used += usage.ru_utime + usage.ru_stime
        call.returncode = os.waitstatus_to_exitcode(status)
        if call.returncode not in (0, 2, 3):
            sys.exit(f"status {call.returncode}: {command}")
    return time.monotonic() - begin, used


orders = random.Random(1)
count, name = int(sys.argv[1]), sys.argv[2]
lines = [line.rstrip("\n").split("\t") for line in sys.stdin]
taken = [[] for _ in lines]
for _ in range(count):
    for k in orders.sample(range(len(lines)), len(lines)):
        _, together, *command = lines[k]
        taken[k].append(make(command, int(together)))
medians = [sorted(clock for clock, _ in calls)[count // 2] for calls in taken]
for k, (label, together, *_) in enumerate(lines):
    clock, used = medians[k], sorted(used for _, used in taken[k])[count // 2]
    faster = medians[0] / clock if together == "1" else int(together) * medians[k - 1] / clock
    print(f"{name:16} {label:14} {clock:8.4f} {min(taken[k])[0]:8.4f} {used:8.4f} {faster:8.2f}")
