"""Runs a command COUNT times without input, and prints the median and the least of its processor seconds (user and system), the
status of the last call, the number of bytes that it printed, and the greatest memory of a call in MB. The last call's text goes to
the file PRINTED.

    timed_calls.py COUNT PRINTED COMMAND.."""
import os
import subprocess
import sys

count, printed, command = int(sys.argv[1]), sys.argv[2], sys.argv[3:]
times, peak = [], 0
for _ in range(count):
    with open(printed, "wb") as out:
        call = subprocess.Popen(command, stdin=subprocess.DEVNULL, stdout=out, stderr=subprocess.DEVNULL)
        _, status, used = os.wait4(call.pid, 0)
        call.returncode = os.waitstatus_to_exitcode(status)
    times.append(used.ru_utime + used.ru_stime)
    peak = max(peak, used.ru_maxrss)
times.sort()
print(f"{times[count // 2]:.3f} {times[0]:.3f} {call.returncode} {os.path.getsize(printed)} {peak / 1000:.0f}")
