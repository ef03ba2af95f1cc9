#!/usr/bin/env python3
"""best.py RUNS TRACE COMMAND..: runs the command on the trace RUNS times. Prints the best time in
seconds, the processor seconds of that run, and the greatest memory of any run in megabytes."""
import os
import subprocess
import sys
import time


def run(command, trace, copies=1):
    """Runs that many copies at once: their seconds, and the processor seconds and the greatest
    memory in megabytes of one."""
    begin = time.perf_counter()
    children = []
    for _ in range(copies):
        with open(trace) as text:
            children.append(subprocess.Popen(command, stdin=text, stdout=subprocess.DEVNULL))
    processor = memory = 0
    for child in children:
        _, status, used = os.wait4(child.pid, 0)
        if status != 0:
            sys.exit(f"{command[0]} ended with {status}")
        processor += used.ru_utime + used.ru_stime
        memory = max(memory, used.ru_maxrss / 1024)
    return time.perf_counter() - begin, processor / copies, memory


def best(runs):
    """The best time of these runs, its processor time, and the greatest memory of them all."""
    seconds, processor, _ = min(runs)
    return seconds, processor, max(memory for _, _, memory in runs)


if __name__ == "__main__":
    count, trace, command = int(sys.argv[1]), sys.argv[2], sys.argv[3:]
    print("{:.3f} {:.3f} {:.0f}".format(*best([run(command, trace) for _ in range(count)])))
