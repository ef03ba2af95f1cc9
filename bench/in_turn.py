#!/usr/bin/env python3
"""in_turn.py ROUNDS TRACE [COPIES]: compares commands by running them in turn.

Reads commands from standard input, one on each line: a name, a tab and the command. Every round
runs each command once on the trace, so that a slow moment of the machine meets all commands alike.
If COPIES is given, that many copies of the command run at once. Prints for each command its name,
and then:

- the millions of references a second of one copy: the median and the worst of the rounds;
- how many times as fast that was as the first command: the median and the worst;
- the processor seconds of one copy: the median;
- the greatest memory in megabytes;
- the greatest share of a round's time that the host took from this machine (steal)."""
import shlex
import statistics
import sys

from best import run

COLUMNS = "{:<24} {:>8} {:>8} {:>8} {:>8} {:>8} {:>6} {:>7}"


def steal():
    """The time that the host has taken from this machine, and all time, in ticks."""
    with open("/proc/stat") as stat:
        ticks = [int(word) for word in stat.readline().split()[1:9]]
    return ticks[7], sum(ticks)


def measured(command, trace, copies):
    """A run, and the share of it that the host took."""
    stolen, ticks = steal()
    result = run(command, trace, copies)
    stolen_then, ticks_then = steal()
    return result + ((stolen_then - stolen) / max(1, ticks_then - ticks),)


def line(name, its, first, references):
    """What is printed of the runs of a command."""
    speeds = [references / one[0] / 1e6 for one in its]
    ratios = [base[0] / own[0] for base, own in zip(first, its)]
    figures = [statistics.median(speeds), min(speeds), statistics.median(ratios), min(ratios)]
    return COLUMNS.format(name, *("{:.2f}".format(figure) for figure in figures),
                          "{:.3f}".format(statistics.median(one[1] for one in its)),
                          "{:.0f}".format(max(one[2] for one in its)),
                          "{:.0%}".format(max(one[3] for one in its)))


def main():
    rounds, trace = int(sys.argv[1]), sys.argv[2]
    copies = int(sys.argv[3]) if len(sys.argv) > 3 else 1
    commands = [text.rstrip("\n").split("\t") for text in sys.stdin]
    with open(trace) as text:
        references = sum(1 for _ in text)
    runs = {name: [] for name, _ in commands}
    for _ in range(rounds):
        for name, command in commands:
            runs[name].append(measured(shlex.split(command), trace, copies))
    first = runs[commands[0][0]]
    print(COLUMNS.format("run", "Mref/s", "worst", "ratio", "worst", "cpu s", "MB", "steal"))
    for name, its in runs.items():
        print(line(name, its, first, references))


if __name__ == "__main__":
    main()
