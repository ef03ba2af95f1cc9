"""What dinero_pipe and dinero_grid have to write for a command line and a trace: standard output, the
line on standard error, and the exit status."""

import itertools

from caches import simulate
from fault import Fault
from records import records_of
from words import CACHES, OPTIONS, Settings, default_of, value_of

CLASSES = ("instr", "read", "write", "misc")


def rate(misses, fetches, decimals):
    unit = 10**decimals
    parts = misses * unit // fetches if fetches else 0
    return f"{parts // unit}.{parts % unit:0{decimals}}"


def block_of(name, cache):
    """The lines of a cache in a report."""

    def line(head, words):
        return f"{head:18}" + "".join(f"{it:>12}" for it in words) + "\n"

    def counted(head, counts):
        return line(head, [sum(counts), *counts])

    rates = [rate(sum(cache.misses), sum(cache.fetches), 4)]
    rates += [rate(some, all_, 4) for some, all_ in zip(cache.misses, cache.fetches)]
    return "".join(
        (
            line(name, ["Total", "Instrn", "Read", "Write", "Misc"]),
            counted("Demand Fetches", cache.fetches),
            counted("Demand Misses", cache.misses),
            line("Miss Rate", rates),
            counted("Compulsory", cache.compulsory),
            counted("Capacity", cache.capacity),
            counted("Conflict", cache.conflict),
            line("Blocks Fetched", [cache.fetched]),
            line("Written Back", [cache.written_back]),
            line("Writes Sent On", [cache.sent_on]),
            line("Flushes", [cache.flushes]),
        )
    )


def report(texts, trace):
    """What dinero_pipe writes for these texts of options, by name."""
    try:
        values = {it: value_of(it, texts.get(it, default_of(it))) for it in OPTIONS}
        settings = Settings(values)
        broken = settings.broken()
        if broken:
            raise Fault(broken, 2)
        caches = simulate(settings, records_of(trace))
    except Fault as fault:
        line, status = fault.args
        return "", f"dinero_pipe: {line}\n", status
    names = (name for _, name in CACHES)
    return "\n".join(block_of(*it) for it in zip(names, caches)), "", 0


def columns(full):
    """The names of a cache's columns, and what stands there."""
    split = CLASSES if full else ()

    def counted(name, of):
        yield name, lambda cache: sum(of(cache))
        for at, kind in enumerate(split):
            yield f"{name}-{kind}", lambda cache, at=at: of(cache)[at]

    yield from counted("fetches", lambda cache: cache.fetches)
    yield from counted("misses", lambda cache: cache.misses)
    yield "miss-rate", lambda cache: rate(sum(cache.misses), sum(cache.fetches), 6)
    yield from counted("compulsory", lambda cache: cache.compulsory)
    yield from counted("capacity", lambda cache: cache.capacity)
    yield from counted("conflict", lambda cache: cache.conflict)
    yield from counted("fully-associative-misses", lambda cache: cache.fully_associative)
    yield "blocks-fetched", lambda cache: cache.fetched
    yield "written-back", lambda cache: cache.written_back
    yield "writes-sent-on", lambda cache: cache.sent_on
    yield "flushes", lambda cache: cache.flushes


def table(texts, trace, full):
    """What dinero_grid writes for these texts of options, by name, most of which may be lists."""
    options = [it for it in OPTIONS if it != "ring"]
    try:
        lists = {it: listed(it, texts.get(it, default_of(it))) for it in options}
        count = 1
        for values in lists.values():
            count *= len(values)
        if count > 4096:
            raise Fault("grid has more than 4096 configurations", 2)
        records = records_of(trace)
    except Fault as fault:
        line, status = fault.args
        return "", f"dinero_grid: {line}\n", status
    shown = [it for it in options if full or len(lists[it]) > 1]
    own = list(columns(full))
    lines = [[*shown, *(f"{name}-{it}" for _, name in CACHES for it, _ in own), "fault"]]
    status = 0
    for chosen in itertools.product(*lists.values()):
        words = dict(zip(options, chosen))
        values = {it: value for it, (_, value) in words.items()}
        settings = Settings({**values, "ring": 64})
        line = [str(values[it]) if full else words[it][0] for it in shown]
        broken = settings.broken()
        if broken:
            status = 5
            line += ["-"] * (3 * len(own)) + [broken]
        else:
            caches = simulate(settings, records)
            line += [str(of(cache)) for cache in caches for _, of in own] + ["-"]
        lines.append(line)
    return "".join("\t".join(it) + "\n" for it in lines), "", status


def listed(option, text):
    """The values of an option, each with its text."""
    takes_list = option not in ("skipcount", "maxcount")
    pieces = text.split(",") if takes_list else [text]
    return [(piece, value_of(option, piece)) for piece in pieces]
